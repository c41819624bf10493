#!/usr/bin/env python3
"""Tries wrong edits of the crates: a check of the function that an edit changes must refuse it.

    python3 tools/edits.py --stand
    python3 tools/edits.py CRATE [NAME..] [--lanes N] [--seconds N] [--logs FOLDER]

The edits of a crate are those of `tools/edits/CRATE.edits`, and those that the gate tries too, `crates/CRATE/must-fail/NAME.edit`. A
block of the first is a line `name: NAME`, then lines `file: src/F.rt`, `old: TEXT`, `new: TEXT`, of which the last two may come
again; blocks are parted by an empty line. `⏎` in a TEXT stands for a line end.

With --stand nothing is proved: each block must be one, no name may come twice, and each `old:` must stand exactly once in its file.

Else each edit is tried on a copy (this folder is not touched), over what is kept of the crate, by `rt check --only FUNCTION`: some
seconds where a whole check takes minutes, once the libraries below are built here (`rt lib`, or any check of the crate). Told of
each:
    refused      goals of the contract or of safety that are open (their names)
    by a name    only because a proof names what is gone: it says nothing of the contract, write the edit anew
    PASSES       the function is still proved: the contract says too little
    BAD          an `old:` that does not stand once, or text that does not compile or borrow-check
    NO ANSWER    after --seconds (300)
A refusal counts for the function alone: what calls it is not looked at. Ends with status 1 unless all are refused.
"""
import argparse
import concurrent.futures
import os
import pathlib
import queue
import re
import shutil
import subprocess
import sys
import tempfile

from build import stand_on
from write_docs import TOP

GONE = re.compile(r"(\./)?proofs/.*(has no field|is not in scope|has no `|was not admitted|\(nearest: )")
FUNCTION = re.compile(r"^[ \t]*(?:pub(?:\([\w ]+\))? )?(?:const |unsafe )*fn (\w+)", re.M)
TOLD = re.compile(r"(note: )?(\./)?\S+?:\d+:\d+: ")


class Pair:
    """A text of a file, and what takes its place."""

    def __init__(self, file, old, new):
        self.file, self.old, self.new = file, old.replace("⏎", "\n"), new.replace("⏎", "\n")


class Edit:
    """A named edit of a crate; `bad` says what is wrong with its form."""

    def __init__(self, crate, name, lines):
        self.crate, self.name, self.pairs, self.bad = crate, name, [], ""
        file = old = None
        for line in lines:
            key, colon, text = line.partition(":")
            text = text.removeprefix(" ")
            if key == "file" and colon and old is None:
                file = text.strip()
            elif key == "old" and colon and file and old is None:
                old = text
            elif key == "new" and colon and old is not None:
                self.pairs.append(Pair(file, old, text))
                old = None
            else:
                self.bad = self.bad or f"this line is out of place: {line[:60]!r}"
        if not self.bad and (old is not None or not self.pairs):
            self.bad = "it has no pair of old: and new:"

    def applied(self, folder):
        """The texts of the files that it changes, the names of the functions there, and what is wrong with it."""
        texts, wanted = {}, []
        for pair in self.pairs:
            source = folder / pair.file
            text = texts.get(pair.file) or (source.read_text() if source.is_file() else "")
            if text.count(pair.old) != 1:
                return {}, [], f"an old: text stands {text.count(pair.old)} times in {pair.file}: {pair.old[:60]!r}"
            start = len(pair.old) - len(pair.old.lstrip())
            wanted.append(paths_of(pair.file, text, text.index(pair.old) + start))
            texts[pair.file] = text.replace(pair.old, pair.new)
        return texts, wanted, self.bad


def edits_of(crate):
    """The edits of a crate, those of the gate first."""
    found = []
    for it in sorted((TOP / "crates" / crate / "must-fail").glob("*.edit")):
        found.append(Edit(crate, it.stem, list(filter(None, it.read_text().split("\n")))))
    file = TOP / "tools/edits" / f"{crate}.edits"
    for block in file.read_text().strip("\n").split("\n\n") if file.is_file() else []:
        head, *lines = block.split("\n")
        edit = Edit(crate, head.removeprefix("name: "), lines)
        if not head.startswith("name: "):
            edit.bad = f"this block has no name: {head[:60]!r}"
        found.append(edit)
    return found


def crates_with_edits():
    found = {it.stem for it in (TOP / "tools/edits").glob("*.edits")}
    return sorted(found | {it.parent.parent.name for it in TOP.glob("crates/*/must-fail/*.edit")})


def paths_of(path, text, at):
    """The names that the function there may have, as --only takes them; none for what lies in no function."""
    heads = [it for it in FUNCTION.finditer(text) if it.start() <= at]
    if not heads or re.search(r"^\}", text[heads[-1].start() : at], re.M):
        return []
    name = heads[-1][1]
    inside = [it for it in re.sub(r"^src/|\.rt$", "", path).split("/") if it not in ("lib", "main", "mod")]
    blocks = [it for it in re.finditer(r"^(impl\b[^{]*|\})", text, re.M) if it.start() <= heads[-1].start()]
    head = blocks[-1][1] if blocks and heads[-1][0][0] in " \t" else "}"
    owners = [""]
    if head.startswith("impl"):
        trait, _, kind = without_parameters(head).strip().rpartition(" for ")
        kind, trait = [re.split(r"::", it.strip().lstrip("&"))[-1] for it in (kind, trait)]
        owners = [f"{kind}{trait}", kind]
    whole = ["::".join([*inside, *([it] if it else []), name]) for it in owners]
    return list(dict.fromkeys([*whole, *[f"{it}::{name}" for it in owners if it], name]))


def without_parameters(head):
    """The head of an impl without what stands between angle brackets, and without its `where`."""
    flat, depth = "", 0
    for sign in re.sub(r"^impl\s*(<(?:[^<>]|<[^<>]*>)*>)?\s*", "", head).partition(" where ")[0]:
        depth += sign == "<"
        flat += sign if not depth else ""
        depth -= sign == ">"
    return flat


def link(source, to):
    try:
        os.link(source, to)
    except OSError:
        shutil.copy2(source, to)


def copied(crate, to):
    """A folder with the crate's text, those below with what is built of them, and what was kept of the crate."""
    names = stand_on([crate])
    for name in names:
        for part in ("src", "specs", "proofs", "out/incremental" if name == crate else "out/rlib"):
            source = TOP / "crates" / name / part
            if source.is_dir():
                shutil.copytree(source, to / "crates" / name / part, copy_function=link if part.startswith("out") else shutil.copy2)
    lines = (TOP / "crates.txt").read_text().splitlines(True)
    (to / "crates.txt").write_text("".join(it for it in lines if it.partition(":")[0].strip() in names))
    shutil.copy(TOP / "HANDLES", to)
    subprocess.run(["git", "init", "-q", str(to)], check=True)
    return to / "crates" / crate


def checked(folder, only, seconds):
    """What a check of these functions says, and how it ended; none after too long."""
    words = ["rt", "check", "--jobs", "1", *[f"--only={it}" for it in only]]
    with subprocess.Popen(words, cwd=folder, stdout=subprocess.PIPE, stderr=subprocess.STDOUT, stdin=subprocess.DEVNULL, text=True,
                          errors="replace") as ran:
        try:
            return ran.communicate(timeout=seconds)[0], ran.returncode
        except subprocess.TimeoutExpired:
            ran.kill()  # (this one, and not what it started: it takes that along)
            return None, 0


def verdict(said):
    """What came of an edit, and why, by what a check said."""
    lines = said.splitlines()
    ended = re.findall(r"^only=(\d+) proved=(\d+)", said, re.M)
    if ended and ended[-1][0] == ended[-1][1] != "0" or re.search(r"^logic=proved", said, re.M):
        return "PASSES", ""
    if not ended and not re.search(r"^logic=not-proved", said, re.M):
        return "BAD", next((it for it in lines if "error" in it), lines[-1] if lines else "nothing was said")[:200]
    told = [it for it in lines if TOLD.match(it)]
    goals = [it for it in told if it.startswith("note: ") and not GONE.match(it) and "not proved" in it]
    if goals:
        return "refused", "; ".join(dict.fromkeys(re.findall(r"\(`([^`]+)`\)", " ".join(goals)))) or goals[0][:160]
    errors = [it for it in told if ": error" in it]
    meant = [it for it in errors if not GONE.match(it)]
    if errors and not meant:
        return "by a name", errors[0][:160]
    said_last = (it for it in lines if re.match(r"fn .*(not proved|no proof|could not tell)", it))
    return "refused", (meant[0] if meant else next(said_last, lines[-1]))[:200]


def tried(folder, edit, given):
    """What came of an edit, tried on a copy: its function is looked for by each name that it may have."""
    texts, wanted, bad = edit.applied(folder)
    if bad or edit.bad:
        return "BAD", bad or edit.bad
    were = {it: (folder / it).read_text() for it in texts}
    names = max(map(len, wanted)) if all(wanted) else 1
    try:
        for path, text in texts.items():
            (folder / path).write_text(text)
        for number in range(names):
            only = [it[min(number, len(it) - 1)] for it in wanted] if all(wanted) else []
            said, status = checked(folder, list(dict.fromkeys(only)), given.seconds)
            if said is None:
                return "NO ANSWER", f"after {given.seconds} s"
            if status != 2:
                break
        if given.logs:
            (given.logs / f"{edit.name}.log").write_text(said)
        return verdict(said)
    finally:
        for path, text in were.items():
            (folder / path).write_text(text)


def stand():
    """Looks at the form of each edit and at where its texts stand, without a proof."""
    count, wrong = 0, []
    for crate in crates_with_edits():
        names = set()
        for edit in edits_of(crate):
            count += 1
            bad = edit.bad or edit.applied(TOP / "crates" / crate)[2] or ("its name comes twice" if edit.name in names else "")
            names.add(edit.name)
            wrong += [f"{crate}/{edit.name}: {bad}"] if bad else []
    print(*wrong, sep="\n", end="\n" if wrong else "")
    print(f"{count} edits, {len(wrong)} wrong")
    return not wrong


def try_all(crate, given):
    """Tries the edits of a crate, as many at a time as there are lanes."""
    edits = [it for it in edits_of(crate) if not given.names or it.name in given.names]
    lacking = set(given.names) - {it.name for it in edits}
    if lacking or not edits:
        sys.exit(f"{crate} has no edit {' '.join(sorted(lacking))}")
    counts = {}
    with tempfile.TemporaryDirectory(prefix="edits-") as folder:
        rooms = queue.SimpleQueue()
        for number in range(max(1, min(given.lanes, len(edits)))):
            to = pathlib.Path(folder, str(number))
            to.mkdir()
            rooms.put(copied(crate, to))

        def work(edit):
            room = rooms.get()
            try:
                return tried(room, edit, given)
            finally:
                rooms.put(room)

        with concurrent.futures.ThreadPoolExecutor(rooms.qsize()) as lanes:
            for edit, (word, why) in zip(edits, lanes.map(work, edits)):
                counts[word] = counts.get(word, 0) + 1
                print(f"{word:9} {crate}/{edit.name}{': ' + why if why else ''}", flush=True)
    print(", ".join(f"{count} {word}" for word, count in counts.items()))
    return list(counts) == ["refused"]


def main():
    words = argparse.ArgumentParser(description=__doc__, formatter_class=argparse.RawDescriptionHelpFormatter)
    words.add_argument("--stand", action="store_true")
    words.add_argument("crate", nargs="?")
    words.add_argument("names", nargs="*")
    words.add_argument("--lanes", type=int, default=1)
    words.add_argument("--seconds", type=int, default=300)
    words.add_argument("--logs", type=pathlib.Path)
    given = words.parse_intermixed_args()
    if given.stand == bool(given.crate):
        words.error("give a crate, or --stand")
    if given.logs:
        given.logs.mkdir(parents=True, exist_ok=True)
    sys.exit(0 if (stand() if given.stand else try_all(given.crate, given)) else 1)


if __name__ == "__main__":
    main()
