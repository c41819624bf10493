#!/usr/bin/env python3
"""Runs the command lines of the documents that a newcomer is sent to, and compares what they print.

    python3 trials/try_docs.py OFFICE [SERVE] [--kit] [--page docs/USE.md ..]

OFFICE is the executable toll_office, SERVE is toll_serve; without it what needs the server is passed over. Each page is run
by one shell, in a copy of the repository's example data, documents, scripts and programs, which are found only where the page
puts them on the path. A block ```console has lines `$ command`, and `> ` where one goes on, each with the lines that it must
print; in a block without a name, where each line is one, a command may be followed by two blanks, `# ` and the one line that
it must print, or by a text that says what it does. In a block of another name none may stand. `..` stands for anything. What
is run for a command between backticks, behind the blocks of its page, is said by INLINE below, which must name each. With
--kit the copy is a clone, and the commands of the kit are run too, but for the gate: tools/unproved.py, and tools/build.py,
which takes a minute if the kit has kept what it proves, and else up to an hour for each program. The script ends with status
1 if a command prints something else, if one whose text is not said ends with a status above 8, or if one is not named.
"""
import argparse
import os
import pathlib
import re
import shutil
import signal
import subprocess
import sys
import tempfile
import threading

from office import TOP, free_port

PAGES = ["README.md", "docs/USE.md", "docs/HTTP.md", *sorted(f"docs/{it.name}" for it in (TOP / "docs").glob("*.md")
                                                           if it.name not in ("USE.md", "HTTP.md"))]
MARK = "--- the end of a command ---"
GATE = ".ci/run"
FIRST = 'mkdir "$OLD/room" && cp "$OLD"/examples/day/*.csv "$OLD/room" && cd "$OLD/room"'
DAY = "# stored day 100 tuples 1137 notices 341 total 16416"

# what a command prints of which the page says only what it does
PRINTS = {
    "python3 tools/unproved.py toll_office ../unproved": "../unproved/toll_office: built in .. minutes, and NOT PROVED",
    "python3 tools/build.py": "..crates/toll_office/out/toll_office\nproved and built in .. minutes",
}

# what is run for a command that takes long: the same over less
SMALLER = {
    "python3 bench/run.py crates/toll_office/out/toll_office --days 1000000,classic,greatest --workers 1,4 --runs 5":
        "python3 bench/run.py crates/toll_office/out/toll_office --days 2000 --workers 1,4 --runs 1 --folder days",
}

# what comes before a page's commands: README shows a run before it says how to build. $OLD is the top of the copy
OFFICE = 'export PATH="$OLD/crates/toll_office/out:$PATH"'
BEGIN = {
    "README.md": [(FIRST, ""), (OFFICE, "")],
    "docs/FORMATS.md": [(FIRST, ""), (OFFICE, "")],
    "docs/EXAMPLES.md": [(OFFICE, ""), ('mkdir "$OLD/room" && cd "$OLD/room"', "")],
}

# what is run before a command that a page has only once, since its text says where the reader is by then
BEFORE = {
    "python3 tools/unproved.py toll_office ../unproved": 'cd "$OLD"',
    'export PATH="$PWD/crates/toll_office/out:$PATH"': 'cd "$OLD"',
    "python3 tools/places.py Command::Tariffs": 'cd "$SOURCE"',
}

# what is run for a command between backticks, and what that prints; none: it is a form, or stands in a block too
INLINE = {
    "rt ci": None, "rt try": None, "rt run": None, "rt check": None, "rt doc": None,
    "rt check --start": None, "rt check --only=": None, "rt check --only path::to::function": None, "rt lemma WORDS": None,
    "rt try --test": None, "rt fmt": None, "rt ci NAME": None, "python3 tools/edits.py NAME": None, "tools/figures.py LOG": None,
    "git show --stat": None, "contracts.py --missing": None, "make install": None, "trials/try_page.py --serve": None,
    # the gate is who runs these
    ".ci/run --documents": None, ".ci/run --checks": None,
    "make install PREFIX=FOLDER": [
        ('make -s -C "$OLD" install PREFIX="$PWD/installed" && ls installed/bin installed/share/man/man1 | tr "\\n" " "',
         "installed/bin: toll_office toll_serve  installed/share/man/man1: toll_office.1 toll_serve.1 ")],
    "make release": [
        ('(cd "$OLD"; git rev-parse -q --verify HEAD > commit 2>&1 || (git init -q && git -c user.name=room -c user.email=room@localhost '
         'commit -q --allow-empty -m room); make -s release | cut -c 67- && cd dist/ductchervil-*/ && sha256sum --quiet -c SHA256SUMS '
         '&& ls -d README.md bin)', "ductchervil-..-linux-x86_64.tar.gz\nREADME.md\nbin")],
    "grep -w NAME crates.txt": [('grep -c -w road_time "$SOURCE/crates.txt"', "..")],
    "ulimit -n": [("ulimit -n | wc -l", "1")],
    # the gate runs these with --check
    "python3 tools/check_words.py": None, "python3 tools/contracts.py": None, "tools/contracts.py --missing": None,
    "tools/places.py Asked::Days": [('python3 "$SOURCE/tools/places.py" Asked::Days | head -n 1', "code: ..")],
    "rt version": [("rt version | grep -c rattle-kit-", "1")],
    "python3 tools/build.py toll_serve": [
        ('python3 "$OLD/tools/build.py" toll_serve | tail -n 2', "crates/toll_serve/out/toll_serve\nproved and built in .. minutes")],
    "toll_serve PORT": None, "toll_serve PORT [--sessions N] [--readers N]": None,
    "man -l docs/toll_office.1": [('man -l "$OLD/docs/toll_office.1" | grep -m 1 -c "toll_office import DAY"', "1")],
    "source docs/toll_office.bash": [
        ('source "$OLD/docs/toll_office.bash" && COMP_WORDS=(toll_office va) COMP_CWORD=1', ""),
        ('_toll_office; echo "${COMPREPLY[@]}"', "validate")],
    "set -o pipefail": [("(set -o pipefail; toll_office export 99 | tail -n 1; echo $?)", "# no day 99\n3")],
    "pv day.csv | toll_office import 100": [
        # (by then the page has begun anew, so this has a folder of its own)
        ("mkdir piped && cp day.csv piped", ""),
        ("(cd piped && (if command -v pv > /dev/null; then pv -q day.csv; else cat day.csv; fi) | toll_office import 100 | tail -n 1)",
         DAY)],
    "sha256sum day.csv": [
        ('[ "$(sha256sum day.csv | cut -c-64)" = "$(cd piped && toll_office day 100 | grep ^digest | cut -c8-)" ] && echo same', "same")],
    "sed -n Np day.csv": [("printf '%s\\n' '' 'x,y' > bad.csv; toll_office answers 101 < bad.csv", "# refused line 2 fields 2"),
                          ("sed -n 2p bad.csv", "x,y")],
    "scripts/new_folder.sh PROGRAM OLD NEW BASE": [
        ("mkdir kept && toll_office generate 5 --minutes 5 > kept/day.csv", ""),
        ("(cd kept && for d in $(seq 131 199); do toll_office import $d < day.csv > /dev/null || echo $d; done)", ""),
        ("(cd kept && toll_office tariff 3 40 45 3)",
         "# tariff xway 3 crowd 40 speed 45 factor 3"),
        ('"$OLD/scripts/new_folder.sh" "$(command -v toll_office)" kept new 200', "# past base 200 rows .."),
        ("cd new && toll_office tariffs && cd ..", "3,40,45,3")],
    "git log": [("git -C \"$SOURCE\" log -1 --format=%ae | grep -c @", "1")],
    "git rev-parse HEAD": [("git -C \"$SOURCE\" rev-parse HEAD | tr -d '\\n' | wc -c", "40")],
    "curl --data-binary @FILE": None, "cp tolls.db* before": None,
    "head -c": [
        ("toll_office import 100 < day.csv | tail -n 1", DAY),
        ("cat day.csv day.csv > twice_as_long.csv; toll_office import 100 < twice_as_long.csv | cut -d ' ' -f 8 > found", ""),
        ('head -c $(($(wc -c < day.csv) + 1)) twice_as_long.csv | sha256sum | cut -c-64 | diff - found', "")],
    "import 100 < day.csv | head": [
        ("toll_office generate 1 > long.csv", ""),
        ("toll_office import 200 < long.csv | head -n 1 > /dev/null; echo ${PIPESTATUS[0]}", "5"),
        ("toll_office day 200", "# no day 200"),
        ("toll_office import 200 < long.csv | tail -n 1", "# stored day 200 ..")],
}
PROGRAMS = (r"(toll_office|toll_serve|rt|curl|man|source|set|sed|head|tail|pv|git|sqlite3|sha256sum|python3|make|grep|ulimit|cc|"
            r"(?:(?:scripts|tools|trials|bench)/)?\w+\.(?:sh|py)|\.ci/run|\(?cd|cp)")
# kinds of blocks in which no command stands
OTHERS = ("text", "nginx", "sql")


def fits(found, wanted):
    """Whether a text is the wanted one, in which `..` stands for anything."""
    pattern = ".*?".join(re.escape(it) for it in wanted.split(".."))
    return re.fullmatch(pattern, found, re.S) is not None


def blocks(page):
    """The blocks of a page that may have commands: each a list of lines with their numbers."""
    found, kind = [], None
    for at, line in enumerate(page.read_text().splitlines(), 1):
        if line.startswith("```"):
            kind = None if kind is not None else line[3:].strip() or "plain"
            found.append([])
        elif kind in ("plain", "console"):
            found[-1].append((at, line))
        elif kind is not None and (kind not in OTHERS or re.match(PROGRAMS + " ", line)):
            sys.exit(f"{page.name}:{at}: a command in a block `{kind}`, or a kind of block that is not known")
    return [it for it in found if it]


def commands(page):
    """The commands of a page's blocks, each with its line number and what it must print, None if the page does not say."""
    found = []
    for block in blocks(page):
        if any(line.startswith("$ ") for _, line in block):
            for at, line in block:
                if line.startswith("$ "):
                    found.append((at, line[2:], []))
                elif line.startswith("> ") and not found[-1][2]:
                    found[-1] = (found[-1][0], f"{found[-1][1]}\n{line[2:]}", [])
                else:
                    found[-1][2].append(line)
        else:
            for at, line in block:
                command, _, said = line.partition("  # ")
                found.append((at, command.strip(), [said] if said.startswith(("#", "{", "total")) else None))
    return [(at, command, PRINTS.get(command) if said is None else "\n".join(said).rstrip("\n")) for at, command, said in found]


def inline(page):
    """The commands between backticks in a page's sentences and tables, each with the number of its line."""
    text = re.sub(r"```.*?^```", lambda it: "\n" * it[0].count("\n"), page.read_text(), flags=re.S | re.M)
    for it in re.finditer(r"`([^`]+)`", text):
        said = " ".join(it[1].split())
        if re.match(PROGRAMS + r" ", said) or re.search(r" [|<] ", said) and "day.csv" in said:
            yield text.count("\n", 0, it.start()) + 1, said


def room(folder, office, serve, kit):
    """A folder with what a page's commands need of the repository."""
    top = folder / "repository"
    if kit:
        subprocess.run(["git", "clone", "-q", TOP, top], check=True)
    else:
        top.mkdir()
        for it in ("Makefile", "VERSION", "KIT", "README.md", "CHANGELOG.md"):
            shutil.copy(TOP / it, top)
        for it in ("bench", "docs", "examples", "scripts", "tools"):
            shutil.copytree(TOP / it, top / it, ignore=shutil.ignore_patterns("edits"))
    for name, program in (("toll_office", office), ("toll_serve", serve)):
        if program:
            (top / "crates" / name / "out").mkdir(parents=True, exist_ok=True)
            shutil.copy(program, top / "crates" / name / "out" / name)
    return top


class Shell:
    """A shell at the top of a copy, which runs one command after another."""

    def __init__(self, top):
        env = {**os.environ, "OLD": str(top), "SOURCE": str(TOP), "MANPAGER": "cat"}
        self.child = subprocess.Popen(["bash"], cwd=top, text=True, bufsize=1, stdin=subprocess.PIPE, stdout=subprocess.PIPE,
                                      stderr=subprocess.STDOUT, env=env, start_new_session=True)

    def run(self, command, seconds):
        """What a command prints, and its status; the shell and what it started are ended if that takes too long."""
        clock = threading.Timer(seconds, os.killpg, (self.child.pid, signal.SIGKILL))
        clock.start()
        try:
            self.child.stdin.write(f"{command}\nended=$?\necho\necho '{MARK}' $ended\n")
            self.child.stdin.flush()
            found = []
            for line in self.child.stdout:
                if line.startswith(MARK):
                    return "".join(found)[:-1].rstrip("\n"), int(line.split()[-1])
                found.append(line)
            sys.exit(f"no end within {seconds} seconds: {command}\n{''.join(found)}")
        finally:
            clock.cancel()

    def end(self):
        self.child.stdin.close()
        self.child.wait(timeout=60)


def needs_kit(command):
    return re.search(r"(^|[( ;&])rt |tools/(build|unproved)\.py|^\.ci/run", command) is not None


def passed_over(command, given):
    """Whether a command needs what is not there: a tool, the kit, hours, or the server."""
    if command.startswith("git -C") and not (TOP / ".git").exists():
        return True
    tools = re.findall(r"(?:^|[|;&(] ?)(rt|man|sqlite3|git|curl|make|cc)(?= )", command)
    if any(not shutil.which(it) for it in tools):
        return True
    if command.startswith("rt version"):
        return False
    if needs_kit(command):
        return not given.kit or command.startswith(GATE)
    return not (given.serve or given.kit) and re.search(r"toll_serve 0|out/toll_serve|curl|make ", command) is not None


def tried(page, name, given):
    """How many commands of a page were run; what was wrong with them."""
    port, wrong, run = str(free_port()), [], 0
    inside = list(inline(page))
    todo = [(0, *it) for it in BEGIN.get(name, [])] + commands(page)
    for at, said in inside:
        if said not in INLINE:
            wrong.append(f"{page.name}:{at}: trials/try_docs.py does not know: {said}")
    lines = dict((said, at) for at, said in reversed(inside))
    todo += [(lines[said], *it) for said, steps in INLINE.items() if said in lines and steps for it in steps]
    with tempfile.TemporaryDirectory() as folder:
        top = room(pathlib.Path(folder), given.office, given.serve, given.kit)
        shell = Shell(top)
        beside = False
        for at, command, wanted in todo:
            beside = command.startswith("toll_serve 8080") or beside and command != "wait"
            if passed_over(command, given) or beside and not (given.serve or given.kit):
                print(f"{page.name}:{at}: not run: {command}")
                continue
            run += 1
            shell.run(BEFORE.get(command, ":"), 60)
            told = re.sub(r"\b8080\b", port, SMALLER.get(command, command))
            text, status = shell.run(told, 14400 if needs_kit(command) else 300)
            if given.loud:
                print(f"{page.name}:{at}: {command}\n{text}")
            if status > 8 if wanted is None else not fits(text, re.sub(r"\b8080\b", port, wanted)):
                wrong.append(f"{page.name}:{at}: {command}\n  wanted {wanted!r}\n  found  {text!r}, status {status}")
        shell.end()
    return run, wrong


def main():
    words = argparse.ArgumentParser(description=__doc__, formatter_class=argparse.RawDescriptionHelpFormatter)
    words.add_argument("office", type=lambda it: pathlib.Path(it).resolve())
    words.add_argument("serve", type=lambda it: pathlib.Path(it).resolve(), nargs="?")
    words.add_argument("--page", action="append")
    words.add_argument("--kit", action="store_true")
    words.add_argument("--loud", action="store_true", help="print each command and what came of it")
    given = words.parse_args()
    failed = 0
    for name in given.page or PAGES:
        run, wrong = tried(TOP / name, name, given)
        failed += len(wrong)
        print(*wrong, sep="\n", end="\n" if wrong else "")
        print(f"{name}: {run} commands run, {len(wrong)} wrong")
    sys.exit(1 if failed else 0)


if __name__ == "__main__":
    main()
