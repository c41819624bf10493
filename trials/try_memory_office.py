#!/usr/bin/env python3
"""Tries the office where memory runs out: each allocation of a command fails in turn, and then clean runs tell what is kept.

    python3 trials/try_memory_office.py PROGRAM [--only NAME] [--from N] [--to N] [--step N] [--jobs N] [--csv FILE]

Each row is a command in a new folder: the import of the day on which a vehicle is charged as it leaves, a history, a day that
is generated, its import, and an import whose input, output or database fails. A run ends as with ample memory, or with 8. All is
kept or nothing, and all where it ended as with ample memory; the same command in a clean run then ends well, with all kept. For
each row it prints how many runs ended how, and after how many of those with 8 all was kept. With --step only each Nth allocation
is tried. With --csv all rows are tried, each allocation, and the counts are written to that file, from which tools/write_docs.py
has those of crates/tests_office/ROWS.md (`--csv bench/memory.csv`). It wants a C compiler, and is quicker where TMPDIR is in memory.
"""
import argparse
import collections
import concurrent.futures
import csv
import datetime
import os
import pathlib
import shutil
import struct
import subprocess
import tempfile

from office import DATA, preloaded
from rows_of_commands import OF_7

# what stood on standard error where an allocation failed, each line with its count; and all that may stand there
SAID = collections.Counter()
OF_MEMORY = ("toll_office: memory ran out", "toll_office: tolls.db is not closed, what was put lies in its log: memory ran out")
OF_FAULTS = {"read": ("toll_office: standard input or notices.txt cannot be read",),
             "keep": ("toll_office: tolls.db: it is a link, a folder or a device, or has a second name",)}
GENERATE = "generate 1 --vehicles 20 --minutes 3"
DAY = ("day 100", "export 100")
PAST = ("vehicle 7 31 99",)


class Row:
    """A command, its input, what tells what is kept, and which of its edges fails: `read`, `write`, `keep` or none."""

    def __init__(self, name, words, lines, asks, fault=""):
        self.name, self.words, self.lines, self.asks, self.fault = name, words, lines, asks, fault


class Room:
    """A new folder with nothing kept, in which commands run; a row's database cannot be opened where it is a folder."""

    def __init__(self, office, top, row, name):
        self.office, self.row, self.top = office, row, f"{top}/{row.name} {name}"
        os.makedirs(f"{self.top}/folder")

    def run(self, words, lines, fault="", at=None):
        """Status, output, and how many allocations were made."""
        environment = dict(os.environ)
        if at is not None:
            environment.update(LD_PRELOAD=self.office[1], COUNT_FILE=f"{self.top}/count", FAIL_AT=str(at))
        pathlib.Path(f"{self.top}/input").write_bytes(lines)
        source = os.open(self.top if fault == "read" else f"{self.top}/input", os.O_RDONLY)
        sink = os.open("/dev/full" if fault == "write" else f"{self.top}/output", os.O_WRONLY | os.O_CREAT | os.O_TRUNC)
        if fault == "keep":
            os.mkdir(f"{self.top}/folder/tolls.db")
        child = subprocess.run([self.office[0], *words.split()], cwd=f"{self.top}/folder", env=environment, stdin=source,
                               stdout=sink, stderr=subprocess.PIPE, text=True, timeout=120)
        if at is not None:
            lines = child.stderr.splitlines()
            if not set(lines) <= {*OF_MEMORY, *OF_FAULTS.get(fault, ())}:
                raise SystemExit(f"{self.row.name}: allocation {at}: on standard error {lines}")
            SAID.update(lines)
        os.close(source)
        os.close(sink)
        if fault == "keep":
            os.rmdir(f"{self.top}/folder/tolls.db")
        output = b"" if fault == "write" else pathlib.Path(f"{self.top}/output").read_bytes()
        made = struct.unpack("q", pathlib.Path(f"{self.top}/count").read_bytes()[:8])[0] if at is not None else 0
        return child.returncode, output, made

    def command(self, at=None):
        """The row's command with its fault."""
        return self.run(self.row.words, self.row.lines, self.row.fault, at)

    def kept(self):
        """What clean runs tell: their statuses and texts."""
        return [self.run(it, b"")[:2] for it in self.row.asks]

    def mended(self):
        """The status of the command without its fault, and what is kept then."""
        return self.run(self.row.words, self.row.lines)[0], self.kept()


def trial(office, top, row, wanted, at):
    """One allocation fails: how many were made, the status, and whether all is kept."""
    status, text, nothing, kept, mended = wanted
    room = Room(office, top, row, str(at))
    got, output, made = room.command(at)
    now = room.kept()
    told = f"{row.name}: allocation {at} of {made}: status {got}, {output[-200:]!r}, kept {now}"
    if got not in (status, 8) or now not in (nothing, kept):
        raise SystemExit(told)
    if got == status and (output != text or now != kept):
        raise SystemExit(f"{told}, and not {text[-200:]!r}, {kept}")
    then = room.mended()
    if then != mended:
        raise SystemExit(f"{told}; then {then}, and not {mended}")
    shutil.rmtree(room.top)
    return made, got, now == kept != nothing


def trials(office, top, row, given):
    """Each allocation of a row fails in turn, until there are no more."""
    ample, nothing = Room(office, top, row, "ample"), Room(office, top, row, "nothing").kept()
    status, text, _ = ample.command()
    kept = ample.kept()
    wanted = status, text, nothing, kept, ample.mended()
    ends = {status: 0, 8: 0}
    kept_after = 0
    with concurrent.futures.ThreadPoolExecutor(given.jobs) as pool:
        stride = 4 * given.jobs * given.step
        for first in range(given.first, given.last + 1, stride):
            places = range(first, min(first + stride, given.last + 1), given.step)
            all_made = True
            for at, (made, got, stored) in zip(places, pool.map(lambda at: trial(office, top, row, wanted, at), places)):
                if made < at:
                    all_made = False
                    continue
                ends[got] += 1
                kept_after += got == 8 and stored
            if not all_made:
                break
    return {"row": row.name, "command": row.words, "runs": sum(ends.values()), "status": status, "ended": ends[status],
            "no_memory": ends[8], "all_kept": kept_after}


def told(counts):
    """The counts of a row, as they are printed."""
    return (f"{counts['row']}: {counts['runs']} runs, status {counts['status']}: {counts['ended']}, "
            f"status 8: {counts['no_memory']}, all kept after {counts['all_kept']} of those with 8")


def write_counts(path, found):
    """The counts of all rows, with the day on which they were taken."""
    with open(path, "w", newline="") as file:
        table = csv.DictWriter(file, ["day", *found[0]])
        table.writeheader()
        table.writerows({"day": datetime.date.today().isoformat(), **it} for it in found)


def main():
    words = argparse.ArgumentParser()
    words.add_argument("program", type=pathlib.Path)
    words.add_argument("--only", default="")
    words.add_argument("--from", type=int, default=1, dest="first")
    words.add_argument("--to", type=int, default=100_000, dest="last")
    words.add_argument("--step", type=int, default=1)
    words.add_argument("--jobs", type=int, default=2)
    words.add_argument("--csv", type=pathlib.Path)
    given = words.parse_args()
    if given.csv and (given.only, given.first, given.last, given.step) != ("", 1, words.get_default("last"), 1):
        words.error("--csv is for all rows and each allocation")
    with tempfile.TemporaryDirectory() as top:
        shim = preloaded("fail_alloc", top)
        office = str(given.program.resolve()), shim
        generate = Row("generate", GENERATE, b"", ())
        status, made, _ = Room(office, top, generate, "made").command()
        assert status == 0, made
        day, past = (DATA / "charged.csv").read_bytes(), OF_7.encode()
        rows = [
            Row("charged day", "import 100", day, DAY),
            Row("history", "past 100", past, PAST),
            generate,
            Row("generated day", "import 100", made, DAY),
            Row("read fault", "import 100", day, DAY, "read"),
            Row("write fault", "import 100", day, DAY, "write"),
            Row("keeper fault", "import 100", day, DAY, "keep"),
        ]
        found = []
        for row in rows:
            if given.only in row.name:
                found.append(trials(office, top, row, given))
                print(told(found[-1]), flush=True)
        print(*(f"{count} times on standard error: {line}" for line, count in SAID.items()), sep="\n")
        if given.csv:
            write_counts(given.csv, found)


if __name__ == "__main__":
    main()
