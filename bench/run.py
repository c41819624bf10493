#!/usr/bin/env python3
"""Measures the program: makes days, imports and answers them, and prints a table.

    python3 bench/run.py PROGRAM [--days 1000000,classic,greatest] [--workers 1,2,4] [--runs 3] [--folder DAYS] [--csv FILE]

PROGRAM is crates/toll_office/out/toll_office. A day is `classic`, `greatest` or a number of lines; it stays in DAYS and
is used again. `sha256sum` and `wc -l` of the same file are measured in the same run, and `plain_office.c`, a program of the
same work with nothing proved, whose output must be the same byte for byte; where sqlite3's header is not there, it
keeps no day. With --csv the machine, the date and the number of runs are written beside FILE, with the ending `.txt`. The
commands of a day run in turn, and each figure is the least of the runs: processor time (user and
system) and wall time in nanoseconds a line, both as multiples of `sha256sum`'s, and the greatest memory in megabytes
(16 at least, which this script has itself).
"""
import argparse
import csv
import filecmp
import os
import pathlib
import shutil
import subprocess
import sys
import tempfile
import time

HERE = pathlib.Path(__file__).resolve().parent
SEED = "1"
# lines, vehicles, expressways, minutes
NAMED = {
    "classic": (12_000_000, 500_000, 1, 180),
    "greatest": (16_000_000, 500_000, 256, 240),
}


def shape_of(day):
    """The words of a day for the generator: one of a number of lines is of one expressway, for up to a whole day."""
    if day in NAMED:
        return NAMED[day]
    lines = int(day)
    return lines, 500_000, 1, max(10, min(1440, round((lines / 1000) ** 0.5 * 2)))


def make_day(folder, day):
    """The file of a day, made where it is not there."""
    path = folder / f"{day}.csv"
    if not path.exists():
        maker = folder / "day"
        subprocess.run(["cc", "-O2", "-o", maker, HERE / "day.c"], check=True)
        part = folder / f"{day}.part"
        with open(part, "wb") as out:
            subprocess.run([maker, *map(str, shape_of(day)), SEED], stdout=out, check=True)
        part.rename(path)
    return path


def make_plain(folder):
    """The program with nothing proved, and what it lacks."""
    program = folder / "plain"
    words = ["cc", "-O2", "-o", program, HERE / "plain_office.c"]
    if subprocess.run([*words, "-lsqlite3"], stderr=subprocess.DEVNULL).returncode == 0:
        return str(program), ""
    subprocess.run([*words, "-DNO_DATABASE"], check=True)
    return str(program), ", no database"


def check_same(ours, theirs, source):
    """Ends the run where two commands write different bytes, each in an empty folder."""
    with tempfile.TemporaryDirectory() as kept:
        outs = []
        for name, command in (("ours", ours), ("theirs", theirs)):
            outs.append(os.path.join(kept, name))
            with tempfile.TemporaryDirectory() as room, open(source, "rb") as given, open(outs[-1], "wb") as taken:
                subprocess.run(command, stdin=given, stdout=taken, cwd=room, check=True)
        if not filecmp.cmp(*outs, shallow=False):
            sys.exit(f"{ours} and {theirs} differ on {source}")


def measure(command, source):
    """Processor seconds, wall seconds and megabytes of one run in an empty folder."""
    room = tempfile.mkdtemp()
    try:
        with open(source, "rb") as given, open(os.path.join(room, "out"), "wb") as taken:
            begin = time.monotonic()
            child = subprocess.Popen(command, stdin=given, stdout=taken, cwd=room)
            _, status, used = os.wait4(child.pid, 0)
            wall = time.monotonic() - begin
        child.returncode = os.waitstatus_to_exitcode(status)
        if child.returncode != 0:
            sys.exit(f"{command} ended with status {child.returncode}")
        return used.ru_utime + used.ru_stime, wall, used.ru_maxrss / 1024
    finally:
        shutil.rmtree(room)


def least(commands, source, runs):
    """The least processor time, wall time and memory of each command, all in turn."""
    rounds = [[measure(command, source) for command in commands] for _ in range(runs)]
    return [tuple(map(min, zip(*runs_of_one))) for runs_of_one in zip(*rounds)]


def short_name(command, program, plain, lacks):
    """A command as the documents name it."""
    if command[0] == program:
        return f"{command[1]}, {command[-1]} worker{'' if command[-1] == '1' else 's'}"
    return f"in C, {command[1]}{lacks}" if command[0] == plain else " ".join(it for it in command if it != "-")


def machine(runs):
    """Where and when the figures were measured, in a line for the documents."""
    said = dict(line.split(":", 1) for line in pathlib.Path("/proc/cpuinfo").read_text().splitlines() if ":" in line)
    facts = {name.strip(): value.strip() for name, value in said.items()}
    name = facts.get("model name", "a processor").replace("(R)", "")
    speed = "" if "@" in name else f" at {float(facts.get('cpu MHz', 0)) / 1000:.2f} GHz"
    return f"{name}{speed}, {os.cpu_count()} virtual processors; the least of {runs} runs; {time.strftime('%Y-%m-%d')}."


def lines_in(path):
    with open(path, "rb") as file:
        return sum(block.count(b"\n") for block in iter(lambda: file.read(1 << 20), b""))


def main():
    words = argparse.ArgumentParser(description=__doc__, formatter_class=argparse.RawDescriptionHelpFormatter)
    words.add_argument("program", type=pathlib.Path)
    words.add_argument("--days", default="1000000,classic,greatest")
    words.add_argument("--workers", default="1,2,4")
    words.add_argument("--runs", type=int, default=3)
    words.add_argument("--folder", type=pathlib.Path, default=pathlib.Path(tempfile.gettempdir()) / "days")
    words.add_argument("--csv", type=pathlib.Path, help="write the runs to this file too, as tools/write_docs.py reads them")
    given = words.parse_args()
    given.folder.mkdir(parents=True, exist_ok=True)
    program = str(given.program.resolve())
    plain, lacks = make_plain(given.folder)
    written = [["day", "lines", "command", "processor", "wall", "megabytes"]]
    print("| Day | Lines | Command | Processor ns a line | Wall ns a line | Times `sha256sum`, processor | wall | MB |")
    print("|---|---|---|---|---|---|---|---|")
    for day in given.days.split(","):
        path = make_day(given.folder, day)
        lines = lines_in(path)
        commands = [["sha256sum", "-"], ["wc", "-l"]]
        for what in ("import", "answers"):
            theirs = [plain, what, "100"]
            check_same([program, what, "100"], theirs, path)
            commands.append(theirs)
            for workers in given.workers.split(","):
                commands.append([program, what, "100", "--workers", workers])
        figures = least(commands, path, given.runs)
        base = figures[0]
        for command, used in zip(commands, figures):
            name = " ".join([pathlib.Path(command[0]).name, *command[1:]]) + (lacks if command[0] == plain else "")
            print(
                f"| {day} | {lines} | `{name}` | {used[0] * 1e9 / lines:.0f} | {used[1] * 1e9 / lines:.0f}"
                f" | {used[0] / base[0]:.2f} | {used[1] / base[1]:.2f} | {used[2]:.0f} |",
                flush=True,
            )
            title = "a million" if day == "1000000" else day
            of_line = [round(it * 1e9 / lines) for it in used[:2]]
            written.append([title, lines, short_name(command, program, plain, lacks), *of_line, round(used[2])])
    if given.csv:
        with open(given.csv, "w", newline="") as file:
            csv.writer(file, lineterminator="\n").writerows(written)
        given.csv.with_suffix(".txt").write_text(machine(given.runs) + "\n")


if __name__ == "__main__":
    main()
