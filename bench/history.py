#!/usr/bin/env python3
"""Times the office over a kept history, and checks each file that it leaves.

    python3 bench/history.py PROGRAM [--amounts 7000000] [--lines 1000000] [--requests 1000] [--folder FOLDER]
    python3 bench/history.py PROGRAM --ways [--amounts 7000000] [--folder FOLDER]

PROGRAM is crates/toll_office/out/toll_office. A history of 69 days is put by `past` into an empty folder; beside it the
same folder with no history. Over each, in this order: `day`, `vehicle`, `tariffs`, `answers` of a day of expenditure
requests, `import` of a day of lines (by `day.c`), `day` again, `tariff`, `audit`, `validate` and `accidents` of that
day; and `tariffs` once more where another hand made a table, so that the file is opened whole. For each a line: wall
time, processor time, greatest memory and the status; for the look-ups also what python's sqlite3 takes for the same
rows, whose answers must be the same. After each put the file must pass `PRAGMA integrity_check` and have its rows, and
it must stand alone: no log with pages beside it. The script ends with status 1 at the first difference. Memory below 10
MB shows as that: a small python starts each command.

With --ways it tries `past` alone, in three ways that must keep the same rows: into an empty folder, over a file that is
there and keeps nothing, and over one with a table of another hand, which is opened whole and put by statements.
"""
import argparse
import contextlib
import os
import pathlib
import random
import shutil
import sqlite3
import subprocess
import sys
import tempfile
import time

from run import make_day

# starts a command from a small process, since the memory of the one that starts it counts as the command's
START = """
import os, sys, time
begin = time.monotonic()
child = os.posix_spawn(sys.argv[2], sys.argv[2:], os.environ)
_, status, used = os.wait4(child, 0)
wall = time.monotonic() - begin
with open(sys.argv[1], "w") as out:
    print(wall, used.ru_utime + used.ru_stime, used.ru_maxrss / 1024, os.waitstatus_to_exitcode(status), file=out)
"""
BASE = 100
FIRST = BASE - 69
DAYS = 69
KEPT = "tolls.db"


def amount_of(vehicle, day):
    """What a vehicle paid on an expressway on a day of the history: any rule that both sides can follow."""
    return (vehicle * 7 + day * 13) % 900 + 1


def vehicles_of(day, amounts):
    """The vehicles of a day: as many on each day, and the first days one more until all are there."""
    each, more = divmod(amounts, DAYS)
    return each + (1 if day - FIRST < more else 0)


def write_history(path, amounts):
    """The lines of the history, by rising day and vehicle."""
    with open(path, "w") as out:
        for day in range(FIRST, BASE):
            back = BASE - day
            count = vehicles_of(day, amounts)
            out.writelines(f"{at * 5},{back},{at % 4},{amount_of(at * 5, day)}\n" for at in range(count))


def write_requests(path, amounts, requests):
    """A day of expenditure requests, some for vehicles and expressways that paid nothing; what each asks for."""
    draw = random.Random(1)
    asked = []
    for number in range(requests):
        back = draw.randrange(1, DAYS + 1)
        at = draw.randrange(vehicles_of(BASE - back, amounts) + 10)
        asked.append((number, at * 5, BASE - back, at % 4 if number % 5 else (at + 1) % 4))
    with open(path, "w") as out:
        for number, vehicle, day, way in asked:
            out.write(f"3,{number * 10},{vehicle},0,{way},0,0,0,0,{number},-1,-1,-1,-1,{BASE - day}\n")
    return asked


def run(folder, words, source):
    """Makes a call, and prints what it took; its output and status."""
    taken, took = folder.parent / "out", folder.parent.resolve() / "took"
    with open(source, "rb") as given, open(taken, "wb") as out:
        said = subprocess.run([sys.executable, "-I", "-S", "-c", START, took, *words], stdin=given, stdout=out,
                              stderr=subprocess.PIPE, cwd=folder, check=True).stderr.decode()
    wall, processor, memory, status = took.read_text().split()
    text = taken.read_text()
    last = (text + said).splitlines()[-1] if text or said else ""
    print(f"{folder.name:12} {' '.join(words[1:]):24} {float(wall):8.2f} s {float(processor):8.2f} s of processor"
          f" {float(memory):6.0f} MB  status {status}  {last}", flush=True)
    return text, int(status)


def expect(holds, what):
    if not holds:
        sys.exit(f"wrong: {what}")


def looked_at(folder):
    """The file alone, which is not locked and to which nothing is added."""
    return sqlite3.connect(f"file:{folder / KEPT}?mode=ro&immutable=1", uri=True)


def check_file(folder, rows, days):
    """The file alone is whole, and has so many amounts and days."""
    log = folder / (KEPT + "-wal")
    expect(not log.exists() or log.stat().st_size < 4096, f"{log} has pages")
    begin = time.monotonic()
    with contextlib.closing(looked_at(folder)) as database:
        expect(database.execute("PRAGMA integrity_check").fetchall() == [("ok",)], f"{folder.name}: integrity_check")
        found = database.execute("SELECT count(*), count(DISTINCT day) FROM spent").fetchone()
        expect(rows is None or found == rows, f"{folder.name}: {found} amounts and days, not {rows}")
        kept = [day for day, in database.execute("SELECT day FROM days ORDER BY day")]
        expect(kept == days, f"{folder.name}: days {kept}, not {days}")
        seals = [day for day, in database.execute("SELECT day FROM day_tariffs ORDER BY day")]
        expect(seals == days, f"{folder.name}: seals {seals}, not {days}")
    size = (folder / KEPT).stat().st_size / 1e6
    took = time.monotonic() - begin
    print(f"{folder.name:12} {'integrity_check':24} {took:8.2f} s {size:8.0f} MB of file  ok", flush=True)


def ask_sqlite(folder, name, query, parameters):
    """The rows that sqlite3 finds, and prints what it took."""
    begin, used = time.monotonic(), time.process_time()
    with contextlib.closing(looked_at(folder)) as database:
        rows = [row for given in parameters for row in database.execute(query, given).fetchall()]
    wall, processor = time.monotonic() - begin, time.process_time() - used
    print(f"{folder.name:12} {'sqlite3 ' + name:24} {wall:8.2f} s {processor:8.2f} s of processor  {len(rows)} rows", flush=True)
    return rows


def try_reads(program, folder, requests, asked, amounts):
    """The commands that only read, beside sqlite3."""
    run(folder, [program, "day", "100"], os.devnull)
    run(folder, [program, "tariffs"], os.devnull)
    text, status = run(folder, [program, "vehicle", "35", str(FIRST), str(BASE - 1)], os.devnull)
    rows = ask_sqlite(folder, "vehicle", "SELECT day, xway, tolls FROM spent WHERE day BETWEEN ? AND ? AND vid = ?",
                      [(FIRST, BASE - 1, 35)])
    listed = [line for line in text.splitlines() if line[:1].isdigit() or line[:1] == " "]
    if amounts and status == 0:
        for day, way, tolls in rows:
            expect(any(str(tolls) in line and str(day) in line for line in listed), f"vehicle 35 on day {day}")
    text, status = run(folder, [program, "answers", str(BASE)], requests)
    expect(status == 0, "answers of the requests")
    given = {int(line.split(",")[2]): int(line.split(",")[3]) for line in text.splitlines() if line.startswith("3,")}
    expect(len(given) == len(asked), f"{len(given)} answers to {len(asked)} requests")
    found = ask_sqlite(folder, "answers",
                       "SELECT coalesce(sum(tolls), 0) FROM spent WHERE day = ? AND vid = ? AND xway = ?",
                       [(day, vehicle, way) for _, vehicle, day, way in asked])
    for (number, vehicle, day, way), (tolls,) in zip(asked, found):
        expect(given[number] == tolls, f"request {number} of {vehicle} on day {day}: {given[number]}, not {tolls}")


def try_folder(program, folder, amounts, files, asked):
    """All commands over one folder."""
    history, requests, day = files
    if amounts:
        _, status = run(folder, [program, "past", str(BASE)], history)
        expect(status == 0, "past")
        check_file(folder, (amounts, DAYS), [])
        _, status = run(folder, [program, "past", str(BASE)], history)
        expect(status == 0, "past once more")
    else:
        run(folder, [program, "tariff", "0", "50", "40", "2"], os.devnull)
    try_reads(program, folder, requests, asked, amounts)
    _, status = run(folder, [program, "import", str(BASE)], day)
    expect(status == 0, "import")
    check_file(folder, None, [BASE])
    _, status = run(folder, [program, "import", str(BASE)], day)
    expect(status == 0, "import once more")
    _, status = run(folder, [program, "import", str(BASE + 1)], day)
    expect(status == 0, "import of the next day")
    check_file(folder, None, [BASE, BASE + 1])
    _, status = run(folder, [program, "import", str(BASE - 1)], day)
    expect(status == 3, "import of an earlier day")
    text, status = run(folder, [program, "day", str(BASE)], os.devnull)
    expect(status == 0, "day")
    _, status = run(folder, [program, "tariff", "3", "40", "45", "3"], os.devnull)
    expect(status == 0, "tariff")
    check_file(folder, None, [BASE, BASE + 1])
    text, status = run(folder, [program, "tariffs"], os.devnull)
    expect(text.splitlines()[:1] == ["3,40,45,3"], f"tariffs: {text!r}")


def try_others(program, folder, day, lines):
    """The commands that compare or list, over a day of lines; then a file that is not exactly ours, which is opened whole."""
    text, status = run(folder, [program, "answers", str(BASE + 2)], day)
    expect(status == 0, "answers of the day")
    (folder / "notices.txt").write_text(text)
    for words in [["audit", str(BASE + 2)]] + [["validate", str(BASE + 2)], ["accidents"]] * (lines <= 1_000_000):
        _, status = run(folder, [program, *words], day)
        expect(status == 0, words[0])
    with contextlib.closing(sqlite3.connect(folder / KEPT)) as database:
        database.execute("CREATE TABLE theirs (one INTEGER)")
        database.commit()
        print(f"{folder.name:12} of another hand: {database.execute('SELECT count(*) FROM spent').fetchone()[0]} amounts, opened whole by")
    _, status = run(folder, [program, "tariffs"], os.devnull)
    expect(status == 0, "tariffs of a file with a table more")


def kept_rows(folder):
    """What the file keeps of a history, but for the order in which it lies there."""
    with contextlib.closing(looked_at(folder)) as database:
        rows = database.execute("SELECT count(*), sum(day * vid + xway * 7 + tolls), sum(tolls) FROM spent").fetchone()
        return rows, database.execute("SELECT * FROM past").fetchall()


def try_ways(program, room, history, amounts):
    """`past` into an empty folder, over a file that is there, and over one with a table of another hand."""
    found = []
    for name in ("new", "there", "theirs"):
        folder = room / name
        shutil.rmtree(folder, ignore_errors=True)
        folder.mkdir()
        if name != "new":
            run(folder, [program, "tariffs"], os.devnull)
        if name == "theirs":
            with contextlib.closing(sqlite3.connect(folder / KEPT)) as database:
                database.execute("CREATE TABLE theirs (one INTEGER)")
                database.commit()
        _, status = run(folder, [program, "past", str(BASE)], history)
        expect(status == 0, f"past, {name}")
        check_file(folder, (amounts, DAYS), [])
        found.append(kept_rows(folder))
        expect(found[0] == found[-1], f"{name}: {found[-1]}, not {found[0]}")
        shutil.rmtree(folder)


def try_all(program, room, files, given):
    """All commands, with the history and without."""
    asked = write_requests(files[1], given.amounts, given.requests)
    files[2] = make_day(room, str(given.lines))
    for name, amounts in (("no_history", 0), ("history", given.amounts)):
        folder = room / name
        shutil.rmtree(folder, ignore_errors=True)
        folder.mkdir()
        try_folder(program, folder, amounts, files, asked)
        try_others(program, folder, files[2], given.lines)


def main():
    words = argparse.ArgumentParser(description=__doc__, formatter_class=argparse.RawDescriptionHelpFormatter)
    words.add_argument("program", type=pathlib.Path)
    words.add_argument("--amounts", type=int, default=7_000_000)
    words.add_argument("--lines", type=int, default=1_000_000)
    words.add_argument("--requests", type=int, default=1_000)
    words.add_argument("--folder", type=pathlib.Path, help="where the files are made, and left")
    words.add_argument("--ways", action="store_true", help="only the three ways of `past`")
    given = words.parse_args()
    room = given.folder or pathlib.Path(tempfile.mkdtemp())
    room.mkdir(parents=True, exist_ok=True)
    files = [room / name for name in ("history.csv", "requests.csv", "day.csv")]
    write_history(files[0], given.amounts)
    if given.ways:
        try_ways(str(given.program.resolve()), room, files[0], given.amounts)
    else:
        try_all(str(given.program.resolve()), room, files, given)
    if given.folder is None:
        shutil.rmtree(room)
    print("all as expected")


if __name__ == "__main__":
    main()
