#!/usr/bin/env python3
"""Tries scripts/new_folder.sh and the query of the documents that does the same.

    python3 trials/try_new_folder.py [PROGRAM]

PROGRAM is the executable toll_office. Without it a stand-in takes its place: a small program of this script, which has the
commands that the script calls, over a `tolls.db` that this script makes of the six tables' texts in `crates/keep_tables`.
What the history must be is worked out here from the amounts. The script ends with status 1 at the first difference.
"""
import os
import pathlib
import sqlite3
import subprocess
import sys
import tempfile

from office import TOP, expect, tables

SCRIPT = TOP / "scripts/new_folder.sh"
BASE = 400
NOT_KEPT = 350
QUERY = f"SELECT vid, {BASE} - day, xway, tolls FROM spent WHERE day BETWEEN {BASE} - 69 AND {BASE} - 1 ORDER BY day, vid, xway"

STAND_IN = r'''#!/usr/bin/env python3
import os, sqlite3, sys
words, tables = sys.argv[1:], {tables!r}
def end(text, status):
    print(text)
    sys.exit(status)
there = os.path.exists("tolls.db")
db = sqlite3.connect("tolls.db")
if not there:
    for it in tables:
        db.execute(it)
if words[0] == "export":
    day = int(words[1])
    if words[1] == os.environ.get("FAILS"):
        end("# keeper fault", 6)
    if not db.execute("SELECT 1 FROM days WHERE day = ?", (day,)).fetchone():
        end("# no day %d" % day, 3)
    print("vid,day,xway,tolls")
    for row in db.execute("SELECT vid, day, xway, tolls FROM spent WHERE day = ? ORDER BY vid, xway", (day,)):
        print(*row, sep=",")
elif words[0] == "tariffs":
    for row in db.execute("SELECT * FROM tariffs ORDER BY xway"):
        print(*row, sep=",")
elif words[0] == "tariff":
    db.execute("INSERT INTO tariffs VALUES (?, ?, ?, ?)", words[1:])
    print("# tariff xway %s crowd %s speed %s factor %s" % tuple(words[1:]))
elif words[0] == "past":
    rows = [tuple(map(int, line.split(","))) for line in sys.stdin]
    db.executemany("INSERT INTO spent VALUES (?, ?, ?, ?)", [(int(words[1]) - d, v, x, t) for v, d, x, t in rows])
    print("# past base %s rows %d" % (words[1], len(rows)))
db.commit()
'''

# fifty-one vehicles slow down a segment; vehicle 100 is told a toll of 2 there and leaves the segment
CROWD = [(0, vid, 30, 1, 10, 52800) for vid in range(1, 52)]
PATH = [(60, 100, 30, 1, 10, 52800), (90, 100, 30, 1, 11, 58080), (120, 100, 30, 4, 11, 60000)]


def amounts():
    """Some amounts of each day but one: what was charged in this try."""
    days = [day for day in range(BASE - 75, BASE) if day != NOT_KEPT]
    return {day: [(vid, xway, day * 10 + vid + xway) for vid in (1, 7, 2147483647) for xway in (0, 255)] for day in days}


def with_stand_in(folder):
    """The stand-in, and an old folder of which it has the amounts."""
    program = folder / "toll_office"
    program.write_text(STAND_IN.format(tables=list(tables().values())))
    program.chmod(0o755)
    old = folder / "old"
    old.mkdir()
    kept = amounts()
    with sqlite3.connect(old / "tolls.db") as db:
        for text in tables().values():
            db.execute(text)
        db.execute("INSERT INTO form VALUES (1, 2)")
        for day, rows in kept.items():
            db.execute("INSERT INTO days VALUES (?, x'00', 0, 0, 0, x'00', 0)", (day,))
            db.executemany("INSERT INTO spent VALUES (?, ?, ?, ?)", [(day, *row) for row in rows])
        db.execute("INSERT INTO tariffs VALUES (3, 40, 45, 3)")
    db.close()
    lines = [f"{vid},{BASE - day},{xway},{tolls}" for day, rows in sorted(kept.items()) if day >= BASE - 69
             for vid, xway, tolls in sorted(rows)]
    return program, old, lines


def with_program(folder, program):
    """The program, and an old folder into which it imported a day of one toll for each day but one."""
    old = folder / "old"
    old.mkdir()
    shape = "0,%d,%d,%d,0,%d,0,%d,%d,-1,-1,-1,-1,-1,-1\n"
    lines = "".join(shape % it for it in CROWD + PATH) + shape % (150, 100, 30, 1, 5, 26400)
    for day in range(BASE - 70, BASE):
        if day != NOT_KEPT:
            ran = subprocess.run([program, "import", str(day)], cwd=old, input=lines, text=True, capture_output=True)
            expect(f"import {day}", ran.returncode, 0)
    ran = subprocess.run([program, "tariff", "3", "40", "45", "3"], cwd=old, capture_output=True)
    expect("tariff", ran.returncode, 0)
    return program, old, [f"100,{BASE - day},0,2" for day in range(BASE - 69, BASE) if day != NOT_KEPT]


def made(program, old, new, *more, fails=""):
    """The status of the script, and its output."""
    words = [SCRIPT, program, old, new, str(BASE), *more]
    ran = subprocess.run(words, text=True, capture_output=True, env={**os.environ, "FAILS": fails})
    return ran.returncode, ran.stdout, ran.stderr


def main():
    with tempfile.TemporaryDirectory() as top:
        folder = pathlib.Path(top)
        given = sys.argv[1:]
        program, old, lines = with_program(folder, pathlib.Path(given[0]).resolve()) if given else with_stand_in(folder)
        wanted = "\n".join(lines) + "\n"
        with sqlite3.connect(old / "tolls.db") as db:
            found = "".join(",".join(map(str, row)) + "\n" for row in db.execute(QUERY))
        db.close()
        expect("the query", found, wanted)

        status, _, said = made(program, old, folder / "short")
        expect("a day that is not kept, unsaid", (status, (folder / "short").exists()), (1, False))
        expect("what is said of it", said.splitlines()[-1], "new_folder: 1 of the 69 days are not kept, and you said 0")
        if not given:
            status, _, said = made(program, old, folder / "failed", "1", fails="360")
            expect("an export that fails", (status, (folder / "failed").exists()), (1, False))
            expect("what is said of it", said.splitlines()[-1],
                   "new_folder: the export of day 360 ended with status 6: # keeper fault")
        status, told, said = made(program, old, folder / "next", "1")
        expect("the script", (status, said), (0, f"day {NOT_KEPT} is not kept\n"))
        expect("its line", told, f"# past base {BASE} rows {len(lines)}\n")
        expect("its history", (folder / "next/past.csv").read_text(), wanted)
        with sqlite3.connect(folder / "next/tolls.db") as db:
            found = "".join(",".join(map(str, row)) + "\n" for row in db.execute(QUERY))
            expect("what is kept in the new folder", found, wanted)
            expect("its tariffs", db.execute("SELECT * FROM tariffs").fetchall(), [(3, 40, 45, 3)])
        db.close()
        expect("a second run", made(program, old, folder / "next", "1")[0], 1)
        with_tool(old, wanted)
    print(f"the script and the query make the same history of {len(lines)} lines, with {'the program' if given else 'a stand-in'}")


def with_tool(old, wanted):
    """The query as the documents write it, if the tool sqlite3 is there."""
    try:
        ran = subprocess.run(["sqlite3", "-separator", ",", "tolls.db", QUERY], cwd=old, text=True, capture_output=True)
    except FileNotFoundError:
        print("no tool sqlite3 here: the query was tried by Python's alone")
        return
    expect("the tool", (ran.returncode, ran.stdout), (0, wanted))


if __name__ == "__main__":
    main()
