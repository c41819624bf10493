#!/usr/bin/env python3
"""Tries `renew BASE` of a built program on a file of a hundred days.

    python3 trials/try_renew.py PROGRAM

PROGRAM is the executable toll_office. In a new folder a history, a tariff and a hundred days are kept; the folder is
copied, and one copy begins anew. What its tables have then is worked out here from those of the other: the amounts of 69
days, a history of them whose digest is that of the file that `past` takes, the tariffs, no day. `past` of that file in a
third folder keeps the same. Days after the base are answered and kept as in the copy that did not begin anew. A base above
the day after the last kept one is refused with the number of amounts that go, as SQLite counts them, unless that number is
named; an amount that no history may have is named. Each file is checked by SQLite. The script ends with status 1 at the
first difference.
"""
import contextlib
import hashlib
import pathlib
import sqlite3
import sys
import tempfile

from office import Office, expect

FIRST, LAST, BASE = 100, 199, 200
CARS = 60


def line(time, vid, speed, lane, segment, place):
    return f"0,{time},{vid},{speed},0,{lane},0,{segment},{place},-1,-1,-1,-1,-1,-1\n"


def day_of(number):
    """Fifty-one slow vehicles, and some that leave their segment and are charged; then a question about each day before."""
    lines = [line(0, vid, 30, 1, 10, 52800) for vid in range(1, 52)]
    late = range(1000 + number, 1000 + number + CARS)
    for time, lane, segment, place in ((60, 1, 10, 52800), (90, 1, 11, 58080), (120, 4, 11, 60000)):
        lines += [line(time, vid, 30, lane, segment, place) for vid in late]
    for back in range(1, 70):
        lines.append(f"3,200,{1000 + number},-1,0,-1,-1,-1,-1,{back},-1,-1,-1,-1,{back}\n")
    return "".join(lines)


def counted(office, low, high):
    return office.rows("SELECT count(*) FROM spent WHERE day BETWEEN ? AND ?", low, high)[0][0]


def mistyped(old, top):
    """A base that is too great: what would go is told and nothing changes, until its number is named."""
    new = old.copy(top / "mistyped")
    for base in (LAST + 2, LAST + 30, LAST + 69, LAST + 70, 10 * BASE, 1_000_000):
        rows = counted(old, LAST - 68, base - 70)
        for drop in ([], ["--drop", rows + 1], ["--drop", rows - 1 if rows else 1]):
            for words in (["renew", base, *drop], ["renew", *drop, base]):
                expect(f"{words}", new.run(*words, status=3), f"# renew drops rows {rows}\n")
    expect("what refusals leave", new.rows("SELECT * FROM spent"), old.rows("SELECT * FROM spent"))
    base = LAST + 30
    rows, kept = counted(old, LAST - 68, base - 70), counted(old, base - 69, base - 1)
    expect("a named number", new.run("renew", base, "--drop", rows), f"# renewed base {base} rows {kept} dropped {rows}\n")
    expect("what is left then", new.rows("SELECT count(*), min(day) >= ? FROM spent", base - 69), [(kept, 1)])
    empty = Office(old.program, top / "empty")
    expect("an office that keeps nothing", empty.run("renew", 1_000_000), "# renewed base 1000000 rows 0 dropped 0\n")
    for words in (["renew", BASE, "--drop"], ["renew", BASE, "--drop", "-1"], ["renew", BASE, "--drop=0"], ["renew", "--drop", 0]):
        expect(f"{words}", old.run(*words, status=1), "# words\n")


def unfit(old, top):
    """The first amount, by day, vehicle and expressway, that no history may have is named."""
    new = old.copy(top / "unfit")
    rows = new.rows("SELECT day, vid, xway FROM spent WHERE day >= ? ORDER BY day, vid, xway", BASE - 69)
    for at in (len(rows) - 1, len(rows) // 2):
        day, vid, xway = rows[at]
        with contextlib.closing(sqlite3.connect(new.folder / "tolls.db")) as database, database:
            database.execute("UPDATE spent SET tolls = 10000000000 WHERE (day, vid, xway) = (?, ?, ?)", (day, vid, xway))
        line = f"# renew unfit day {day} vid {vid} xway {xway} tolls 10000000000\n"
        expect("an amount of no history", new.run("renew", BASE, status=3), line)
    expect("what an unfit amount leaves", new.rows("SELECT count(*) FROM days"), [(LAST - FIRST + 1,)])


def main():
    if len(sys.argv) != 2:
        sys.exit(__doc__)
    program = sys.argv[1]
    with tempfile.TemporaryDirectory() as top:
        top = pathlib.Path(top)
        old = Office(program, top / "old")
        old.run("past", FIRST, text="".join(f"{vid},{1 + vid % 69},{vid % 3},{vid + 1}\n" for vid in range(2000)))
        old.run("tariff", 5, 7, 8, 9)
        for number in range(FIRST, LAST + 1):
            old.run("import", number, text=day_of(number))
        new = old.copy(top / "new")
        expect("a base that is kept", new.run("renew", LAST, status=3), f"# renew early last {LAST}\n")
        expect("what a refusal leaves", new.rows("SELECT count(*) FROM days"), [(LAST - FIRST + 1,)])
        mistyped(old, top)
        unfit(old, top)
        query = f"SELECT vid, {BASE} - day, xway, tolls FROM spent WHERE day BETWEEN {BASE} - 69 AND {BASE} - 1 ORDER BY day, vid, xway"
        carried = old.rows(query)
        text = "".join(",".join(map(str, row)) + "\n" for row in carried)
        expect("the closing line", new.run("renew", BASE), f"# renewed base {BASE} rows {len(carried)} dropped 0\n")
        expect("the check of SQLite", new.rows("PRAGMA integrity_check"), [("ok",)])
        history = new.rows("SELECT base, hex(digest), bytes, rows_kept FROM past")
        digest = hashlib.sha256(text.encode()).hexdigest().upper()
        expect("the history", history, [(BASE, digest, len(text), len(carried))])
        expect("the amounts", new.rows(query), carried)
        expect("all amounts", new.rows("SELECT count(*) FROM spent"), [(len(carried),)])
        for table in ("days", "day_tariffs"):
            expect(f"rows of {table}", new.rows(f"SELECT * FROM {table}"), [])
        expect("the tariffs", new.rows("SELECT * FROM tariffs"), old.rows("SELECT * FROM tariffs"))
        third = Office(program, top / "third")
        third.run("past", BASE, text=text)
        expect("the history by past", third.rows("SELECT base, hex(digest), bytes, rows_kept FROM past"), history)
        expect("the amounts by past", third.rows(query), carried)
        before = new.size()
        for number in (BASE, BASE + 3, BASE + 40):
            for command in ("answers", "import"):
                expect(f"{command} {number}", new.run(command, number, text=day_of(number)), old.run(command, number, text=day_of(number)))
            record = f"SELECT * FROM days WHERE day = {number}"
            expect(f"the record of {number}", new.rows(record), old.rows(record))
        expect("the check of SQLite after days", new.rows("PRAGMA integrity_check"), [("ok",)])
        print(f"begun anew: {old.size()} bytes before and three days, {before} bytes anew, {new.size()} bytes after three days")


if __name__ == "__main__":
    main()
