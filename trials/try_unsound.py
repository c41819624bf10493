#!/usr/bin/env python3
"""Tries a built program on kept days that were changed by another hand.

    python3 trials/try_unsound.py PROGRAM

PROGRAM is the executable toll_office. A folder keeps a history and three days; in copies of it an amount is changed, taken
out or added, or a total is changed, by SQLite. `day`, `export` and `charges` of the changed day end with `# unsound day D`
and status 7, and write nothing else; those of the other days, and of the history, are as before. The script ends with
status 1 at the first difference.
"""
import contextlib
import pathlib
import sqlite3
import sys
import tempfile

from office import Office, expect
from try_renew import day_of

DAYS = (100, 101, 103)
CHANGED = 101
CHANGES = {
    "an amount is greater": f"UPDATE spent SET tolls = tolls + 1 WHERE day = {CHANGED} AND vid = 1101",
    "an amount is less": f"UPDATE spent SET tolls = tolls - 1 WHERE day = {CHANGED} AND vid = 1160",
    "an amount is gone": f"DELETE FROM spent WHERE day = {CHANGED} AND vid = 1130",
    "all amounts are gone": f"DELETE FROM spent WHERE day = {CHANGED}",
    "an amount is added": f"INSERT INTO spent (day, vid, xway, tolls) VALUES ({CHANGED}, 7, 3, 4)",
    "the total is greater": f"UPDATE days SET total = total + 1 WHERE day = {CHANGED}",
    "the total is 0": f"UPDATE days SET total = 0 WHERE day = {CHANGED}",
}
ASKED = [("day", 100), ("day", 103), ("export", 100), ("export", 103), ("charges", 1, 99), ("charges", 100, 100), ("charges", 102, 200)]
REFUSED = [("day", CHANGED), ("export", CHANGED), ("charges", CHANGED, CHANGED), ("charges", 1, 1000), ("charges", 100, 101)]


def main():
    if len(sys.argv) != 2:
        sys.exit(__doc__)
    with tempfile.TemporaryDirectory() as top:
        top = pathlib.Path(top)
        sound = Office(sys.argv[1], top / "sound")
        sound.run("past", 100, text="".join(f"{vid},{1 + vid % 69},{vid % 3},{vid + 1}\n" for vid in range(200)))
        for number in DAYS:
            sound.run("import", number, text=day_of(number))
        wanted = [sound.run(*words) for words in ASKED]
        for words in REFUSED:
            sound.run(*words)
        for name, change in CHANGES.items():
            office = sound.copy(top / name.replace(" ", "_"))
            with contextlib.closing(sqlite3.connect(office.folder / "tolls.db")) as database, database:
                expect(f"rows changed: {name}", database.execute(change).rowcount > 0, True)
            for words in REFUSED:
                expect(f"{words}, {name}", office.run(*words, status=7), f"# unsound day {CHANGED}\n")
            for words, text in zip(ASKED, wanted):
                expect(f"{words}, {name}", office.run(*words), text)
        print(f"{len(CHANGES)} changes of a day by another hand, {len(REFUSED)} commands of it refused, {len(ASKED)} others as before")


if __name__ == "__main__":
    main()
