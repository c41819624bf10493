#!/usr/bin/env python3
"""Puts an old copy of the kept file beside a log that was left over, and looks whether wrong amounts are told as good.

    python3 trials/try_left_over.py OFFICE

OFFICE is the executable toll_office. Ten days are imported one after another; the file is kept as it was before and
behind each, and the log as it was once each was committed and not yet copied (`trials/record_disk.c`, built by `cc`, records
what is written). Each of twelve files, among them an empty one, is put beside each of ten logs: 120 folders. Python's sqlite3
tells of a copy of each what days it keeps, whether their amounts come to the totals of their records, and whether its
indexes hold. Where they do not, or sqlite3 refuses it, no command may tell such a day with status 0. An empty file
beside a log has to be refused. Status 1 at the first wrong amount that is told as good.
"""
import contextlib
import os
import pathlib
import shutil
import sqlite3
import subprocess
import sys
import tempfile

from office import expect, fail, preloaded
from try_power import applied, recorded
from try_serve import report

KEPT, LOG = "tolls.db", "tolls.db-wal"
FIRST, DAYS = 100, 10
CARS = (0, 200)  # of an even day and of an odd one


def day_of(number):
    """A crowd, and no cars that are charged or many, so that the pages of one day do not fit those of another."""
    crowd = [(0, vid, 30, 1, 10, 52800) for vid in range(1, 52)]
    cars = range(1000 * number, 1000 * number + CARS[number % 2])
    path = []
    for time, lane, segment, place in ((60, 1, 10, 52800), (90, 1, 11, 58080), (120, 4, 11, 60000)):
        path += [(time, vid, 30, lane, segment, place) for vid in cars]
    return report(crowd + path)


def committed_log(before, events):
    """The log as it was once the day was committed, before it was copied into the file."""
    log = before.get(LOG, b"")
    for event in events:
        if event[0] in "WT" and event[1] == KEPT:
            return log
        if event[0] in "WT" and event[1] == LOG:
            log = applied(log, event)
    return log


def run(office, folder, *words, text=b""):
    done = subprocess.run([office, *map(str, words)], cwd=folder, input=text, capture_output=True)
    return done.returncode, done.stdout.decode(), done.stderr.decode()


def unsound_days(folder):
    """The days whose amounts do not come to their totals, by sqlite3; none where it cannot tell."""
    with tempfile.TemporaryDirectory() as copy:
        for name in (KEPT, LOG):
            if (folder / name).exists():
                shutil.copyfile(folder / name, pathlib.Path(copy) / name)
        try:
            with contextlib.closing(sqlite3.connect(pathlib.Path(copy) / KEPT)) as database:
                if database.execute("PRAGMA integrity_check").fetchall() != [("ok",)]:
                    return None
                return {day for day, total, found in database.execute(
                    "SELECT day, total, (SELECT coalesce(sum(tolls), 0) FROM spent WHERE spent.day = days.day) FROM days")
                    if total != found}
        except sqlite3.DatabaseError:
            return None


def try_folder(office, folder, name):
    """What is told of a folder: whether it is refused, whole, or told as unsound where it is."""
    unsound = unsound_days(folder)
    listed = run(office, folder, "days")
    if listed[0] != 0:
        return "refused"
    days = {int(line.split()[1]) for line in listed[1].splitlines() if line.startswith("day ")}
    if unsound is None:
        told = [run(office, folder, word, day)[0] for day in days for word in ("day", "export")]
        if told and not any(told):
            fail(f"{name}: sqlite3 does not take it, and each day is told as good")
        return "odd"
    for day in days & unsound:
        for words in (("day", day), ("export", day), ("charges", day, day)):
            status, out, _ = run(office, folder, *words)
            if status == 0:
                fail(f"{name}: {words} is told as good: {out[-80:]!r}")
    return "unsound" if days & unsound else "whole"


def main():
    if len(sys.argv) != 2:
        sys.exit(__doc__)
    office = os.path.realpath(sys.argv[1])
    with tempfile.TemporaryDirectory() as top:
        top = pathlib.Path(top)
        library = preloaded("record_disk", top)
        folder = top / "office"
        folder.mkdir()
        expect("a tariff", run(office, folder, "tariff", 5, 7, 8, 9)[0], 0)
        files, logs = [b"", (folder / KEPT).read_bytes()], []
        for day in range(FIRST, FIRST + DAYS):
            def start(extra, day=day):
                done = subprocess.run([office, "import", str(day)], cwd=folder, input=day_of(day), capture_output=True,
                                      env={**os.environ, **extra})
                expect(f"import {day}", done.returncode, 0)
            logs.append(committed_log(*recorded(library, folder, start)))
            files.append((folder / KEPT).read_bytes())
        count = {}
        for at, kept in enumerate(files):
            for beside, log in enumerate(logs):
                mixed = top / "mixed"
                shutil.rmtree(mixed, ignore_errors=True)
                mixed.mkdir()
                (mixed / KEPT).write_bytes(kept)
                (mixed / LOG).write_bytes(log)
                found = try_folder(office, mixed, f"file {at} beside log {beside}")
                if not kept:
                    expect(f"an empty file beside log {beside}", found, "refused")
                count[found] = count.get(found, 0) + 1
        print(f"{sum(count.values())} mixtures, no wrong amount told as good: {count}")


if __name__ == "__main__":
    main()
