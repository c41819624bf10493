#!/usr/bin/env python3
"""Takes the kept file from under a running server, and looks whether a day that it answers as stored is there afterwards.

    python3 trials/try_replaced.py SERVER OFFICE

SERVER is the executable toll_serve, OFFICE toll_office. Each harm is done to a folder of its own, in which a server keeps
the days 100 and 101: the file is replaced by a copy in its place or beside it, with its log left or removed; its log is
removed, or both; it is cut to nothing, or to a page; it gets a second name; its folder gets another one. Then days are
posted until two in turn are answered as stored, at most six. The first call behind a harm that leaves another file, or
none, has to fail; whatever was stored behind the harm has to be found by the office once the server was killed, and by
Python's sqlite3. Where both files are gone a second server takes the folder: of the two at most one stores. Then files
that were lost while no program ran: an empty or missing file beside a log with days, and one of a byte, each has to be
refused with its cause and left as it is; and what a new folder has half made is made. Status 1 at the first difference.
"""
import atexit
import http.client
import json
import os
import pathlib
import shutil
import sqlite3
import subprocess
import sys
import tempfile

from office import expect, fail
from try_serve import Server, charged_day

EMPTIED = "it is empty or missing, but its log is not: put the file back, or move the log away"
NOT_OURS = "it is no database of these programs"
DAY = charged_day()
KEPT, LOG = "tolls.db", "tolls.db-wal"


def running(program, folder, environment=None):
    """A server, which is killed at the end of this script, however that ends."""
    server = Server(program, folder, 1000, environment=environment)
    atexit.register(server.child.kill)
    return server


def post(server, day):
    """The status of a day's POST, and whether it was stored."""
    try:
        status, _, text = server.ask("POST", f"/days/{day}", DAY, seconds=120)
    except (OSError, http.client.HTTPException) as error:
        return str(error), False
    return status, status == 200 and json.loads(text).get("outcome") == "stored"


def found(office, folder):
    """The days that the office lists in a folder."""
    done = subprocess.run([office, "days"], cwd=folder, capture_output=True, text=True)
    expect(f"days: status, {done.stderr!r}", done.returncode, 0)
    return {int(line.split()[1]) for line in done.stdout.splitlines() if line.startswith("day ")}


def copy_in_place(folder):
    shutil.copyfile(folder / "before", folder / KEPT)
    (folder / LOG).unlink()


def moved_over(folder):
    os.replace(folder / "before", folder / KEPT)


def moved_over_without_log(folder):
    moved_over(folder)
    (folder / LOG).unlink()


def log_removed(folder):
    (folder / LOG).unlink()


def file_removed(folder):
    (folder / KEPT).unlink()


def both_removed(folder):
    file_removed(folder)
    log_removed(folder)


def cut_to_nothing(folder):
    os.truncate(folder / KEPT, 0)


def cut_to_a_page(folder):
    os.truncate(folder / KEPT, 4096)


def second_name(folder):
    os.link(folder / KEPT, folder / "second")


def second_name_and_gone(folder):
    second_name(folder)
    (folder / "second").unlink()


def folder_renamed(folder):
    os.rename(folder, folder.with_name(folder.name + "-moved"))


# each harm, and whether the first call behind it has to fail
HARMS = {
    copy_in_place: True,
    moved_over: True,
    moved_over_without_log: True,
    log_removed: True,
    file_removed: True,
    both_removed: True,
    cut_to_nothing: True,
    cut_to_a_page: None,
    second_name: True,
    second_name_and_gone: False,
    folder_renamed: None,
}


def try_harm(server_program, office, top, harm, fails):
    folder = top / harm.__name__
    folder.mkdir()
    server = running(server_program, folder)
    expect("the first day", post(server, 100), (200, True))
    shutil.copyfile(folder / KEPT, folder / "before")
    expect("the second day", post(server, 101), (200, True))
    harm(folder)
    if not folder.is_dir():
        folder = folder.with_name(folder.name + "-moved")
    first, was_stored = post(server, 102)
    if fails is not None:
        expect(f"{harm.__name__}: the first call behind it fails ({first})", not was_stored, fails)
    stored = {102} if was_stored else set()
    for day in range(103, 108):
        status, was_stored = post(server, day)
        stored |= {day} if was_stored else set()
        if len(stored) == 2:
            break
    server.child.kill()
    server.child.wait()
    if harm is second_name:
        (folder / "second").unlink()
    refused = lost_file(office, folder)
    if refused:
        expect(f"{harm.__name__}: days stored in a folder that is refused", stored, set())
        print(f"{harm.__name__}: first {first}, nothing stored behind it, the folder is refused: {refused}")
        return
    days = found(office, folder)
    if not stored <= days:
        fail(f"{harm.__name__}: stored {sorted(stored)}, found {sorted(days)}")
    with sqlite3.connect(folder / KEPT) as database:
        expect(f"{harm.__name__}: sqlite3's check", database.execute("PRAGMA integrity_check").fetchall(), [("ok",)])
        expect(f"{harm.__name__}: sqlite3's days", {day for (day,) in database.execute("SELECT day FROM days")}, days)
    print(f"{harm.__name__}: first {first}, stored behind it {sorted(stored)}, kept {sorted(days)}")


def lost_file(office, folder):
    """The cause with which the office refuses a folder whose file was lost; none where it does not."""
    done = subprocess.run([office, "days"], cwd=folder, capture_output=True, text=True)
    return done.stderr.strip() if done.returncode == 6 else None


def try_two_servers(server_program, top):
    folder = top / "two"
    folder.mkdir()
    old = running(server_program, folder)
    expect("the first day", post(old, 100), (200, True))
    both_removed(folder)
    new = running(server_program, folder)
    expect("a day by the second server", post(new, 100), (200, True))
    by_old = [post(old, day)[1] for day in range(101, 105)]
    by_new = [post(new, day)[1] for day in range(105, 108)]
    for server in (old, new):
        server.child.kill()
        server.child.wait()
    expect("days stored by the server whose file is gone", any(by_old), False)
    expect("days stored by the one that has the folder", all(by_new), True)
    print("two servers in one folder: the one whose file is gone stores nothing, the other all")


def try_lost(office, top, name, cause, make):
    """A file that was lost while no program ran: it is refused with its cause, and left as it is."""
    folder = top / name
    folder.mkdir()
    make(folder)
    before = {path.name: path.read_bytes() for path in folder.iterdir()}
    for words in (["days"], ["tariff", "0", "50", "40", "5"]):
        done = subprocess.run([office, *words], cwd=folder, capture_output=True, text=True)
        expect(f"{name}, {words}: status", done.returncode, 6)
        expect(f"{name}, {words}: cause", done.stderr, f"toll_office: {KEPT}: {cause}\n")
    after = {path.name: path.read_bytes() for path in folder.iterdir()}
    expect(f"{name}: files", set(after) - {LOG}, set(before) - {LOG})
    expect(f"{name}: bytes", after[KEPT] if KEPT in after else None, before.get(KEPT))
    expect(f"{name}: bytes of the log", after.get(LOG, b""), before.get(LOG, b""))
    print(f"{name}: refused, left as it is")


def with_days(server_program, top):
    """The file and the log of a server that was killed behind two days, the log with their pages where it has them."""
    folder = top / "killed"
    folder.mkdir()
    server = running(server_program, folder)
    for day in (100, 101):
        expect("a day", post(server, day), (200, True))
    server.child.kill()
    server.child.wait()
    return (folder / KEPT).read_bytes(), (folder / LOG).read_bytes()


def left_over(kept):
    """A log with pages, as sqlite3 leaves it where it is killed behind a commit."""
    with tempfile.TemporaryDirectory() as folder:
        path = pathlib.Path(folder) / KEPT
        path.write_bytes(kept)
        code = ("import os, sqlite3\ndb = sqlite3.connect('tolls.db')\ndb.execute('PRAGMA journal_mode = WAL')\n"
                "db.execute('DELETE FROM tariffs')\ndb.execute('INSERT INTO tariffs VALUES (3, 1, 1, 1)')\ndb.commit()\n"
                "os._exit(0)\n")
        subprocess.run([sys.executable, "-c", code], cwd=folder, check=True)
        log = (pathlib.Path(folder) / LOG).read_bytes()
    if len(log) <= 41:
        fail("sqlite3 left no log with pages")
    return log


def main():
    if len(sys.argv) != 3:
        sys.exit(__doc__)
    server_program, office = (os.path.realpath(word) for word in sys.argv[1:])
    with tempfile.TemporaryDirectory() as top:
        top = pathlib.Path(top)
        kept, own_log = with_days(server_program, top)
        log = own_log if len(own_log) > 41 else left_over(kept)
        try_lost(office, top, "an empty file beside a log with pages", EMPTIED,
                 lambda folder: [(folder / KEPT).write_bytes(b""), (folder / LOG).write_bytes(log)])
        try_lost(office, top, "no file beside a log with pages", EMPTIED, lambda folder: [(folder / LOG).write_bytes(log)])
        try_lost(office, top, "a file of a byte", NOT_OURS, lambda folder: [(folder / KEPT).write_bytes(b"h")])
        for name, text in (("an empty file", b""), ("a file of a zero byte", b"\0")):
            folder = top / name
            folder.mkdir()
            (folder / KEPT).write_bytes(text)
            expect(f"{name}: days", found(office, folder), set())
            print(f"{name}: made anew")
        for harm, fails in HARMS.items():
            try_harm(server_program, office, top, harm, fails)
        try_two_servers(server_program, top)


if __name__ == "__main__":
    main()
