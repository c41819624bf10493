#!/usr/bin/env python3
"""Tries the office on files that are not its own, or are spoiled.

    python3 trials/try_foreign.py PROGRAM

PROGRAM is the executable toll_office. python's sqlite3 makes each file under the name of the kept file: a file of
another hand, a mixture of tables, one table more or less, a later version, a kept day without its seal; others are no
database, locked by another program, replaced under a command, empty beside a log with pages, linked, not to be written
to, on a full disk, or in a folder that is gone; or no number is drawn. Each command that comes upon one must end with
status 6 and the closing line of a keeper's fault, say the cause in one line on standard error, and leave the bytes of
the file as they were. Beside them a file of version 1 and one without tables must be taken over and made, a source that
fails and a close that fails must be said, and what goes well must be silent. A row of a user other than root or of a
full disk is passed over where this script may not change the user or mount; it says so. The script ends with status 1
at the first difference.
"""
import contextlib
import os
import pathlib
import shutil
import sqlite3
import subprocess
import sys
import tempfile
import time

from office import fail, preloaded, tables

DIGEST = bytes.fromhex("e3b0c44298fc1c149afbf4c8996fb92427ae41e4649b934ca495991b7852b855")
LINE = "0,0,7,30,0,0,0,10,52800,-1,-1,-1,-1,-1,-1\n"
NOTICE = "0,7,0,-1,0\n"
# each command with what stands on its standard input
COMMANDS = {
    "day 100": "",
    "export 100": "",
    "vehicle 7 31 99": "",
    "tariffs": "",
    "tariff 0 50 40 5": "",
    "past 100": "7,69,0,28\n",
    "answers 100": LINE,
    "import 100": LINE,
    "validate 100": LINE,
    "audit 100": LINE,
    "days": "",
    "charges 1 100": "",
    "renew 101": "",
}
PUTS = ("tariff 0 50 40 5", "import 101", "renew 101")
OF_A_DAY = ("day 100", "export 100", "import 100", "days")
OF_TARIFFS = ("tariffs", "answers 100", "validate 100", "audit 100")
OF_A_HISTORY = ("past 100", "import 100", "days")

# the causes, as docs/FORMATS.md lists them
IN_USE = "another program has it open"
JOURNAL = "a journal of another program lies beside it, or something else has that name"
READ_ONLY = "it or its folder may not be written to"
NOT_PLAIN = "it is a link, a folder or a device, or has a second name"
SPOILED = "a page of it is spoiled"
NOT_OURS = "it is no database of these programs"
OTHER_VERSION = "it is of another version than 2"
ODD_ROW = "a row of it is not as these programs write it"
UNOPENED = "it cannot be opened"
NO_NUMBER = "the system gave no random number"
UNREADABLE = "a page or a row of it is spoiled, or the disk failed"
NO_ROOM = "there is no room for it on the disk"
REPLACED = "it was replaced, removed or emptied while it was open, or its log was, or it got a second name"
EMPTIED = "it is empty or missing, but its log is not: put the file back, or move the log away"
# a log that has pages is longer than this
NO_PAGE = 41


TABLES = tables()
FIRST = [TABLES[name] for name in ("days", "spent", "past")]
ALL = list(TABLES.values())
A_DAY = ("INSERT INTO days VALUES (100, ?, 0, 0, 0, ?, 0)", (DIGEST, DIGEST))
SEAL = ("INSERT INTO day_tariffs VALUES (100, ?)", (DIGEST,))
SECOND = "INSERT INTO form VALUES (1, 2)"

# what makes each file, the commands that come upon what is odd in it, and the cause that they say
ODD = {
    "another hand's": (["CREATE TABLE notes (id INTEGER PRIMARY KEY, text TEXT)",
                        "INSERT INTO notes VALUES (1, 'kept')"], COMMANDS, NOT_OURS),
    "another hand's table of days": (["CREATE TABLE days (day INTEGER PRIMARY KEY, note TEXT)"], COMMANDS, NOT_OURS),
    "another hand's table of versions": (["CREATE TABLE form (one INTEGER PRIMARY KEY, version INTEGER)"], COMMANDS,
                                         OTHER_VERSION),
    "version 1 beside another table": (FIRST + [A_DAY, "CREATE TABLE notes (id INTEGER PRIMARY KEY)"], COMMANDS, NOT_OURS),
    "version 1 beside an index": (FIRST + [A_DAY, "CREATE INDEX by_tolls ON spent (tolls)"], COMMANDS, NOT_OURS),
    "version 1 without a table": (FIRST[:2] + [A_DAY], COMMANDS, NOT_OURS),
    "version 1 in other words": (FIRST[:2] + [FIRST[2].replace("rows_kept", "rows_left")], COMMANDS, NOT_OURS),
    "one table of version 2": ([TABLES["day_tariffs"]], COMMANDS, NOT_OURS),
    "a later version": (ALL + [A_DAY, SEAL, "INSERT INTO form VALUES (1, 3)"], COMMANDS, OTHER_VERSION),
    "no version": (ALL + [A_DAY, SEAL], COMMANDS, OTHER_VERSION),
    "a day without its seal": (ALL + [A_DAY, SECOND], OF_A_DAY, UNREADABLE),
    "a digest that is short": (ALL + [A_DAY, SEAL, SECOND, "UPDATE days SET digest = x'00'"], OF_A_DAY, UNREADABLE),
    "a day without its seal, in pages of 512 bytes": (["PRAGMA page_size = 512"] + ALL + [A_DAY, SECOND], OF_A_DAY, ODD_ROW),
    "a tariff of no expressway": (ALL + [A_DAY, SEAL, SECOND, "INSERT INTO tariffs VALUES (256, 50, 40, 5)"], OF_TARIFFS,
                                  UNREADABLE),
    "no table of tariffs": ([it for it in ALL if it != TABLES["tariffs"]] + [A_DAY, SEAL, SECOND], OF_TARIFFS, ODD_ROW),
    "no table of seals": ([it for it in ALL if it != TABLES["day_tariffs"]] + [A_DAY, SECOND], OF_A_DAY, ODD_ROW),
    "a table more": (ALL + [A_DAY, SEAL, SECOND, "CREATE TABLE notes (id INTEGER PRIMARY KEY)"], ("renew 101",), NOT_OURS),
    "an index more": (ALL + [A_DAY, SEAL, SECOND, "CREATE INDEX by_tolls ON spent (tolls)"], ("renew 101",), NOT_OURS),
    "pages of 512 bytes": (["PRAGMA page_size = 512"] + ALL + [A_DAY, SEAL, SECOND], ("renew 101",), NOT_OURS),
    "a trigger on the days": (ALL + [A_DAY, SEAL, SECOND, "CREATE TRIGGER told AFTER INSERT ON days BEGIN DELETE FROM tariffs; END"],
                              (*OF_A_DAY, "past 100", "charges 1 100", "renew 101"), ODD_ROW),
    "a history of base 69": (ALL + [SECOND, ("INSERT INTO past VALUES (1, 69, ?, 0, 0)", (DIGEST,))], OF_A_HISTORY,
                             UNREADABLE),
}
OURS = ALL + [A_DAY, SEAL, SECOND]


def make(path, steps):
    """A file in which these statements were run, beside the notices of LINE."""
    db = sqlite3.connect(path)
    for step in steps:
        text, values = step if isinstance(step, tuple) else (step, ())
        db.execute(text, values)
    db.commit()
    db.close()
    path.with_name("notices.txt").write_text(NOTICE)


def run(program, folder, words, text, **how):
    given = {"stdin": text} if isinstance(text, int) else {"input": text}
    done = subprocess.run([program, *words.split()], cwd=folder, capture_output=True, text=True, **given, **how)
    return done.returncode, done.stdout, done.stderr


def refused(program, folder, name, words, cause, **how):
    """A command ends with a fault, says this cause, and the file is what it was."""
    kept = pathlib.Path(folder) / "tolls.db"
    before = kept.read_bytes() if kept.is_file() else None
    status, out, err = run(program, folder, words, COMMANDS.get(words.partition(" --wait")[0], LINE), **how)
    if status != 6 or not out.endswith("# keeper fault\n"):
        fail(f"{name}, {words}: status {status}, {out!r}")
    if err != f"toll_office: tolls.db: {cause}\n":
        fail(f"{name}, {words}: on standard error {err!r}")
    if (kept.read_bytes() if kept.is_file() else None) != before:
        fail(f"{name}, {words}: the file is not what it was")


def odd(program, name, steps, commands, cause):
    """Each command ends with a fault, and the file is what it was."""
    for words in commands:
        with tempfile.TemporaryDirectory() as folder:
            make(pathlib.Path(folder) / "tolls.db", steps)
            refused(program, folder, name, words, cause)
    print(f"left alone: {name}, by {len(commands)} commands")


def beside(program, name, cause, change, **how):
    """The same of a file of ours, to which something was done, or beside which something lies."""
    for words in COMMANDS:
        with tempfile.TemporaryDirectory() as folder:
            kept = pathlib.Path(folder) / "tolls.db"
            make(kept, OURS)
            change(kept)
            refused(program, folder, name, words, cause, **how)
    print(f"left alone: {name}, by {len(COMMANDS)} commands")


def spoiled(kept):
    """The pages behind the first are not those of trees."""
    data = bytearray(kept.read_bytes())
    data[4096:] = b"\xff" * (len(data) - 4096)
    kept.write_bytes(data)


def linked(kept):
    """The file has a second name."""
    os.link(kept, kept.with_name("second"))


def replaced(kept):
    """A folder has the file's name."""
    kept.unlink()
    kept.mkdir()


def undrawn(program):
    """The system gives no random number for an opening."""
    with tempfile.TemporaryDirectory() as folder:
        how = {"env": {**os.environ, "LD_PRELOAD": preloaded("fail_streams", folder), "UNDRAWN": "1"}}
        beside(program, "a file for whose opening no number is drawn", NO_NUMBER, lambda kept: None, **how)


def gone(program):
    """The folder in which the program runs was removed."""
    for words in COMMANDS:
        with tempfile.TemporaryDirectory() as outer:
            folder = pathlib.Path(outer) / "gone"
            folder.mkdir()
            command = ["sh", "-c", 'rmdir "$PWD" && exec "$@"', "sh", program, *words.split()]
            done = subprocess.run(command, cwd=folder, input=COMMANDS[words], capture_output=True, text=True)
            got = (done.returncode, done.stdout, done.stderr)
            if got != (6, "# keeper fault\n", f"toll_office: tolls.db: {UNOPENED}\n"):
                fail(f"a folder that is gone, {words}: {got}")
    print(f"said: a folder that is gone, by {len(COMMANDS)} commands")


def in_use(program):
    """Another program, which waits for its input, has the file open."""
    with tempfile.TemporaryDirectory() as folder:
        make(pathlib.Path(folder) / "tolls.db", OURS)
        words = [program, "import", "101"]
        other = subprocess.Popen(words, cwd=folder, stdin=subprocess.PIPE, stdout=subprocess.DEVNULL)
        try:
            for _ in range(200):
                if other.poll() is not None:
                    # the look below had the file just then
                    other = subprocess.Popen(words, cwd=folder, stdin=subprocess.PIPE, stdout=subprocess.DEVNULL)
                    time.sleep(0.2)
                if run(program, folder, "tariffs --wait 0", "")[0] == 6:
                    break
                time.sleep(0.05)
            for command in COMMANDS:
                refused(program, folder, "in use", f"{command} --wait 0", IN_USE)
            begun = time.monotonic()
            refused(program, folder, "in use", "tariff 0 50 40 5 --wait=1", IN_USE)
            if not 1 <= time.monotonic() - begun < 10:
                fail(f"a file in use: waited {time.monotonic() - begun:.1f} s and not 1")
            waits = subprocess.Popen([program, "tariff", "0", "50", "40", "5", "--wait", "60"], cwd=folder,
                                     stdout=subprocess.PIPE, stderr=subprocess.PIPE, text=True)
            time.sleep(1)
            if waits.poll() is not None:
                fail(f"a file in use: a command that may wait 60 s ended, {waits.communicate()}")
        finally:
            other.kill()
            other.wait()
        said = waits.communicate(timeout=60)
        if waits.returncode != 0 or said[1]:
            fail(f"a file in use until then: status {waits.returncode}, {said}")
        if run(program, folder, "tariffs", "")[1] != "0,50,40,5\n":
            fail("a file in use until then: the tariff is not kept")
    print(f"left alone: a file in use, by {len(COMMANDS)} commands, and put to once it was free")


def replaced_under(program):
    """The file is replaced under a command that waits for its input."""
    with tempfile.TemporaryDirectory() as folder:
        kept = pathlib.Path(folder) / "tolls.db"
        make(kept, OURS)
        held = subprocess.Popen([program, "import", "101"], cwd=folder, stdin=subprocess.PIPE, stdout=subprocess.PIPE,
                                stderr=subprocess.PIPE, text=True)
        while run(program, folder, "tariffs --wait 0", "")[0] != 6:
            time.sleep(0.05)
        # it has the file; a moment later it has asked it all that comes before the input
        time.sleep(0.5)
        before = kept.read_bytes()
        kept.with_name("copy").write_bytes(before)
        os.replace(kept.with_name("copy"), kept)
        out, err = held.communicate(LINE, timeout=60)
        if (held.returncode, out, err) != (6, f"{NOTICE}# keeper fault\n", f"toll_office: tolls.db: {REPLACED}\n"):
            fail(f"a file that is replaced: status {held.returncode}, {out!r}, {err!r}")
        if kept.read_bytes() != before:
            fail("a file that is replaced: the new one is not what it was")
    print("left alone: a file that took the place of the one that a command has open")


def emptied(program):
    """A log with pages lies beside an empty file, or beside none; a shorter one has none, and the file is made."""
    for name, text in (("an empty file", b""), ("no file", None)):
        for words in COMMANDS:
            with tempfile.TemporaryDirectory() as folder:
                kept, log = pathlib.Path(folder) / "tolls.db", pathlib.Path(folder) / "tolls.db-wal"
                make(kept, OURS)
                kept.unlink()
                if text is not None:
                    kept.write_bytes(text)
                log.write_bytes(bytes(NO_PAGE + 1))
                refused(program, folder, f"{name} beside a log with pages", words, EMPTIED)
                if log.read_bytes() != bytes(NO_PAGE + 1):
                    fail(f"{name} beside a log with pages, {words}: the log is not what it was")
                log.write_bytes(bytes(NO_PAGE))
                if run(program, folder, "days", "")[:2] != (0, "# days 0 last 0\n"):
                    fail(f"{name} beside a log without a page: it is not made")
        print(f"left alone: {name} beside a log with pages, by {len(COMMANDS)} commands")


def read_only(program):
    """Another user may read the file, and not write to it."""
    if os.geteuid() != 0:
        beside(program, "a file that may not be written to", READ_ONLY, lambda kept: kept.chmod(0o444))
        return
    with tempfile.TemporaryDirectory() as folder:
        os.chmod(folder, 0o755)
        mine = shutil.copy(program, folder)
        make(pathlib.Path(folder) / "tolls.db", OURS)
        for words in COMMANDS:
            refused(mine, folder, "read only", words, READ_ONLY, user=65534, group=65534, extra_groups=[])
    print(f"left alone: a file that may not be written to, by {len(COMMANDS)} commands")


@contextlib.contextmanager
def small_disk(size):
    """A folder on a disk of so many bytes; None where none may be mounted."""
    with tempfile.TemporaryDirectory() as folder:
        words = ["mount", "-t", "tmpfs", "-o", f"size={size}", "tmpfs", folder]
        if shutil.which("mount") is None or subprocess.run(words, capture_output=True).returncode != 0:
            yield None
            return
        try:
            yield pathlib.Path(folder)
        finally:
            subprocess.run(["umount", folder], check=True)


def fill(folder):
    """No byte more goes onto the disk."""
    with open(folder / "filler", "wb", buffering=0) as filler, contextlib.suppress(OSError):
        while True:
            filler.write(b"x" * 512)


def no_room(program):
    """The disk is full when a tariff or a day is to be kept."""
    for words in PUTS:
        with small_disk(1 << 20) as folder:
            if folder is None:
                print("passed over: a full disk, which may not be mounted here")
                return
            make(folder / "tolls.db", OURS)
            fill(folder)
            refused(program, folder, "no room", words, NO_ROOM)
    print(f"left alone: a file on a full disk, by {len(PUTS)} commands")


def not_closed(program):
    """The log has what goes into the file, and the disk is full: the day is told, and a line says the rest."""
    with small_disk(1 << 20) as folder:
        if folder is None:
            print("passed over: a close on a full disk, which may not be mounted here")
            return
        kept = folder / "tolls.db"
        make(kept, OURS)
        script = ("import os, sqlite3, sys\ndb = sqlite3.connect(sys.argv[1])\ndb.execute('PRAGMA journal_mode = WAL')\n"
                  "db.executemany('INSERT INTO spent VALUES (100, ?, 0, 1)', ((n,) for n in range(4000)))\n"
                  "db.execute('UPDATE days SET total = 4000')\n"
                  "db.commit()\nos._exit(0)\n")
        subprocess.run([sys.executable, "-c", script, kept], check=True)
        with contextlib.suppress(FileNotFoundError):
            os.remove(folder / "tolls.db-shm")
        fill(folder)
        status, out, err = run(program, folder, "day 100", "")
        if status != 0 or err != f"toll_office: tolls.db is not closed, what was put lies in its log: {NO_ROOM}\n":
            fail(f"a close on a full disk: status {status}, {out!r}, {err!r}")
    print("said: a close that failed")


def others(program):
    """A source that fails is said; what goes well, or is refused for another reason, says nothing."""
    with tempfile.TemporaryDirectory() as folder:
        source = os.open(folder, os.O_RDONLY)
        got = run(program, folder, "answers 100", source)
        os.close(source)
        if got != (4, "# read fault\n", "toll_office: standard input or notices.txt cannot be read\n"):
            fail(f"a source that fails: {got}")
        for words, text, wanted in (("import 100", LINE, 0), ("import 100", LINE, 0), ("day 100", "", 0), ("day 101", "", 3),
                                    ("words", "", 1), ("answers 101", "x\n", 2)):
            status, out, err = run(program, folder, words, text)
            if status != wanted or err:
                fail(f"{words}: status {status}, {out!r}, on standard error {err!r}")
    print("said: a source that failed, and nothing else")


def made(program, name, steps, words, wanted):
    """A command takes the file over, or makes its tables."""
    with tempfile.TemporaryDirectory() as folder:
        kept = pathlib.Path(folder) / "tolls.db"
        make(kept, steps)
        status, out, err = run(program, folder, words, COMMANDS[words])
        if status != wanted or err:
            fail(f"{name}, {words}: status {status}, {out!r}, {err!r}")
        db = sqlite3.connect(kept)
        version = db.execute("SELECT version FROM form").fetchall()
        db.close()
        if version != [(2,)]:
            fail(f"{name}, {words}: version {version}")
    print(f"taken over: {name}")


def main():
    if len(sys.argv) != 2:
        sys.exit(__doc__)
    program = pathlib.Path(sys.argv[1]).resolve()
    for name, (steps, commands, cause) in ODD.items():
        odd(program, name, steps, commands, cause)
    beside(program, "a text", NOT_OURS, lambda kept: kept.write_text("no database\n" * 1000))
    beside(program, "a page that is spoiled", SPOILED, spoiled)
    beside(program, "a journal beside it", JOURNAL, lambda kept: kept.with_name("tolls.db-journal").write_bytes(b"\xd9"))
    beside(program, "a second name", NOT_PLAIN, linked)
    beside(program, "a folder", NOT_PLAIN, replaced)
    undrawn(program)
    gone(program)
    in_use(program)
    replaced_under(program)
    emptied(program)
    read_only(program)
    no_room(program)
    not_closed(program)
    others(program)
    made(program, "version 1", FIRST + [A_DAY], "day 100", 0)
    made(program, "a file without tables", [], "day 100", 3)


if __name__ == "__main__":
    main()
