"""What the trials share: a folder with a built program in it, what it answers and keeps, and what is expected of it."""
import contextlib
import os
import pathlib
import re
import shutil
import socket
import sqlite3
import subprocess
import sys

TOP = pathlib.Path(__file__).resolve().parent.parent
DATA = TOP / "examples/day"
SOURCES = {"day": TOP / "bench/day.c", "plain": TOP / "examples/plain.c"}
TABLES = ("days", "spent", "past", "day_tariffs", "tariffs", "form")


def fail(text):
    sys.exit(f"not as expected: {text}")


def expect(what, found, wanted):
    if found != wanted:
        fail(f"{what}: found {found!r:.400}, wanted {wanted!r:.400}")


class Office:
    """A folder and the program that runs in it."""

    def __init__(self, program, folder):
        self.program, self.folder = os.path.realpath(program), pathlib.Path(folder)
        self.folder.mkdir(exist_ok=True)

    def told(self, *words, text="", **environment):
        """The status of a command, and what it writes to standard output and standard error."""
        done = subprocess.run([self.program, *map(str, words)], input=text.encode(), cwd=self.folder, stdout=subprocess.PIPE,
                              stderr=subprocess.PIPE, env={**os.environ, **environment})
        return done.returncode, done.stdout.decode(), done.stderr.decode()

    def run(self, *words, text="", status=0):
        """What a command writes, where it ends with that status."""
        found, out, _ = self.told(*words, text=text)
        expect(f"status of {words} in {self.folder.name}, after {out[-80:]!r}", found, status)
        return out

    def copy(self, folder):
        shutil.copytree(self.folder, folder)
        return Office(self.program, folder)

    def notices(self, lines):
        """Puts these lines where `validate` and `audit` look for notices."""
        (self.folder / "notices.txt").write_text("".join(line + "\n" for line in lines))

    def rows(self, query, *values):
        """What SQLite finds in the kept file."""
        with contextlib.closing(sqlite3.connect(self.folder / "tolls.db")) as database:
            return database.execute(query, values).fetchall()

    def size(self):
        return os.path.getsize(self.folder / "tolls.db")


def tables():
    """The texts that make the six tables, as the definitions have them, by name."""
    text = (TOP / "crates/keep_tables/specs/Texts.antt").read_text()
    found = {}
    for name in TABLES:
        body = re.search(rf"^make_{name} =(.*?)(?=\n\n)", text, re.S | re.M).group(1)
        found[name] = "".join(re.findall(r'codes "((?:[^"\\]|\\.)*)"', body)).replace("\\n", "\n")
    return found


def change_by_hand(kept, steps, text=""):
    """Runs statements on a kept file, as another hand may; of the steps each may have values."""
    with contextlib.closing(sqlite3.connect(kept)) as database, database:
        for step in filter(None, steps):
            database.execute(*(step if isinstance(step, tuple) else (step,)))
        database.commit()
        database.executescript(text)


def compiled(name, folder):
    """A program of comparison, built into a folder: `day` makes days, `plain` reckons them."""
    program = pathlib.Path(folder) / name
    subprocess.run(["cc", "-O2", "-o", program, SOURCES[name]], check=True)
    return program


def preloaded(name, folder):
    """A library of this folder that makes calls of the system fail, built for LD_PRELOAD."""
    library = pathlib.Path(folder) / f"{name}.so"
    source = TOP / "trials" / f"{name}.c"
    subprocess.run(["cc", "-O2", "-shared", "-fPIC", "-o", library, source, "-ldl"], check=True)
    return str(library)


def free_port():
    with socket.socket() as probe:
        probe.bind(("127.0.0.1", 0))
        return probe.getsockname()[1]
