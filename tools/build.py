#!/usr/bin/env python3
"""Proves programs and the libraries below them, several at a time, and leaves each program at crates/NAME/out/NAME.

    python3 tools/build.py [NAME ..]

NAME is a program of crates.txt; without one it is toll_office. The crates are copied to a folder of their own, without their
wrong edits, and `rt ci` proves them there from nothing: as many at a time as there are processors, if there are 4 GB of free
memory for each; RT_JOBS sets another number. Where the kit keeps what passed (`rt help` says `rt ci NAME`), a second run, and
`rt ci` at the top, prove only what has changed since; else each proves all. `rt run` does not look there. The script ends
with the status of `rt ci`, and leaves no program unless that is 0.
"""
import argparse
import os
import pathlib
import re
import shutil
import subprocess
import sys
import tempfile
import time

from write_docs import TOP, crates

NO_COPY = shutil.ignore_patterns("out", "must-fail")
A_CHECK = 4.0
# the most memory that a group of processes may have, by the two ways in which Linux says it
LIMITS = ("/sys/fs/cgroup/memory.max", "/sys/fs/cgroup/memory/memory.limit_in_bytes")


def stand_on(names):
    """These crates and all that they stand on."""
    table, found, left = crates(), set(), list(names)
    while left:
        name = left.pop()
        if name in table and name not in found:
            found.add(name)
            left += table[name]
    return found


def at_a_time(gigabytes):
    """How many crates are proved at a time, if each takes so much memory."""
    told = re.search(r"^MemAvailable:\s+(\d+) kB", pathlib.Path("/proc/meminfo").read_text(), re.M)
    free = int(told[1]) * 1024
    for limit in map(pathlib.Path, LIMITS):
        if limit.is_file() and limit.read_text().strip().isdigit():
            free = min(free, int(limit.read_text()))
    return max(1, min(len(os.sched_getaffinity(0)), int(free / (1 << 30) // gigabytes)))


def copy(names, to):
    """Copies these crates, their lines of crates.txt and HANDLES."""
    for name in names:
        shutil.copytree(TOP / "crates" / name, to / "crates" / name, ignore=NO_COPY)
    lines = (TOP / "crates.txt").read_text().splitlines(True)
    (to / "crates.txt").write_text("".join(it for it in lines if it.partition(":")[0].strip() in names))
    shutil.copy(TOP / "HANDLES", to)


def take(name, made):
    """Puts a built program where it is run; one that runs just now is not disturbed."""
    out = TOP / "crates" / name / "out"
    out.mkdir(exist_ok=True)
    shutil.copy(made / "crates" / name / "out" / name, out / f"{name}.new")
    os.replace(out / f"{name}.new", out / name)
    print(f"crates/{name}/out/{name}")


def main():
    words = argparse.ArgumentParser(description=__doc__, formatter_class=argparse.RawDescriptionHelpFormatter)
    words.add_argument("names", metavar="NAME", nargs="*", default=["toll_office"])
    names = words.parse_args().names
    for name in names:
        if not (TOP / "crates" / name / "src/main.rt").exists():
            sys.exit(f"{name} is no program of crates.txt")
    began = time.time()
    with tempfile.TemporaryDirectory(prefix="ductchervil-") as folder:
        made = pathlib.Path(folder)
        copy(stand_on(names), made)
        env = {**os.environ, "RT_JOBS": os.environ.get("RT_JOBS") or str(at_a_time(A_CHECK))}
        ran = subprocess.run(["rt", "ci"], cwd=made, env=env)
        if ran.returncode:
            sys.exit(ran.returncode)
        for name in names:
            take(name, made)
    print(f"proved and built in {(time.time() - began) / 60:.1f} minutes")


if __name__ == "__main__":
    main()
