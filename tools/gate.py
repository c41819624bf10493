#!/usr/bin/env python3
"""The gate: `rt ci`, and behind it the repository's own checks. `.ci/run` calls it; it runs from any folder.

    .ci/run                proves, builds and tests every crate by `rt ci`, then runs the checks and the trials below
    .ci/run --checks       checks and trials alone, with the programs that the last run, or tools/build.py, left
    .ci/run --documents    the checks alone, which need no program
    .ci/run --trials       the trials alone

`rt ci` works on as many crates at a time as there are processors, if there are 7 GB of free memory for each; RT_JOBS sets
another number. A check says how long it took; one that fails shows what it printed, and fails the gate. A trial whose tools are
not on this machine is passed over, and said so. Behind `rt ci`, also one that is ended by SIGTERM, stand lines `figure CRATE WHAT
SECONDS MB`, the processor time and the memory of each crate, of which tools/figures.py makes a table. The last line is `N passed,
M failed`, of all together.
"""
import argparse
import os
import pathlib
import re
import shutil
import signal
import subprocess
import sys
import threading
import time

from build import at_a_time
from write_docs import TOP

A_JOB = 7.0
LIMIT = 600
OFFICE, SERVE = "crates/toll_office/out/toll_office", "crates/toll_serve/out/toll_serve"
CHECKS = ["tools/write_docs.py --check", "tools/pictures.py --check", "tools/check_docs.py", "tools/check_words.py",
          "tools/check_rows.py", "tools/check_traffic.py", "tools/contracts.py --check", "tools/check_heads.py",
          "tools/edits.py --stand", "trials/try_completion.py"]
# each with the tools that it needs
TRIALS = [(f"trials/try_commands.py {OFFICE}", ["cc"]), (f"trials/try_docs.py {OFFICE} {SERVE}", ["curl"]),
          (f"trials/try_foreign.py {OFFICE}", ["cc"]), (f"trials/try_renew.py {OFFICE}", []), (f"trials/try_unsound.py {OFFICE}", []),
          (f"trials/try_power.py {SERVE} {OFFICE} --images 100 --every 5", ["cc"]), (f"trials/try_left_over.py {OFFICE}", []),
          (f"trials/try_replaced.py {SERVE} {OFFICE}", []),
          (f"trials/try_new_folder.py {OFFICE}", ["sqlite3"]), (f"trials/try_serve.py {SERVE} --short", ["cc", "curl"]),
          ("trials/try_page.py", ["chromium"])]
SUMMARY = re.compile(r"(\d+) passed, (\d+) failed\b")
TICKS = os.sysconf("SC_CLK_TCK")


def say(line):
    print(line, flush=True)


class Figures(threading.Thread):
    """Watches what a process starts: of each crate and kind of work the processor seconds and the most memory of one process."""

    def __init__(self, top):
        super().__init__(daemon=True)
        self.top, self.seconds, self.memory, self.ended = top, {}, {}, threading.Event()

    def run(self):
        while not self.ended.wait(0.5):
            self.look()

    def look(self):
        """Adds what each piece of work, and what it started, has taken by now."""
        now = {}
        for name in filter(str.isdigit, os.listdir("/proc")):
            try:
                folder = pathlib.Path("/proc", name)
                fields = (folder / "stat").read_text().rpartition(")")[2].split()
                own, reaped = (sum(map(int, fields[at : at + 2])) / TICKS for at in (11, 13))
                peak = re.search(r"VmHWM:\s+(\d+)", (folder / "status").read_text())
                words = (folder / "cmdline").read_bytes().decode(errors="replace").split("\0")
                now[int(name)] = int(fields[1]), fields[19], own, reaped, int(peak[1]) / 1024 if peak else 0, words, os.readlink(folder / "cwd")
            except (OSError, ValueError, IndexError):
                continue
        taken = {}
        for pid, (_, _, own, _, peak, _, _) in now.items():
            root = self.root(pid, now)
            if root is None:
                continue
            _, start, _, reaped, _, words, folder = now[root]
            key = root, start, kind_of(words, folder)
            taken[key] = taken.get(key, reaped) + own
            self.memory[key[2]] = max(self.memory.get(key[2], 0), peak)
        for key, seconds in taken.items():
            self.seconds[key] = max(self.seconds.get(key, 0), seconds)

    def root(self, pid, now):
        """The piece of work that a process is part of: the first below the one that is watched that lies in a crate's folder."""
        found = None
        while pid in now and pid != self.top:
            words, folder = now[pid][5:7]
            if kind_of(words, folder):
                found = pid
            pid = now[pid][0]
        return found if pid == self.top else None

    def lines(self):
        sums = {}
        for (_, _, kind), seconds in self.seconds.items():
            sums[kind] = sums.get(kind, 0) + seconds
        for kind in sorted(sums):
            yield f"figure {kind[0]} {kind[1]} {sums[kind]:.0f} {self.memory[kind]:.0f}"


def kind_of(words, folder):
    """The crate that a command works on and what it does there, or none."""
    crate = re.search(r"/crates/(\w+)$", folder)
    if not crate or not os.path.basename(words[0]).startswith("rattle"):
        return None
    if not folder.startswith(f"{TOP}/"):
        return crate[1], "edits"
    if "--crate-checked" in words:
        return crate[1], "built"
    return crate[1], "tests" if "--test" in words else "proved"


def rt_ci():
    """Runs `rt ci`, shows what it says, and returns how much passed and failed. Its own last line is shown in other words."""
    env = {**os.environ, "RT_JOBS": os.environ.get("RT_JOBS") or str(at_a_time(A_JOB))}
    if not shutil.which("rt"):
        say("FAILED: there is no command rt; one of the kits in KIT gives it")
        return 0, 1
    say(f"rt ci, {env['RT_JOBS']} crates at a time")
    counts = (0, 0)
    with subprocess.Popen(["rt", "ci"], cwd=TOP, env=env, text=True, errors="replace", bufsize=1, stdin=subprocess.DEVNULL,
                          stdout=subprocess.PIPE, stderr=subprocess.STDOUT) as ran:
        signal.signal(signal.SIGTERM, lambda number, _: (ran.terminate(), sys.exit(128 + number)))
        figures = Figures(ran.pid)
        figures.start()
        try:
            for line in ran.stdout:
                told = SUMMARY.match(line)
                counts = (int(told[1]), int(told[2])) if told else counts
                say(f"rt ci: {line.rstrip()}" if told else line.rstrip("\n"))
        finally:
            figures.ended.set()
            figures.join()
            for line in figures.lines():
                say(line)
    if ran.returncode and not counts[1]:
        say(f"FAILED: rt ci ended with status {ran.returncode}")
        return counts[0], 1
    return counts


def checked(command):
    """Runs a script, says what came of it, and returns whether it passed."""
    script, *words = command.split()
    programs = [it for it in words if "/out/" in it and not (TOP / it).exists()]
    if programs:
        say(f"FAILED: {command}: there is no program {programs[0]}; rt ci or tools/build.py makes it")
        return False
    began = time.monotonic()
    try:
        ran = subprocess.run([sys.executable, TOP / script, *words], cwd=TOP, text=True, errors="replace", timeout=LIMIT,
                             stdin=subprocess.DEVNULL, stdout=subprocess.PIPE, stderr=subprocess.STDOUT)
        said, status = ran.stdout.rstrip(), ran.returncode
    except subprocess.TimeoutExpired as late:
        said, status = (late.stdout or b"").decode(errors="replace").rstrip() + f"\nit had not ended after {LIMIT} seconds", 1
    took = time.monotonic() - began
    if status:
        say(f"{said}\nFAILED: {command}, status {status}, {took:.0f} s")
    else:
        say(f"passed: {command}, {took:.0f} s: {said.splitlines()[-1] if said else 'nothing to say'}")
    return status == 0


def main():
    words = argparse.ArgumentParser(description=__doc__, formatter_class=argparse.RawDescriptionHelpFormatter)
    words.add_argument("--checks", action="store_true")
    words.add_argument("--documents", action="store_true")
    words.add_argument("--trials", action="store_true")
    given = words.parse_args()
    passed, failed, left = 0, 0, []
    if not (given.checks or given.documents or given.trials):
        passed, failed = rt_ci()
        left += ["rt ci"] * (failed > 0)
    began = time.monotonic()
    checks = [] if given.trials else [(it, []) for it in CHECKS]
    trials = [] if given.documents else TRIALS
    for command, tools in checks + trials:
        lacks = [it for it in tools if not shutil.which(it)]
        if lacks:
            say(f"passed over: {command}: no {', '.join(lacks)} on this machine")
        elif checked(command):
            passed += 1
        else:
            failed += 1
            left.append(command)
    say(f"checks and trials took {time.monotonic() - began:.0f} s")
    for it in left:
        say(f"FAILED: {it}")
    say(f"{passed} passed, {failed} failed")
    sys.exit(1 if failed else 0)


if __name__ == "__main__":
    main()
