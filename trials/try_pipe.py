#!/usr/bin/env python3
"""Feeds a built toll_office a day over a pipe, so many lines a second, and looks when the notices of each round come.

    python3 trials/try_pipe.py PROGRAM [--lines N] [--rate N] [--block BYTES] [--backlog N]..

PROGRAM is the executable toll_office. Each line is the first report of a vehicle, so it has one notice. A line is
written as soon as its time has come, or with --block in blocks of so many bytes, as a program does that does not flush
its lines. For each backlog the greatest delay is printed between the last line of a full round and the last of its
notices. The script ends with status 1 if these came after the last line of a full next round, or if the notices are not
those of the lines.
"""
import argparse
import os
import subprocess
import sys
import tempfile
import threading
import time


def line(number, rate):
    """The first report of a vehicle, in a segment of its own for each fifty."""
    segment = number // 50 % 100
    return f"0,{number // rate},{number},30,0,1,0,{segment},{segment * 5280},-1,-1,-1,-1,-1,-1\n".encode()


def feed(pipe, lines, rate, block, began, written):
    """Writes each line when its time has come, and notes when it was written."""
    held, count = b"", 0
    for number in range(lines):
        wait = began + number / rate - time.monotonic()
        if wait > 0:
            time.sleep(wait)
        held, count = held + line(number, rate), count + 1
        if len(held) >= block or number + 1 == lines:
            os.write(pipe, held)
            written += [time.monotonic()] * count
            held, count = b"", 0
    os.close(pipe)


def heard(pipe):
    """The notices, and when each came."""
    text, came = b"", []
    while True:
        piece = os.read(pipe, 1 << 16)
        if not piece:
            return text.split(b"\n")[:-1], came
        text += piece
        came += [time.monotonic()] * piece.count(b"\n")


def run(program, backlog, asked):
    """The greatest delay of a full round, how many full rounds there are, and how many were told too late."""
    with tempfile.TemporaryDirectory() as folder:
        words = [program, "answers", "100", "--backlog", str(backlog)]
        with subprocess.Popen(words, stdin=subprocess.PIPE, stdout=subprocess.PIPE, cwd=folder) as office:
            written, began = [], time.monotonic()
            pipe = os.dup(office.stdin.fileno())
            office.stdin.close()
            writer = threading.Thread(target=feed, args=(pipe, asked.lines, asked.rate, asked.block, began, written))
            writer.start()
            told, came = heard(office.stdout.fileno())
            writer.join()
    wanted = [str(number).encode() for number in range(asked.lines)]
    if office.returncode or [it.split(b",")[1] for it in told[:-1]] != wanted:
        sys.exit(f"backlog {backlog}: the notices are not those of the lines; the last line is {told[-1:]}")
    delays, late = [], 0
    for end in range(backlog, asked.lines + 1, backlog):
        last = came[end - 1]
        delays.append(last - written[end - 1])
        late += end + backlog <= asked.lines and last > written[end + backlog - 1]
    return max(delays, default=0.0), len(delays), late


def main():
    words = argparse.ArgumentParser(description=__doc__, formatter_class=argparse.RawDescriptionHelpFormatter)
    words.add_argument("program")
    words.add_argument("--lines", type=int, default=10_500)
    words.add_argument("--rate", type=int, default=1_000)
    words.add_argument("--block", type=int, default=1)
    words.add_argument("--backlog", type=int, action="append")
    asked = words.parse_args()
    failed = 0
    for backlog in asked.backlog or [2_000, 500]:
        delay, rounds, late = run(os.path.realpath(asked.program), backlog, asked)
        print(f"backlog {backlog}: {rounds} full rounds, the greatest delay {delay:.3f} s, too late {late}", flush=True)
        failed += late
    sys.exit(1 if failed else 0)


if __name__ == "__main__":
    main()
