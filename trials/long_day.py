#!/usr/bin/env python3
"""The day of a million lines and one, apart from the program: what crates/example_day must print of it.

    python3 trials/long_day.py          what must be printed; with --check, the script fails where the crate's `stdout` ends otherwise
    python3 trials/long_day.py --lines  the day's lines

The lines are made by the rule below; the notices and charges come from examples/plain.c, which was written from the rules alone. It
wants a C compiler.
"""
import hashlib
import subprocess
import sys
import tempfile

from office import TOP, compiled

STORED = TOP / "crates/example_day/stdout"
TURNS, VEHICLES = 101, 9901


def line(turn, vehicle):
    """What a vehicle sends in a turn of half a minute.

    Each hundredth vehicle asks for the balance of the one before it. The others report: 300 drive together, a mile in four turns
    and a mile before the next 300, on two expressways both ways. Two of each 600 come to a place and stand there for seven turns.
    """
    if vehicle % 100 == 99:
        return f"2,{30 * turn},{vehicle - 1}" + ",-1" * 6 + f",{turn}" + ",-1" * 5
    group = vehicle // 300
    begin = 20 + group
    stands = vehicle % 600 in (0, 20) and begin <= turn < begin + 8
    seen = begin if stands else turn
    speed = 0 if seen != turn else 20 + vehicle % 7 * 5 + (group + turn) % 20
    direction, mile = vehicle // 2 % 2, group + seen // 4
    segment = 99 - mile if direction else mile
    place = f"{vehicle % 2},{(vehicle + seen // 8) % 5},{direction},{segment},{segment * 5280 + seen % 4 * 1320}"
    return f"0,{30 * turn},{vehicle},{speed},{place}" + ",-1" * 6


def figures(lines):
    """Lines, bytes, notices and the sum of charges, the notices alone, and the digests of lines and notices."""
    with tempfile.TemporaryDirectory() as top:
        plain = compiled("plain", top)
        notices = subprocess.run([plain], input=lines, stdout=subprocess.PIPE, check=True).stdout
        charges = subprocess.run([plain, "charges", "100"], input=lines, stdout=subprocess.PIPE, check=True).stdout
    total = sum(int(row.split(b",")[3]) for row in charges.splitlines()[1:])
    tuples, told = lines.count(b"\n"), notices.count(b"\n")
    said = f"{tuples} tuples, {len(lines)} bytes, {told} notices, {total} charged"
    return said, told, hashlib.sha256(lines).hexdigest(), hashlib.sha256(notices).hexdigest()


def main():
    lines = "".join(line(turn, it) + "\n" for turn in range(TURNS) for it in range(VEHICLES)).encode()
    if "--lines" in sys.argv:
        sys.stdout.buffer.write(lines)
        return
    said, told, read, notices = figures(lines)
    kept = "".join(f"{it}: {said}\nlines {read}\nnotices {notices}\n" for it in ("stored", "already"))
    text = f"answered: {said}\naudited: # agree notices {told}\nstatus 0\n{kept}"
    if "--check" in sys.argv and not STORED.read_text().endswith(text):
        sys.exit(f"{STORED} does not end with\n{text}")
    print(text, end="")


if __name__ == "__main__":
    main()
