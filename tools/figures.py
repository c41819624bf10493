#!/usr/bin/env python3
"""Prints the processor time and the memory that each crate took in a gate, as one table.

    python3 tools/figures.py LOG

LOG is what `.ci/run` printed; `rt ci` itself tells no times, so tools/gate.py watches what it starts. A crate has seconds for its
proof, for that of its tests, for what the two compilers make of it and for its wrong edits, each to a second or two for each
process; the memory is that of the largest process. What an earlier run had kept takes no time.
"""
import pathlib
import re
import sys

KINDS = ["proved", "tests", "built", "edits"]


def main():
    if len(sys.argv) != 2:
        sys.exit(__doc__)
    rows, memory = {}, {}
    for line in pathlib.Path(sys.argv[1]).read_text(errors="replace").splitlines():
        told = re.fullmatch(r"figure (\w+) (\w+) (\d+) (\d+)", line)
        if told:
            rows.setdefault(told[1], {})[told[2]] = int(told[3])
            memory[told[1]] = max(memory.get(told[1], 0), int(told[4]))
    if not rows:
        sys.exit("this log has no figures: they stand behind what rt ci says")
    print(f"| Crate | {' | '.join(it.capitalize() for it in KINDS)} | Together, s | MB |")
    print("|---|" + "---|" * (len(KINDS) + 2))
    for crate, found in sorted(rows.items(), key=lambda it: -sum(it[1].values())):
        seconds = " | ".join(str(found.get(it, "")) for it in KINDS)
        print(f"| `{crate}` | {seconds} | {sum(found.values())} | {memory[crate]} |")
    sums = [sum(it.get(kind, 0) for it in rows.values()) for kind in KINDS]
    print(f"| together | {' | '.join(map(str, sums))} | {sum(sums)} | {max(memory.values())} |")
    print(f"\n{sum(sums) / 60:.0f} processor minutes")


if __name__ == "__main__":
    main()
