#!/usr/bin/env python3
"""Makes generated files by docs/TRAFFIC.md alone, and compares them with the rows of crates/tests_road/ROWS.md by their marks.

    python3 tools/check_traffic.py [SEED VEHICLES MINUTES XWAYS CRASHES]

With a plan it writes the plan's file, as `toll_office generate` does. Without one it makes each plan of those rows, and ends with
status 1 if the lines, the bytes or the mark (FNV-1a of 64 bits) are others.
"""
import pathlib
import re
import sys

TOP = pathlib.Path(__file__).resolve().parent.parent
PLANS = TOP / "crates/tests_road/ROWS.md"
BITS = (1 << 64) - 1
STEP = 6364136223846793005


def out(s):
    """32 bits of a state."""
    x, turn = (((s >> 18) ^ s) >> 27) & 0xFFFFFFFF, s >> 59
    return ((x >> turn) | (x << (32 - turn))) & 0xFFFFFFFF


class Draws:
    def __init__(self, seed):
        words, x = [], seed
        for _ in range(4):
            x = (x * STEP + 11634580027462260723) & BITS
            words.append(out(x))
        a = words[0] | words[1] << 32
        self.b = words[2] | words[3] << 32 | 1
        self.state = ((a + self.b) * STEP + self.b) & BITS

    def draw(self, n):
        found = out(self.state)
        self.state = (self.state * STEP + self.b) & BITS
        return found % n


def report(time, vid, speed, xway, lane, way, place):
    return (time, vid, 0), f"0,{time},{vid},{speed},{xway},{lane},{way},{place // 5280},{place},-1,-1,-1,-1,-1,-1\n"


def made(seed, vehicles, minutes, xways, crashes):
    """The file of a plan."""
    g, end, found = Draws(seed), 60 * minutes, []
    for c in range(crashes):
        xway, way = g.draw(xways), int(g.draw(4) == 0)
        start, segment, stops = g.draw(30 * minutes), 44 + g.draw(4), 8 + g.draw(8)
        for second in (0, 1):
            for k in range(stops + 4):
                moves = max(0, k - stops + 1)
                place = 5280 * segment + 2640 + (-1 if way else 1) * 1320 * moves
                time = start + second + 30 * k
                lane = 4 if moves == 4 else 2
                if time < end:
                    found.append(report(time, 2 * c + 1 + second, 30 if moves else 0, xway, lane, way, place))
    for v in range(2 * crashes + 1, vehicles + 1):
        xway, way = g.draw(xways), int(g.draw(4) == 0)
        start, segment, reports, speed = g.draw(end), 40 + g.draw(4), 4 + g.draw(33), 10 + g.draw(41)
        past = 1 + g.draw(69) if v % 50 == 0 else None
        for k in range(reports):
            lane = 0 if k == 0 else 4 if k == reports - 1 else 1 + v % 3
            place = 5280 * segment + 100 + (-1 if way else 1) * 44 * speed * k
            if start + 30 * k < end:
                found.append(report(start + 30 * k, v, speed, xway, lane, way, place))
        asked = start + 151
        if v % 10 == 0 and reports > 5 and asked < end:
            found.append(((asked, v, 2), f"2,{asked},{v},-1,-1,-1,-1,-1,-1,{v},-1,-1,-1,-1,-1\n"))
            if past:
                found.append(((asked, v, 3), f"3,{asked},{v},-1,{xway},-1,-1,-1,-1,{v},-1,-1,-1,-1,{past}\n"))
    return "".join(line for _, line in sorted(found))


def mark(text):
    found = 0xCBF29CE484222325
    for byte in text.encode():
        found = (found ^ byte) * 0x100000001B3 & BITS
    return found


def number(said):
    """A number as ROWS writes it, with a power and a sum perhaps."""
    base = re.fullmatch(r"2\^(\d+)(?: ([+-]) (\d+))?", said)
    if not base:
        return int(said)
    return 2 ** int(base[1]) + (int(base[3]) if base[2] == "+" else -int(base[3] or 0))


def main():
    if len(sys.argv) == 6:
        sys.stdout.write(made(*map(int, sys.argv[1:])))
        return
    rows = re.findall(r"plan ([^|:]*?)(?::[^|]*)? \| ([\d,]+) lines, ([\d,]+) bytes, mark (\d+) \|", PLANS.read_text())
    wrong = 0
    for plan, *wanted in rows:
        text = made(*map(number, plan.split(", ")))
        found = [text.count("\n"), len(text), mark(text)]
        if found != [int(it.replace(",", "")) for it in wanted]:
            wrong += 1
            print(f"plan {plan}: found {found}, wanted {wanted}")
    print(f"{len(rows)} plans of crates/tests_road/ROWS.md made by docs/TRAFFIC.md, {wrong} wrong")
    sys.exit(1 if wrong or not rows else 0)


if __name__ == "__main__":
    main()
