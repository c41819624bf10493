#!/usr/bin/env python3
"""Draws the pictures of the documents into docs/pictures, as SVG that is readable on light and on dark pages.

    python3 tools/pictures.py [--check] [--dark FOLDER]

The layers are drawn from crates.txt, the bars from bench/speed.csv, the tables of the file from the definitions. With --check nothing is written, and the script ends with
status 1 where a picture would change. With --dark the dark forms are written to FOLDER, to be looked at.
"""
import argparse
import csv
import math
import pathlib
import re
import sys
from html import escape

from write_docs import TOP, crates, groups

OUT = TOP / "docs" / "pictures"
LIGHT = {"page": "#ffffff", "text": "#1f2328", "soft": "#59636e", "line": "#8c959f", "grid": "#e4e8ec",
         "blue": "#0969da", "green": "#1a7f37", "red": "#cf222e", "gold": "#9a6700", "violet": "#8250df",
         "blue-box": "#ddf4ff", "green-box": "#dafbe1", "red-box": "#ffebe9", "gold-box": "#fff8c5",
         "violet-box": "#fbefff", "grey-box": "#f3f5f7"}
DARK = {"page": "#0d1117", "text": "#e6edf3", "soft": "#9198a1", "line": "#767e88", "grid": "#262c34",
        "blue": "#58a6ff", "green": "#3fb950", "red": "#ff7b72", "gold": "#d29922", "violet": "#bc8cff",
        "blue-box": "#0c2d4d", "green-box": "#0f2f1b", "red-box": "#4a1618", "gold-box": "#3b2e05",
        "violet-box": "#2f1d4f", "grey-box": "#1c222a"}


def rules(colours):
    """The style: a class `NAME` strokes, `f-NAME` fills, and texts are filled by `t-NAME`."""
    found = []
    for name, colour in colours.items():
        found.append(f".{name}{{stroke:{colour}}}.f-{name}{{fill:{colour}}}.t-{name}{{fill:{colour};stroke:none}}")
    return "".join(found)


class Picture:
    """Shapes with classes for colours, and the SVG that has them. A text that may be wider than the picture is refused."""

    def __init__(self, width, height, title):
        self.width, self.height, self.title = width, height, title
        self.shapes = []

    def line(self, x1, y1, x2, y2, colour="line", wide=1.0, dash="", arrow=False):
        extra = f' stroke-dasharray="{dash}"' if dash else ""
        self.shapes.append(f'<line x1="{x1:g}" y1="{y1:g}" x2="{x2:g}" y2="{y2:g}" class="{colour}" '
                           f'stroke-width="{wide:g}"{extra}/>')
        if arrow:
            turn = math.atan2(y2 - y1, x2 - x1)
            ends = [(x2 - 8 * math.cos(turn + d), y2 - 8 * math.sin(turn + d)) for d in (-0.4, 0.4)]
            points = " ".join(f"{x:.1f},{y:.1f}" for x, y in [(x2, y2), *ends])
            self.shapes.append(f'<polygon points="{points}" class="f-{colour}"/>')

    def path(self, points, colour="line", wide=2.0, dash=""):
        text = " ".join(f"{x:.1f},{y:.1f}" for x, y in points)
        extra = f' stroke-dasharray="{dash}"' if dash else ""
        self.shapes.append(f'<polyline points="{text}" class="{colour}" fill="none" stroke-width="{wide:g}"{extra}/>')

    def box(self, x, y, w, h, fill="grey-box", colour="line", round=6, wide=1.0, dash=""):
        extra = f' stroke-dasharray="{dash}"' if dash else ""
        self.shapes.append(f'<rect x="{x:g}" y="{y:g}" width="{w:g}" height="{h:g}" rx="{round:g}" '
                           f'class="f-{fill} {colour}" stroke-width="{wide:g}"{extra}/>')

    def dot(self, x, y, colour="blue", size=4.0):
        self.shapes.append(f'<circle cx="{x:.1f}" cy="{y:.1f}" r="{size:g}" class="f-{colour}"/>')

    def text(self, x, y, said, colour="text", size=13, anchor="start", bold=False, code=False):
        long = len(said) * size * (0.61 if code else 0.57 if bold else 0.53)
        left = x - {"start": 0, "middle": long / 2, "end": long}[anchor]
        if left < 0 or left + long > self.width:
            sys.exit(f"{self.title}: no room for: {said}")
        weight = ' font-weight="600"' if bold else ""
        if code:
            weight += ' font-family="DejaVu Sans Mono, Menlo, Consolas, monospace" xml:space="preserve"'
        self.shapes.append(f'<text x="{x:g}" y="{y:g}" class="t-{colour}" font-size="{size:g}" '
                           f'text-anchor="{anchor}"{weight}>{escape(said)}</text>')

    def card(self, x, y, w, h, lines, fill="grey-box", colour="line", size=13):
        """A box with lines of text in its middle, the first one bold."""
        self.box(x, y, w, h, fill, colour)
        top = y + h / 2 - (len(lines) - 1) * (size + 4) / 2 + size * 0.35
        for i, said in enumerate(lines):
            self.text(x + w / 2, top + i * (size + 4), said, "text" if i == 0 else "soft", size, "middle", i == 0)

    def svg(self, dark):
        style = rules(DARK) if dark else rules(LIGHT) + f"@media (prefers-color-scheme: dark){{{rules(DARK)}}}"
        head = (f'<svg xmlns="http://www.w3.org/2000/svg" viewBox="0 0 {self.width} {self.height}" '
                f'width="{self.width}" height="{self.height}" font-family="Helvetica, Arial, DejaVu Sans, sans-serif">')
        page = f'<rect width="{self.width}" height="{self.height}" rx="8" class="f-page"/>'
        return "\n".join([head, f"<title>{escape(self.title)}</title>", f"<style>{style}</style>", page,
                          *self.shapes, "</svg>", ""])


def vehicle_day():
    """A vehicle's way in space and time: where it is told a toll, and where it is charged."""
    p = Picture(880, 420, "A vehicle's day in space and time")
    left, top, wide, high = 120, 50, 720, 300
    second = lambda t: left + t * wide / 240
    mile = lambda seg: top + high - (seg - 42) * high / 4
    for seg in range(42, 46):
        p.box(left, mile(seg + 1), wide, high / 4, "grey-box" if seg % 2 else "page", "grid", 0)
        p.text(left - 10, mile(seg + 0.5) + 4, f"segment {seg}", "soft", 13, "end")
    for t in range(0, 241, 30):
        p.line(second(t), top + high, second(t), top + high + 5)
        p.text(second(t), top + high + 20, str(t), "soft", 12, "middle")
    p.text(left + wide, top + high + 40, "seconds", "soft", 12, "end")
    p.text(20, 30, "A vehicle reports every 30 seconds. Each dot is a report.", "text", 14, bold=True)
    stays = [[(15, 42.35), (45, 42.7)], [(75, 43.15), (105, 43.5), (135, 43.85)], [(165, 44.3), (195, 44.7)],
             [(225, 45.25)]]
    every = [it for stay in stays for it in stay]
    p.path([(second(t), mile(at)) for t, at in every], "blue", 2.5)
    for stay in stays[:-1]:
        first = stay[0]
        p.dot(second(first[0]), mile(first[1]), "green", 7)
        for t, at in stay[1:]:
            p.dot(second(t), mile(at), "blue", 4.5)
    p.dot(second(225), mile(45.25), "gold", 7)
    note = lambda t, at, said, colour: p.text(second(t) + 12, mile(at) + 18, said, colour, 13, bold=True)
    note(15, 42.35, "is told the toll of segment 42", "green")
    note(75, 43.15, "is told the toll of 43, pays that of 42", "green")
    note(165, 44.3, "told the toll of 44, pays 43's", "green")
    p.text(second(225) - 12, mile(45.25) - 14, "in the exit lane: is told nothing, pays that of 44", "gold", 13, "end", True)
    p.text(20, 405, "A vehicle that leaves a segment by its exit lane is not charged for that segment.", "soft", 13)
    return p


def minutes():
    """The minutes that a toll looks at."""
    p = Picture(880, 250, "The minutes that a toll looks at")
    left, wide = 60, 108
    p.text(20, 30, "The toll of a segment in minute m looks back, never at minute m itself.", "text", 14, bold=True)
    for i, name in enumerate(["m - 6", "m - 5", "m - 4", "m - 3", "m - 2", "m - 1", "m"]):
        x = left + i * wide
        fill = "blue-box" if 1 <= i <= 5 else ("green-box" if i == 6 else "page")
        p.box(x, 60, wide, 44, fill, "line", 0)
        p.text(x + wide / 2, 87, name, "text" if i else "soft", 15, "middle", i == 6)
    p.line(left + wide + 4, 122, left + 6 * wide - 4, 122, "blue", 3)
    p.text(left + 3.5 * wide, 143, "average speed: the mean of the averages of these five minutes", "blue", 13, "middle")
    p.line(left + 5 * wide + 4, 160, left + 6 * wide - 4, 160, "gold", 3)
    p.text(left + 6 * wide - 4, 181, "cars: the vehicles that reported in this minute", "gold", 13, "end")
    p.line(left + 5 * wide + 4, 196, left + 6 * wide - 4, 196, "red", 3)
    p.text(left + 6 * wide - 4, 217, "accident: one that stood at any second of this minute, here or up to four segments ahead",
           "red", 13, "end")
    p.text(left + 6.5 * wide, 143, "the toll", "green", 13, "middle", True)
    p.text(left + 6.5 * wide, 160, "is told here", "green", 13, "middle", True)
    return p


def accident():
    """The segments behind an accident, in both directions."""
    p = Picture(880, 270, "The segments behind an accident")
    left, wide = 70, 74
    p.text(20, 30, "Two vehicles stand at one place in segment 10, for four reports each. In the minute after, no toll is",
           "text", 14, bold=True)
    p.text(20, 48, "asked in the red segments, and whoever enters one is warned.", "text", 14, bold=True)
    for row, (name, blocked, y) in enumerate([("eastbound", range(6, 11), 80), ("westbound", range(10, 15), 170)]):
        for i, seg in enumerate(range(5, 16)):
            x = left + i * wide - 24
            p.box(x, y, wide, 44, "red-box" if seg in blocked else "grey-box", "line", 0)
            p.text(x + wide / 2, y + 27, str(seg), "text", 14, "middle", seg == 10)
        x = left + 5 * wide - 24
        for d in (26, 48):
            p.dot(x + d, y + 36, "red", 5)
        ends = (left - 10, left + 150) if row == 0 else (left + 150, left - 10)
        p.line(ends[0], y + 60, ends[1], y + 60, "soft", 1.5, arrow=True)
        p.text(left + 165, y + 65, f"{name}: an accident on this side of the road", "soft", 13)
    return p


def pipeline():
    """A day from bytes to notices, with the threads that do it."""
    p = Picture(960, 420, "From bytes to notices, with the threads that do it")
    p.text(20, 30, "import: from the lines of a day to its notices", "text", 14, bold=True)
    p.text(20, 50, "What is written and kept is the same for every number of workers, in whatever order they work.", "soft", 13)
    for i, (name, fill, colour) in enumerate([("the program's own thread", "blue-box", "blue"),
                                              ("a helper thread, or its own", "green-box", "green"),
                                              ("a thread for the digest, or its own", "violet-box", "violet")]):
        p.box(20 + i * 240, 384, 18, 18, fill, colour, 3)
        p.text(46 + i * 240, 398, name, "soft", 12)
    blue = [(30, 80, 120, ["standard input", "bytes"]), (180, 80, 120, ["cut", "lines, numbered"]),
            (330, 80, 140, ["read and check", "tuples, or a refusal"]), (500, 80, 130, ["put in order", "late lines wait"]),
            (660, 80, 130, ["number", "the floor"]),
            (660, 300, 130, ["settle", "in the day's order"]), (500, 300, 130, ["write", "notices as text"]),
            (330, 300, 140, ["standard output", "bytes"])]
    for x, y, w, lines in blue:
        p.card(x, y, w, 60, lines, "blue-box", "blue")
    for x1, x2 in ((150, 180), (300, 330), (470, 500), (630, 660)):
        p.line(x1, 110, x2, 110, "line", 1.5, arrow=True)
    for x1, x2 in ((660, 630), (500, 470)):
        p.line(x1, 330, x2, 330, "line", 1.5, arrow=True)
    for i in range(3):
        y = 150 + i * 46
        p.card(820, y + 10, 120, 40, [f"worker {i + 1}" if i < 2 else ".. up to 64"], "green-box", "green")
    p.text(880, 315, "averages, accidents,", "soft", 12, "middle")
    p.text(880, 331, "tolls of its roads", "soft", 12, "middle")
    p.line(790, 120, 850, 158, "line", 1.5, arrow=True)
    p.text(800, 112, "events", "soft", 12)
    p.line(820, 235, 745, 298, "line", 1.5, arrow=True)
    p.text(734, 262, "findings", "soft", 12)
    p.line(725, 140, 725, 298, "line", 1.2, dash="4 4")
    p.text(718, 180, "their order", "soft", 12, "end")
    p.card(180, 190, 120, 54, ["digest", "SHA-256"], "violet-box", "violet")
    p.line(240, 140, 240, 188, "line", 1.5, arrow=True)
    p.card(500, 190, 130, 54, ["accounts", "who was told what"], "blue-box", "blue")
    p.line(690, 298, 625, 247, "line", 1.5, arrow=True)
    p.card(180, 300, 120, 60, ["tolls.db", "at the end, whole"], "gold-box", "gold")
    p.line(240, 246, 240, 298, "line", 1.5, arrow=True)
    p.path([(500, 225), (400, 262), (340, 294)], "line", 1.5)
    p.line(340, 294, 302, 312, "line", 1.5, arrow=True)
    return p


def import_tree():
    """What import answers."""
    p = Picture(920, 400, "What import answers")
    p.text(20, 30, "What `import DAY` answers, if nothing fails", "text", 14, bold=True)

    def ask(x, y, lines):
        p.card(x, y, 190, 56, lines, "blue-box", "blue")

    def end(x, y, lines, fill, colour):
        p.card(x, y, 250, 56, lines, fill, colour)

    ask(30, 60, ["Is this day kept?"])
    ask(30, 190, ["A later day kept,", "or a history up to it?"])
    ask(30, 310, ["Is every line right?"])
    ask(330, 60, ["The same bytes?"])
    end(640, 40, ["# already day ..", "status 0, nothing changes"], "green-box", "green")
    end(640, 110, ["# differs day ..", "status 3, nothing changes"], "gold-box", "gold")
    end(330, 190, ["# passed day .. last ..", "status 3, nothing is read"], "gold-box", "gold")
    end(330, 290, ["# stored day ..", "status 0, the day is kept"], "green-box", "green")
    end(640, 330, ["# refused line ..", "status 2, nothing is kept"], "red-box", "red")
    lines = [(220, 88, 330, 88, "yes", 265, 80), (125, 116, 125, 190, "no", 133, 158),
             (220, 218, 330, 218, "yes", 265, 210), (125, 246, 125, 310, "no", 133, 283),
             (220, 330, 330, 318, "yes", 265, 314), (220, 352, 640, 362, "no: the first wrong line", 420, 376),
             (520, 80, 640, 68, "yes", 570, 66), (520, 100, 640, 134, "no", 570, 134)]
    for x1, y1, x2, y2, said, x, y in lines:
        p.line(x1, y1, x2, y2, "line", 1.5, arrow=True)
        p.text(x, y, said, "soft", 12)
    return p


def trust():
    """What is proved, tested and trusted."""
    p = Picture(900, 450, "What is proved, tested and trusted")
    p.box(20, 20, 860, 360, "grey-box", "line", 10)
    p.text(40, 48, "Trusted: the machine, the system, the C library, LLVM; the kit's prover, compiler and libraries", "text", 14,
           bold=True)
    p.box(50, 70, 800, 280, "gold-box", "gold", 10)
    p.text(70, 98, "Only tested: standard input and output, files, sockets, threads, memory that lasts", "text", 14, bold=True)
    p.text(70, 118, "Some hundreds of lines at the edges, which keep the same contract about their own failures", "soft", 13)
    p.box(90, 140, 720, 180, "green-box", "green", 10)
    p.text(110, 168, "Proved: everything between the edges", "text", 14, bold=True)
    texts = ["notices and charges are those of the definitions", "a refused line is the first, with its cause",
             "a day is kept once and whole", "a failure is told of the part that failed",
             "workers and their order change nothing", "no index out of range, no sum that wraps"]
    for i, said in enumerate(texts):
        p.text(120 + (i % 2) * 350, 200 + (i // 2) * 28, "· " + said, "text", 13)
    p.text(110, 302, "Premise: the edges give back what they hold. Memory may run out at any time.", "soft", 13)
    p.box(20, 392, 860, 44, "violet-box", "violet", 10)
    p.text(40, 419, "Yours to check: that the definitions are the rules you want. They are some pages in crates/road_time/specs/.",
           "text", 13, bold=True)
    return p


def crate_layers():
    """The crates in the groups of crates.txt: each stands only on crates below it, or left of it in its group."""
    kinds, table, across = groups(), crates(), 6
    rows = {head: [names[i:i + across] for i in range(0, len(names), across)] for head, names in kinds.items()}
    wide, high = 138, 30
    p = Picture(60 + across * (wide + 8), 70 + sum(24 + len(it) * (high + 6) + 12 for it in rows.values()), "The layers of crates")
    p.text(20, 30, f"{len(table)} crates, the lowest group at the bottom. A crate stands only on crates below it, or to its left.",
           "text", 14, bold=True)
    fills = ["blue", "green", "gold", "violet", "red"]
    y = 48
    for k, head in reversed(list(enumerate(rows))):
        tall = 24 + len(rows[head]) * (high + 6) + 4
        colour = "line" if head.startswith("Tests") else fills[k % len(fills)]
        fill = "grey-box" if colour == "line" else f"{colour}-box"
        p.box(20, y, p.width - 40, tall, fill, colour)
        p.text(30, y + 17, head, "soft", 12)
        for i, names in enumerate(rows[head]):
            for j, name in enumerate(names):
                x = 30 + j * (wide + 8)
                p.box(x, y + 24 + i * (high + 6), wide, high, "page", colour)
                p.text(x + wide / 2, y + 43 + i * (high + 6), name, "text", 12, "middle")
        y += tall + 8
    return p


BARS = [("sha256sum", "sha256sum", "violet"), ("answers, 1 worker", "answers, 1 worker", "green"),
        ("answers, 4 workers", "4 workers", "green"), ("import, 1 worker", "import, 1 worker", "blue"), ("import, 4 workers", "4 workers", "blue")]


def speed():
    """Processor and wall time of a line as bars, from bench/speed.csv."""
    with open(TOP / "bench" / "speed.csv", newline="") as file:
        rows = {(it["day"], it["command"].split(", no")[0]): it for it in csv.DictReader(file)}
    days = {day: int(it["lines"]) for (day, _), it in rows.items()}
    p = Picture(900, 116 + len(days) * 128, "Processor and wall time a line")
    p.text(20, 28, "Nanoseconds a line (shorter is better)", "text", 14, bold=True)
    most = max(float(rows[day, it[0]][kind]) for day in days for it in BARS for kind in ("processor", "wall"))
    for left, kind, head in ((110, "processor", "of processors, all threads together"), (510, "wall", "by the clock")):
        p.text(left, 56, head, "soft", 13)
        for k, (day, lines) in enumerate(days.items()):
            top = 68 + k * 128
            if kind == "processor":
                p.text(20, top + 12, day, "text", 13, bold=True)
                p.text(20, top + 30, f"{lines / 1e6:g} million", "soft", 12)
            for i, (command, name, colour) in enumerate(BARS):
                value, y = float(rows[day, command][kind]), top + i * 22
                wide = value / most * 220
                p.box(left + 116, y, wide, 16, f"{colour}-box", colour, 2)
                p.text(left + 110, y + 13, name, "soft", 12, "end")
                p.text(left + 122 + wide, y + 13, f"{value:.0f}", "text", 12)
    base = 68 + len(days) * 128
    p.text(20, base + 8, "With one worker, too, the program has more threads than one: helpers, and for import two that take digests.", "soft", 12)
    p.text(20, base + 26, "The greatest day has 256 expressways and 500,000 vehicles, the others one expressway.", "soft", 12)
    return p


def proof():
    """One rule from its definition to a wrong edit that is refused, in the code's own lines."""
    specs = (TOP / "crates/road_time/specs/Rates.antt").read_text()
    code = (TOP / "crates/ways_expressway/src/formula.rt").read_text()
    meaning = specs[specs.index("toll_of t cars lav blocked ="):].splitlines()[:4]
    promise = next(line.strip() for line in code.splitlines() if "ensures exact" in line and "toll_of" in line)
    body = code[code.index("    if cars > tariff.crowd"):].splitlines()[:6]
    edited = body[0].replace(" && !blocked", "")
    p = Picture(940, 640, "One rule, from its definition to a refusal")
    p.text(20, 30, "One rule, from its definition to the refusal of a wrong line", "text", 14, bold=True)

    def part(y, h, name, note, lines, colour):
        p.box(20, y, 620, h, f"{colour}-box", colour, 8)
        p.text(34, y + 24, name, "text", 14, bold=True)
        p.text(34 + 9 * len(name), y + 24, note, "soft", 12)
        for i, (said, ink) in enumerate(lines):
            p.text(34, y + 52 + i * 18, said, ink, 11, code=True)

    part(50, 128, "1. The definition", "what the word toll_of means", [(it, "text") for it in meaning], "violet")
    part(212, 74, "2. The contract", "what the function promises, for all it may be given", [(promise, "text")], "gold")
    part(320, 160, "3. The code", "what runs, in numbers of 32 and 64 bits", [(it, "text") for it in body], "green")
    part(518, 96, "4. A wrong line", "drivers are charged although the road is blocked",
         [("-" + body[0], "soft"), ("+" + edited, "red")], "red")
    p.line(330, 212, 330, 180, "line", 1.5, arrow=True)
    p.text(342, 201, "uses the word", "soft", 12)
    p.path([(640, 400), (680, 400), (680, 262), (650, 262)], "green", 2)
    p.line(680, 262, 643, 262, "green", 2, arrow=True)
    p.text(692, 330, "proved to keep it,", "green", 13, bold=True)
    p.text(692, 348, "for every tariff, number", "text", 12)
    p.text(692, 364, "of cars and average:", "text", 12)
    p.text(692, 380, "the program is built", "text", 12)
    p.path([(640, 570), (900, 570), (900, 236), (650, 236)], "red", 2, "6 4")
    p.line(680, 236, 643, 236, "red", 2, arrow=True)
    p.text(692, 516, "not proved: there is a case", "red", 13, bold=True)
    p.text(692, 534, "with another answer, so", "text", 12)
    p.text(692, 550, "the program is not built", "text", 12)
    return p


def room():
    """Where a connection to the server waits, and for what."""
    seats = re.search(r"const SEATS: usize = (\d+)", (TOP / "crates/serve_room/src/hearing.rt").read_text())
    p = Picture(960, 440, "Who waits for whom in the server")
    p.text(20, 30, "Who waits for whom in toll_serve, with six readers", "text", 14, bold=True)
    p.box(150, 60, 220, 330, "gold-box", "gold", 10)
    p.text(170, 86, "the waiting room", "text", 14, bold=True)
    for i, said in enumerate([f"{seats[1]} seats, no thread of its own", "each has 10 s for its head"]):
        p.text(170, 106 + i * 18, said, "soft", 12)
    for i in range(3):
        for j in range(8):
            p.box(170 + j * 23, 142 + i * 26, 16, 16, "page", "gold", 3)
    p.text(170, 244, "With a whole head it goes to", "text", 12)
    p.text(170, 260, "a reader that is free.", "text", 12)
    p.card(170, 282, 90, 34, ["the pass"], "green-box", "green")
    p.text(170, 340, "There is one. A POST of a day", "text", 12)
    p.text(170, 356, "takes it along; the others wait", "text", 12)
    p.text(170, 372, "here, and keep no reader busy.", "text", 12)
    p.text(20, 190, "connections", "text", 13, bold=True)
    p.line(30, 206, 146, 206, "line", 2, arrow=True)
    p.text(20, 232, "no seat is free:", "soft", 12)
    p.text(20, 248, "the oldest without", "soft", 12)
    p.text(20, 264, "a head gives its own", "soft", 12)
    for i, what in enumerate(["GET /live, the page", "POST, with the pass", "POST: its answer", "POST: its answer", "GET of a day",
                              "GET of a vehicle"]):
        y, is_post = 58 + i * 56, what.startswith("POST, ")
        p.card(440, y, 170, 44, [f"reader {i + 1}", what], "green-box" if is_post else "blue-box", "green" if is_post else "blue", 12)
        p.line(372, y + 22, 436, y + 22, "line", 1.5, arrow=True)
    p.text(150, 424, "Of six readers at most four have POSTs, and at most four read what is kept; one at least does neither.", "soft", 12)
    p.card(700, 60, 230, 60, ["the live board", "its readers never wait"], "blue-box", "blue")
    p.card(700, 150, 230, 70, ["the imports' lock", "from the pass to its return:", "one day at a time"], "green-box", "green")
    p.card(700, 250, 230, 70, ["the database's lock", "for one call at a time;", "longest while a day is stored"], "violet-box", "violet")
    p.card(700, 350, 230, 46, ["tolls.db"], "gold-box", "gold")
    p.line(612, 80, 696, 86, "line", 1.5, arrow=True)
    p.line(612, 140, 696, 176, "line", 1.5, arrow=True)
    p.line(612, 300, 696, 288, "line", 1.5, arrow=True)
    p.line(612, 356, 696, 306, "line", 1.5, arrow=True)
    p.line(815, 222, 815, 247, "line", 1.5, arrow=True)
    p.line(815, 322, 815, 347, "line", 1.5, arrow=True)
    p.line(745, 148, 745, 123, "green", 1.5, arrow=True)
    p.text(753, 140, "publishes", "soft", 12)
    p.path([(526, 158), (526, 164), (400, 164), (400, 299), (270, 299)], "green", 1.5, "5 4")
    p.line(290, 299, 264, 299, "green", 1.5, arrow=True)
    return p


def days_line():
    """The days of an office on a line: a history, the days that are kept, the 69 days that a day looks back at, a new beginning."""
    p = Picture(940, 330, "The line of days")
    left, wide, first, last = 40, 860, 28, 112
    at = lambda day: left + (day - first) * wide / (last - first)
    p.text(20, 30, "The days of an office whose first day is 100", "text", 14, bold=True)

    def span(y, low, high, said, colour, dash=""):
        p.box(at(low), y, at(high + 1) - at(low), 30, f"{colour}-box" if colour != "line" else "page", colour, 4, 1.0, dash)
        p.text((at(low) + at(high + 1)) / 2, y + 20, said, "text", 12, "middle")

    def ticks(y, days):
        for day in days:
            p.line(at(day), y, at(day), y + 6)
            p.text(at(day), y + 20, str(day), "soft", 12, "middle")

    p.text(20, 58, "past 100, then import 100 to 107", "text", 13, bold=True)
    span(68, 31, 99, "the history: amounts of the 69 days before the base, 31 to 99", "gold")
    span(68, 100, 107, "kept days", "blue")
    ticks(100, (31, 100, 108))
    p.text(at(100), 134, "the base", "gold", 12, "middle")
    p.text(20, 162, "import 104: a vehicle may ask for any of the 69 days before", "text", 13, bold=True)
    span(172, 35, 103, "what day 104 looks back at: 35 to 103", "green")
    p.box(at(104), 172, at(105) - at(104), 30, "blue-box", "blue", 2)
    ticks(204, (35, 104))
    p.text(20, 256, "renew 108: these 69 days become the history of a new base; all else is deleted", "text", 13, bold=True)
    span(266, 31, 38, "deleted", "line", "4 3")
    span(266, 39, 107, "the new history: amounts of the days 39 to 107, no longer their records", "gold")
    ticks(298, (31, 39, 108))
    return p


def file_tables():
    """The tables of tolls.db, from their texts in FORMATS, which are those of the definitions."""
    said = (TOP / "docs/FORMATS.md").read_text()
    found = {}
    for name, inside in re.findall(r"^CREATE TABLE (\w+) \((.*?)\) STRICT$", said, re.S | re.M):
        parts = re.split(r",\s+(?![^()]*\))", inside)
        keys = next((re.findall(r"\w+", it[len("PRIMARY KEY"):]) for it in parts if it.startswith("PRIMARY KEY")), None)
        columns = [it.split()[0] for it in parts if not it.startswith("PRIMARY KEY")]
        found[name] = columns, keys or [it.split()[0] for it in parts if "PRIMARY KEY" in it]
    of = {"days": "a kept day", "day_tariffs": "its seal", "spent": "an amount", "past": "the history, if any",
          "tariffs": "an expressway's own tariff", "form": "the version"}
    places = {"days": (30, 60), "day_tariffs": (330, 60), "spent": (330, 210), "past": (630, 60), "tariffs": (630, 255), "form": (30, 290)}
    p = Picture(900, 430, "The tables of tolls.db")
    p.text(20, 30, "The tables of tolls.db, with what a row of each is. Columns in bold are the key.", "text", 14, bold=True)
    for name, (columns, keys) in found.items():
        x, y = places[name]
        high = 38 + 20 * len(columns)
        colour = {"spent": "green", "past": "gold"}.get(name, "blue" if name.startswith("day") else "line")
        p.box(x, y, 240, high, "grey-box" if colour == "line" else f"{colour}-box", colour, 6)
        p.text(x + 12, y + 22, name, "text", 14, bold=True)
        p.text(x + 228, y + 22, of[name], "soft", 12, "end")
        p.line(x, y + 30, x + 240, y + 30, colour)
        for i, column in enumerate(columns):
            p.text(x + 12, y + 48 + i * 20, column, "text", 12, bold=column in keys)
    p.line(270, 108, 328, 108, "blue", 1.5, arrow=True)
    p.text(299, 100, "one", "soft", 12, "middle")
    p.path([(270, 130), (300, 130), (300, 258), (318, 258)], "green", 1.5)
    p.line(310, 258, 328, 258, "green", 1.5, arrow=True)
    p.text(306, 200, "many", "soft", 12)
    p.path([(630, 180), (600, 180), (600, 258), (582, 258)], "green", 1.5)
    p.line(590, 258, 572, 258, "green", 1.5, arrow=True)
    p.text(606, 226, "many", "soft", 12)
    p.text(330, 392, "Amounts of kept days and of the history stand in one table.", "soft", 12)
    return p


PICTURES = {"vehicle_day": vehicle_day, "minutes": minutes, "accident": accident, "pipeline": pipeline,
            "layers": crate_layers, "import": import_tree, "trust": trust, "speed": speed, "proof": proof, "days": days_line, "room": room,
            "tables": file_tables}


def main():
    words = argparse.ArgumentParser()
    words.add_argument("--check", action="store_true")
    words.add_argument("--dark", type=pathlib.Path)
    given = words.parse_args()
    if not given.check:
        OUT.mkdir(exist_ok=True)
    changed = []
    for name, draw in PICTURES.items():
        picture = draw()
        path = OUT / f"{name}.svg"
        text = picture.svg(False)
        if not path.exists() or path.read_text() != text:
            changed.append(name)
            if not given.check:
                path.write_text(text)
        if given.dark:
            given.dark.mkdir(exist_ok=True)
            (given.dark / f"{name}.svg").write_text(picture.svg(True))
    print(f"{'would change' if given.check else 'drawn'}: {', '.join(changed) or 'nothing'}")
    sys.exit(1 if given.check and changed else 0)


if __name__ == "__main__":
    main()
