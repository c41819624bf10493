#!/usr/bin/env python3
"""Tries each command of a built program: rows by hand, the example day, and a file with a hundred days.

    python3 trials/try_commands.py PROGRAM

PROGRAM is the executable toll_office. The rows stand in `rows_of_commands.py`; some run over each kind of kept file, which
Python's sqlite3 makes and changes. Which commands make the file is tried, reads of standard input that fail, and too little
room for what is written (`fail_streams.c`). What a command must write of the days is worked out here, from the days themselves,
from what `examples/plain.c` says of them, which is compiled, and from what the other commands wrote. The example day is kept as
day 100 behind its history, and the hundred days are 100 to 199, each of the same traffic that a seed makes. Last of all the
list of differences of `audit --show` is compared with one worked out here, over notices that were changed at random. The script
ends with status 1 at the first difference, and says how many rows and commands it ran.
"""
import collections
import csv
import hashlib
import io
import pathlib
import random
import subprocess
import sys
import tempfile

from office import DATA, Office, change_by_hand, compiled, expect, preloaded, tables
from rows_of_commands import FILES, KINDS, NOTICE, ONE, RELATIONS, TABLES, Alone, ByHand, Run, Turned

FIRST, LAST, BASE = 100, 199, 200
RAN = collections.Counter()


class Tried(Office):
    """An office whose commands are counted, and whose closing line is told apart."""

    def run(self, *words, text="", status=0):
        """What a command writes: its lines, and the closing line apart."""
        RAN[words[0]] += 1
        lines = super().run(*words, text=text, status=status).splitlines()
        closing = lines.pop() if lines and lines[-1].startswith("# ") else None
        return lines, closing


def second(notice):
    """The second of a notice, or none where a line is no notice."""
    parts = notice.split(",")
    if parts[0] == "0" and len(parts) == 5:
        return int(parts[2])
    return int(parts[1]) if parts[0] in "123" and len(parts) == 4 else None


def after(one, other):
    """Whether both are notices, and the one is of a later second."""
    times = second(one), second(other)
    return None not in times and times[0] > times[1]


def differences(wanted, found, most):
    """The first differences of right notices and lines, as docs/FORMATS.md says."""
    told, i, k = [], 0, 0
    while len(told) < most and (i < len(wanted) or k < len(found)):
        right = wanted[i] if i < len(wanted) else None
        line = found[k] if k < len(found) else None
        text = line if line is None or second(line) is not None else "malformed"
        if right is None:
            told.append(f"{k + 1} additional {text}")
            k += 1
        elif right == line:
            i, k = i + 1, k + 1
        elif line is None or after(line, right) or wanted[i + 1:i + 2] == [line]:
            told.append(f"{k + 1} missing {right}")
            i += 1
        elif after(right, line) or found[k + 1:k + 2] == [right]:
            told.append(f"{k + 1} additional {text}")
            k += 1
        else:
            told.append(f"{k + 1} wanted {right} found {text}")
            i, k = i + 1, k + 1
    return told


def first_difference(wanted, found):
    """The closing line and the status of a comparison."""
    for n in range(max(len(wanted), len(found))):
        right, line = wanted[n] if n < len(wanted) else "none", found[n] if n < len(found) else "none"
        if right != line:
            named = line if line == "none" or second(line) is not None else "malformed"
            return f"# differs line {n + 1} wanted {right} found {named}", 7
    return f"# agree notices {len(wanted)}", 0


def changed(notice):
    """Another notice: its last number is one more; in place of an alert no notice."""
    front, last = notice.rsplit(",", 1)
    return "x" if notice.startswith("1,") else f"{front},{int(last) + 1}"


def shaken(draw, notices):
    """The notices with some left out, some too many, some changed."""
    lines = []
    for notice in notices:
        what = draw.random()
        if what < 0.01:
            continue
        if what < 0.02:
            lines.append(draw.choice(notices))
        lines.append("x" if 0.02 < what < 0.025 else changed(notice) if 0.025 < what < 0.03 else notice)
    return lines


def compare(office, number, day, notices):
    """The two commands that compare, and the list of differences over notices changed at random."""
    office.notices(notices)
    for words in (["validate", number], ["audit", number], ["audit", number, "--show", 1000, "--shards=3", "--workers=2"]):
        expect("a comparison that agrees", office.run(*words, text=day), ([], f"# agree notices {len(notices)}"))
    draw = random.Random(7)
    for turn in range(40):
        found = shaken(draw, notices)
        office.notices(found)
        closing, status = first_difference(notices, found)
        for show in (1, 2, 10, 1000):
            told = [] if show == 1 else differences(notices, found, show)
            listed = office.run("audit", number, "--show", show, text=day, status=status)
            expect(f"audit --show {show} of turn {turn}", listed, (told, closing))


def sums(rows):
    """The charges of exports by vehicle and expressway, as `charges` writes them."""
    whole = collections.Counter()
    for vid, _, xway, tolls in rows:
        whole[int(vid), int(xway)] += int(tolls)
    return ["vid,xway,tolls"] + [f"{vid},{xway},{tolls}" for (vid, xway), tolls in sorted(whole.items())]


def read_csv(lines):
    return list(csv.reader(io.StringIO("\n".join(lines))))[1:]


def example(office, plain):
    """Each command on the example day."""
    day, past = (DATA / "day.csv").read_text(), (DATA / "past.csv").read_text()
    rows = [line for line in past.splitlines() if line and not line.endswith(",0")]
    for said in ("past", "already past"):
        expect(said, office.run("past", FIRST, text=past), ([], f"# {said} base {FIRST} rows {len(rows)}"))
    said = subprocess.run([plain, DATA / "past.csv"], input=day, text=True, stdout=subprocess.PIPE, check=True).stdout
    notices = said.splitlines()
    tuples = sum(1 for line in day.splitlines() if line)
    counts = f"tuples {tuples} notices {len(notices)}"
    expect("answers", office.run("answers", FIRST, text=day), (notices, f"# answered day {FIRST} {counts}"))
    said = subprocess.run([plain, "charges", str(FIRST)], input=day, text=True, stdout=subprocess.PIPE, check=True).stdout
    charged = said.splitlines()
    compare(office, FIRST, day, notices)
    lines, closing = office.run("import", FIRST, "--workers", 64, "--turns", 2, text=day)
    total = sum(int(row[3]) for row in read_csv(charged))
    expect("import", (lines, closing), (notices, f"# stored day {FIRST} {counts} total {total}"))
    expect("import again", office.run("import", FIRST, text=day), ([], f"# already day {FIRST} {counts} total {total}"))
    expect("export", office.run("export", FIRST), (charged, None))
    digest = hashlib.sha256(day.encode()).hexdigest()
    line = f"day {FIRST} {counts} total {total} digest {digest[:16]}"
    expect("days", office.run("days"), ([line], f"# days 1 last {FIRST}"))
    expect("charges", office.run("charges", FIRST, FIRST), (sums(read_csv(charged)), None))
    lines, _ = office.run("day", FIRST)
    wanted = [f"day {FIRST}", f"digest {digest}", f"bytes {len(day)}", f"tuples {tuples}", f"notices {len(notices)}"]
    expect("day", lines[:5], wanted)
    good = len(day.splitlines())
    expect("check", office.run("check", FIRST, text=day + "x\n", status=2),
           ([f"{good + 1} fields 1"], f"# checked day {FIRST} good {good} refused 1"))


def hundred(office):
    """Each command on a file of a hundred days."""
    words = ("--minutes", 20, "--vehicles", 1000, "--crashes", 2)
    day = "".join(line + "\n" for line in office.run("generate", 5, *words)[0])
    digest = hashlib.sha256(day.encode()).hexdigest()
    notices, answered = office.run("answers", FIRST, text=day)
    _, tuples, count = [int(word) for word in answered.split() if word.isdigit()]
    counts, totals = f"tuples {tuples} notices {count}", {}
    for number in range(FIRST, LAST + 1):
        lines, closing = office.run("import", number, text=day, *(["--workers", 3] if number % 2 else []))
        totals[number] = int(closing.split()[-1])
        expect("import", (len(lines), closing), (count, f"# stored day {number} {counts} total {totals[number]}"))
    listed = [f"day {number} {counts} total {total} digest {digest[:16]}" for number, total in totals.items()]
    expect("days", office.run("days"), (listed, f"# days 100 last {LAST}"))
    exports = {number: read_csv(office.run("export", number)[0]) for number in totals}
    every = [row for rows in exports.values() for row in rows]
    for number, rows in exports.items():
        expect("a day's total", sum(int(row[3]) for row in rows), totals[number])
    for low, high in ((FIRST, LAST), (1, 1000000), (131, 140), (LAST, LAST), (1, FIRST - 1)):
        of = [row for row in every if low <= int(row[1]) <= high]
        expect(f"charges {low} {high}", office.run("charges", low, high), (sums(of), None))
    vid = int(every[0][0])
    of = sorted((int(row[1]), int(row[2]), int(row[3])) for row in every if int(row[0]) == vid)
    wanted = [f"vehicle {vid} days 1 to {LAST}"] + [f"{d:7} {x:3} {tolls:20}" for d, x, tolls in of]
    expect("vehicle", office.run("vehicle", vid, 1, LAST), (wanted + [f"total{sum(row[2] for row in of):27}"], None))
    expect("day", office.run("day", 150)[0][0], "day 150")
    expect("a day that is not kept", office.run("day", BASE, status=3), ([], f"# no day {BASE}"))
    expect("tariff", office.run("tariff", 3, 40, 45, 3), ([], "# tariff xway 3 crowd 40 speed 45 factor 3"))
    expect("tariffs", office.run("tariffs"), (["3,40,45,3"], None))
    good = len(day.splitlines())
    expect("check", office.run("check", BASE, text="x\n" + day + "0,0,1\n", status=2),
           (["1 fields 1", f"{good + 2} fields 3"], f"# checked day {BASE} good {good} refused 2"))
    expect("a good check", office.run("check", BASE, text=day), ([], f"# checked day {BASE} good {good} refused 0"))
    office.run("accidents", text=day)
    office.run("rehearse", 5, "--minutes", 5)
    notices, _ = office.run("answers", BASE, text=day)
    compare(office, BASE, day, notices)
    kept = sum(1 for row in every if int(row[1]) >= BASE - 69 and int(row[3]) > 0)
    expect("renew", office.run("renew", BASE), ([], f"# renewed base {BASE} rows {kept} dropped 0"))
    expect("days of a new office", office.run("days"), ([], f"# days 0 last {LAST}"))
    expect("answers as before", office.run("answers", BASE, text=day)[0], notices)


def each_row(program, top):
    """Runs the rows that are told before, each in a folder of its own; answers how many."""
    count = 0
    for name, table in TABLES.items():
        for row, runs in table().items():
            count += 1
            office = Office(program, top / f"{name}-{count}")
            for it in runs:
                if it.notices is not None:
                    (office.folder / "notices.txt").write_text(it.notices)
                RAN[it.words[0] if it.words else ""] += 1
                expect(f"{row}, by {it.words}", office.run(*it.words, text=it.given, status=it.status), it.text)
    return count


def change(kept, step, before, behind):
    """Another hand changes the kept file, which it makes first if it is not there."""
    if isinstance(step, Alone):
        kept.with_name("tolls.db-wal").unlink(missing_ok=True)
    elif isinstance(step, Turned):
        data = bytearray(kept.read_bytes())
        data[(step.page - 1) * 4096] ^= 0xFF
        kept.write_bytes(data)
    else:
        ours = list(tables().values())
        ours = ours[:3] if step.version == 1 else [*ours, "INSERT INTO form VALUES (1, 2)"]
        change_by_hand(kept, [] if kept.exists() else [before, *ours, behind], step.text)


def each_file(program, top):
    """Runs the rows that are told before, each over some kinds of kept file; answers how many, a kind of file each."""
    count = 0
    for name, (table, kinds) in FILES.items():
        for row, steps in table().items():
            for kind in kinds:
                count += 1
                office = Office(program, top / f"{name}-{count}")
                kept = office.folder / "tolls.db"
                before, behind, cause = KINDS[kind]
                if kind != "ours":
                    change(kept, ByHand(""), before, behind)
                for it in steps:
                    if not isinstance(it, Run):
                        change(kept, it, before, behind)
                        continue
                    RAN[it.words[0]] += 1
                    said = f"toll_office: tolls.db: {it.cause or cause}\n" if it.status == 6 else ""
                    found = office.told(*it.words, text=it.given)
                    expect(f"{row}, {kind}, by {it.words}", found, (it.status, it.text, said))
    return count


def makes_a_file(program, top):
    """Which commands make the kept file in a new folder, and which do not; answers how many."""
    none = [("check 100", ONE, 0), ("accidents", ONE, 0), ("generate 1 --vehicles 3 --minutes 1", "", 0),
            ("rehearse 1 --vehicles 3 --minutes 1", "", 0), ("day", "", 1), ("answers 69", ONE, 1)]
    some = [("answers 100", ONE, 0), ("import 100", ONE, 0), ("validate 100", ONE, 0), ("audit 100", ONE, 0), ("past 100", "", 0),
            ("renew 100", "", 0), ("tariff 0 50 40 5", "", 0), ("tariffs", "", 0), ("days", "", 0), ("day 100", "", 3),
            ("export 100", "", 3), ("vehicle 7 1 100", "", 0), ("charges 1 100", "", 0)]
    for at, (words, given, status) in enumerate(none + some):
        office = Office(program, top / f"file-{at}")
        office.notices([NOTICE.strip()])
        office.run(*words.split(), text=given, status=status)
        expect(f"{words}: it makes the file", (office.folder / "tolls.db").exists(), at >= len(none))
    return len(none + some)


def faults(program, top):
    """A day of which each read of standard input fails in turn, and a report for whose answer there is room for so many bytes;
    answers how many."""
    library, count = preloaded("fail_streams", top), 0
    day = Office(program, top / "made").run("generate", 5, "--minutes", 10, "--vehicles", 2000)
    reads = -(-len(day) // 65536)
    for number in range(reads + 1):
        office = Office(program, top / f"read-{number}")
        status, out, said = office.told("import", FIRST, text=day, LD_PRELOAD=library, READS=str(number))
        wanted = (4, "# read fault", "toll_office: standard input or notices.txt cannot be read\n")
        expect(f"read {number} of {reads} fails", (status, out.splitlines()[-1], said), wanted)
        expect(f"read {number} of {reads} failed", office.told("day", FIRST), (3, f"# no day {FIRST}\n", ""))
        count += 1
    whole = NOTICE + f"# stored day {FIRST} tuples 1 notices 1 total 0\n"
    for room in range(len(whole)):
        office = Office(program, top / f"room-{room}")
        found = office.told("import", FIRST, text=ONE, LD_PRELOAD=library, ROOM=str(room))
        expect(f"room for {room} bytes", found, (5, whole[:room], ""))
        kept = whole.replace("stored", "already")[len(NOTICE):] if room >= len(NOTICE) else whole
        expect(f"behind room for {room} bytes", office.run("import", FIRST, text=ONE), kept)
        count += 1
    return count


def each_relation(program, top):
    """Runs the rows that one run tells of another; answers how many."""
    count = 0
    for name, relation in RELATIONS.items():
        office = Office(program, top / name)

        def run(words, given="", notices=None):
            if notices is not None:
                (office.folder / "notices.txt").write_text(notices)
            RAN[words.split()[0]] += 1
            return office.run(*words.split(), text=given)

        for row, found, wanted in relation(run):
            count += 1
            expect(row, found, wanted)
    return count


def main():
    if len(sys.argv) != 2:
        sys.exit(__doc__)
    program = str(pathlib.Path(sys.argv[1]).resolve())
    with tempfile.TemporaryDirectory() as folder:
        top = pathlib.Path(folder)
        count = sum(it(program, top) for it in (each_row, each_file, makes_a_file, faults, each_relation))
        example(Tried(program, top / "example"), compiled("plain", top))
        hundred(Tried(program, top / "hundred"))
    print(f"{count} rows by hand; {sum(RAN.values())} runs of {len(RAN)} commands, as they must be")


if __name__ == "__main__":
    main()
