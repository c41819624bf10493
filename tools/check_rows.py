#!/usr/bin/env python3
"""Looks whether each row of the files ROWS.md is in a test, whether each test is named, and whether an unproved program agrees.

    python3 tools/check_rows.py [--list]

Each row must name a test, a theorem or a part of a trial that is there (tools/rows.py says how), and each test must be
named by a row; each path and file of the crates that the page names must be there, and each row in quotes must stand in a test.
No two rows of the commands may have one name.
With --list each row is printed with the places that it names. If there is a C compiler, examples/plain.c is run on each row whose
input is written in reports and requests, in fifty-one or in the pair. The script ends with status 1 and names what is wrong.
"""
import pathlib
import re
import shutil
import subprocess
import sys
import tempfile

from rows import COMMANDS, PAGES, TOP, Places, rows

sys.path.append(str((TOP / COMMANDS).parent))
from rows_of_commands import FILES, TABLES


def named(places):
    """What the page names and is not there."""
    wrong = []
    there = {it for text in places.every.values() for it in re.findall(r"\w+", text)} | set(places.printed)
    for at, _, cells, _ in rows():
        for word in re.findall(r"`(\w+)`", cells.get("Has it", "")):
            if word not in there and not (TOP / "crates" / word).is_dir():
                wrong.append(f"{at}: no {word}")
    lines = [(f"{page.relative_to(TOP)}:{at}", line) for page in PAGES for at, line in enumerate(page.read_text().splitlines(), 1)]
    for at, line in lines:
        has = line.rsplit(" | ", 1)[-1] if line.startswith("|") else line
        for word in re.findall(r"`([\w/.]+)`", has):
            if "/" in word and re.match(r"(crates|docs|bench|tools|trials|examples|scripts)/", word):
                good = (TOP / word).exists()
            elif word.endswith((".rt", ".antt")):
                good = any(it.endswith("/" + word) for it in places.every)
            else:
                good = True
            if not good:
                wrong.append(f"{at}: no {word}")
        for name, quoted, crate in re.findall(r'(?:`(\w+)`|"([^"]+)") in `(\w+)`', has):
            texts = [text for it, text in places.every.items() if it.startswith(f"crates/{crate}/")]
            if texts and not any((name or quoted).lower() in text.lower() for text in texts):
                wrong.append(f"{at}: {name or quoted} is not in {crate}")
    return wrong


def lines_of(said):
    """The lines of a row's input, and how many notices the page leaves out; None if it is told in other words."""
    tokens = re.findall(r"`([RB])\(([-\d,]+)\)`", said)
    rest = re.sub(r"`[RB]\([-\d,]+\)`", "", said)
    begin = re.fullmatch(r"\s*(fifty-one|the pair)?[\s,]*(then)?[\s,]*(; also without its LF, and with CR LF)?", rest)
    if not begin or not (tokens or begin[1]):
        return None
    reports = []
    if begin[1] == "fifty-one":
        reports = [(0, v, 30, 0, 1, 0, 10, 52800) for v in range(1, 52)]
    elif begin[1]:
        reports = [(t, v, 0, 0, 2, 0, 10, 55000) for t in (0, 30, 60, 90) for v in (1, 2)]
    lines = ["0," + ",".join(map(str, it)) + ",-1" * 6 for it in reports]
    for kind, numbers in tokens:
        given = numbers.split(",")
        if kind == "R":
            lines.append("0," + numbers + ",-1" * 6)
        else:
            lines.append(f"2,{given[0]},{given[1]}" + ",-1" * 6 + f",{given[2]}" + ",-1" * 5)
    return "\n".join(lines) + "\n", 51 if begin[1] == "fifty-one" else 2 if begin[1] else 0


def differing():
    """How many rows the unproved program was asked, and those of which it gives other notices."""
    if not shutil.which("cc"):
        return 0, []
    asked, wrong = 0, []
    with tempfile.TemporaryDirectory() as folder:
        program = pathlib.Path(folder) / "plain"
        subprocess.run(["cc", "-O2", "-o", program, TOP / "examples/plain.c"], check=True)
        for at, _, cells, _ in rows():
            given, out = lines_of(cells.get("In", "")), re.split(r"The log|The one row|; by", cells.get("Out", ""))[0]
            if not given or "refused" in out:
                continue
            asked += 1
            wanted = re.findall(r"`(\d,[-\d,]+)`", out)
            ran = subprocess.run([program], input=given[0], text=True, capture_output=True, check=True)
            found = ran.stdout.split()[given[1]:]
            if found != wanted and not ("at the end" in out and wanted and found[-len(wanted):] == wanted):
                wrong.append(f"{at}: examples/plain.c gives {found}")
    return asked, wrong


def main():
    places, count, have = Places(), 0, set()
    wrong = named(places)
    for at, part, name, found in places.of_rows():
        count += 1
        have.update(found)
        if not found:
            wrong.append(f"{at}: {part}: no test has {name}")
        if "--list" in sys.argv[1:]:
            print(f"{at}: {part}: {name}", *(f"    {where} {of}" for where, of in found), sep="\n")
    tests = [(where, name) for where, names in places.tests.items() for name in names]
    wrong += [f"{where}: {name}: no ROWS.md has a row of it" for where, name in tests if (where, name) not in have]
    names = [name for table in [*TABLES.values(), *(it for it, _ in FILES.values())] for name in table()]
    wrong += [f"{COMMANDS}: two rows are {name!r}" for name in sorted({it for it in names if names.count(it) > 1})]
    asked, others = differing()
    wrong += others
    print(*wrong, sep="\n", end="\n" if wrong else "")
    print(f"{count} rows, {len(tests)} tests and tables, in these {len(names)} rows of the commands by name;"
          f" {asked} rows run by examples/plain.c; {len(wrong)} wrong")
    sys.exit(1 if wrong else 0)


if __name__ == "__main__":
    main()
