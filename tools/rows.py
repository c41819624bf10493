#!/usr/bin/env python3
"""The rows of the files ROWS.md and the tests of the crates, as tools/check_rows.py reads them. It prints the tests by their
files, each with the parts of those files that have its rows.

A row is a line of a table. Where it stands is said in its column "Has it", else in the text
of its part. What is said names tests (functions behind `#[test]`), tables of rows of the commands (functions of
trials/rows_of_commands.py), functions of another trial, with its file, theorems with their file, or a row in quotes that stands in
a file of tests; "the same" is what was said of the row above.
"""
import pathlib
import re

TOP = pathlib.Path(__file__).resolve().parent.parent
PAGES = [TOP / "trials/ROWS.md", *sorted(TOP.glob("crates/*/ROWS.md"))]
COMMANDS = "trials/rows_of_commands.py"
TRIALS = [COMMANDS, *sorted(it.relative_to(TOP).as_posix() for it in TOP.glob("trials/try_*.py"))]
TEST = r"#\[test[^\]]*\]\s*(?:#\[[^\]]*\]\s*)*(?:pub )?fn (\w+)"


def files():
    """The sources, tests and proofs of the crates, and the trials with the rows of the commands, by their paths."""
    found = {}
    for path in sorted(TOP.glob("crates/*/**/*")):
        where = path.relative_to(TOP).as_posix()
        if path.suffix in (".rt", ".antt") and "/out/" not in where:
            found[where] = path.read_text()
    return found | {where: (TOP / where).read_text() for where in TRIALS}


def cells_of(line):
    return [it.strip() for it in re.split(r"(?<!\\)\|", line)[1:-1]]


def rows():
    """Each row: its page and line, its part, its cells by their columns, and the text of its part."""
    texts, found = {}, []
    for page in PAGES:
        part, columns = "", None
        for at, line in enumerate(page.read_text().splitlines(), 1):
            if line.startswith("## "):
                part, columns = line[3:], None
            if line.startswith("|"):
                cells = cells_of(line)
                if columns is None:
                    columns = cells
                elif not set(line) <= set("|- "):
                    found.append((f"{page.relative_to(TOP)}:{at}", part, dict(zip(columns, cells))))
            else:
                columns = None
                texts.setdefault(part, []).append(line)
    return [(at, part, cells, " ".join(texts.get(part, []))) for at, part, cells in found]


class Places:
    """What tells where a row stands."""

    def __init__(self):
        self.every = files()
        self.tests, self.by_name, self.words, self.printed = {}, {}, {}, {}
        for where, text in self.every.items():
            behind = r"^@(?:table|relation|over_files\(.*\))\ndef (\w+)" if where == COMMANDS else TEST
            for name in re.findall(behind, text, re.M):
                self.tests.setdefault(where, []).append(name)
                self.by_name.setdefault(name, []).append(where)
            kind = r"^(\w+) :" if where.endswith(".antt") else r"^def (\w+)" if where in TRIALS else r"\b(?:fn|const|static) (\w+)"
            if where.endswith(".rt") or where in TRIALS or re.search(r"/proofs/\w+\.antt$", where):
                for word in re.findall(kind, text, re.M):
                    self.words.setdefault(word, []).append(where)
        for path in sorted(TOP.glob("crates/*/stdout")):
            self.printed[path.parent.name] = path.read_text()

    def tests_beside(self, where):
        """The tests of a file, or of the file that it is a part of."""
        while where not in self.tests and re.search(r"/src/tests/\w+/", where):
            where = where.rpartition("/")[0] + ".rt"
        return [(where, name) for name in self.tests.get(where, [])]

    def proof(self, word, file, crate):
        """A theorem of a file of proofs, of road_time where no crate is named."""
        where = f"crates/{crate or 'road_time'}/proofs/{file}"
        return [(where, word)] if where in self.words.get(word, []) else []

    def of(self, said):
        """The places that a text names, each a file and a name."""
        found = []
        for names, file, crate in re.findall(r"((?:`\w+`(?:\s*\([^)]*\))?(?:, | and )?)+) in (?:`\w+\.antt`(?: and|,) )?"
                                             r"`(\w+\.antt)`(?: of `(\w+)`)?", said):
            found += [it for word in re.findall(r"`(\w+)`", names) for it in self.proof(word, file, crate)]
        for word in re.findall(r"`(\w+)`", said):
            if word in self.by_name:
                found += [(where, word) for where in self.by_name[word]]
        for names, where in re.findall(r"((?:`\w+`(?:, | and )?)+) (?:in|of) `(trials/try_\w+\.py)`", said):
            found += [(where, word) for word in re.findall(r"`(\w+)`", names) if where in self.words.get(word, [])]
        for word in re.findall(r"`([\w/]+\.(?:rt|py))`", said):
            beside = [it for where in self.every if where.endswith(word) for it in self.tests_beside(where)]
            if not {name for _, name in beside} & {name for _, name in found}:
                found += beside
        for program in re.findall(r"stored run of `(\w+)`", said):
            found += [(f"crates/{program}/stdout", "")] if program in self.printed else []
        return found

    def of_quoted(self, said):
        """The tests in whose files the rows in quotes stand."""
        crates = {it for it in re.findall(r"`(?:crates/)?(\w+)[`/]", said) if (TOP / "crates" / it).is_dir()}
        return [it for row in re.findall(r'"([^"]+)"', said) for where, text in self.every.items()
                if "/src/tests" in where and where.split("/")[1] in crates and row.lower() in text.lower()
                for it in self.tests_beside(where)]

    def of_rows(self):
        """Each row with the places that it names, none where it names none."""
        last = []
        for at, part, cells, text in rows():
            said = cells.get("Has it", text)
            found = self.of(said) + (self.of_quoted(said) if "Has it" in cells else [])
            if "Has it" in cells and re.search(r"\bthe same\b|\bthose\b", said):
                found += last
            last = found
            yield at, part, next(iter(cells.values())), list(dict.fromkeys(found))


def index():
    """The tests by their files, each file with the parts whose rows name it."""
    places, parts = Places(), {}
    for _, part, _, found in places.of_rows():
        for where, name in found:
            parts.setdefault((where, name), set()).add(part)
    table = ["| File | Tests | Rows of |", "|---|---|---|"]
    for where, names in places.tests.items():
        have = sorted(set().union(*(parts.get((where, name), set()) for name in names)))
        table.append(f"| `{where}` | {', '.join(f'`{it}`' for it in names)} | {'; '.join(have)} |")
    return "\n".join(table)


if __name__ == "__main__":
    print(index())
