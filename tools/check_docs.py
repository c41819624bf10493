#!/usr/bin/env python3
"""Checks the documents: their links and paths, the lengths of their lines, and the code and tables that they show.

    python3 tools/check_docs.py

Looked at are README, CHANGELOG and docs. A link must lead to a file of the repository. A path in backticks that begins with
`crates/`, `docs/` or one of the rooms (`bench/`, `tools/`, `trials/`, `examples/`, `scripts/`) must be there. The code that
README and PROOF show must stand in the file that they name, and the tables and words of FORMATS in the definitions, as the
words `File.word` of RULES, HTTP, TRAFFIC and GUARANTEES; FORMATS must have each cause of a refusal and of a keeper fault,
HTTP each path, and the table of laws in CHANGING each law of the crates. No line but of a table, a picture or a block is
longer than 128 characters. The script ends with status 1 if anything is wrong. It proves nothing and runs no program;
trials/try_docs.py does. `.ci/run --documents` runs the other checks too.
"""
import re
import sys

from edits import edits_of
from write_docs import PAGES, TOP

sys.path.append(str(TOP / "trials"))
from office import tables  # noqa: E402


def shown(page):
    """Lines of code in a page that are not in the file named before them, or, where they are new, in no edit of its crate."""
    wrong, path, code = [], None, False
    for at, line in enumerate((TOP / page).read_text().splitlines(), 1):
        if line.startswith("```"):
            code = line == "```text"
        elif not code:
            named = [TOP / it for it in re.findall(r"`(crates/[\w./]+\.(?:antt|rt))`", line)]
            path = named[-1] if named else path
        elif line.startswith("+"):
            if not any(line[1:] in pair.new for it in edits_of(path.parent.parent.name) for pair in it.pairs):
                wrong.append(f"{page}:{at}: no edit has {line}")
        elif line.lstrip("-").strip() not in {it.strip() for it in path.read_text().splitlines()}:
            wrong.append(f"{page}:{at}: {path.name} has not {line}")
    return wrong


def tables_differ():
    """Whether the tables' texts in FORMATS are others than those of the definitions."""
    block = re.search(r"^```sql\n(CREATE TABLE.*?)^```", (TOP / "docs/FORMATS.md").read_text(), re.S | re.M)
    return [] if block and block[1].splitlines() == "\n".join(tables().values()).splitlines() else ["docs/FORMATS.md: other tables"]


def words_missing():
    """The words of the last table of FORMATS that are not in the files beside them."""
    rows = re.findall(r"^\|[^|]*\|([^|]*)\| `(crates/[\w/]+\.antt)` \|$", (TOP / "docs/FORMATS.md").read_text(), re.M)
    named = [(word, path) for words, path in rows for word in re.findall(r"`(\w+)`", words)]
    return [f"docs/FORMATS.md: no {word} in {path}" for word, path in named if not re.search(rf"\b{word}\b", (TOP / path).read_text())]


# the crates whose definitions a page names as `File.word`
NAMED = {"RULES": ["road_time"], "HTTP": ["serve_requests", "serve_desk"], "GUARANTEES": ["*"], "TRAFFIC": ["tuples_traffic", "day_plan"]}


def names_missing():
    """The words `File.word` of a page that are in no file of that name among the definitions of the page's crates."""
    wrong = []
    for page, crates in NAMED.items():
        for file, word in sorted(set(re.findall(r"`([A-Z]\w+)\.(\w+)`", (TOP / f"docs/{page}.md").read_text()))):
            texts = [path.read_text() for crate in crates for path in TOP.glob(f"crates/{crate}/specs/{file}.antt")]
            if f"{file}.{word}" not in ("File.word", "CONTRACTS.md", "Lav.antt") and not any(re.search(rf"^\s*(?:abbrev |unfoldable |pub |record |data )*{word}\b", it, re.M) for it in texts):
                wrong.append(f"docs/{page}.md: no {file}.{word}")
    return wrong


def causes_missing():
    """The causes of refusals and of keeper faults that FORMATS has not, by what their texts begin with."""
    said, wrong = (TOP / "docs/FORMATS.md").read_text(), []
    for path, form in (("crates/keep_files/src/cause.rt", r'#\[error\("([^"{]+)'), ("crates/tuples_text/src/cause.rt", r'"([a-z-]+)[ "]')):
        texts = {it.rstrip() for it in re.findall(form, (TOP / path).read_text())}
        wrong += [f"docs/FORMATS.md: no cause {it} of {path}" for it in sorted(texts) if f"`{it}" not in said]
    return wrong


def routes_missing():
    """The routes of the server that HTTP has not."""
    routes = re.findall(r'insert\("([^"]+)"', (TOP / "crates/serve_requests/src/routing.rt").read_text())
    said = (TOP / "docs/HTTP.md").read_text()
    return [f"docs/HTTP.md: no {it}" for it in routes if f"| `{it}` |" not in said]


def laws_missing():
    """The laws of the crates that the table of CHANGING has not, and those of it that are not in the crate beside them."""
    there = {(path.parts[-3], it) for path in TOP.glob("crates/*/src/*laws.rt") for it in re.findall(r"fn (\w+_law)\b", path.read_text())}
    rows = re.findall(r"((?:`\w+`(?:, )?)+): ((?:`\w+_law`(?:, )?)+)", (TOP / "docs/CHANGING.md").read_text())
    said = {(crate, it) for crates, names in rows for crate in re.findall(r"\w+", crates) for it in re.findall(r"\w+", names)}
    return [f"docs/CHANGING.md: {'no' if it in there else 'a law that is not there,'} {it[1]} of {it[0]}" for it in sorted(there ^ said)]


def main():
    wrong = shown("README.md") + shown("docs/PROOF.md") + tables_differ() + words_missing()
    wrong += causes_missing() + routes_missing() + names_missing() + laws_missing()
    for page in [*PAGES, TOP / "CHANGELOG.md"]:
        where, code = page.relative_to(TOP), False
        text = page.read_text()
        for at, line in enumerate(text.splitlines(), 1):
            code ^= line.startswith("```")
            if len(line) > 128 and not code and not line.startswith(("|", "!")):
                wrong.append(f"{where}:{at}: {len(line)} characters")
            for link in re.findall(r"\]\(([^)#]+)(?:#[^)]*)?\)", line):
                if "://" not in link and not (page.parent / link).exists():
                    wrong.append(f"{where}:{at}: no {link}")
            for path in re.findall(r"`((?:crates|bench|docs|tools|trials|examples|scripts)/[\w./]+)`", line):
                if not (TOP / path).exists() and "/out/" not in path and not re.search(r"/(NAME|CRATE)\b", path):
                    wrong.append(f"{where}:{at}: no {path}")
    print(*wrong, sep="\n", end="\n" if wrong else "")
    print(f"{len(wrong)} wrong")
    sys.exit(1 if wrong else 0)


if __name__ == "__main__":
    main()
