#!/usr/bin/env python3
"""Finds all places of a variant of an enum: what has to be looked at when one like it comes, or when it goes.

    python3 tools/places.py Asked::Vehicle
    python3 tools/places.py Early             if one enum alone has it
    python3 tools/places.py --words Asked::Vehicle

A place is a line of code, of a definition, of a proof or of a test that names the variant, by the enum or by what the file
imports; crates come in their order. Then come the silent places: where some variants of the enum are told apart and all others,
also a new one, are taken together by `_`; nothing fails if one of them is forgotten. With --words the lines of documents, trials
and edits are listed too that have the variant's word.
"""
import re
import sys

from contracts_code import TOP, blanked, closing, names_used
from contracts_words import file_of
from write_docs import crates

KINDS = ["code", "definitions", "proofs", "tests"]


def kind_of(path):
    parts = path.relative_to(TOP).parts
    if parts[1].startswith(("tests_", "example_")):
        return "tests"
    return {"src": "code", "specs": "definitions", "proofs": "proofs"}[parts[2]]


def sources():
    """The sources of the crates, lowest first."""
    for name in crates():
        for folder in ("specs", "src", "proofs"):
            for path in sorted((TOP / "crates" / name / folder).rglob("*")):
                if path.suffix in (".rt", ".antt"):
                    yield path


def enums_with(variant):
    """The enums that have a variant, each with its file."""
    return [(enum, path) for path in sources() if path.suffix == ".rt"
            for enum in re.findall(r"\benum (\w+)", blanked(path.read_text())) if variant in variants_of(enum, path)]


def local_names(code, enum, variant, rust):
    """The words by which a file may name the variant: by the enum, bare, under another name, or by a name of the variants."""
    found = [rf"\b{enum}::{variant}\b"]
    for use in re.findall(r"\buse ([^;]+);" if rust else r"^use (.+)$", code, re.M):
        for name in names_used(use):
            said, _, other = name.partition("@")
            if re.search(rf"\b{enum}(?:\.TheVariants\.|::){variant}$", said):
                found.append(rf"(?<![\w.:]){other or variant}\b")
            elif said.endswith(f"{enum}.TheVariants"):
                found.append(rf"\b{other or enum}\.{variant}\b")
    if re.search(rf"\benum {enum}\b", code):
        found.append(rf"^\s*{variant}\b(?=\s*(?:[,({{]|$))")
    if re.search(rf"\bimpl\b[^{{;]*\b{enum}\b", code):
        found.append(rf"\bSelf::{variant}\b")
    return re.compile("|".join(found), re.M)


def places(enum, variant):
    """The lines that name a variant, by what they are."""
    found = {it: [] for it in KINDS}
    for path in sources():
        text = path.read_text()
        if variant not in text:
            continue
        lines, pattern = text.splitlines(), local_names(text, enum, variant, path.suffix == ".rt")
        hits = sorted({text.count("\n", 0, it.start() + len(it[0]) - len(it[0].lstrip())) + 1 for it in pattern.finditer(text)})
        found[kind_of(path)] += [(path, at, lines[at - 1].strip()) for at in hits if not lines[at - 1].lstrip().startswith("--")]
    return found


def variants_of(enum, path):
    """The variants of an enum of a file."""
    code = blanked(path.read_text())
    body = code.index("{", re.search(rf"\benum {enum}\b", code).end())
    inner, found, depth = code[body + 1:closing(code, body) - 1], [], 0
    for line in inner.splitlines():
        if depth == 0 and (it := re.match(r"\s*(\w+)\s*(?:[,({]|$)", line)):
            found.append(it[1])
        depth += sum(line.count(it) for it in "({[") - sum(line.count(it) for it in ")}]")
    return found


def arms_of(code, start, end):
    """The patterns of a match, between its braces."""
    at, found = start, []
    while (arm := re.compile(r"\s*([^{}]*?(?:\{[^{}]*\}[^{}]*?)*?)=>\s*").match(code, at, end)):
        found.append((arm.start(1), arm[1]))
        at = arm.end()
        depth = 0
        while at < end:
            if code[at] in "({[":
                at = closing(code, at)
                if code[at - 1] == "}" and depth == 0 and not code[at:end].lstrip().startswith((",", ".", "?")):
                    break
                continue
            at += 1
            if code[at - 1] == ",":
                break
        while at < end and code[at] in ", \n":
            at += 1
    return found


def silent(enum, home):
    """Where some variants are told apart, and the others are taken together."""
    every = variants_of(enum, home)
    for path in sources():
        text = path.read_text()
        if path.suffix == ".rt":
            code = blanked(text)
            own = rf"\b{enum}::(?:{'|'.join(every)})\b"
            for it in re.finditer(r"\bmatch\b[^{;]*\{", code):
                arms = arms_of(code, it.end(), closing(code, it.end() - 1) - 1)
                if any(re.search(own, arm) for _, arm in arms):
                    for at, arm in arms:
                        if re.fullmatch(r"(?:_|[a-z]\w*)\s*(?:if .*)?", arm.strip(), re.S):
                            yield path, text.count("\n", 0, at) + 1, f"{arm.strip()} => .."
        elif "specs" in path.parts and f"{enum}.TheVariants" in text:
            names = [it for it in every if local_names(text, enum, it, False).pattern.count("|")]
            words = file_of(path.relative_to(TOP).parts[1], ".".join(path.relative_to(TOP).with_suffix("").parts[3:]))[0]
            for word in words.values():
                heads = [it.partition(" = ")[0] for it in word.body.splitlines() if it.startswith(f"{word.name} ") and " = " in it]
                told = [it for it in heads if any(re.search(rf"\b{name}\b", it) for name in names)]
                if told and any("_" in it.split()[1:] for it in heads if it not in told):
                    yield path, word.line, f"{word.name} .. _ .. = .."


def beside(variant):
    """Lines elsewhere with the variant's words, in any case and with hyphens or blanks: for these no compiler asks."""
    words = [it.lower() for it in re.findall(r"[A-Z][a-z0-9]*|[a-z]+", variant)]
    pattern = re.compile(r"\b" + r"[-_ ]?".join(words) + r"\b", re.I)
    for folder in ("docs", "trials", "tools/edits", "scripts", "examples"):
        for path in sorted((TOP / folder).rglob("*")):
            if path.suffix in (".md", ".py", ".edits", ".1", ".bash", ".zsh", ".fish", ".sh", ".c"):
                for at, line in enumerate(path.read_text().splitlines(), 1):
                    if pattern.search(line):
                        yield path, at, line.strip()


def show(head, found):
    print(f"{head}: {len(found)}")
    for path, at, line in found:
        print(f"  {path.relative_to(TOP)}:{at}: {line[:100]}")


def main():
    words = [it for it in sys.argv[1:] if it != "--words"]
    if len(words) != 1 or words[0].startswith("-"):
        sys.exit(__doc__)
    enum, _, variant = words[0].rpartition("::")
    having = [it for it in enums_with(variant) if not enum or it[0] == enum]
    if len({it[0] for it in having}) != 1:
        sys.exit(f"{variant} is a variant of {', '.join(f'{it} ({path.relative_to(TOP)})' for it, path in having) or 'no enum'}")
    enum, home = having[0]
    for kind, found in places(enum, variant).items():
        show(kind, found)
    show("silent, if they are forgotten", list(silent(enum, home)))
    if "--words" in sys.argv[1:]:
        show("by its word alone", list(beside(variant)))


if __name__ == "__main__":
    main()
