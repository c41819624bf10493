#!/usr/bin/env python3
"""Writes crates/NAME/CONTRACTS.md: each public call of a crate with its clauses, the sentence of each, and where it stands; and
docs/CALLS.md, an index of all of them.

    python3 tools/contracts.py             writes the page of each crate, and the index
    python3 tools/contracts.py --check     writes nothing; ends with status 1 where a page would change or a sentence is wrong
    python3 tools/contracts.py --missing   names the clauses of public calls that have no sentence yet

The sentences stand in crates/NAME/contracts.txt, in blocks of four lines: `call:` has the calls and `clause:` the clauses that
carry it, in backticks, `says:` the sentence and `if:` its premise. Where call and clause have as many parts between semicolons,
the parts belong together. A call is `name`, `Type::name` or `module::name`, of another crate `crate::name`; what stands in
brackets behind a clause are definitions, `File.word`, and fields of them. A line `note:` is shown at the page's head, and a line
`why:`, the reason of something in the code, behind the notes.

A check fails where a call, clause or definition that is named is not in the code, where a clause of a public call has no
sentence and its crate has more of them than OPEN says, and where it has fewer, so that the number falls with them. A clause of
a trait is not asked for again of a type that has the trait.
"""
import argparse
import sys

from contracts_code import TOP, Call, crate, public_calls
from contracts_reach import names, reached
from contracts_rows import all_rows, fields_of, inherited, meant, texts, ticked, words_of
from contracts_words import lowest_first

# how many clauses of public calls have no sentence yet: none may come to them
OPEN = {}
HEADLINE = ["office_commands::office", "office_ends::answered", "office_ends::begin_anew", "day_import::import",
            "day_import::answers", "day_past::import_past", "ways_audit::bulk", "serve_desk::session_shared",
            "serve_top::serve_words", "keep_puts::put_day"]
SHORT = 160


def kind_of(name, call):
    """Of what part of the page a public call is."""
    if call.name.endswith("_law") or call.path.stem.endswith("laws"):
        return "Laws"
    return "Calls that ship" if (name, call.full, call.line) in reached() else "Calls that only the library offers"


PARTS = {"Calls that ship": "The two programs reach these, as far as names in the code tell: some may be reached by none.",
         "Calls that only the library offers": "Neither program reaches these; tests and other callers do.",
         "Laws": "Each runs nothing: its clause is the law.",
         "Inside the crate": "No other crate can make these calls; sentences name them.", "Types and traits": ""}


def full(call):
    return call.full if isinstance(call, Call) else call.name


def link(call, line):
    path = call.path.relative_to(TOP / "crates")
    path = "/".join(path.parts[1:])
    return f"{path}#L{line}"


def clause_cell(row, call):
    """The clauses of a row that a call has, each with a link to its line, and behind them the fields and definitions."""
    hits = row.hits.get(id(call), [])
    found = [named(call, it) for it in call.clauses if it.kind != "requires" and it.name in hits]
    fields = {}
    for clause in call.clauses:
        fields.update(fields_of(clause, call.path))
    told = []
    for token in dict.fromkeys(ticked(row.clause)):
        if token not in hits and (token in fields or "." in token):
            told.append(field_text(token, fields[token], row.crate) if token in fields else f"`{token}`")
    return ": ".join(filter(None, [", ".join(found), ", ".join(told)])) or row.clause


def named(call, clause):
    return f"[`{clause.name}`]({link(call, clause.line)})" if clause.name else f"[the clause]({link(call, clause.line)})"


def field_text(token, word, name):
    return f"[`{token}`]({spec_path(word, name)}#L{word.fields[token]})"


def spec_path(word, name):
    return ("" if word.crate == name else f"../{word.crate}/") + f"specs/{word.file.replace('.', '/')}.antt"


def anchor(call):
    return "".join(it for it in full(call).lower() if it.isalnum() or it in "_-")


def call_text(name, call, rows, first, shown):
    """A call: where it stands, what its comment says, and its sentences."""
    where = f"[{'/'.join(call.path.relative_to(TOP / 'crates').parts[1:])}:{call.line}]({link(call, call.line)})"
    lines = [f"### `{full(call)}`", "", f"{where}. {call.says}".strip()]
    trait = getattr(call, "trait", "")
    if trait and trait != call.owner and any(trait in crate(it).things for it in names()):
        lines += ["", f"A call of `{trait}`, whose clauses it has."]
    asks = [f"[{it.name or 'a premise'}]({link(call, it.line)}) `{it.body}`" for it in call.clauses if it.kind == "requires"]
    if asks:
        lines += ["", f"Asks: {'; '.join(asks)}."]
    always = [f"{named(call, it)} `{' '.join(it.body.split())}`" for it in call.clauses if getattr(call, "kind", "") == "struct"]
    if always:
        lines += ["", f"Always so: {'; '.join(always)}."]
    mine = [row for row in rows if any(it is call for _, it in row.calls)]
    told = {it for row in mine for it in row.hits.get(id(call), [])}
    bare = [it for it in call.clauses if it.kind == "ensures" and it.name not in told and shown and not inherited(call, it)]
    if mine or bare:
        lines += ["", "| Clause | It says | If |", "|---|---|---|"]
    for row in mine:
        before = first.setdefault(id(row), call)
        again = before is not call and len(row.says) > SHORT
        says = f"As [`{full(before)}`](#{anchor(before)})" if again else row.says
        lines.append(f"| {clause_cell(row, call)} | {says} | {'the same' if again and row.when else row.when} |")
    if bare:
        lines.append(f"| {', '.join(named(call, it) for it in bare)} | no sentence yet | |")
    cites = words_of(call)
    if cites:
        lines += ["", "Words: " + ", ".join(f"`{it.name}`" for it in cites) + "."]
    return lines + [""]


def word_table(words, name):
    rows = ["| Word | Where | What it is |", "|---|---|---|"]
    for it in words:
        where = f"{it.file}:{it.line}" if it.crate == name else f"{it.crate}/{it.file}:{it.line}"
        says = it.says.replace("|", "\\|")
        rows.append(f"| `{it.name}` | [{where}]({spec_path(it, name)}#L{it.line}) | {says} |")
    return rows


def page(name, rows):
    of = crate(name)
    public = list(public_calls(of))
    shown = {id(it) for it in public}
    mine = [row for row in rows if any(where == name for where, _ in row.calls)]
    inner = [it for it in of.calls if id(it) not in shown and any(it is call for row in mine for _, call in row.calls)]
    named_too = [call for row in mine for _, call in row.calls]
    things = [it for it in of.things.values() if it.name in of.shown and it.clauses or any(it is call for call in named_too)]
    _, notes, reasons = texts(name)
    lines = [f"# The contracts of `{name}`", "",
             "Written by `tools/contracts.py` from the code and from `contracts.txt`. Each clause is proved. A link leads to the",
             "line of a clause; the definitions that the clauses use are listed at the end.", ""]
    if notes:
        lines += ["## In general", ""] + [it for note in notes for it in (note, "")]
    if reasons:
        lines += ["## Reasons", ""] + [f"- {it}" for it in reasons] + [""]
    first = {}
    groups = {it: [] for it in PARTS}
    for call in public:
        groups[kind_of(name, call)].append(call)
    groups["Inside the crate"], groups["Types and traits"] = inner, things
    for head, calls in groups.items():
        if calls:
            lines += [f"## {head}", ""] + ([PARTS[head], ""] if PARTS[head] else [])
            for call in calls:
                lines += call_text(name, call, mine, first, id(call) in shown)
    lost = [row for row in texts(name)[0] if not row.calls]
    if lost:
        lines += ["## Of no call", ""] + [it for row in lost for it in (f"- {row.says}. {row.call}: {row.clause}", )] + [""]
    words = {(it.file, it.name, it.crate): it for call in [*public, *inner, *things] for it in words_of(call)}
    if words:
        lines += ["## Words", ""] + word_table([words[it] for it in sorted(words)], name) + [""]
    for head in HEADLINE:
        where, _, token = head.partition("::")
        if where == name:
            call = meant(name, token)[0][1]
            lines += [f"## The words of `{token}`, lowest first", ""]
            lines += ["All definitions on which its clauses stand, each behind those that it uses.", ""]
            lines += word_table(lowest_first(words_of(call)), name) + [""]
    return "\n".join(lines).rstrip() + "\n"


def index():
    """All public calls by their names, each with its crate and its part there."""
    kinds = {"Calls that ship": "ships", "Calls that only the library offers": "library", "Laws": "law"}
    found = []
    for name in names():
        taken = {}
        for call in sorted(public_calls(crate(name)), key=lambda it: list(kinds).index(kind_of(name, it))):
            at = anchor(call)
            taken[at] = taken.get(at, -1) + 1
            if call.clauses:
                at = f"{at}-{taken[at]}" if taken[at] else at
                found.append((call.name.lower(), f"| [`{full(call)}`](../crates/{name}/CONTRACTS.md#{at}) | `{name}` "
                                                 f"| {len(call.clauses)} | {kinds[kind_of(name, call)]} |"))
    head = ["# Calls", "", "All public calls of the libraries and the programs that have clauses, in the order of the names behind `::`; written",
            "by `tools/contracts.py`. *Ships* means that one of the two programs reaches the call, as far as names in the code",
            "tell.", "",
            "| Call | Crate | Clauses | |", "|---|---|---|---|"]
    return "\n".join([*head, *(row for _, row in sorted(found))]) + "\n"


def missing(name, rows):
    """The clauses of a crate's public calls that have no sentence."""
    for call in public_calls(crate(name)):
        told = {it for row in rows for it in row.hits.get(id(call), [])}
        for clause in call.clauses:
            if clause.kind == "ensures" and clause.name not in told and not (call.trait and inherited(call, clause)):
                yield f"{name}: {call.full}.{clause.name or 'the clause'}"


def main():
    words = argparse.ArgumentParser(description=__doc__, formatter_class=argparse.RawDescriptionHelpFormatter)
    words.add_argument("--check", action="store_true")
    words.add_argument("--missing", action="store_true")
    given = words.parse_args()
    wrong, count, clauses, pages = [], 0, 0, {TOP / "docs/CALLS.md": index()}
    rows = all_rows(wrong)
    for name in names():
        public = list(public_calls(crate(name)))
        lacks = list(missing(name, rows))
        count += len(lacks)
        clauses += sum(it.kind == "ensures" for call in public for it in call.clauses)
        if given.missing:
            print(*lacks, sep="\n", end="\n" if lacks else "")
        if len(lacks) != OPEN.get(name, 0):
            wrong.append(f"crates/{name}: {len(lacks)} clauses without a sentence, and OPEN says {OPEN.get(name, 0)}; see --missing")
        if not public and not any(texts(name)):
            continue
        pages[TOP / "crates" / name / "CONTRACTS.md"] = page(name, rows)
    for path, text in pages.items():
        if not path.exists() or path.read_text() != text:
            if given.check:
                wrong.append(f"{path.relative_to(TOP)}: would change; run tools/contracts.py")
            elif not given.missing:
                path.write_text(text)
    print(*wrong, sep="\n", end="\n" if wrong else "")
    print(f"{len(rows)} sentences of {clauses} clauses of public calls; {count} clauses have none yet; {len(wrong)} wrong")
    sys.exit(1 if wrong else 0)


if __name__ == "__main__":
    main()
