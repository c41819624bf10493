"""The sentences of crates/NAME/contracts.txt and what of the code they name, for tools/contracts.py, which says how they are
written."""
import functools
import re
from dataclasses import dataclass, field

from contracts_code import TOP, crate
from contracts_reach import names
from contracts_words import cited, used


@dataclass
class Row:
    """A sentence, and the calls and clauses that carry it."""
    crate: str
    line: int
    call: str = ""
    clause: str = ""
    says: str = ""
    when: str = ""
    calls: list = field(default_factory=list)
    hits: dict = field(default_factory=dict)


def parts(text):
    """A cell's parts between its semicolons, but for those in brackets."""
    found, depth = [""], 0
    for sign in text:
        depth += (sign == "(") - (sign == ")")
        if sign == ";" and depth == 0:
            found.append("")
        else:
            found[-1] += sign
    return found


def outside(text):
    """A cell without what stands in brackets."""
    while (less := re.sub(r"\([^()]*\)", "", text)) != text:
        text = less
    return text


def ticked(text):
    return re.findall(r"`([\w:.]+)`", text)


@functools.cache
def texts(name):
    """The rows of a crate's file, its notes, and the reasons behind its code."""
    path = TOP / "crates" / name / "contracts.txt"
    rows, notes, reasons, row = [], [], [], None
    if path.exists():
        for at, line in enumerate(path.read_text().splitlines(), 1):
            head, _, rest = line.partition(": ")
            if head == "note":
                notes.append(rest)
            elif head == "why":
                reasons.append(rest)
            elif head == "call":
                row = Row(name, at, call=rest)
                rows.append(row)
            elif head in ("clause", "says"):
                setattr(row, head, rest)
            elif head == "if":
                row.when = rest
    return rows, notes, reasons


def meant(name, token):
    """The calls and types that a token of a crate's file names."""
    at = token.split("::")
    if at[0] in names() and len(at) > 1:
        name, at = at[0], at[1:]
    of, last = crate(name), at[-1]
    if len(at) > 1 and at[-2][0].isupper():
        return [(name, it) for it in of.calls if it.owner == at[-2] and it.name == last]
    found = [it for it in of.calls if it.name == last and not it.owner and (len(at) == 1 or it.path.stem == at[-2])]
    return [(name, it) for it in found] or ([(name, of.things[last])] if len(at) == 1 and last in of.things else [])


@functools.cache
def uses_of(path):
    return used(path.read_text())


def words_of(call):
    """The words that the clauses of a call or type cite."""
    found = {}
    for clause in call.clauses:
        for word in cited(clause.body, uses_of(call.path)):
            found.setdefault((word.crate, word.file, word.name), word)
    return list(found.values())


def fields_of(clause, path):
    """The fields of the records that a clause cites, each with its word."""
    return {name: word for word in cited(clause.body, uses_of(path)) for name in word.fields}


def settle(row, wrong):
    """Finds the calls of a row, and for each the clauses that carry it."""
    calls, clauses = parts(row.call), parts(row.clause)
    pairs = list(zip(calls, clauses)) if len(calls) == len(clauses) > 1 else [(row.call, row.clause)]
    where = f"crates/{row.crate}/contracts.txt:{row.line}"
    for some, by in pairs:
        found = []
        for token in ticked(outside(some)):
            these = meant(row.crate, token)
            if not these and token not in names():
                wrong.append(f"{where}: no call {token}")
            found += these
        every = set()
        for name, call in found:
            row.calls.append((name, call))
            hits = row.hits.setdefault(id(call), [])
            fields_told = set(ticked(outside(by))) - {it.name for it in call.clauses if it.kind != "requires"}
            for clause in call.clauses:
                fields = fields_of(clause, call.path)
                every |= {clause.name, *fields}
                if clause.kind == "requires":
                    continue
                own = clause.name in ticked(by) if clause.name else "the clause" in by or "its bounds" in by
                if own or any(it in fields for it in fields_told):
                    hits.append(clause.name)
            every |= {it.name for of in trait_calls(call) for it in of.clauses}
        asked = set(ticked(re.sub(r"\b(?:of|by) `[^`]*`", "", outside(by))))
        for token in ticked(by):
            file, _, word = token.rpartition(".")
            there = any(word in text for text in spec_files().get(file, [])) if file else token in every or token not in asked and known(token)
            if not there:
                wrong.append(f"{where}: no {token}")


@functools.cache
def spec_files():
    """The words of the definition files, and of the lemmas, by the files' names."""
    found = {}
    for path in [*TOP.glob("crates/*/specs/**/*.antt"), *TOP.glob("crates/*/proofs/*.antt")]:
        found.setdefault(path.stem, []).append(frozenset(re.findall(r"[\w◌]+", path.read_text())))
    return found


@functools.cache
def every_name():
    found = set(names())
    for name in names():
        it = crate(name)
        found |= set(it.things) | {call.name for call in it.calls}
        found |= {clause.name for of in [*it.calls, *it.things.values()] for clause in of.clauses}
    return found | set(spec_files())


def known(token):
    return token.split("::")[-1] in every_name() or any(token in it for texts in spec_files().values() for it in texts)


def trait_calls(call):
    """The calls of the trait that a call belongs to, of its name."""
    trait = getattr(call, "trait", "")
    homes = [it for it in names() if trait and trait in crate(it).things and crate(it).things[trait].kind == "trait"]
    return [it for where in homes for it in crate(where).calls if it.owner == trait and it.name == call.name]


def inherited(call, clause):
    """Whether a clause is that of the trait whose call this is."""
    return any(it.name == clause.name for own in trait_calls(call) for it in own.clauses)


def all_rows(wrong):
    found = []
    for name in names():
        for row in texts(name)[0]:
            settle(row, wrong)
            found.append(row)
    return found
