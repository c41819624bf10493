"""What tools/contracts.py reads of a crate: its calls with their clauses, its types, and the words of its definitions."""
import functools
import pathlib
import re
from dataclasses import dataclass, field

TOP = pathlib.Path(__file__).resolve().parent.parent
BLANKS = re.compile(r"""//[^\n]*|/\*.*?\*/|b?"(?:\\.|[^"\\])*"|b?'(?:\\[^']*|[^'\\\n])'""", re.S)
ITEM = re.compile(r"(?P<pub>pub(?:\([^)]*\))?\s+)?(?:const\s+)?\b(?P<kind>fn|impl|trait|struct|enum|type|mod)\b")
CLAUSE = re.compile(r"\s*(?P<kind>ensures|requires)\*?\s*(?P<name>\w*)\s*\{")


@dataclass
class Clause:
    kind: str
    name: str
    body: str
    line: int


@dataclass
class Call:
    owner: str
    name: str
    path: pathlib.Path
    line: int
    public: bool
    says: str
    clauses: list
    body: str
    head: str
    trait: str = ""

    @property
    def full(self):
        return f"{self.owner}::{self.name}" if self.owner else self.name


@dataclass
class Thing:
    """A type or a trait."""
    kind: str
    name: str
    path: pathlib.Path
    line: int
    public: bool
    says: str
    clauses: list
    body: str


@dataclass
class Crate:
    name: str
    calls: list = field(default_factory=list)
    things: dict = field(default_factory=dict)
    shown: set = field(default_factory=set)
    files: dict = field(default_factory=dict)


def blanked(text):
    """The text with its comments, strings and characters blanked, as long as it was."""
    return BLANKS.sub(lambda it: re.sub(r"[^\n]", " ", it[0]), text)


def closing(text, at):
    """Behind the bracket that closes the one at a place."""
    pairs, depth = {"{": "}", "(": ")", "[": "]"}, 0
    left, right = text[at], pairs[text[at]]
    for here in range(at, len(text)):
        depth += (text[here] == left) - (text[here] == right)
        if depth == 0:
            return here + 1
    return len(text)


def said_above(lines, line):
    """The doc comment above a line, counted from 0: its first part, up to an empty line."""
    found, at = [], line - 1
    while at >= 0 and lines[at].strip().startswith(("///", "#[")):
        if lines[at].strip().startswith("///"):
            found.append(lines[at].strip()[3:].strip())
        at -= 1
    return " ".join(found[::-1])


class File:
    """The items of a file."""

    def __init__(self, crate, path):
        self.crate, self.path = crate, path
        self.text = path.read_text()
        self.code, self.lines = blanked(self.text), self.text.splitlines()
        self.uses = {}
        for use in re.finditer(r"\buse ([^;]+);", self.code):
            for name in names_used(use[1]):
                said, _, other = name.partition("@")
                self.uses[other or said.split("::")[-1].split(".")[-1]] = said
        crate.files[path] = self
        self.items(0, len(self.code), "", "", False)

    def line(self, at):
        return self.code.count("\n", 0, at) + 1

    def items(self, at, end, owner, trait, open_to_all):
        while True:
            it = ITEM.search(self.code, at, end)
            if not it:
                return
            # what stands within other brackets than this level's is skipped
            opened = re.compile(r"[({\[]").search(self.code, at, it.start())
            if opened:
                at = closing(self.code, opened.start())
                continue
            at = self.item(it, owner, trait, open_to_all, end)

    def item(self, it, owner, trait, open_to_all, end):
        kind, public, begin = it["kind"], (it["pub"] or "").strip() == "pub" or open_to_all, it.start()
        says = said_above(self.lines, self.line(begin) - 1)
        if kind == "fn":
            return self.call(it, owner, trait, public, says)
        stop = re.compile(r"[{;]").search(self.code, it.end())
        if not stop:
            return end
        head = self.code[it.end():stop.start()]
        if kind in ("mod", "type"):
            if kind == "type":
                self.thing(it, "type", public, says, stop.start(), stop.start())
            elif self.code[stop.start()] == "{":
                return closing(self.code, stop.start())
            return stop.start() + 1
        if kind == "struct" and self.code[stop.start()] == ";":
            self.thing(it, kind, public, says, stop.start(), stop.start())
            return stop.start() + 1
        behind = closing(self.code, stop.start())
        if kind in ("struct", "enum"):
            self.thing(it, kind, public, says, stop.start(), behind)
        elif kind == "trait":
            name = self.thing(it, kind, public, says, stop.start(), stop.start())
            self.items(stop.start() + 1, behind - 1, name, name, True)
        else:
            head = re.sub(r"^\s*<(?:[^<>]|<(?:[^<>]|<[^<>]*>)*>)*>", "", head)
            of, _, on = head.partition(" for ")
            owner = re.match(r"\s*&?\s*(?:mut\s+)?(?:\w+::)*(\w+)", on or of)
            of = re.match(r"\s*(?:\w+::)*(\w+)", of)
            self.items(stop.start() + 1, behind - 1, owner[1] if owner else "", of[1] if on and of else "", False)
        return behind

    def thing(self, it, kind, public, says, start, end):
        name = re.compile(r"\s*(\w+)").match(self.code, it.end())[1]
        clauses = []
        for ghost in re.compile(r"ghost\s+(\w+)\s*:\s*\{").finditer(self.code, start, end):
            behind = closing(self.code, ghost.end() - 1)
            clauses.append(Clause("ghost", ghost[1], self.text[ghost.end():behind - 1].strip(), self.line(ghost.start())))
        self.crate.things.setdefault(name, Thing(kind, name, self.path, self.line(it.start()), public, says, clauses,
                                                 self.code[it.start():end]))
        return name

    def call(self, it, owner, trait, public, says):
        code, at = self.code, it.end()
        name = re.compile(r"\s*(\w+)").match(code, at)[1]
        # the parameters
        opened = code.index("(", at)
        at = closing(code, opened)
        clauses, stop = [], re.compile(r"\b(?:ensures|requires)\b|[{;]")
        while True:
            found = stop.search(code, at)
            if not found or found[0] in "{;":
                break
            clause = CLAUSE.match(code, found.start())
            behind = closing(code, clause.end() - 1)
            clauses.append(Clause(clause["kind"], clause["name"], " ".join(self.text[clause.end():behind - 1].split()),
                                  self.line(clause.start("kind"))))
            at = behind
        head = code[it.start():found.start() if found else len(code)]
        behind = closing(code, found.start()) if found and found[0] == "{" else (found.end() if found else len(code))
        self.crate.calls.append(Call(owner, name, self.path, self.line(it.start()), public, says, clauses,
                                     code[found.start():behind] if found else "", head, trait))
        return behind


@functools.cache
def crate(name):
    found = Crate(name)
    folder = TOP / "crates" / name / "src"
    for path in sorted(folder.rglob("*.rt")):
        File(found, path)
    root = folder / "lib.rt"
    if root.exists():
        shows(found, root, set())
    return found


def module_file(folder_of, parts):
    """The file of a module, named from the folder in which its parent's modules lie."""
    path = folder_of.joinpath(*parts)
    return path.with_suffix(".rt")


def shows(found, path, seen):
    """Adds the names that a module shows to all."""
    if path in seen:
        return
    seen.add(path)
    src = TOP / "crates" / found.name / "src"
    inner = src if path.name == "lib.rt" else path.with_suffix("")
    code = blanked(path.read_text())
    for use in re.finditer(r"pub use ([^;]+);", code):
        for name in names_used(use[1]):
            found.shown.add(name.split("::")[-1])
    for mod in re.finditer(r"pub mod (\w+);", code):
        below = module_file(inner, [mod[1]])
        if below.exists():
            text = blanked(below.read_text())
            for it in re.finditer(r"^pub (?:const )?(?:fn|struct|enum|trait|type) (\w+)", text, re.M):
                found.shown.add(it[1])
            shows(found, below, seen)


def names_used(text):
    """The paths of a use, its braces taken apart."""
    text = "".join(re.sub(r"\s+as\s+", "@", text).split())
    if "{" not in text:
        return [text]
    before, _, rest = text.partition("{")
    inner, depth, parts, last = rest[: rest.rindex("}")], 0, [], 0
    for at, sign in enumerate(inner):
        depth += (sign == "{") - (sign == "}")
        if sign == "," and depth == 0:
            parts.append(inner[last:at])
            last = at + 1
    parts.append(inner[last:])
    return [before + it for part in parts if part for it in names_used(part)]


def public_calls(found):
    """The calls of a crate that another crate may make: of the names that it shows, and of the types and traits among them."""
    for call in found.calls:
        if not call.owner:
            if call.public and call.name in found.shown:
                yield call
        elif call.owner in found.shown and (call.public or call.trait):
            yield call
