"""The words of the crates' definitions, for tools/contracts.py: where each stands, what it says of itself, on which it stands."""
import functools
import pathlib
import re
from dataclasses import dataclass

TOP = pathlib.Path(__file__).resolve().parent.parent
HEAD = re.compile(r"^(?:unfoldable +)?(?:pub +)?(?:abbrev|record|data)? *(?:pub +)?(\w+)\b")
USE = re.compile(r"^(?:ghost )?use Rattle\.(\w+)\.((?:specs|proofs)[\w.]*?)\.\{([^}]*)\}", re.M)
FIELD = re.compile(r"^  (?:pub )?(\w+) :")


@dataclass
class Word:
    crate: str
    file: str
    name: str
    path: pathlib.Path
    line: int
    says: str
    body: str
    fields: dict


def used(text):
    """The words that a file uses, by their local names: crate, file and name of each."""
    found = {}
    for crate, module, names in USE.findall(text):
        for name in filter(None, (it.strip() for it in names.split(","))):
            said, _, other = name.partition(" as ")
            found[other or said] = crate, module.split(".", 1)[1] if "." in module else "", said
    return found


@functools.cache
def file_of(crate, name):
    """The words of a definition file and what it uses, or none."""
    path = TOP / "crates" / crate / "specs" / (name.replace(".", "/") + ".antt")
    if not path.exists():
        return None
    text = path.read_text()
    lines, words, above, last = text.splitlines(), {}, [], None
    for at, line in enumerate(lines, 1):
        if line.startswith("--"):
            above.append(line[2:].strip())
            last = None
        elif line.startswith("use "):
            above, last = [], None
        elif not line.strip():
            above = []
        elif line[0] not in " }" and HEAD.match(line):
            name_of = HEAD.match(line)[1]
            if name_of not in words:
                words[name_of] = Word(crate, name, name_of, path, at, " ".join(above), "", {})
            last, above = words[name_of], []
            last.body += line + "\n"
        elif last:
            last.body += line + "\n"
            field = FIELD.match(line)
            if field:
                last.fields.setdefault(field[1], at)
    return words, used(text)


def find(crate, file, name):
    """A word, or none: those of other kits and the types of the code are none."""
    found = file_of(crate, file) if file else None
    return found[0].get(name) if found else None


def cited(text, uses):
    """The words that a text cites, by the uses of its file."""
    found = []
    for name in dict.fromkeys(re.findall(r"[\w◌]+", text)):
        if name in uses:
            word = find(*uses[name])
            if word:
                found.append(word)
    return found


@functools.cache
def below(crate, file, name):
    """The words on which a word stands."""
    words, uses = file_of(crate, file)
    of = words[name]
    own = [words[it] for it in dict.fromkeys(re.findall(r"\w+", of.body)) if it in words and it != name]
    return own + [it for it in cited(of.body, uses) if it is not of]


def key(word):
    return word.crate, word.file, word.name


def lowest_first(words):
    """These words and all on which they stand, each behind those on which it stands."""
    order, seen = [], set()

    def take(word):
        if key(word) in seen:
            return
        seen.add(key(word))
        for it in below(*key(word)):
            take(it)
        order.append(word)

    for word in words:
        take(word)
    return order
