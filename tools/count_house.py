#!/usr/bin/env python3
"""Counts how large the house is: crates, lines, clauses and which of them stand twice, files, and the walk of a byte.

    python3 tools/count_house.py [--names] [TOP]

A clause is a `requires` or an `ensures` with its name and its braces, or a ghost member of a trait or a type; its lines are
those that it takes in its file. A promise is an `ensures`; `self` is an argument. A clause line is a repeat if the same
clause, blanks apart, stood earlier. A paragraph is three clauses and more of a function that one earlier function has too.
The walk is that of a byte from `main` and standard input to a notice, where a day is answered in rounds: the calls and
returns of WALK in their order, each in the crate that has it now; it crosses a border where the next is in another crate.
With --names files and definitions are named, not counted alone. It proves nothing and changes nothing.
"""
import argparse
import collections
import pathlib
import re

# The calls that a byte goes through, in their order: TYPE::FUNCTION, or FUNCTION with a piece of the path that it stands in; of
# several with a bar between them the first that is there.
WALK = """
main@toll_office beside@crews run_and_stop@ run_office@ run_words@toll_office
answered@answering office@entry read_words@words perform@performing import@importing import_new@importing
import_later@importing import_begun@ import_under@ run_day@ begin@begun Floor::new begin@begun run_day@ run_opened@ run_plan@ run_rounds@ next_round@ round@rounds
work_round@ read_on@reading gather@reading next@day_ahead next@day_reader advance@cutter WatchedSource::read read@source WatchedSource::read advance@cutter next@day_reader
add@consumed add@beside_digester add@beside_digester take@intake read_line@ admit@gatekeeper Sorter::put take@sorter
take@intake next@day_reader next@day_ahead gather@reading read_on@reading work_round@ feed_these@ feed@floor
feed_report@ see@tracker feed_report@ of_report@ feed@floor give_all@work give_one@ give@floor give_one@
start_beside@ start@inline_crew run@job next@carriage next@parts see@parts advance@parts advance@stops see@parts
tell@parts find_if@ find_anew@ Speeds::cars find_anew@ nearest@stops find_anew@ toll@formula find_anew@ tell@parts
run@job start@inline_crew start_beside@ give_one@ finish_firsts@ finish_one@ finish_among@ finish@inline_crew
finish_one@ back@floor back@inboxes fill@slots said@slot fill@slots fill@slot back@floor round@rounds settle_done@
settle@floor settle@publishing write_run@ settle_run@ settle_next@ settle_slot@ settle_report@ charge@booking
Book::charge settle_report@ notify@booking Book::notify settle_report@ put_told@printer put_notice@ flush@printer
hand_on@handing|put_all@sink write@sink
"""
CLAUSE = re.compile(r"^\s*(?:requires|ensures|ghost (?!use\b))\b")


def sources(top, ending, place):
    return [it for it in sorted(top.glob(f"crates/*/{place}/**/*{ending}")) if "out" not in it.relative_to(top).parts]


def clauses(text):
    """Each clause of a source, with its lines and its text without blanks."""
    lines, at = text.splitlines(), 0
    while at < len(lines):
        if CLAUSE.match(lines[at]):
            end, depth = at, 0
            while True:
                depth += lines[end].count("{") - lines[end].count("}")
                if depth <= 0 or end + 1 == len(lines):
                    break
                end += 1
            yield at, end - at + 1, re.sub(r"\s+", " ", " ".join(lines[at:end + 1])).strip().rstrip(";,")
            at = end
        at += 1


def functions_of(sources):
    """Of each function the lines of its clauses by their texts, in the order of the files."""
    for path in sources:
        text, found = path.read_text(), None
        heads = [it.start() for it in re.finditer(r"^[ \t]*(?:pub(?:\([\w ]+\))? )?(?:const |unsafe )*fn \w+", text, re.M)]
        starts = [text.count("\n", 0, it) for it in heads]
        functions = [{} for _ in starts]
        for at, lines, clause in clauses(text):
            before = [number for number, start in enumerate(starts) if start <= at]
            if before and not clause.startswith("ghost"):
                functions[before[-1]][clause] = lines
        yield from functions


def paragraphs(sources):
    """The lines of clauses of functions, those in paragraphs, and how many functions have one: three clauses and more that
    one earlier function has too."""
    seen, every, lines, count = [], 0, 0, 0
    by_clause = {}
    for own in functions_of(sources):
        every += sum(own.values())
        beside = collections.Counter(it for clause in own for it in by_clause.get(clause, ()))
        best = max(beside, key=lambda it: (beside[it], -it), default=None)
        if best is not None and beside[best] >= 3:
            count += 1
            lines += sum(own[clause] for clause in own if clause in seen[best])
        for clause in own:
            by_clause.setdefault(clause, []).append(len(seen))
        seen.append(own)
    return every, lines, count


def parted(text, at):
    """The parts of a list in brackets that begins at a place, and the place behind it."""
    depth, parts, begin = 0, [], at + 1
    while True:
        c = text[at]
        if c in "([{<":
            depth += 1
        elif c in ")]}" or c == ">" and text[at - 1] not in "-=":
            depth -= 1
        if c == "," and depth == 1 or depth == 0:
            parts.append(text[begin:at].strip())
            begin = at + 1
        at += 1
        if depth == 0:
            return [it for it in parts if it], at


def sizes(sources):
    """Of each function its place, and how many promises, arguments and type parameters it has."""
    for path in sources:
        text = path.read_text()
        heads = list(re.finditer(r"^[ \t]*(?:pub(?:\([\w ]+\))? )?(?:const |unsafe )*fn (\w+)", text, re.M))
        for it, end in zip(heads, [it.start() for it in heads[1:]] + [len(text)]):
            types, at = parted(text, it.end()) if text[it.end()] == "<" else ([], it.end())
            arguments, at = parted(text, at)
            promises = len(re.findall(r"^[ \t]*ensures\b", text[at:end], re.M))
            where = f"{path.parts[-3]}/{path.name}:{text.count(chr(10), 0, it.start()) + 1} {it[1]}"
            yield where, promises, len(arguments), sum(it[0] != "'" for it in types)


def station(top, said, cache):
    """The crate of a call of the walk."""
    kind, _, name = said.rpartition("::")
    name, _, piece = name.partition("@")
    for path, text in cache:
        where = str(path.relative_to(top))
        if "/tests_" in where or "/example_" in where:
            continue
        if not re.search(rf"\bfn {name}\b", text) or (piece and not re.search(rf"(?:^|[/_]){piece}(?:[/_.]|$)", where)):
            continue
        if not kind or re.search(rf"\bimpl\b[^{{;]*\b{kind}\b", text):
            return where.split("/")[1]
    return None


def main():
    words = argparse.ArgumentParser()
    words.add_argument("--names", action="store_true")
    words.add_argument("top", nargs="?", type=pathlib.Path, default=pathlib.Path(__file__).resolve().parent.parent)
    given = words.parse_args()
    top, long_lines, long_files, no_head = given.top.resolve(), [], [], []
    names = [line.split(":")[0].split()[0] for line in (top / "crates.txt").read_text().splitlines()
             if line.strip() and not line.startswith("#")]
    tests = [it for it in names if it.startswith(("tests_", "example_"))]
    print(f"crates: {len(names)}, of which {len(tests)} are of tests and examples")
    total = collections.Counter()
    for place, ending in (("src", ".rt"), ("specs", ".antt"), ("proofs", ".antt")):
        paths = sources(top, ending, place)
        for path in paths:
            lines = path.read_text().splitlines()
            total[place] += len(lines)
            if len(lines) > 300:
                long_files.append(f"{path.relative_to(top)}: {len(lines)}")
            long_lines += [f"{path.relative_to(top)}:{at}" for at, line in enumerate(lines, 1) if len(line) > 120]
            if place == "specs" and path.name != "Lib.antt" and not lines[0].startswith("--"):
                no_head.append(str(path.relative_to(top)))
        print(f"{place}: {len(paths)} files, {total[place]} lines")
    print(f"together: {sum(total.values())} lines")
    seen, count, repeats, again, how = set(), 0, 0, 0, collections.Counter()
    for path in sources(top, ".rt", "src"):
        for _, lines, text in clauses(path.read_text()):
            count += lines
            again += 1
            how[text] += 1
            if text in seen:
                repeats += lines
            seen.add(text)
    print(f"clauses: {again} in {count} lines; {repeats} lines are repeats ({again - len(seen)} clauses)")
    for what, most, at in (("promises", 9, 1), ("arguments", 9, 2), ("type parameters", 6, 3)):
        found = sorted((it for it in sizes(sources(top, ".rt", "src")) if it[at] > most), key=lambda it: -it[at])
        print(f"functions with more than {most} {what}: {len(found)}" + (f", at most {found[0][at]}" if found else ""))
        for it in found if given.names else []:
            print(f"    {it[at]} {it[0]}")
    if given.names:
        for text, times in how.most_common(40):
            print(f"    {times} times: {text[:160]}")
    every, shared, of = paragraphs(sources(top, ".rt", "src"))
    print(f"paragraphs of three clauses and more that an earlier function has too: {shared} of {every} lines, in {of} functions")
    cache = [(path, path.read_text()) for path in sources(top, ".rt", "src")]
    gone, walk = [], []
    for said in WALK.split():
        crate = next((it for it in (station(top, one, cache) for one in said.split("|")) if it), None)
        if crate is None:
            gone.append(said)
        elif not walk or walk[-1] != crate:
            walk.append(crate)
    print(f"the walk of a byte: {len(walk) - 1} borders" + (f"; not found: {' '.join(gone)}" if gone else ""))
    if given.names:
        print("    " + " ".join(walk))
    for what, found in (("files over 300 lines", long_files), ("lines over 120 characters", long_lines),
                        ("definition files without a head line", no_head)):
        print(f"{what}: {len(found)}")
        if given.names:
            print("".join(f"    {it}\n" for it in found), end="")


if __name__ == "__main__":
    main()
