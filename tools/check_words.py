#!/usr/bin/env python3
"""Compares the words of the documents with the grammar: the manual pages, the completion of each shell, README and FORMATS.

    python3 tools/check_words.py

The grammar is the table in `crates/office_words/specs/Table.antt`, beside it what `crates/office_ends/specs/Words.antt` takes,
the option of each command that `crates/office_words/specs/Waits.antt` takes off, and, of the server,
`crates/serve_top/specs/App.antt`. The script ends with status 1 and names each word that a page lacks or has
too much. If groff is there, the manual pages must give it no warning.
"""
import pathlib
import re
import shutil
import subprocess
import sys

TOP = pathlib.Path(__file__).resolve().parent.parent
ASK = """source docs/toll_office.bash
COMP_WORDS=("$@"); COMP_CWORD=$((${#COMP_WORDS[@]} - 1)); "_$1"; echo "${COMPREPLY[@]}"
"""


def text(name):
    return (TOP / name).read_text()


def office():
    """Each command of the office with its places, and its options and flags."""
    table = text("crates/office_words/specs/Table.antt")
    lists = {name: body for name, body in re.findall(r"^(\w+) = (.*?)$", table, re.M) if "codes" in body}

    def names(said):
        found = []
        for part in said.strip("() ").split("++"):
            part = part.strip("() ")
            found += re.findall(r'codes "([\w-]+)"', lists.get(part, part))
        return found

    body = re.search(r"^forms = (.*?)^    ∷ \[\]", table, re.S | re.M).group(1)
    row = r'(?:stated|flagged)_form \(codes "(\w+)"\) (\[\]|\(.*?\[\]\)) (\(.*?\)|[\w\[\]]+) ?(\w*)$'
    rows = re.findall(row, body, re.M)
    forms = {name: (names(places), names(options) + names(flags)) for name, places, options, flags in rows}
    words = text("crates/office_ends/specs/Words.antt")
    beside = re.search(r'bytes_eq name \(codes "(\w+)"\)', words)
    return {**forms, beside.group(1): (["base"], sorted(set(re.findall(r'codes "--(\w+)"', words))))}


def waits():
    """The options that each command takes."""
    return sorted(set(re.findall(r'codes "--(\w+)"', text("crates/office_words/specs/Waits.antt"))))


def server():
    """The options of the server."""
    return re.findall(r'option_rule \(codes "(\w+)"\)', text("crates/serve_top/specs/App.antt"))


def completed(*words):
    """What the completion offers behind these words."""
    ran = subprocess.run(["bash", "-c", ASK, "bash", *words], cwd=TOP, text=True, capture_output=True, check=True)
    return ran.stdout.split()


def offered(page):
    """What the completion of another shell offers as a command, behind each command, and to the server: by its text."""
    said = text(page)
    rows = re.findall(r'^ +([\w |]+)\) options="(.*)" ;;|^ +case ([\w ]+)\n +set words (.*)', said, re.M)
    behind = {it: (more or other).split() for names, more, others, other in rows for it in re.findall(r"\w+", names or others)}
    first = re.search(r'(?:CURRENT == 2 \)\); then\n +options="|-eq 1\n +set words )([\w ]+)', said)[1].split()
    return first, behind, re.findall(r"--\w+", re.search(r"toll_serve(?: \]\];|' \$given\[1\]).*\n.*", said)[0])


def plain(page):
    """A manual page without its marks."""
    return re.sub(r"\\f.", "", text(page)).replace("\\-", "-")


def main():
    wrong = []

    def same(what, found, wanted):
        if sorted(found) != sorted(wanted):
            lacks, more = sorted(set(wanted) - set(found)), sorted(set(found) - set(wanted))
            wrong.append(f"{what}: lacks {lacks}, has besides {more}, of {sorted(wanted)}")

    forms = office()
    same("completion: commands", completed("toll_office", ""), forms)
    page = plain("docs/toll_office.1")
    head = page.partition(".SH DESCRIPTION")[0]
    synopsis = {it.split()[1]: it for it in re.findall(r"^toll_office \w+.*$", head, re.M)}
    same("toll_office.1: synopsis", synopsis, forms)
    of_each = waits()
    every = set(of_each)
    for name, (places, options) in forms.items():
        every |= set(options)
        words = [f"--{it}" for it in options]
        same(f"completion: {name}", completed("toll_office", name, ""), words + [f"--{it}" for it in of_each])
        said = synopsis.get(name, "")
        if "options of" not in said:
            same(f"toll_office.1: {name}", re.findall(r"--[\w-]+", said), words)
        same(f"toll_office.1: places of {name}", re.findall(r"\b[A-Z]+\b", re.sub(r"\[.*?\]", "", said)),
             [it.upper() for it in places])
        if not re.search(rf"^\.BI? {name}\b", page, re.M):
            wrong.append(f"toll_office.1: no part on {name}")
        for where in ("README.md", "docs/FORMATS.md"):
            if not re.search(rf"`{name}\b", text(where)):
                wrong.append(f"{where}: no {name}")
    for name in every:
        for where in ("README.md", "docs/FORMATS.md", "docs/toll_office.1"):
            if f"--{name}" not in (page if where.endswith("1") else text(where)):
                wrong.append(f"{where}: no --{name}")
    options = [f"--{it}" for it in server()]
    same("completion: toll_serve", completed("toll_serve", ""), options)
    for shell in ("docs/toll_office.zsh", "docs/toll_office.fish"):
        first, behind, serving = offered(shell)
        same(f"{shell}: commands", first, forms)
        same(f"{shell}: toll_serve", serving, options)
        for name, (_, own) in forms.items():
            same(f"{shell}: {name}", behind.get(name, []), [f"--{it}" for it in own])
    same("toll_serve.1", set(re.findall(r"--\w+", plain("docs/toll_serve.1"))), options)
    same("HTTP.md", set(re.findall(r"`(--\w+)`", text("docs/HTTP.md"))), options)
    if shutil.which("groff"):
        for page in ("docs/toll_office.1", "docs/toll_serve.1"):
            ran = subprocess.run(["groff", "-man", "-Tutf8", "-ww", "-z", page], cwd=TOP, text=True, stderr=subprocess.PIPE)
            wrong += ran.stderr.splitlines()
    print(*wrong, sep="\n", end="\n" if wrong else "")
    print(f"{len(forms)} commands, {len(every)} options, {len(options)} of the server: {len(wrong)} wrong")
    sys.exit(1 if wrong else 0)


if __name__ == "__main__":
    main()
