#!/usr/bin/env python3
"""Types words into bash and zsh, in a pseudo-terminal, and asks fish, and compares what they complete them to.

    python3 trials/try_completion.py

The folder has the files `day.csv` and `late.csv`. Behind each text a key puts in all that is offered, and another prints the line;
fish says what it offers. A shell that is not on this machine is passed over, and said so. The script ends with status 1 if a line
is another one. It needs no program of the office.
"""
import os
import pathlib
import pty
import re
import select
import shutil
import subprocess
import sys
import tempfile
import time

from office import TOP

OFFER, SHOW, CLEAR = "\x1b*", "\x14", "\x15"
ROWS = [
    ("toll_office va", "toll_office validate "),
    ("toll_office import 100 < da", "toll_office import 100 < day.csv "),
    ("toll_office import 100 <da", "toll_office import 100 <day.csv "),
    ("toll_office import 100 < day.csv > ", "toll_office import 100 < day.csv > day.csv late.csv "),
    ("toll_office import 100 2> la", "toll_office import 100 2> late.csv "),
    ("toll_office accidents < ", "toll_office accidents < day.csv late.csv "),
    ("toll_office import 100 ", "toll_office import 100 --backlog --late --turns --wait --workers "),
    ("toll_office import 100 --late ", "toll_office import 100 --late "),
    ("toll_office audit 100 --show ", "toll_office audit 100 --show "),
    ("toll_office import 100 --late 3 --", "toll_office import 100 --late 3 --backlog --turns --wait --workers "),
    ("toll_office audit 100 --any-order --s", "toll_office audit 100 --any-order --shards --show "),
    ("toll_office import 100 < day.csv --w", "toll_office import 100 < day.csv --wait --workers "),
    ("toll_office import 100 d", "toll_office import 100 d"),
    ("toll_office d", "toll_office day days "),
    ("toll_office days --", "toll_office days --wait "),
    ("toll_office days --wait ", "toll_office days --wait "),
    ("toll_office renew 108 --", "toll_office renew 108 --drop --wait "),
    ("toll_serve 8080 --sessions 5 --", "toll_serve 8080 --sessions 5 --readers "),
    ("toll_serve 8080 > la", "toll_serve 8080 > late.csv "),
]


# how each shell is begun, and what it is told before it is asked
BEGUN = {
    "bash": (["bash", "--norc", "--noprofile", "-i"], f"""PS1=; stty -echo cols 1000; source {TOP}/docs/toll_office.bash
set -o emacs; bind -x '"\\C-t": printf "\\nLINE<%s>LINE\\n" "$READLINE_LINE"'; echo READ''Y
"""),
    "zsh": (["zsh", "-f", "-i"], """PS1=; stty -echo cols 1000; unsetopt zle_bracketed_paste prompt_cr; fpath=("$FUNCTIONS" $fpath)
autoload -U compinit; compinit -u -D; bindkey -e; shown() { print -r -- $'\\n'"LINE<$BUFFER>LINE" }; zle -N shown; bindkey '^T' shown
zle -C every complete-word _generic; bindkey '^[*' every; zstyle ':completion:every::::' completer _all_matches _complete
zstyle ':completion:every:*' insert true; bindkey '^U' kill-whole-line; echo READ''Y
"""),
}


class Terminal:
    """An interactive shell with the completion, in a folder."""

    def __init__(self, shell, folder, functions):
        self.shell = shell
        words, told = BEGUN[shell]
        self.child, self.master = pty.fork()
        if self.child == 0:
            os.chdir(folder)
            os.environ.update(INPUTRC="/dev/null", TERM="dumb", FUNCTIONS=functions)
            os.execvp(words[0], words)
        self.send(told)
        self.until("READY")

    def send(self, said):
        os.write(self.master, said.encode())

    def until(self, pattern):
        """What is printed up to a pattern."""
        found, end = "", time.monotonic() + 20
        while time.monotonic() < end:
            if select.select([self.master], [], [], 0.2)[0]:
                found += os.read(self.master, 65536).decode(errors="replace")
                match = re.search(pattern, found, re.S)
                if match:
                    return match
        sys.exit(f"{self.shell} did not print {pattern} within 20 seconds: {found!r}")

    def completed(self, typed):
        """The line that a text is completed to."""
        self.send(typed + OFFER + SHOW)
        line = self.until("LINE<(.*?)>LINE")[1]
        self.send(CLEAR)
        return line

    def end(self):
        self.send("exit\n")
        os.close(self.master)
        os.waitpid(self.child, 0)


class Fish:
    """A fish with the completion, which says what it offers behind a text."""

    def __init__(self, folder):
        self.folder = folder

    def completed(self, typed):
        """The line that a text is completed to, if all that is offered is put in."""
        asked = f"source {TOP}/docs/toll_office.fish; complete -C $TYPED"
        ran = subprocess.run(["fish", "--no-config", "-c", asked], cwd=self.folder, text=True, capture_output=True, check=True,
                             env={**os.environ, "TYPED": typed, "HOME": self.folder})
        offered = sorted(it.partition("\t")[0] for it in ran.stdout.splitlines())
        begun = re.search(r"[^ <>]*$", typed)[0]
        return typed[: len(typed) - len(begun)] + (" ".join(offered) if offered else begun)

    def end(self):
        pass


def main():
    wrong, count = 0, 0
    for shell in ("bash", "zsh", "fish"):
        if not shutil.which(shell):
            print(f"passed over: no {shell} on this machine")
            continue
        with tempfile.TemporaryDirectory() as folder, tempfile.TemporaryDirectory() as functions:
            for name in ("day.csv", "late.csv"):
                pathlib.Path(folder, name).touch()
            shutil.copy(TOP / "docs/toll_office.zsh", pathlib.Path(functions, "_toll_office"))
            terminal = Fish(folder) if shell == "fish" else Terminal(shell, folder, functions)
            for typed, wanted in ROWS:
                found = terminal.completed(typed)
                count += 1
                if sorted(found.split()) != sorted(wanted.split()):
                    wrong += 1
                    print(f"{shell}: {typed!r} becomes {found!r}, not {wanted!r}")
            terminal.end()
    print(f"{count} lines completed, {wrong} wrong")
    sys.exit(1 if wrong else 0)


if __name__ == "__main__":
    main()
