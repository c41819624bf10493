#!/usr/bin/env python3
"""Looks whether each definition file of the crates, `crates/NAME/specs/**/*.antt`, begins with a line that says what it is about.

    python3 tools/check_heads.py

That line is a comment, `-- ..`. The script names each file without one, and ends with status 1 if there is one.
"""
import sys

from write_docs import TOP


def main():
    files = sorted(it for it in TOP.glob("crates/*/specs/**/*.antt") if "out" not in it.parts)
    heads = {it.relative_to(TOP): it.read_text().partition("\n")[0] for it in files}
    wrong = [f"{path}: no line that says what it is about" for path, head in heads.items() if not head.startswith("--")]
    print(*wrong, sep="\n", end="\n" if wrong else "")
    print(f"{len(files)} definition files, {len(wrong)} wrong")
    sys.exit(1 if wrong else 0)


if __name__ == "__main__":
    main()
