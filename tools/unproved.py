#!/usr/bin/env python3
"""Builds a program without a proof, to measure or to try a change before it is proved.

    python3 tools/unproved.py NAME FOLDER

NAME is a program of crates.txt; FOLDER gets the program NAME. It takes some minutes, where a proof takes an hour. What `rt try`
hands to the compiler is taken from it (by a folder that stands in the place of the kit, whose compiler keeps what it is given),
its checks of overflow, indices and memory are taken out, and the rest is compiled at -O3: nothing says then that the program
does what its contracts say. With --checks the checks stay, so that it stops at an overflow or an index out of range, as `rt try`
does, and is slow. It is no program to keep days with.
"""
import argparse
import os
import pathlib
import re
import shutil
import subprocess
import sys
import tempfile
import time

from write_docs import TOP

# `rt try` first has a small module compiled, to see whether the compiler is right; the program is the one with a sanitizer
KEEPER = """#!/bin/bash
here=$(dirname "$(realpath "$0")")
case " $* " in
*" -fsanitize=address "*)
    cp module.bc "$here/module.bc" && printf '%s\\n' "$@" > "$here/words"
    exit 1 ;;
esac
exec {clang} "$@"
"""
OWN = ("-O0", "-fsanitize=address", "-c", "-x", "ir", "module.bc", "-o", "module.o")


def kit():
    """The kit's folder."""
    found = shutil.which("rt") or sys.exit("there is no command rt")
    return pathlib.Path(os.path.realpath(found)).parent.parent


def stand_in(real, folder):
    """A folder like the kit, whose compiler keeps the program that `rt try` hands to it."""
    for name in ("bin", "toolchain", "toolchain/bin"):
        (folder / name).mkdir()
    for it in real.iterdir():
        if it.name not in ("bin", "toolchain"):
            (folder / it.name).symlink_to(it)
    for it in (real / "bin").iterdir():
        # (a script looks for the kit beside itself)
        if it.stat().st_size < 1 << 20 and it.read_bytes()[:2] == b"#!" or it.suffix == ".py":
            shutil.copy(it, folder / "bin")
        else:
            (folder / "bin" / it.name).symlink_to(it)
    for it in [*(real / "toolchain").iterdir(), *(real / "toolchain/bin").iterdir()]:
        to = folder / it.relative_to(real)
        if it.name != "bin" and it.name != "clang":
            to.symlink_to(os.path.realpath(it) if it.is_symlink() else it)
    clang = folder / "toolchain/bin/clang"
    clang.write_text(KEEPER.format(clang=real / "toolchain/bin/clang"))
    clang.chmod(0o755)
    return clang


def unchecked(text):
    """A program's text without its checks."""
    text = re.sub(r'^(define internal void @"rattle-llvm-checks::[^{]*)\{\n.*?^\}', r"\1{\nstart:\n  ret void\n}", text, flags=re.S | re.M)
    return re.sub(r"^  call void @llvm\.memset\.p0\.i64\(ptr [^,]*, i8 -86, .*\n", "", text, flags=re.M)


def compiled(real, room, words, keeps_checks):
    """The object file of the program that was kept, with or without its checks."""
    clang, text = real / "toolchain/bin/clang", room / "module.ll"
    own = [it for it in words if it not in OWN and not it.startswith(("-march=", "--sysroot="))] + [f"--sysroot={real}/toolchain"]
    subprocess.run([clang, "--no-default-config", "-x", "ir", "-S", "-emit-llvm", "-O0", "-Xclang", "-disable-llvm-passes",
                    "-o", text, room / "module.bc"], check=True)
    program = text.read_text()
    if '"rattle-llvm-checks::' not in program:
        sys.exit("this kit's `rt try` writes its checks in another way: this script does not know them")
    program = program if keeps_checks else unchecked(program)
    program = re.sub(r"^attributes .*", lambda it: re.sub(r' (sanitize_address|"target-cpu"="[\w-]+")', "", it[0]), program, flags=re.M)
    text.write_text(program)
    subprocess.run([clang, *own, "-march=x86-64-v2", "-O3", "-c", "-x", "ir", text, "-o", room / "module.o"], check=True)
    return room / "module.o"


def main():
    given = argparse.ArgumentParser(description=__doc__, formatter_class=argparse.RawDescriptionHelpFormatter)
    given.add_argument("name")
    given.add_argument("folder", type=pathlib.Path)
    given.add_argument("--checks", action="store_true")
    given = given.parse_args()
    crate, real, began = TOP / "crates" / given.name, kit(), time.monotonic()
    if not (crate / "src/main.rt").is_file():
        sys.exit(f"{given.name} is no program of crates.txt")
    given.folder.mkdir(parents=True, exist_ok=True)
    with tempfile.TemporaryDirectory(prefix="unproved-") as folder:
        clang = stand_in(real, pathlib.Path(folder))
        ran = subprocess.run([f"{folder}/bin/rt", "try"], cwd=crate, stdin=subprocess.DEVNULL, stdout=subprocess.PIPE,
                             stderr=subprocess.STDOUT, text=True, errors="replace")
        room = clang.parent
        if not (room / "module.bc").is_file():
            sys.exit(f"`rt try` built nothing:\n{ran.stdout}")
        made = compiled(real, room, (room / "words").read_text().splitlines(), given.checks)
        subprocess.run([real / "bin/rattle-link", "--target", "x86_64-unknown-linux-gnu", "--toolchain", real / "toolchain", "-o",
                        given.folder / given.name, made, real / "c/libos_c.a", real / "c/liblibc_c.a"], check=True)
    print(f"{given.folder / given.name}: built in {(time.monotonic() - began) / 60:.1f} minutes, and NOT PROVED")


if __name__ == "__main__":
    main()
