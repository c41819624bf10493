#!/usr/bin/env python3
"""Tries the server where memory runs out: each allocation fails in turn while a day is posted, and then a clean server is asked.

    python3 trials/try_memory.py crates/toll_serve/out/toll_serve [--day FILE] [--port 8090] [--from N] [--to N]

A run may answer as with ample memory, or with 500, and end with 0; or it ends with 8, or, where memory lacked for a thread, with 4.
A client that is let go unanswered, since there was no memory for its head, asks once more. The clean server over the same folder then
answers that the day is stored, or was, and the record is that of a day that was never refused. It wants a C compiler.
"""
import argparse
import json
import os
import pathlib
import socket
import struct
import subprocess
import tempfile
import time

from office import DATA, preloaded

EXAMPLE = DATA / "day.csv"


def asked(port, request, child):
    """The bytes of an answer, none where no connection could be made before the server ended."""
    until = time.time() + 20
    while time.time() < until:
        try:
            link = socket.create_connection(("127.0.0.1", port), timeout=20)
            break
        except OSError:
            if child.poll() is not None:
                return b""
            time.sleep(0.005)
    else:
        return b""
    with link:
        answer = b""
        try:
            link.sendall(request)
            while piece := link.recv(65536):
                answer += piece
        except OSError:
            pass
    return answer


def run(program, room, port, requests, environment):
    """The answers of a server of as many sessions, and its status."""
    words = [program, str(port), "--sessions", str(len(requests)), "--readers", "1"]
    child = subprocess.Popen(words, cwd=room, env={**os.environ, **environment}, stdout=subprocess.DEVNULL)
    answers = [asked(port, it, child) or asked(port, it, child) for it in requests]
    try:
        return answers, child.wait(timeout=20)
    except subprocess.TimeoutExpired:
        child.kill()
        return answers, None


def body_of(answer):
    head, _, body = answer.partition(b"\r\n\r\n")
    return head.split(b" ")[1:2], json.loads(body) if body else None


def main():
    words = argparse.ArgumentParser()
    words.add_argument("program", type=pathlib.Path)
    words.add_argument("--day", type=pathlib.Path, default=EXAMPLE)
    words.add_argument("--port", type=int, default=8090)
    words.add_argument("--from", type=int, default=1, dest="first")
    words.add_argument("--to", type=int, default=100_000, dest="last")
    given = words.parse_args()
    program, lines = str(given.program.resolve()), given.day.read_bytes()
    post = b"POST /days/100 HTTP/1.1\r\nContent-Length: %d\r\n\r\n" % len(lines) + lines
    ask = b"GET /days/100 HTTP/1.1\r\n\r\n"
    ends = {"answered": 0, "500": 0, "status 8": 0, "status 4": 0}
    with tempfile.TemporaryDirectory() as top:
        shim = preloaded("fail_alloc", top)
        os.mkdir(f"{top}/ample")
        (first, kept), status = run(program, f"{top}/ample", given.port, [post, ask], {})
        assert status == 0 and body_of(first)[0] == [b"200"], (first, status)
        wanted = body_of(kept)
        for at in range(given.first, given.last + 1):
            room = f"{top}/{at}"
            os.mkdir(room)
            fails = {"LD_PRELOAD": shim, "COUNT_FILE": f"{room}/count", "FAIL_AT": str(at)}
            (answer,), status = run(program, room, given.port, [post], fails)
            with open(f"{room}/count", "rb") as it:
                made = struct.unpack("q", it.read(8))[0]
            if status == 0 and answer == first:
                ends["answered"] += 1
            elif status == 0 and body_of(answer)[0] == [b"500"]:
                ends["500"] += 1
            elif status in (4, 8) and answer == b"":
                ends[f"status {status}"] += 1
            else:
                raise SystemExit(f"allocation {at} of {made}: status {status}, {answer[:200]!r}")
            (again, kept), status = run(program, room, given.port, [post, ask], {})
            outcome = (body_of(again)[1] or {}).get("outcome")
            if status != 0 or outcome not in ("stored", "already") or body_of(kept) != wanted:
                raise SystemExit(f"after allocation {at}: status {status}, {again[:200]!r}, {kept[:200]!r}")
            if made < at:
                break
    print(f"runs: {sum(ends.values())}; " + ", ".join(f"{k}: {v}" for k, v in ends.items()))


if __name__ == "__main__":
    main()
