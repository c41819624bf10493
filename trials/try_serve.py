#!/usr/bin/env python3
"""Tries the server as a new user would, and prints what was seen.

    python3 trials/try_serve.py PROGRAM [--lines 100000] [--beside 1000000] [--asks 1000] [--folder DAYS]
    python3 trials/try_serve.py PROGRAM --short

PROGRAM is the executable `toll_serve`. The server runs in a new folder, on a free port of this machine. Asked are: every path
and every refusal, with the whole answer; the notices of a day that `curl` sends slowly; a day of several expressways, whose
amounts are those of `plain.c`; refused requests with bodies that nobody reads; requests as a page of the web sends them; a day
of so many lines, posted while four clients read the live board; so many kept days one after another; a slow client and a
silent one beside three that work; six hundred silent ones, and fifty whose heads come a byte a second; more connections than
there are file handles; 200 faults of accept, and threads that cannot be had; POSTs in line behind one, of which some clients
leave; a day of so many lines again, posted beside 650 silent clients and ten POSTs in line, while others ask for live
totals and kept amounts; a POST of a passed day and one of a refused day, whose bodies of some MB come slowly, and a client
that does not take its answer, beside the next POST; clients that are answered and go on sending; a POST whose body comes a
byte a second, and one whose body is held back, beside clients that ask for what is kept; 1,024 POSTs in line; the health over
another's file; a file that is mended under the server; clients that vanish; a kill -9 at moments of a POST. The server then ends
by its sessions, and Python's `sqlite3` reads what it kept. The script ends with status 1 at the first answer that is not the
expected one, or that comes late. The faults of accept are made by `trials/fail_accept.c`, built by `cc`. With --short what takes long is left out: several expressways, crowds of
silent clients, faults of accept, POSTs in line, slow clients.
"""
import argparse
import http.client
import json
import os
import pathlib
import resource
import shutil
import socket
import sqlite3
import statistics
import struct
import subprocess
import sys
import tempfile
import threading
import time

from office import TOP, change_by_hand, compiled, expect, fail, free_port, preloaded

sys.path.append(str(TOP / "bench"))
from run import lines_in, make_day  # noqa: E402

EMPTY = "e3b0c44298fc1c149afbf4c8996fb92427ae41e4649b934ca495991b7852b855"
LATE = (b"0,10,1,30,0,1,0,10,52800,-1,-1,-1,-1,-1,-1\n"
        b"0,10,2,30,0,1,0,10,52800,-1,-1,-1,-1,-1,-1\n"
        b"0,9,3,30,0,1,0,10,52800,-1,-1,-1,-1,-1,-1\n")
GOOD = LATE[:LATE.index(b"\n0,9,3,") + 1]
SILENCE = 30
AT_ONCE = 1.0
REFUSED_BODY = 5_000_000
HEAD_SECONDS = 10
SILENT = 650
TRICKLING = 50
FEW_HANDLES = 40
KILLS = 50
ACCEPT_FAULTS = 200
AT_MOST = 0.05
WAYS = (2_000_000, 500_000, 3, 60)  # lines, vehicles, expressways, minutes


def report(lines):
    """A vehicle's reports, one a line: time, vehicle, speed, lane, segment, position on expressway 0 eastbound."""
    return b"".join(b"0,%d,%d,%d,0,%d,0,%d,%d,-1,-1,-1,-1,-1,-1\n" % line for line in lines)


def charged_day():
    """Fifty-one vehicles slow down a segment; vehicle 100 is told a toll of 2, leaves the segment and asks its balance."""
    crowd = [(0, vid, 30, 1, 10, 52800) for vid in range(1, 52)]
    path = [(60, 100, 30, 1, 10, 52800), (90, 100, 30, 1, 11, 58080), (120, 100, 30, 4, 11, 60000)]
    away = b"0,150,100,30,1,0,0,5,26400,-1,-1,-1,-1,-1,-1\n2,160,100,-1,-1,-1,-1,-1,-1,9,-1,-1,-1,-1,-1\n"
    return report(crowd) + report(path) + away


class Server:
    """The program in a folder, which ends after so many connections."""

    def __init__(self, program, folder, sessions, readers=4, handles=None, environment=None):
        self.port = free_port()
        words = [program, str(self.port), "--sessions", str(sessions), "--readers", str(readers)]
        if handles is not None:
            words = ["sh", "-c", f'ulimit -n {handles} && exec "$0" "$@"', *words]
        self.child = subprocess.Popen(words, cwd=folder, stdin=subprocess.DEVNULL, stdout=subprocess.PIPE, stderr=subprocess.PIPE,
                                      env={**os.environ, **(environment or {})})
        self.left = sessions
        self.lock = threading.Lock()
        self.started = time.monotonic()

    def connect(self, seconds=60):
        """A connection, which counts as one; a server that is not there yet is waited for."""
        with self.lock:
            self.left -= 1
        while True:
            try:
                return socket.create_connection(("127.0.0.1", self.port), timeout=seconds)
            except ConnectionRefusedError:
                if self.child.poll() is not None or time.monotonic() > self.started + 10:
                    fail(f"the server does not listen, its status is {self.child.poll()}")
                time.sleep(0.01)

    def curl(self, method, path, body=None):
        """The same by `curl`, as a user types it."""
        with self.lock:
            self.left -= 1
        words = ["curl", "-s", "-i", "-X", method, f"http://127.0.0.1:{self.port}{path}"]
        if body is not None:
            words += ["--data-binary", "@-"]
        shown = subprocess.run(words, input=body, capture_output=True, timeout=600)
        expect(f"curl {method} {path}: its status", shown.returncode, 0)
        head, text = shown.stdout.decode().split("\r\n\r\n")
        first, *fields = head.split("\r\n")
        expect(f"curl {method} {path}: fields", fields[1:], ["Content-Type: application/json", "Connection: close"])
        _, status, phrase = first.split(" ", 2)
        return int(status), phrase, text

    def raw(self, sent, seconds=60):
        """All bytes that come back for these bytes, until the server closes."""
        with self.connect(seconds) as wire:
            wire.sendall(sent)
            wire.shutdown(socket.SHUT_WR)
            return all_of(wire)

    def ask(self, method, path, body=None, seconds=600):
        """Status, phrase and body of an answer."""
        asked = http.client.HTTPConnection("127.0.0.1", self.port)
        asked.sock = self.connect(seconds)
        asked.request(method, path, body)
        answer = asked.getresponse()
        text = answer.read()
        expect(f"{method} {path}: Content-Type", answer.headers["Content-Type"], "application/json")
        expect(f"{method} {path}: Connection", answer.headers["Connection"], "close")
        asked.close()
        return answer.status, answer.reason, text.decode()

    def end(self):
        """Uses up the sessions that are left, by requests that are none, and waits for the end. Connections without a whole head
        took none."""
        while self.child.poll() is None:
            try:
                with socket.create_connection(("127.0.0.1", self.port), timeout=5) as wire:
                    wire.sendall(b"\0")
                    wire.shutdown(socket.SHUT_WR)
                    all_of(wire)
            except OSError:
                time.sleep(0.01)
        out, err = self.child.communicate(timeout=60)
        return self.child.returncode, out + err


def reset(wire):
    """Ends a connection by a reset."""
    wire.setsockopt(socket.SOL_SOCKET, socket.SO_LINGER, struct.pack("ii", 1, 0))
    wire.close()


def all_of(wire):
    taken = b""
    while True:
        piece = wire.recv(65536)
        if not piece:
            return taken
        taken += piece


def answer_bytes(status, phrase, body):
    head = f"HTTP/1.1 {status} {phrase}\r\nContent-Length: {len(body)}\r\nContent-Type: application/json\r\nConnection: close\r\n\r\n"
    return (head + body).encode()


def try_words(program):
    """Words of no stated form end with status 1, and make no file."""
    folder = tempfile.mkdtemp()
    for words in ([], ["0"], ["65536"], ["8080", "--sessions", "0"], ["8080", "--readers", "65"], ["--help"], ["8080", "8081"]):
        done = subprocess.run([program, *words], cwd=folder, capture_output=True, timeout=60)
        expect(f"words {words}", (done.returncode, done.stdout, done.stderr), (1, b"", b""))
    expect("files after wrong words", list(pathlib.Path(folder).iterdir()), [])
    shutil.rmtree(folder)
    print("words of no stated form: status 1, nothing printed, no file")


FOREIGN = (403, "Forbidden", '{"error":"origin"}')


def try_bodies(program, folder):
    """Refused requests whose bodies nobody reads, and a body that waits for `100 Continue`: each sees its status."""
    server = Server(program, folder, 100)
    body = b"a" * REFUSED_BODY
    head = f"Content-Length: {len(body)}\r\n\r\n".encode()
    refused = [
        (b"POST /nothing HTTP/1.1\r\n" + head, b"404"),
        (b"DELETE /days/100 HTTP/1.1\r\n" + head, b"405"),
        (b"POST /days/100 HTTP/1.1\r\nTransfer-Encoding: chunked\r\n\r\n", b"411"),
        (b"POST /days/100 HTTP/1.1\r\nContent-Length: 4000000001\r\n\r\n", b"413"),
        (b"GET /live HTTP/1.1\r\n" + head, b"200"),
    ]
    for sent, status in refused * 4:
        with server.connect() as wire:
            sender = threading.Thread(target=push, args=(wire, sent + body))
            sender.start()
            taken = all_of(wire)
            sender.join()
        expect(f"{sent[:40]!r} with a body", taken.split(b" ")[1:2], [status])
    curled = 0
    if shutil.which("curl"):
        lines = LATE + b"\n" * 1_500_000
        expect("curl with Expect", server.curl("POST", "/days/100", lines)[0], 422)
        curled = 1
    for field in ("Host: desk.example", "Origin: null", "Host: localhost\r\nOrigin: http://localhost",
                  "Host: localhost\r\nHost: desk.example", "Host: desk.example\r\nHost: localhost",
                  "Sec-Fetch-Site: cross-site", "Sec-Fetch-Site: same-site"):
        sent = f"POST /days/100 HTTP/1.1\r\n{field}\r\nContent-Length: 0\r\n\r\n".encode()
        expect(f"a page's request with {field}", server.raw(sent), answer_bytes(*FOREIGN))
    expect("a day that a page posted", server.ask("GET", "/days/100")[0], 404)
    for site, status in (("cross-site", b"403"), ("same-site", b"403"), ("none", b"200"), ("same-origin", b"200")):
        for path in ("/", "/days", "/live"):
            sent = f"GET {path} HTTP/1.1\r\nHost: 127.0.0.1\r\nSec-Fetch-Site: {site}\r\n\r\n".encode()
            expect(f"GET {path} of a page, {site}", server.raw(sent).split(b" ")[1], status)
    head = server.raw(b"GET / HTTP/1.1\r\n\r\n").split(b"\r\n\r\n")[0].split(b"\r\n")
    for field in (b"X-Frame-Options: DENY", b"X-Content-Type-Options: nosniff", b"Cache-Control: no-store"):
        expect(f"the page's {field}", field in head, True)
    seen = [first_sends(server, "DELETE", "/days/100", body) for _ in range(20)]
    expect("who sends 5 MB and reads only then", seen, [405] * 20)
    expect("the end", server.end(), (0, b""))
    print(f"{len(refused) * 4} requests with a body that nobody reads: each saw its status; {curled} body of curl with Expect;"
          " seven requests as a page sends them: 403, nothing stored; twenty that send all before they read saw theirs")


def first_sends(server, method, path, body):
    """The status of a request whose client sends all of its body before it reads."""
    asked = http.client.HTTPConnection("127.0.0.1", server.port)
    asked.sock = server.connect()
    asked.request(method, path, body)
    status = asked.getresponse().status
    asked.close()
    return status


def push(wire, sent):
    """Sends bytes whose reader may have answered and gone."""
    try:
        wire.sendall(sent)
    except OSError:
        pass


def try_kills(program, day, kills):
    """A kill -9 at moments of a POST: what was answered is kept, and what was not is kept whole or not at all."""
    with open(day, "rb") as body:
        lines = body.read()
    stored, none = 0, 0
    for at in range(kills):
        folder = tempfile.mkdtemp()
        server = Server(program, folder, 1000)
        server.ask("GET", "/live")
        answers = []
        posting = threading.Thread(target=post_quietly, args=(server, lines, answers))
        posting.start()
        time.sleep(0.02 * at)
        server.child.kill()
        server.child.wait()
        posting.join()
        again = Server(program, folder, 1000)
        status, _, text = again.ask("GET", "/days/200")
        if status == 200:
            stored += 1
            expect("a day that was kept", json.loads(again.ask("POST", "/days/200", lines)[2]), {**json.loads(text), "outcome": "already"})
        else:
            none += 1
            expect("a day that was answered", answers, [])
            expect("the day again", again.ask("POST", "/days/200", lines)[0], 200)
        again.child.kill()
        again.child.wait()
        shutil.rmtree(folder)
    print(f"{kills} moments of a POST at which the server was killed: {stored} days kept whole, {none} not at all, none answered and lost")


def post_quietly(server, lines, answers):
    try:
        answers.append(server.ask("POST", "/days/200", lines)[0])
    except (OSError, http.client.HTTPException):
        pass


def try_answers(program, folder):
    """Every path and every refusal."""
    server = Server(program, folder, 80)
    server.ask("GET", "/live")
    busy = subprocess.run([program, str(server.port)], cwd=tempfile.gettempdir(), capture_output=True, timeout=60)
    expect("a port that is taken", (busy.returncode, busy.stdout, busy.stderr), (2, b"", b""))
    no_path = (404, "Not Found", '{"error":"no path"}')
    method = (405, "Method Not Allowed", '{"error":"method"}')
    wanted = [
        ("GET", "/days/100", None, (404, "Not Found", '{"error":"no day"}')),
        ("GET", "/live", None, (200, "OK", '{"as_of":0,"day":0,"total":0}')),
        ("GET", "/live/7", None, (200, "OK", '{"as_of":0,"balance":0,"day":0}')),
        ("GET", "/spent/100/0/100", None, (200, "OK", '{"spent":0}')),
        ("GET", "/days/7", None, no_path),
        ("GET", "/days/1000001", None, no_path),
        ("GET", "/days/100/", None, no_path),
        ("GET", "/spent/100/256/1", None, no_path),
        ("GET", "/spent/0/0/1", None, no_path),
        ("GET", "/health", None, (200, "OK", '{"last_day":0}')),
        ("GET", "/health/", None, no_path),
        ("POST", "/health", b"", method),
        ("GET", "/nothing", None, no_path),
        ("DELETE", "/days/100", None, method),
        ("POST", "/live", b"", method),
        ("POST", "/days/100", LATE, (422, "Unprocessable Entity", '{"cause":"late 10 9","error":"refused","line":3}')),
        ("GET", "/days/100", None, (404, "Not Found", '{"error":"no day"}')),
    ]
    for way, path, body, answer in wanted:
        expect(f"{way} {path}", server.ask(way, path, body), answer)
        if shutil.which("curl"):
            expect(f"curl {way} {path}", server.curl(way, path, body), answer)
    post = b"POST /days/100 HTTP/1.1\r\n"
    for sent, answer in [
        (b"HEAD /days/100 HTTP/1.1\r\n\r\n", answer_bytes(*method)),
        (post + b"\r\n", answer_bytes(411, "Length Required", '{"error":"length needed"}')),
        (post + b"Content-Length: 4000000001\r\n\r\n", answer_bytes(413, "Payload Too Large", '{"error":"too long"}')),
        (post + b"Content-Length: x\r\n\r\n", answer_bytes(400, "Bad Request", '{"error":"length"}')),
        (b"\0", answer_bytes(400, "Bad Request", '{"error":"head"}')),
        (b"GET /live HTTP/1.1\r\nA: ".ljust(8192, b"a"), answer_bytes(400, "Bad Request", '{"error":"head"}')),
        (b"GET", b""),
        (post + b"Content-Length: 5\r\n\r\nabc", b""),
    ]:
        expect(f"{sent[:60]!r}", server.raw(sent), answer)
    lines = charged_day()
    status, phrase, text = server.ask("POST", "/days/100", lines)
    day = json.loads(text)
    expect("POST of a charged day", (status, day["outcome"], day["tuples"], day["notices"], day["total"], day["bytes"]),
           (200, "stored", 56, 55, 2, len(lines)))
    expect("its answer again", json.loads(server.ask("POST", "/days/100", lines)[2]), {**day, "outcome": "already"})
    expect("GET of it", json.loads(server.ask("GET", "/days/100?x")[2]), {k: v for k, v in day.items() if k != "outcome"})
    expect("GET /live/100", server.ask("GET", "/live/100"), (200, "OK", '{"as_of":56,"balance":2,"day":100}'))
    expect("GET /live", server.ask("GET", "/live"), (200, "OK", '{"as_of":56,"day":100,"total":2}'))
    expect("GET /spent", server.ask("GET", "/spent/100/0/100"), (200, "OK", '{"spent":2}'))
    expect("GET /health", server.ask("GET", "/health"), (200, "OK", '{"last_day":100}'))
    other = json.loads(server.ask("POST", "/days/100", b"abc")[2])
    expect("other bytes", (other["error"], other["kept"], other["found"]), ("differs", day["digest"], other["found"]))
    expect("an earlier day", server.ask("POST", "/days/99", b""), (409, "Conflict", '{"error":"passed","last":100}'))
    empty = json.loads(server.ask("POST", "/days/101", b"")[2])
    expect("an empty day", (empty["outcome"], empty["digest"], empty["tuples"]), ("stored", EMPTY, 0))
    if shutil.which("curl"):
        for way, path, body, answer in [
            ("POST", "/days/100", lines, (200, {**day, "outcome": "already"})),
            ("POST", "/days/100", b"abc", (409, other)),
            ("POST", "/days/99", b"", (409, {"error": "passed", "last": 101})),
            ("GET", "/days/100", None, (200, {k: v for k, v in day.items() if k != "outcome"})),
            ("GET", "/spent/100/0/100", None, (200, {"spent": 2})),
            ("GET", "/live/100", None, (200, {"as_of": 0, "balance": 0, "day": 101})),
        ]:
            status, _, text = server.curl(way, path, body)
            expect(f"curl {way} {path}", (status, json.loads(text)), answer)
    asked = 80 - server.left
    expect("the end", server.end(), (0, b""))
    print(f"every path and refusal: {asked} connections, each answered as stated; the server ended by its sessions, status 0")


def notices_of(server, lines):
    """What comes back for the lines of a day whose notices are asked for, over a connection of its own."""
    return server.raw(b"POST /answers/100 HTTP/1.1\r\nContent-Length: %d\r\n\r\n" % len(lines) + lines)


def try_stream(program, folder):
    """The notices of a day that is sent, as they are settled: whole answers, and those of a day that `curl` sends slowly."""
    server = Server(program, folder, 20)
    head = b"HTTP/1.1 200 OK\r\nContent-Type: text/plain\r\nConnection: close\r\n\r\n"
    crowd = b"".join(b"0,%d,0,-1,0\n" % vid for vid in range(1, 52))
    for lines, told in [
        (b"", b"# answered day 100 tuples 0 notices 0\n"),
        (LATE, b"0,1,10,-1,0\n0,2,10,-1,0\n# refused line 3 late 10 9\n"),
        (charged_day(), crowd + b"0,100,60,30,2\n0,100,90,-1,0\n0,100,150,-1,0\n2,160,9,2\n"
                        b"# answered day 100 tuples 56 notices 55\n"),
    ]:
        expect(f"the notices of {lines[:20]!r}", notices_of(server, lines), head + told)
    expect("the notices of a day that is cut", server.raw(b"POST /answers/100 HTTP/1.1\r\nContent-Length: 5\r\n\r\n\n\n"),
           head + b"# read fault\n")
    expect("GET of notices", server.ask("GET", "/answers/100"), (405, "Method Not Allowed", '{"error":"method"}'))
    expect("notices of day 69", server.ask("POST", "/answers/69", b""), (404, "Not Found", '{"error":"no path"}'))
    if shutil.which("curl"):
        try_slow_day(server)
    expect("the day", server.ask("GET", "/days/100"), (404, "Not Found", '{"error":"no day"}'))
    expect("the live board", server.ask("GET", "/live"), (200, "OK", '{"as_of":0,"day":0,"total":0}'))
    expect("the end", server.end(), (0, b""))


def try_slow_day(server, count=6000, rate="60k"):
    """A day that `curl` sends slowly: its notices come while it goes on."""
    lines = report([(at // 100, at, 30, 1, 10, 52800) for at in range(count)])
    wanted = b"".join(b"0,%d,%d,-1,0\n" % (at, at // 100) for at in range(count))
    with server.lock:
        server.left -= 1
    words = ["curl", "-sN", "--limit-rate", rate, "-X", "POST", "-H", "Expect:", "--data-binary", "@-",
             f"http://127.0.0.1:{server.port}/answers/100"]
    begin = time.monotonic()
    with subprocess.Popen(words, stdin=subprocess.PIPE, stdout=subprocess.PIPE) as curl:
        curl.stdin.write(lines)
        curl.stdin.close()
        told = curl.stdout.read(1)
        first = time.monotonic() - begin
        told += curl.stdout.read()
    took = time.monotonic() - begin
    expect("the notices of a slow day", told, wanted + b"# answered day 100 tuples %d notices %d\n" % (count, count))
    if first > took / 2:
        fail(f"the first notice of a slow day came after {first:.1f} s of {took:.1f} s")
    print(f"a day of {count} lines, sent slowly by curl: the first notice came after {first:.1f} s, the last after {took:.1f} s")


class Watcher(threading.Thread):
    """Reads the live board over and over, and notes marks that fall."""

    def __init__(self, server, path, stop):
        super().__init__()
        self.server, self.path, self.stop = server, path, stop
        self.seen, self.fell, self.slowest, self.error = [], 0, 0.0, None

    def run(self):
        try:
            while not self.stop.is_set():
                begin = time.monotonic()
                status, _, text = self.server.ask("GET", self.path)
                self.slowest = max(self.slowest, time.monotonic() - begin)
                live = json.loads(text)
                mark = (live["day"], live["as_of"])
                if status != 200 or (self.seen and mark < self.seen[-1]):
                    self.fell += 1
                self.seen.append(mark)
                time.sleep(0.005)
        except (OSError, SystemExit, http.client.HTTPException) as error:
            self.error = repr(error)


def try_day(program, folder, path):
    """A day is posted while four clients read the live board for its whole time."""
    lines = lines_in(path)
    server = Server(program, folder, 20_000, readers=8)
    stop = threading.Event()
    server.ask("GET", "/live")
    watchers = [Watcher(server, path, stop) for path in ("/live", "/live/1", "/live", "/live/2")]
    for watcher in watchers:
        watcher.start()
    begin = time.monotonic()
    with open(path, "rb") as body:
        status, _, text = server.ask("POST", "/days/200", body.read())
    took = time.monotonic() - begin
    stop.set()
    for watcher in watchers:
        watcher.join()
    day = json.loads(text)
    expect("POST of the day", (status, day.get("outcome")), (200, "stored"))
    for watcher in watchers:
        expect("a watcher", (watcher.error, watcher.fell), (None, 0))
    marks = {mark for watcher in watchers for mark in watcher.seen if mark[0] == 200}
    live = json.loads(server.ask("GET", "/live")[2])
    expect("the last live total", live, {"as_of": day["tuples"], "day": 200, "total": day["total"]})
    asked = sum(len(watcher.seen) for watcher in watchers)
    slowest = max(watcher.slowest for watcher in watchers)
    print(f"a day of {lines} lines: posted in {took:.2f} s; four clients asked {asked} live totals and accounts meanwhile, with {len(marks)}"
          f" marks of the day, none fell, the slowest answer took {slowest * 1000:.1f} ms; the last is the kept total {day['total']}")
    return server, day


def try_asks(server, asks):
    """Kept days one after another."""
    times = []
    for _ in range(asks):
        begin = time.monotonic()
        status, _, _ = server.ask("GET", "/days/200")
        times.append(time.monotonic() - begin)
        expect("GET of a kept day", status, 200)
    times.sort()
    print(f"{asks} kept days one after another: median {statistics.median(times) * 1e6:.0f} microseconds,"
          f" 99th percentile {times[int(0.99 * (len(times) - 1))] * 1e6:.0f}")


class Worker(threading.Thread):
    """Asks for something over and over, for so many seconds, and notes how long each answer took."""

    def __init__(self, server, path, seconds):
        super().__init__()
        self.server, self.path, self.end = server, path, time.monotonic() + seconds
        self.took, self.error = [], None

    def run(self):
        try:
            while time.monotonic() < self.end:
                begin = time.monotonic()
                expect(f"GET {self.path} beside a slow client", self.server.ask("GET", self.path)[0], 200)
                self.took.append(time.monotonic() - begin)
                time.sleep(0.01)
        except (OSError, SystemExit, http.client.HTTPException) as error:
            self.error = repr(error)


def slowest(workers):
    """How many answers workers had, and the slowest, which must not have been late."""
    for worker in workers:
        worker.join()
    expect("clients beside a slow one", [worker.error for worker in workers if worker.error], [])
    took = [each for worker in workers for each in worker.took]
    expect(f"an answer later than {AT_ONCE} s", [each for each in took if each > AT_ONCE], [])
    return len(took), max(took) * 1000


def work(server, paths, seconds):
    workers = [Worker(server, path, seconds) for path in paths]
    for worker in workers:
        worker.start()
    return workers


def trickle(wire, piece):
    """Sends a byte a second."""
    for byte in piece:
        wire.sendall(bytes([byte]))
        time.sleep(1)


def try_slow(server):
    """A client that sends one byte a second, and one that is silent, beside three that work; a body that is held back."""
    silent = server.connect(SILENCE * 3)
    vanished = [server.connect() for _ in range(20)]
    for at, wire in enumerate(vanished):
        wire.sendall(b"POST /days/201 HTTP/1.1\r\nContent-Length: 9\r\n\r\n"[: 3 * at])
        wire.close()
    slow = server.connect()
    workers = work(server, ["/days/200"] * 3, 6)
    trickle(slow, b"GET /live HTTP/1.1\r\n\r\n"[:6])
    slow.sendall(b"GET /live HTTP/1.1\r\n\r\n"[6:])
    taken = all_of(slow)
    slow.close()
    answers, most = slowest(workers)
    expect("the slow client's answer", taken.split(b"\r\n")[0], b"HTTP/1.1 200 OK")
    print(f"a client of one byte a second and a silent one beside three: {answers} answers, the slowest {most:.1f} ms;"
          " the slow one was answered too")
    try_trickle(server)
    held = server.connect(SILENCE * 3)
    held.sendall(b"POST /days/201 HTTP/1.1\r\nContent-Length: 10\r\n\r\n0,0")
    time.sleep(0.2)
    answers, most = slowest(work(server, ["/live/1", "/days/200", "/spent/200/0/1"], 3))
    expect("the held body", all_of(held), b"")
    held.close()
    print(f"a body that is held back: {answers} live accounts, kept days and amounts meanwhile, the slowest {most:.1f} ms;"
          " the client is let go unanswered")
    expect("the silent client", all_of(silent), b"")
    silent.close()
    expect("the day that was held back", server.ask("GET", "/days/201")[0], 404)


def try_trickle(server):
    """A POST whose body comes a byte a second, beside three clients that ask for what is kept and one that posts."""
    seconds = 8
    wire = server.connect()
    wire.sendall(b"POST /days/201 HTTP/1.1\r\nContent-Length: %d\r\n\r\n" % len(LATE) + LATE[:-seconds])
    time.sleep(0.2)
    workers = work(server, ["/days/200", "/spent/200/0/1", "/days/100"], seconds)
    other = Posts(server)
    other.start()
    trickle(wire, LATE[-seconds:])
    status = all_of(wire).split(b"\r\n")[0]
    wire.close()
    answers, most = slowest(workers)
    other.join()
    expect("the POST of one byte a second", status, b"HTTP/1.1 422 Unprocessable Entity")
    expect("a POST beside it", other.answer, (409, "Conflict", '{"error":"passed","last":200}'))
    if other.took < seconds / 2:
        fail(f"a POST beside it was answered after {other.took:.1f} s, while the other went on")
    print(f"a POST of one byte a second: {answers} kept days and amounts meanwhile, the slowest {most:.1f} ms; a second POST"
          f" waited {other.took:.1f} s, until the first was answered")


class Posts(threading.Thread):
    """Posts a day that is passed."""

    def __init__(self, server, day=99):
        super().__init__()
        self.server, self.day, self.answer, self.took = server, day, None, 0.0

    def run(self):
        begin = time.monotonic()
        self.answer = self.server.ask("POST", f"/days/{self.day}", b"")
        self.took = time.monotonic() - begin


def rest_of(wire):
    """What still comes; a reset is an end, where the client sent more than was heard."""
    try:
        return all_of(wire)
    except ConnectionResetError:
        return b""


class Trickler(threading.Thread):
    """Sends a head of a byte a second, until the server lets it go."""

    def __init__(self, server):
        super().__init__()
        self.wire, self.begin, self.lasted = server.connect(), time.monotonic(), 0.0

    def run(self):
        try:
            for byte in b"GET /live HTTP/1.1\r\nHost: localhost\r\n\r\n":
                self.wire.sendall(bytes([byte]))
                self.wire.settimeout(1)
                try:
                    if not self.wire.recv(1):
                        break
                except socket.timeout:
                    pass
        except OSError:
            pass
        self.lasted = time.monotonic() - self.begin


def try_silent(program, folder):
    """650 clients that connect and are silent, and fifty that send a byte a second, beside one that asks."""
    hard = resource.getrlimit(resource.RLIMIT_NOFILE)[1]
    resource.setrlimit(resource.RLIMIT_NOFILE, (min(4096, hard), hard))
    server = Server(program, folder, 2_500)
    server.ask("GET", "/live")
    tricklers = [Trickler(server) for _ in range(TRICKLING)]
    for trickler in tricklers:
        trickler.start()
    begin = time.monotonic()
    silent = [server.connect() for _ in range(SILENT - TRICKLING)]
    times = []
    for _ in range(SILENT):
        asked = time.monotonic()
        expect("GET /live beside silent clients", server.ask("GET", "/live")[0], 200)
        times.append(time.monotonic() - asked)
    times.sort()
    taken = [rest_of(wire) for wire in silent]
    lasted = time.monotonic() - begin
    for wire in silent:
        wire.close()
    for trickler in tricklers:
        trickler.join()
        trickler.wire.close()
    expect("the silent clients", [each for each in taken if each], [])
    slow = [trickler.lasted for trickler in tricklers]
    if lasted > HEAD_SECONDS + 5 or max(slow) > HEAD_SECONDS + 5 or min(slow) < HEAD_SECONDS - 2:
        fail(f"silent clients were let go after {lasted:.1f} s, those of a byte a second after {min(slow):.1f} to {max(slow):.1f} s")
    most = times[int(0.99 * (len(times) - 1))]
    if most > 0.05:
        fail(f"beside silent clients the 99th percentile of live answers is {most * 1000:.1f} ms")
    print(f"{SILENT - TRICKLING} silent clients and {TRICKLING} of a byte a second: {len(times)} live totals meanwhile,"
          f" 99th percentile {most * 1000:.1f} ms; all were let go within {max(lasted, *slow):.1f} s")
    server.end()


def try_handles(program, folder):
    """Too few file handles: connections that cannot be accepted wait, and all are answered once others end."""
    server = Server(program, folder, 3_000, handles=FEW_HANDLES)
    server.ask("GET", "/live")
    silent = [server.connect() for _ in range(2 * FEW_HANDLES)]
    time.sleep(2)
    begin = time.monotonic()
    for wire in silent:
        wire.close()
    workers = work(server, ["/live"] * 8, 2)
    for worker in workers:
        worker.join()
    expect("clients behind a lack of file handles", [worker.error for worker in workers if worker.error], [])
    first = max(worker.took[0] for worker in workers)
    expect("the server behind a lack of file handles", server.child.poll(), None)
    print(f"{2 * FEW_HANDLES} connections with {FEW_HANDLES} file handles: the first answers came {first * 1000:.0f} ms after they ended,"
          f" {sum(len(worker.took) for worker in workers)} in {time.monotonic() - begin:.1f} s")
    server.end()


def try_line(program, folder):
    """One reader: ten POSTs wait behind one whose body is held back, beside clients that ask. Two more in line are reset, one with
    its whole day sent: nothing of theirs is kept. One that ends what it sends is served. Those that are refused at once do not wait,
    and those whose heads do not end are let go after their 10 seconds."""
    server = Server(program, folder, 3_000, readers=1)
    expect("the first day", server.ask("POST", "/days/100", b"")[0], 200)
    wire = server.connect()
    wire.sendall(b"POST /days/101 HTTP/1.1\r\nContent-Length: %d\r\n\r\n" % len(LATE) + LATE[:-1])
    time.sleep(0.2)
    line = [Posts(server, 99) for _ in range(10)]
    for post in line:
        post.start()
    for whole in (b"POST /days/103 HTTP/1.1\r\nContent-Length: 0\r\n\r\n", b"POST /days/103 HTTP/1.1\r\nContent-Length: 9\r\n\r\n"):
        each = server.connect()
        each.sendall(whole)
        reset(each)
    ended = server.connect()
    ended.sendall(b"POST /days/98 HTTP/1.1\r\nContent-Length: 0\r\n\r\n")
    ended.shutdown(socket.SHUT_WR)
    begin = time.monotonic()
    expect("a POST to no path beside the line", server.ask("POST", "/nothing", b"")[0], 404)
    expect("a POST to a live path beside the line", server.ask("POST", "/live", b"")[0], 405)
    if time.monotonic() - begin > AT_ONCE:
        fail("POSTs that are refused at once waited in line")
    began = time.monotonic()
    begun = [server.connect(SILENCE) for _ in range(20)]
    for each in begun:
        each.sendall(b"POST /days/9")
    answers, most = slowest(work(server, ["/live", "/days/100", "/spent/100/0/1"], 3))
    expect("POSTs whose heads do not end, beside one that is held back", [all_of(each) for each in begun], [b""] * len(begun))
    let_go = time.monotonic() - began
    if let_go > HEAD_SECONDS + 2:
        fail(f"POSTs whose heads do not end were let go after {let_go:.1f} s")
    wire.sendall(LATE[-1:])
    expect("the POST that was held", all_of(wire).split(b"\r\n")[0], b"HTTP/1.1 422 Unprocessable Entity")
    wire.close()
    begin = time.monotonic()
    for post in line:
        post.join()
    lasted = time.monotonic() - begin
    if lasted > 0.5:
        fail(f"ten POSTs in line took {lasted:.2f} s after the one before them")
    expect("the POSTs in line", {post.answer for post in line}, {(409, "Conflict", '{"error":"passed","last":100}')})
    expect("the POST in line that has ended what it sends", all_of(ended), passed_by(100))
    ended.close()
    expect("the day of those that were reset", server.ask("GET", "/days/103")[0], 404)
    print(f"one reader, a POST that is held back and ten behind it: {answers} answers meanwhile, the slowest {most:.1f} ms;"
          f" twenty whose heads do not end were let go within {let_go:.1f} s; the ten were answered within {lasted * 1000:.0f} ms after it; one whose client had ended what it sends was answered too, and what two sent that were reset is not kept")
    server.end()


def slow_post(server, day, begins):
    """A POST of which half the body is sent, and how many bytes are still to come."""
    wire = server.connect(SILENCE * 3)
    wire.sendall(b"POST /days/%d HTTP/1.1\r\nContent-Length: %d\r\n\r\n" % (day, REFUSED_BODY) + begins)
    left = REFUSED_BODY - len(begins)
    wire.sendall(b"a" * (left // 2))
    return wire, left - left // 2


def try_passed(program, folder):
    """A passed day and a refused one whose bodies of some MB come slowly, and a client that does not take its answer: the next POST
    does not wait for them. Two more keep all the acceptors that POSTs may keep: who asks is answered, and a further POST waits."""
    server = Server(program, folder, 3_000)
    expect("the first day", server.ask("POST", "/days/100", b"")[0], 200)
    slow = [slow_post(server, 99, b""), slow_post(server, 101, LATE)]
    untaken = socket.socket()
    untaken.setsockopt(socket.SOL_SOCKET, socket.SO_RCVBUF, 1)
    server.left -= 1
    untaken.connect(("127.0.0.1", server.port))
    untaken.sendall(b"POST /days/98 HTTP/1.1\r\nContent-Length: 0\r\n\r\n")
    time.sleep(0.2)
    begin = time.monotonic()
    status, _, text = server.ask("POST", "/days/102", charged_day())
    took = time.monotonic() - begin
    expect("the next POST", (status, json.loads(text)["outcome"]), (200, "stored"))
    if took > AT_ONCE:
        fail(f"the next POST was answered after {took:.2f} s, while bodies came that are not used")
    slow += [slow_post(server, 97, b""), slow_post(server, 95, b"")]
    last = Posts(server, 96)
    last.start()
    answers, most = slowest(work(server, ["/live", "/days/102", "/spent/102/0/100"], 2))
    expect("a POST behind as many as may be served", last.answer, None)
    for wire, left in slow:
        wire.sendall(b"a" * left)
    taken = [all_of(wire) for wire, _ in slow]
    last.join()
    refused = answer_bytes(422, "Unprocessable Entity", '{"cause":"late 10 9","error":"refused","line":3}')
    expect("the slow ones", taken, [passed_by(100), refused, passed_by(102), passed_by(102)])
    expect("the one behind them", last.answer, (409, "Conflict", '{"error":"passed","last":102}'))
    for wire, _ in slow:
        wire.close()
    untaken.close()
    print(f"a passed and a refused day of {REFUSED_BODY / 1e6:.0f} MB that come slowly, and an answer that is not taken: the next POST was"
          f" answered within {took * 1000:.0f} ms; with two slow days more {answers} answers to others, the slowest {most:.1f} ms, while a"
          " further POST waited; all were answered at the end")
    server.end()


def passed_by(day):
    return answer_bytes(409, "Conflict", '{"error":"passed","last":%d}' % day)


def full_line():
    fields = "Content-Length: 16\r\nContent-Type: application/json\r\nConnection: close\r\nRetry-After: 10\r\n\r\n"
    return ("HTTP/1.1 503 Service Unavailable\r\n" + fields + '{"error":"line"}').encode()


def percentile(times):
    times = sorted(times)
    return times[int(0.99 * (len(times) - 1))]


class Asker(threading.Thread):
    """Asks for a path so many times, and notes how long each answer took."""

    def __init__(self, server, path, count):
        super().__init__()
        self.server, self.path, self.count, self.took, self.error = server, path, count, [], None

    def run(self):
        try:
            for _ in range(self.count):
                begin = time.monotonic()
                expect(f"GET {self.path} beside a POST", self.server.ask("GET", self.path)[0], 200)
                self.took.append(time.monotonic() - begin)
        except (OSError, SystemExit, http.client.HTTPException) as error:
            self.error = repr(error)


def try_beside(program, folder, path):
    """650 silent clients and ten POSTs in line beside a POST of a whole day: live totals and kept amounts at once."""
    lines = lines_in(path)
    server = Server(program, folder, 5_000)
    expect("the first day", server.ask("POST", "/days/100", charged_day())[0], 200)
    silent = [server.connect(SILENCE * 3) for _ in range(SILENT)]
    answers, line = [], [Posts(server, 99) for _ in range(10)]
    with open(path, "rb") as body:
        posting = threading.Thread(target=post_quietly, args=(server, body.read(), answers))
    begin = time.monotonic()
    posting.start()
    time.sleep(0.1)
    for post in line:
        post.start()
    askers = [Asker(server, "/live", SILENT), Asker(server, "/spent/100/0/100", SILENT)]
    for asker in askers:
        asker.start()
    for asker in askers:
        asker.join()
    asked = time.monotonic() - begin
    posting.join()
    took = time.monotonic() - begin
    for post in line:
        post.join()
    expect("those who asked beside a POST", [asker.error for asker in askers if asker.error], [])
    expect("the POST of the day", answers, [200])
    expect("the POSTs in line", {post.answer[0] for post in line}, {409})
    for wire in silent:
        wire.close()
    live, kept = (percentile(asker.took) for asker in askers)
    if max(live, kept) > AT_MOST:
        fail(f"beside a POST the 99th percentiles are {live * 1000:.1f} ms (live) and {kept * 1000:.1f} ms (kept)")
    print(f"{SILENT} silent clients and ten POSTs in line beside a POST of {lines} lines, which took {took:.2f} s: {SILENT} live totals,"
          f" 99th percentile {live * 1000:.1f} ms, and {SILENT} kept amounts, {kept * 1000:.1f} ms, within {asked:.2f} s; nothing is lost")
    server.end()


def live_beside(server, what):
    """How long 99 of 100 live totals take at most beside something, in milliseconds; no more than 50."""
    asker = Asker(server, "/live", 300)
    asker.start()
    asker.join()
    expect(f"live totals beside {what}", asker.error, None)
    most = percentile(asker.took)
    if most > AT_MOST:
        fail(f"beside {what} the 99th percentile of live totals is {most * 1000:.1f} ms")
    return most * 1000


def try_full(program, folder):
    """A POST whose body is held back, and 1,024 clients that send `POST /days/9` and are silent; then 1,014 that send nothing, under
    1,024 file handles: who asks is answered, also of what is kept."""
    hard = resource.getrlimit(resource.RLIMIT_NOFILE)[1]
    resource.setrlimit(resource.RLIMIT_NOFILE, (min(4096, hard), hard))
    server = Server(program, folder, 5_000, handles=1024)
    wire = server.connect(SILENCE * 3)
    wire.sendall(b"POST /days/101 HTTP/1.1\r\nContent-Length: %d\r\n\r\n" % len(LATE) + LATE[:-1])
    begun = [server.connect() for _ in range(1024)]
    for each in begun:
        each.sendall(b"POST /days/9")
    posts = live_beside(server, "heads that do not end")
    for each in begun:
        each.close()
    silent = [server.connect() for _ in range(1014)]
    nothing = live_beside(server, "silent clients")
    expect("a day beside silent clients", server.ask("GET", "/days/100"), (404, "Not Found", '{"error":"no day"}'))
    for each in silent:
        each.close()
    wire.sendall(LATE[-1:])
    expect("the POST that was held", all_of(wire).split(b"\r\n")[0], b"HTTP/1.1 422 Unprocessable Entity")
    wire.close()
    server.end()
    print(f"1,024 clients of `POST /days/9` beside a POST that is held back: 99th percentile of live totals {posts:.1f} ms;"
          f" 1,014 silent ones, with 1,024 file handles: {nothing:.1f} ms, and a day is looked for")


def post_whole(server):
    """A POST of a passed day whose head is whole."""
    wire = server.connect(SILENCE * 3)
    wire.sendall(b"POST /days/99 HTTP/1.1\r\nContent-Length: 0\r\n\r\n")
    return wire


def try_posts(program, folder):
    """A POST whose body is held back, and 1,024 POSTs with whole heads behind it: who asks is answered, also of what is kept, and the
    first 239 of those in line are when it ends; whoever gave its place is told so."""
    hard = resource.getrlimit(resource.RLIMIT_NOFILE)[1]
    resource.setrlimit(resource.RLIMIT_NOFILE, (min(4096, hard), hard))
    server = Server(program, folder, 5_000, handles=1024)
    expect("the first day", server.ask("POST", "/days/100", b"")[0], 200)
    wire = server.connect(SILENCE * 3)
    wire.sendall(b"POST /days/101 HTTP/1.1\r\nContent-Length: %d\r\n\r\n" % len(LATE) + LATE[:-1])
    line = [post_whole(server) for _ in range(1024)]
    most = live_beside(server, "POSTs in line")
    expect("the health beside POSTs in line", server.ask("GET", "/health"), (200, "OK", '{"last_day":100}'))
    wire.sendall(LATE[-1:])
    expect("the POST that was held", all_of(wire).split(b"\r\n")[0], b"HTTP/1.1 422 Unprocessable Entity")
    answers = [rest_of(each) for each in line]
    expect("the first in line", answers[:239], [passed_by(100)] * 239)
    expect("the others", {each for each in answers[239:]} - {passed_by(100)}, {full_line()})
    for each in [wire, *line]:
        each.close()
    server.end()
    print(f"1,024 POSTs in line behind one that is held back: 99th percentile of live totals {most:.1f} ms;"
          f" {answers.count(passed_by(100))} of them were answered, the first ones, and the others told that the line is full")


def try_health(program, folder):
    """Beside a file that is not ours the health is 503, and 200 once that is gone."""
    kept = pathlib.Path(folder, "tolls.db")
    kept.write_bytes(b"not a database, " * 512)
    server = Server(program, folder, 100)
    expect("the health over another's file", server.ask("GET", "/health"), (503, "Service Unavailable", '{"error":"keeper"}'))
    expect("that file", kept.read_bytes(), b"not a database, " * 512)
    kept.unlink()
    expect("the health over none", server.ask("GET", "/health"), (200, "OK", '{"last_day":0}'))
    server.end()
    print("the health is 503 over another's file, and 200 once it is gone")


def try_mended(program, folder):
    """A kept day without its seal is a fault; the file is let go then, so that another hand mends it, and the day is found."""
    office = pathlib.Path(folder, "tolls.db")
    server = Server(program, folder, 100)
    expect("a day", server.ask("POST", "/days/100", GOOD)[0], 200)
    kept = server.ask("GET", "/days/100")
    server.end()
    change_by_hand(office, ["UPDATE day_tariffs SET day = 101"])
    server = Server(program, folder, 100)
    for _ in range(2):
        expect("a day without its seal", server.ask("GET", "/days/100"), (503, "Service Unavailable", '{"error":"keeper"}'))
    change_by_hand(office, ["UPDATE day_tariffs SET day = 100"])
    expect("the day, once it has its seal", server.ask("GET", "/days/100"), kept)
    server.end()
    print("a day without its seal is 503, and is found by the same server once another hand has mended the file")


def try_reads(program, folder, path):
    """Three bodies of a passed day that come slowly, and six clients that ask for kept days and lists over and over, while a day is
    read and stored: who asks for the live total waits for none of them. What is left of the slow bodies has 30 seconds in all."""
    server = Server(program, folder, 2_000_000)
    expect("the first day", server.ask("POST", "/days/100", charged_day())[0], 200)
    slow = [slow_post(server, 99, b"") for _ in range(3)]
    begin = time.monotonic()
    stop = threading.Event()
    tricklers = [threading.Thread(target=drip, args=(wire, stop), daemon=True) for wire, _ in slow]
    answers = []
    with open(path, "rb") as body:
        posting = threading.Thread(target=post_quietly, args=(server, body.read(), answers))
    readers = [Reader(server, "/days/100" if at % 2 else "/days", posting) for at in range(6)]
    for each in tricklers + [posting] + readers:
        each.start()
    took = []
    while posting.is_alive():
        asked = time.monotonic()
        expect("GET /live while a day is stored", server.ask("GET", "/live")[0], 200)
        took.append(time.monotonic() - asked)
        time.sleep(0.002)
    posted = time.monotonic() - begin
    for reader in readers:
        reader.join()
    expect("those who ask for what is kept", [reader.error for reader in readers if reader.error], [])
    expect("the POST beside three slow bodies", answers, [200])
    if percentile(took) > AT_MOST:
        fail(f"while a day is stored the 99th percentile of live totals is {percentile(took) * 1000:.1f} ms")
    expect("what nobody uses and comes slowly", [rest_of(wire) for wire, _ in slow], [b""] * 3)
    let_go = time.monotonic() - begin
    stop.set()
    if not 25 < let_go < 45:
        fail(f"bodies that nobody uses were let go after {let_go:.1f} s")
    waited = max(reader.most for reader in readers)
    print(f"three slow bodies of a passed day and six who ask for what is kept beside a POST of {posted:.1f} s: {len(took)} live totals,"
          f" 99th percentile {percentile(took) * 1000:.1f} ms; those who ask waited {waited * 1000:.0f} ms at most; the bodies were let go after {let_go:.0f} s")
    server.child.kill()
    server.child.wait()


def drip(wire, stop):
    """Sends 4 KB a second until it is let go."""
    try:
        while not stop.is_set():
            wire.sendall(b"a" * 4096)
            time.sleep(1)
    except OSError:
        pass


class Reader(threading.Thread):
    """Asks for a path over and over while another thread goes on, and notes the longest answer."""

    def __init__(self, server, path, other):
        super().__init__()
        self.server, self.path, self.other, self.most, self.error = server, path, other, 0.0, None

    def run(self):
        try:
            while True:
                begin = time.monotonic()
                expect(f"GET {self.path} while a day is stored", self.server.ask("GET", self.path)[0], 200)
                self.most = max(self.most, time.monotonic() - begin)
                if not self.other.is_alive():
                    return
        except (OSError, SystemExit, http.client.HTTPException) as error:
            self.error = repr(error)


def try_checks(program, folder):
    """Connections that send no whole head are no sessions."""
    server = Server(program, folder, 3)
    for sent in (b"", b"", b"GET", b"GET /live HTTP/1.1\r\n", b"\r\n"):
        expect(f"a connection of {sent}", server.raw(sent), b"")
    expect("the server behind checks of its port", server.child.poll(), None)
    for _ in range(3):
        expect("GET /live behind checks", server.ask("GET", "/live")[0], 200)
    expect("the end", server.child.wait(timeout=30), 0)
    print("five connections without a whole head are no sessions: the server ended behind three requests")


def try_marks(program, folder):
    """A day of 20,000 lines that comes over some seconds: its mark moves on each 4,096 tuples."""
    server = Server(program, folder, 100_000)
    lines = b"".join(report([(at // 500, at, 30, 0, 10, 52800)]) for at in range(20_000))
    wire = server.connect(SILENCE * 3)
    wire.sendall(b"POST /days/100 HTTP/1.1\r\nContent-Length: %d\r\n\r\n" % len(lines))
    marks = set()
    for at in range(0, len(lines), 20_000):
        wire.sendall(lines[at:at + 20_000])
        time.sleep(0.1)
        marks.add(json.loads(server.ask("GET", "/live")[2])["as_of"])
    expect("the POST that comes over some seconds", all_of(wire).split(b" ")[1], b"200")
    wire.close()
    between = sorted(mark for mark in marks if 0 < mark < 20_000)
    expect("marks that are no rounds", [mark for mark in between if mark % 4096], [])
    if len(between) < 4:
        fail(f"the mark of a day that comes slowly was at {sorted(marks)} alone")
    server.child.kill()
    server.child.wait()
    print(f"a day of 20,000 lines over some seconds: its mark was seen at {', '.join(map(str, between))}")


def shim():
    """`trials/fail_accept.c` as a library, where there is a compiler."""
    return preloaded("fail_accept", tempfile.mkdtemp()) if shutil.which("cc") else None


def try_faults(program, folder):
    """Two hundred faults of accept, after which all acceptors answer."""
    library = shim()
    if library is None:
        print("no compiler: faults of accept were not tried")
        return
    server = Server(program, folder, 3_000, environment={"LD_PRELOAD": library, "FAIL_ACCEPTS": str(ACCEPT_FAULTS)})
    begin = time.monotonic()
    expect("GET /live after faults of accept", server.ask("GET", "/live")[0], 200)
    waited = time.monotonic() - begin
    if waited < 1:
        fail(f"{ACCEPT_FAULTS} faults of accept passed within {waited:.2f} s: none was waited for, or none came")
    answers, most = slowest(work(server, ["/live"] * 8, 2))
    expect("the server after faults of accept", server.child.poll(), None)
    print(f"{ACCEPT_FAULTS} faults of accept: passed within {waited:.1f} s; {answers} answers over all acceptors after them, the slowest {most:.1f} ms")
    server.end()


def try_threads(program, folder):
    """Where a thread cannot be had for an acceptor the server ends with status 4, and does not go on with fewer acceptors."""
    library = shim()
    if library is None:
        print("no compiler: a lack of threads was not tried")
        return
    took = []
    for had in range(4):
        environment = {**os.environ, "LD_PRELOAD": library, "NO_THREAD_FROM": str(had)}
        begin = time.monotonic()
        done = subprocess.run([program, str(free_port()), "--readers", "5"], cwd=folder, capture_output=True, timeout=60, env=environment)
        took.append(time.monotonic() - begin)
        expect(f"the status where {had} threads can be had", (done.returncode, done.stdout, done.stderr), (4, b"", b""))
    print(f"0 to 3 threads for five acceptors: status 4 each time, after {max(took):.1f} s at most")


def try_drains(program, folder):
    """Clients that are answered and neither close nor end what they send: no acceptor waits for them."""
    server = Server(program, folder, 3_000, readers=2)
    server.ask("GET", "/live")
    held = [server.connect() for _ in range(100)]
    for wire in held:
        wire.sendall(b"GET /live HTTP/1.1\r\n\r\n" + b"a" * 20_000)
    taken = [all_of(wire) for wire in held]
    expect("answers to clients that stay", {each.split(b" ")[1] for each in taken}, {b"200"})
    answers, most = slowest(work(server, ["/live"] * 4, 2))
    time.sleep(1)
    gone = 0
    for wire in held:
        try:
            wire.sendall(b"a")
            time.sleep(0.001)
            wire.sendall(b"a")
        except OSError:
            gone += 1
        wire.close()
    expect("clients that stayed and were let go after two seconds", gone, len(held))
    print(f"{len(held)} clients that are answered and stay: {answers} answers meanwhile, the slowest {most:.1f} ms;"
          " each was let go")
    server.end()


def try_ways(program, folder):
    """A day of several expressways: what each vehicle paid on each is what `plain.c` reckons, over HTTP."""
    made = pathlib.Path(folder)
    for name in ("day", "plain"):
        compiled(name, made)
    lines = subprocess.run([made / "day", *map(str, WAYS), "1"], capture_output=True, check=True).stdout
    told = subprocess.run([made / "plain", "charges", "100"], input=lines, capture_output=True, check=True).stdout
    rows = [tuple(map(int, row.split(","))) for row in told.decode().splitlines()[1:]]
    kept = {(vid, xway): tolls for vid, _, xway, tolls in rows}
    some = rows[:: max(1, len(rows) // 300)]
    server = Server(program, folder, 2 * len(some) + 3)
    expect("POST of some expressways", server.ask("POST", "/days/100", lines)[0], 200)
    for vid, day, xway, tolls in some:
        for way in (xway, (xway + 1) % WAYS[2]):
            said = json.loads(server.ask("GET", f"/spent/{day}/{way}/{vid}")[2])["spent"]
            expect(f"/spent/{day}/{way}/{vid}", said, kept.get((vid, way), 0))
    vid = some[-1][0]
    owed = [{"day": 100, "tolls": tolls, "xway": xway} for (own, xway), tolls in sorted(kept.items()) if own == vid and tolls]
    said = json.loads(server.ask("GET", f"/vehicles/{vid}/1/100")[2])
    expect("the vehicle's statement", (said["amounts"], said["total"]), (owed, sum(row["tolls"] for row in owed)))
    expect("the kept days", [day["day"] for day in json.loads(server.ask("GET", "/days")[2])], [100])
    expect("the end", server.end(), (0, b""))
    ways = len({xway for _, _, xway, _ in rows})
    print(f"a day of {ways} expressways: {2 * len(some)} amounts and a vehicle's statement over HTTP are those of plain.c")


def try_kept(folder, day):
    """What was kept, by another reader of the file: once the server has ended, the file alone has all."""
    alone = tempfile.mkdtemp()
    shutil.copy(pathlib.Path(folder) / "tolls.db", alone)
    kept = sqlite3.connect(pathlib.Path(alone) / "tolls.db")
    expect("integrity_check", kept.execute("PRAGMA integrity_check").fetchone(), ("ok",))
    expect("the days", [row[0] for row in kept.execute("SELECT day FROM days ORDER BY day")], [100, 101, 200])
    expect("the day's total", kept.execute("SELECT total FROM days WHERE day = 200").fetchone()[0], day["total"])
    expect("the sum of its amounts", kept.execute("SELECT total(tolls) FROM spent WHERE day = 200").fetchone()[0], day["total"])
    rows = kept.execute("SELECT count(*) FROM spent").fetchone()[0]
    kept.close()
    shutil.rmtree(alone)
    print(f"sqlite3 reads a copy of tolls.db without its log: three days, {rows} amounts, the day's sum is its total")


def in_a_folder(attempt, program, *given):
    """Makes an attempt in a new folder, and says how long it took."""
    began, own = time.monotonic(), tempfile.mkdtemp()
    attempt(program, own, *given)
    shutil.rmtree(own)
    print(f"{attempt.__name__}: {time.monotonic() - began:.1f} s", flush=True)


def main():
    words = argparse.ArgumentParser(description=__doc__, formatter_class=argparse.RawDescriptionHelpFormatter)
    words.add_argument("program", type=pathlib.Path)
    words.add_argument("--lines", type=int, default=100_000)
    words.add_argument("--beside", type=int, default=1_000_000)
    words.add_argument("--asks", type=int, default=1000)
    words.add_argument("--kills", type=int, default=KILLS)
    words.add_argument("--folder", type=pathlib.Path, default=pathlib.Path(tempfile.gettempdir()) / "days")
    words.add_argument("--short", action="store_true")
    given = words.parse_args()
    if given.short:
        given.lines, given.asks, given.kills = 10_000, 100, 5
    given.folder.mkdir(parents=True, exist_ok=True)
    program = str(given.program.resolve())
    folder = tempfile.mkdtemp()
    try_words(program)
    try_answers(program, folder)
    attempts = [try_bodies, try_stream, try_handles, try_threads, try_drains, try_passed, try_checks, try_marks, try_health,
                try_mended]
    for attempt in attempts if given.short else attempts + [try_ways, try_silent, try_faults, try_line, try_full, try_posts]:
        in_a_folder(attempt, program)
    if not given.short:
        in_a_folder(try_beside, program, make_day(given.folder, str(given.beside)))
        in_a_folder(try_reads, program, make_day(given.folder, str(given.beside)))
    path = make_day(given.folder, str(given.lines))
    try_kills(program, path, given.kills)
    server, day = try_day(program, folder, path)
    try_asks(server, given.asks)
    if not given.short:
        try_slow(server)
    expect("the end", server.end(), (0, b""))
    try_kept(folder, day)
    shutil.rmtree(folder)
    print("all as expected")


if __name__ == "__main__":
    main()
