#!/usr/bin/env python3
"""Makes pictures of the page to watch the day by, in headless Chromium, and looks whether it shows what it is told.

    python3 trials/try_page.py [--serve TOLL_SERVE] [--out FOLDER] [--chromium PROGRAM]

Without `--serve` the page is served by a small stand-in in this script, which answers `/`, `/live`, `/live/{vid}` and
`/days` as the server does, with invented numbers; the page is taken from the constants of `crates/serve_requests/src/page`.
Pictures are made of an empty office, of a day that is going on (also in the dark and on a narrow window), of ten kept days, of a
day that stands still, of odd answers, of a database that cannot be read, and of a server that has stopped. The script ends with status 1 if the page does not show what the
stand-in told, in the page as Chromium has built it.
With `--serve` the executable serves an office in a new folder, into which six days of bench/day.c were posted. Two more are posted
over 40 seconds each, and meanwhile pictures of the page are made, a light and a dark one: `page_import.png`, `page_import_dark.png`.
With `--out docs/pictures` they are those of the documents. Without `--out` no picture is kept. Needs `chromium`
(`apt-get install chromium`).
"""
import argparse
import base64
import contextlib
import http.client
import http.server
import json
import os
import pathlib
import re
import shutil
import subprocess
import sys
import tempfile
import threading
import time

from office import TOP, compiled, free_port

PIECES = [("markup", "FRONT"), ("style", "STYLE"), ("markup", "BODY"), ("asking", "ASKING"), ("showing", "SHOWING"),
          ("markup", "END")]
LIMIT = 40_000
WIDE, NARROW = (1100, 900), (420, 1250)
SECONDS = 30
WATCH = "for (const v of [95212, 592414, 3179216]) { const it = document.querySelector('input'); it.value = v; it.form.requestSubmit(); }"


def page_of_the_program():
    """The page, from the constants of the program."""
    text = ""
    for file, name in PIECES:
        source = (TOP / "crates/serve_requests/src/page" / f"{file}.rt").read_text()
        found = re.search(rf'const {name}: &str = "(.*?)";', source, re.S)
        if found is None:
            sys.exit(f"no constant {name} in {file}.rt")
        text += found.group(1)
    return text.encode()


# answers that are none of the live board's: want of memory, no JSON, an empty page, other members, a list
ODD = [(500, {"error": "memory"}), (200, b"<html>"), (200, b""), (200, {"as_of": "x"}), (200, b"null"), (200, [1])]


class Office:
    """What the stand-in tells."""

    def __init__(self, state):
        self.state = state
        self.asked = 0

    def live(self):
        """The live board. A day that goes on is a second further each time that it is asked."""
        self.asked += 1
        if self.state == "empty":
            return {"as_of": 0, "day": 0, "total": 0}
        if self.state in ("going", "lost"):
            return {"as_of": 2400 * self.asked, "day": 111, "total": int(180 * self.asked ** 1.4)}
        return {"as_of": 1203456, "day": 120 if self.state == "still" else 110, "total": 9876543210}

    def is_lost(self):
        """Whether nothing is answered any more."""
        return self.state == "lost" and self.asked >= 10

    def is_odd(self):
        """Whether the live board is answered by something else, as it is at first."""
        if self.state != "odd" or self.asked >= 2 * len(ODD):
            return False
        self.asked += 1
        return True

    def account(self, vid):
        self.asked -= 1
        shown = self.live()
        return {"as_of": shown["as_of"], "balance": vid % 97 * 3, "day": shown["day"]}

    def days(self):
        if self.state == "empty":
            return []
        digest = "e3b0c44298fc1c149afbf4c8996fb92427ae41e4649b934ca495991b7852b855"
        totals = [812000, 1203000, 998500, 1405200, 0, 1120900, 1300450, 760010, 1555000, 9876543210 // 7000]
        return [{"bytes": 40 * total, "day": 101 + i, "digest": digest, "notices": total // 9, "notices_digest": digest,
                 "tariffs": digest, "total": total, "tuples": 1000000 + 3511 * i} for i, total in enumerate(totals)]


def handler_of(office, page):
    class Handler(http.server.BaseHTTPRequestHandler):
        def do_GET(self):
            path = self.path.split("?")[0]
            if path == "/":
                self.answer(200, page, "text/html; charset=utf-8")
            elif office.is_lost():
                self.close_connection = True
            elif office.state == "broken" and path == "/days":
                self.answer(503, {"error": "keeper"})
            elif office.is_odd() and path == "/live":
                self.answer(*ODD[office.asked % len(ODD)])
            elif path == "/live":
                self.answer(200, office.live())
            elif path.startswith("/live/"):
                self.answer(200, office.account(int(path[6:])))
            elif path == "/days":
                self.answer(200, office.days())
            else:
                self.answer(404, {"error": "no path"})

        def answer(self, status, body, kind="application/json"):
            text = body if isinstance(body, bytes) else json.dumps(body, separators=(",", ":")).encode()
            self.send_response(status)
            self.send_header("Content-Length", str(len(text)))
            self.send_header("Content-Type", kind)
            self.send_header("Connection", "close")
            self.end_headers()
            self.wfile.write(text)

        def log_message(self, *words):
            pass
    return Handler


def common(program, profile):
    """The words that run Chromium without a window over a new profile."""
    return [program, "--headless=new", "--no-sandbox", "--disable-gpu", "--hide-scrollbars", f"--user-data-dir={profile}",
            "--no-first-run", "--disable-background-networking", "--disable-component-update"]


def chromium(program, profile, words):
    return subprocess.run(common(program, profile) + words, capture_output=True, timeout=120)


class Browser:
    """Chromium, asked over two pipes: each message is JSON with a NUL behind it."""

    def __init__(self, program, profile):
        asked, self.ask = os.pipe()
        self.told, tell = os.pipe()
        words = ["bash", "-c", f'exec "$@" 3<&{asked} 4>&{tell}', "bash", *common(program, profile), "--remote-debugging-pipe"]
        self.child = subprocess.Popen(words, pass_fds=(asked, tell), stdout=subprocess.DEVNULL, stderr=subprocess.DEVNULL)
        os.close(asked)
        os.close(tell)
        self.rest, self.count = b"", 0

    def call(self, method, session=None, **params):
        """What is answered to a call; events on the way are dropped."""
        self.count += 1
        said = {"id": self.count, "method": method, "params": params, **({"sessionId": session} if session else {})}
        os.write(self.ask, json.dumps(said).encode() + b"\0")
        while True:
            while b"\0" not in self.rest:
                more = os.read(self.told, 1 << 16)
                if not more:
                    sys.exit("chromium has ended")
                self.rest += more
            line, _, self.rest = self.rest.partition(b"\0")
            found = json.loads(line)
            if found.get("id") == self.count:
                if "result" not in found:
                    sys.exit(f"chromium: {method}: {found}")
                return found["result"]

    def close(self):
        self.child.kill()
        self.child.wait()
        os.close(self.ask)
        os.close(self.told)


def watched(program, url, path, size, dark, seconds, meanwhile):
    """A picture of a page that was open for so many seconds by the clock, while something else is done."""
    with tempfile.TemporaryDirectory(ignore_cleanup_errors=True) as profile, contextlib.closing(Browser(program, profile)) as browser:
        target = browser.call("Target.createTarget", url="about:blank")["targetId"]
        session = browser.call("Target.attachToTarget", targetId=target, flatten=True)["sessionId"]
        browser.call("Emulation.setDeviceMetricsOverride", session, width=size[0], height=size[1], deviceScaleFactor=1, mobile=False)
        scheme = {"name": "prefers-color-scheme", "value": "dark" if dark else "light"}
        browser.call("Emulation.setEmulatedMedia", session, features=[scheme])
        browser.call("Page.navigate", session, url=url)
        meanwhile.start()
        time.sleep(2)
        browser.call("Runtime.evaluate", session, expression=WATCH)
        time.sleep(seconds - 2)
        path.write_bytes(base64.b64decode(browser.call("Page.captureScreenshot", session, format="png")["data"]))
    print(f"{path}: {path.stat().st_size} bytes")


def picture(program, url, path, size, dark, seconds):
    """A picture of a page after so many seconds of its own time, which pass at once."""
    with tempfile.TemporaryDirectory() as profile:
        words = [f"--screenshot={path}", f"--window-size={size[0]},{size[1]}", f"--virtual-time-budget={seconds * 1000}"]
        if dark:
            words.append("--blink-settings=preferredColorScheme=0")
        chromium(program, profile, words + [url])
    if not path.exists():
        sys.exit(f"no picture: {path}")
    print(f"{path}: {path.stat().st_size} bytes")


def shown(program, url, seconds):
    """The page as Chromium has built it after so many seconds."""
    with tempfile.TemporaryDirectory() as profile:
        done = chromium(program, profile, ["--dump-dom", f"--virtual-time-budget={seconds * 1000}", url])
    return done.stdout.decode()


def posted(port, day, text, seconds=0):
    """Posts a day, evenly over so many seconds, and what is answered."""
    link, parts = http.client.HTTPConnection("127.0.0.1", port, timeout=300), 10 * seconds or 1
    link.putrequest("POST", f"/days/{day}")
    link.putheader("Content-Length", str(len(text)))
    link.endheaders()
    began, size = time.monotonic(), -(-len(text) // parts)
    for i in range(parts):
        link.send(text[i * size:(i + 1) * size])
        time.sleep(max(0.0, began + seconds * (i + 1) / parts - time.monotonic()))
    answer = link.getresponse()
    print(f"day {day}: {answer.status} {answer.read().decode()}")


def of_an_import(serve, program, out):
    """Pictures of the page of a server while days are posted to it."""
    with tempfile.TemporaryDirectory() as folder:
        day, port = compiled("day", folder), free_port()

        def made(lines, seed):
            return subprocess.run([day, str(lines), "40000", "1", "60", str(seed)], check=True, stdout=subprocess.PIPE).stdout

        server = subprocess.Popen([serve, str(port)], cwd=folder)
        try:
            time.sleep(1)
            for number in range(101, 107):
                posted(port, number, made(1400000 + 20000 * (number * 7 % 13), number))
            for number, name in ((107, "page_import.png"), (108, "page_import_dark.png")):
                last = threading.Thread(target=posted, args=(port, number, made(1500000, number), SECONDS + 10))
                watched(program, f"http://127.0.0.1:{port}/", out / name, WIDE, "dark" in name, SECONDS, last)
                last.join()
        finally:
            server.kill()
            server.wait()


def expect(what, text, wanted):
    if wanted not in text:
        sys.exit(f"not as expected: {what}: {wanted!r} is not shown")


def main():
    words = argparse.ArgumentParser()
    words.add_argument("--serve", type=lambda it: pathlib.Path(it).resolve())
    words.add_argument("--out")
    words.add_argument("--chromium", default=shutil.which("chromium") or shutil.which("chromium-browser"))
    asked = words.parse_args()
    if asked.chromium is None:
        sys.exit("no chromium: apt-get install chromium")
    room = tempfile.TemporaryDirectory()
    out = pathlib.Path(asked.out or room.name)
    out.mkdir(parents=True, exist_ok=True)
    if asked.serve:
        of_an_import(asked.serve, asked.chromium, out)
        return
    page = page_of_the_program()
    if len(page) >= LIMIT or not page.isascii():
        sys.exit(f"the page has {len(page)} bytes, or others than ASCII")
    print(f"the page has {len(page)} bytes")
    states = [("empty", ["No day has been imported", "None is kept."]), ("going", ["<dd id=\"day\">111</dd>", "Day 111 is going on"]),
              ("kept", ["1 203 456", "9 876 543 210", "<td>105</td>", "Day 110 is kept."]),
              ("still", ["Day 120 has stood still since", "Do not bill by it."]), ("odd", ["1 203 456", "Day 110 is kept."]),
              ("broken", ["cannot read its database"]), ("lost", ["The server does not answer.", "<td>105</td>"])]
    for state, wanted in states:
        office = Office(state)
        server = http.server.ThreadingHTTPServer(("127.0.0.1", 0), handler_of(office, page))
        threading.Thread(target=server.serve_forever, daemon=True).start()
        url = f"http://127.0.0.1:{server.server_port}/"
        text = shown(asked.chromium, url, 20)
        for each in wanted:
            expect(state, text, each)
        office.asked = 0
        picture(asked.chromium, url, out / f"page_{state}.png", WIDE, False, 30 if state in ("going", "lost") else 6)
        if state == "going":
            picture(asked.chromium, url, out / "page_dark.png", WIDE, True, 30)
            picture(asked.chromium, url, out / "page_narrow.png", NARROW, False, 30)
        server.shutdown()
        server.server_close()
    print(f"the page shows what it is told, in {len(states)} states")


main()
