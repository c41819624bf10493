#!/usr/bin/env python3
"""Cuts the power at each moment of the built programs' writing, and looks whether what is left is an office.

    python3 trials/try_power.py SERVER OFFICE [--images 900] [--every 1]

SERVER is the executable toll_serve, OFFICE toll_office. Commands of the office and a server with three days run with a library
(`trials/record_disk.c`, built by `cc`) that records each write, cut and sync of the kept file and its log, and each answer.
Behind each of these moments a disk may have kept all that was not synced, none of it, some of it, or parts of sectors of 512
bytes: such images are made, at most so many of each run, drawn with a fixed seed beyond that. The office then lists the days of
each, and Python's sqlite3 checks it: what is kept has to be the office of before the command or after it, each day that was
answered as stored by then has to be there, and the list must not fail. A folder in which nothing was made yet may be empty.
So are a file of version 1 that is taken over, and the puts into a file that is not exactly ours, which are made by SQL.
Then each command runs over a disk that stops at each of these calls in turn, once more where half of that write came, and over
disks of which the log's alone stops, or the file's: it has to end well or with a keeper's fault whose line says so, and leave the
same two offices, the later one where it ended well. So has each disk that lost of what was not synced all, that of the one file,
or by turns each half of a kilobyte, so that a write is torn. Status 1 at the first difference.
"""
import argparse
import collections
import concurrent.futures
import contextlib
import json
import os
import pathlib
import random
import shutil
import sqlite3
import struct
import subprocess
import tempfile

from office import change_by_hand, expect, fail, preloaded, tables
from try_replaced import post, running
from try_serve import charged_day

DAY = charged_day()
FILES = ("tolls.db", "tolls.db-wal")
SECTOR = 512
HEAD = struct.Struct("<c32sqI")


def events_of(path):
    """What was recorded: letter, name, place, bytes."""
    taken = path.read_bytes() if path.exists() else b""
    at = 0
    while at < len(taken):
        what, name, place, length = HEAD.unpack_from(taken, at)
        at += HEAD.size
        yield what.decode(), name.rstrip(b"\0").decode(), place, taken[at:at + length]
        at += length


def applied(content, event):
    """A file behind an event."""
    what, _, place, data = event
    if what == "T":
        return content[:place] + bytes(max(0, place - len(content)))
    content = content + bytes(max(0, place - len(content)))
    return content[:place] + data + content[place + len(data):]


def torn(event, draw):
    """A write of which each sector came or did not."""
    what, name, place, data = event
    if what == "T":
        return [event] if draw.random() < 0.5 else []
    parts, at = [], 0
    while at < len(data):
        end = min(len(data), at + SECTOR - (place + at) % SECTOR)
        if draw.random() < 0.5:
            parts.append((what, name, place + at, data[at:end]))
        at = end
    return parts


def images(before, events, draw):
    """Each moment's images, with the number of events behind which it is."""
    durable = dict(before)
    waiting = []
    for count, event in enumerate(events, 1):
        what, name = event[0], event[1]
        if what == "S":
            for late in [late for late in waiting if late[1] == name]:
                durable[name] = applied(durable.get(name, b""), late)
            waiting = [late for late in waiting if late[1] != name]
            continue
        if what == "A":
            continue
        waiting.append(event)
        kinds = {
            "all kept": waiting,
            "all lost": [],
            "some kept": [late for late in waiting if draw.random() < 0.5],
            "torn": [part for late in waiting for part in torn(late, draw)],
        }
        for kind, kept in kinds.items():
            image = dict(durable)
            for late in kept:
                image[late[1]] = applied(image.get(late[1], b""), late)
            yield count, kind, image


def halves(event, odd):
    """The sectors of a write that have odd numbers, or the others; a cut comes with the others."""
    what, name, place, data = event
    if what == "T":
        return [] if odd else [event]
    ends = sorted({place, place + len(data), *range(place - place % SECTOR + SECTOR, place + len(data), SECTOR)})
    return [(what, name, low, data[low - place:high - place]) for low, high in zip(ends, ends[1:]) if low // SECTOR % 2 == odd]


def lost(before, events):
    """What a disk that lost something may have at the end, each with its name."""
    durable, waiting = dict(before), []
    for event in events:
        what, name = event[0], event[1]
        if what == "S":
            for late in [late for late in waiting if late[1] == name]:
                durable[name] = applied(durable.get(name, b""), late)
            waiting = [late for late in waiting if late[1] != name]
        elif what != "A":
            waiting.append(event)
    kinds = {
        "all lost": [],
        "the log's lost": [late for late in waiting if late[1] == FILES[0]],
        "the file's lost": [late for late in waiting if late[1] == FILES[1]],
        "torn": [part for late in waiting for part in halves(late, late[1] == FILES[1])],
        "torn the other way": [part for late in waiting for part in halves(late, late[1] == FILES[0])],
    }
    for kind, kept in kinds.items():
        image = dict(durable)
        for late in kept:
            image[late[1]] = applied(image.get(late[1], b""), late)
        yield kind, image


def recorded(library, folder, start):
    """What a run in a folder did to its files."""
    record = folder.with_name(folder.name + ".record")
    record.unlink(missing_ok=True)
    before = {name: (folder / name).read_bytes() for name in FILES if (folder / name).exists()}
    start({"LD_PRELOAD": library, "RECORD": str(record)})
    return before, list(events_of(record))


def office_of(office, folder):
    """All that the office lists, and what sqlite3 says of the file; none where there is no file."""
    shown = []
    for words in (["days"], ["tariffs"], ["charges", "1", "200"]):
        done = subprocess.run([office, *words], cwd=folder, capture_output=True, text=True)
        shown.append((done.returncode, done.stdout, done.stderr))
    return tuple(shown)


def shown_of(office, folder, image):
    """What the office lists of an image, which SQLite finds sound, in a folder that is made for it."""
    shutil.rmtree(folder, ignore_errors=True)
    folder.mkdir()
    for file, text in image.items():
        (folder / file).write_bytes(text)
    shown = office_of(office, folder)
    with contextlib.closing(sqlite3.connect(folder / "tolls.db")) as database:
        return shown, database.execute("PRAGMA integrity_check").fetchall()


def try_run(office, top, name, before, events, may_be, most, stored):
    """All images of a run that stores these days, or so many: each is an office that may be, with what was answered by then."""
    draw = random.Random(7)
    expect(f"{name}: days answered as stored", set().union(*(stored_days(text) for what, _, _, text in events if what == "A")), stored)
    found = list(images(before, events, draw))
    if len(found) > most:
        found = [found[at] for at in sorted(draw.sample(range(len(found)), most))]
    seen = dict.fromkeys(range(len(may_be)), 0)
    with concurrent.futures.ThreadPoolExecutor(os.cpu_count()) as crew:
        told = crew.map(lambda at: shown_of(office, top / f"image-{at}", found[at][2]), range(len(found)))
        for (count, kind, _), (shown, checked) in zip(found, told):
            if shown not in may_be:
                fail(f"{name}, behind event {count} of {len(events)}, {kind}: {shown}")
            seen[may_be.index(shown)] += 1
            known = set()
            for what, _, _, text in events[:count]:
                known |= stored_days(text) if what == "A" else set()
            days = {int(line.split()[1]) for line in shown[0][1].splitlines() if line.startswith("day ")}
            if not known <= days:
                fail(f"{name}, behind event {count}, {kind}: answered {sorted(known)}, kept {sorted(days)}")
            expect(f"{name}, behind event {count}, {kind}: sqlite3", checked, [("ok",)])
    print(f"{name}: {len(events)} events, {len(found)} images, each of {len(may_be)} offices: {list(seen.values())}")
    return len(found)


def stored_days(text):
    """The days that bytes to a client or to standard output answer as stored."""
    days = set()
    for line in text.split(b"\n"):
        if line.startswith(b"# stored day "):
            days.add(int(line.split()[3]))
        elif line.startswith(b"{") or b"\r\n\r\n{" in text:
            body = text.split(b"\r\n\r\n")[-1]
            try:
                answer = json.loads(body)
            except ValueError:
                continue
            if isinstance(answer, dict) and answer.get("outcome") == "stored":
                days.add(answer["day"])
    return days


def by_command(office, folder, words, text):
    def start(extra):
        done = subprocess.run([office, *words], cwd=folder, input=text, capture_output=True, env={**os.environ, **extra})
        expect(f"{words}: status, {done.stderr!r}", done.returncode, 0)
    return start


# what a line may say of a disk that stops, as docs/FORMATS.md has it
STOPPED = ("the disk failed", "an earlier failure of the disk closed it", "it cannot be opened",
           "a page or a row of it is spoiled, or the disk failed")
FAULT, NOT_CLOSED = "toll_office: tolls.db: ", "toll_office: tolls.db is not closed, what was put lies in its log: "


def said_so(done):
    """Whether a command over a disk that stopped says so: a keeper's fault, or a close that failed behind what was done."""
    lines = done.stderr.decode().splitlines()
    heads = (FAULT, NOT_CLOSED) if done.returncode == 6 else (NOT_CLOSED,)
    fault = done.returncode == 6 and done.stdout.endswith(b"# keeper fault\n")
    return (fault or done.returncode == 0) and all(line in [head + it for head in heads for it in STOPPED] for line in lines)


# what stood on standard error where a disk stopped, each line with its count
SAID = collections.Counter()
# which disks stop, and whether half of the write comes at which they do
STOPS = [{}, {"HALF": "1"}, {"ONLY": FILES[1]}, {"ONLY": FILES[0]}]


def try_stop(office, folder, held, words, text, how, library):
    """A command over a disk that stops: how it ended, and what the office lists of what is left, and of what is if it was lost."""
    shutil.rmtree(folder, ignore_errors=True)
    shutil.copytree(held, folder)
    before = {name: (folder / name).read_bytes() for name in FILES if (folder / name).exists()}
    record = folder.with_name(folder.name + ".record")
    record.unlink(missing_ok=True)
    done = subprocess.run([office, *words], cwd=folder, input=text, capture_output=True,
                          env={**os.environ, "LD_PRELOAD": library, "RECORD": str(record), **how})
    left = [("all kept", office_of(office, folder))]
    image = folder.with_name(folder.name + "-image")
    left += [(kind, shown_of(office, image, files)[0]) for kind, files in lost(before, events_of(record))]
    return done, left


def try_stops(office, top, name, held, words, text, events, may_be, library, every):
    """A command over disks that stop at each call in turn, or at every Nth of all of these and where none does: how many left the
    office before, and how many the one after."""
    counts, runs = [0, 0], []
    for how in STOPS:
        calls = sum(event[0] in "WTS" and event[1] == how.get("ONLY", event[1]) for event in events)
        runs += [(at, calls, how) for at in range(calls + 1)]
    runs = [it for at, it in enumerate(runs) if at % every == 0 or it[0] == it[1]]

    def stop(at):
        return try_stop(office, top / f"stop-{at}", held, words, text, {"STOP": str(runs[at][0]), **runs[at][2]}, library)

    with concurrent.futures.ThreadPoolExecutor(os.cpu_count()) as crew:
        for (at, calls, how), (done, left) in zip(runs, crew.map(stop, range(len(runs)))):
            what = f"{name}, the disk stops behind {at} of {calls} calls {how}: {done}"
            if not said_so(done) or (done.returncode == 6 and not done.stderr):
                fail(what)
            if at == calls and (done.returncode, done.stderr) != (0, b""):
                fail(what)
            SAID.update(done.stderr.decode().splitlines())
            for kind, shown in left:
                if shown not in may_be or (done.returncode == 0 and shown != may_be[1]):
                    fail(f"{what}, and left, {kind}, {shown}")
                counts[may_be.index(shown)] += 1
    print(f"{name}: disks stop among {len(events)} calls, {len(runs)} runs: {counts} left the office before, and the one after")
    return sum(counts)


def by_server(server_program, folder, days):
    def start(extra):
        server = running(server_program, folder, extra)
        for day in days:
            expect(f"POST {day}", post(server, day), (200, True))
        server.child.kill()
        server.child.wait()
    return start


def begun(folder, version, more=""):
    """A folder with a file that another hand made, of a version, with a history and a day."""
    folder.mkdir()
    ours = list(tables().values())
    ours = ours[:3] if version == 1 else [*ours, "INSERT INTO form VALUES (1, 2)", more]
    change_by_hand(folder / FILES[0], ours, BOTH if version == 1 else "")
    return folder


# A history and a day without a line, as another hand puts them.
DIGEST = "x'e3b0c44298fc1c149afbf4c8996fb92427ae41e4649b934ca495991b7852b855'"
BOTH = f"""INSERT INTO days VALUES (100, {DIGEST}, 0, 0, 0, {DIGEST}, 0);
INSERT INTO spent VALUES (99, 7, 0, 5), (31, 7, 0, 28); INSERT INTO past VALUES (1, 100, {DIGEST}, 18, 2)"""
HISTORY = "".join(f"{vid},{1 + vid % 69},{vid % 3},{vid + 1}\n" for vid in range(200)).encode()
PUTS = [
    ("a history", ["past", "100"], HISTORY, set()),
    ("a tariff", ["tariff", "5", "7", "8", "9"], b"", set()),
    ("a day", ["import", "100"], DAY, {100}),
    ("a second day", ["import", "101"], DAY, {101}),
]
RENEWAL = [("a renewal", ["renew", "102"], b"", set())]
TAKEN_OVER = [("the first look", ["days"], b"", set())]


def main():
    parser = argparse.ArgumentParser(description=__doc__, formatter_class=argparse.RawDescriptionHelpFormatter)
    parser.add_argument("server")
    parser.add_argument("office")
    parser.add_argument("--images", type=int, default=900)
    parser.add_argument("--every", type=int, default=1, help="disks stop at every Nth call alone")
    asked = parser.parse_args()
    server_program, office = os.path.realpath(asked.server), os.path.realpath(asked.office)
    count = stopped = 0
    with tempfile.TemporaryDirectory() as top:
        top = pathlib.Path(top)
        library = preloaded("record_disk", top)
        clone, folder = top / "clone", top / "office"
        folder.mkdir()
        begins = [
            ("a new folder", folder, PUTS + RENEWAL),
            ("a file of version 1", begun(top / "old", 1), TAKEN_OVER),
            ("a file with an index more", begun(top / "whole", 2, "CREATE INDEX by_tolls ON spent (tolls)"), PUTS),
        ]
        each = max(1, asked.images // (1 + sum(len(runs) for _, _, runs in begins)))
        for begin, at, runs in begins:
            shutil.copytree(at, clone)
            before = office_of(office, clone)
            for name, words, text, stored in runs:
                name = f"{begin}, {name}"
                shutil.rmtree(clone)
                shutil.copytree(at, clone)
                held, events = recorded(library, at, by_command(office, at, words, text))
                after = office_of(office, at)
                stopped += try_stops(office, top, name, clone, words, text, events, [before, after], library,
                                     asked.every)
                count += try_run(office, top, name, held, events, [before, after], each, stored)
                before = after
            shutil.rmtree(clone)
        before = office_of(office, folder)
        offices = [before]
        for last in range(102, 105):
            shutil.copytree(folder, clone)
            by_server(server_program, clone, range(102, last + 1))({})
            offices.append(office_of(office, clone))
            shutil.rmtree(clone)
        held, events = recorded(library, folder, by_server(server_program, folder, range(102, 105)))
        count += try_run(office, top, "a server with three days", held, events, offices, each, {102, 103, 104})
    print(*(f"{count} times on standard error: {line}" for line, count in sorted(SAID.items())), sep="\n")
    print(f"{count} images in all: none lost a day that was answered, none was no office; nor {stopped} that stopped disks left")


if __name__ == "__main__":
    main()
