#!/usr/bin/env python3
"""Tries the server behind nginx, by the file that docs/HTTP.md has, and the unit of examples/ by `systemd-analyze`.

    python3 trials/try_proxy.py PROGRAM

PROGRAM is the executable `toll_serve`; `nginx` and `openssl` are to be there. nginx runs in a new folder, on free ports of this
machine. The script ends with status 1 at the first answer that is not the expected one.
"""
import argparse
import base64
import pathlib
import re
import shutil
import socket
import subprocess
import sys
import tempfile
import time

TOP = pathlib.Path(__file__).resolve().parent.parent
NAME = "tolls.example"
USER = "Authorization: Basic " + base64.b64encode(b"clerk:secret").decode()


def free_port():
    with socket.socket() as probe:
        probe.bind(("127.0.0.1", 0))
        return probe.getsockname()[1]


def expect(what, found, wanted):
    if found != wanted:
        sys.exit(f"not as expected: {what}: found {found!r}, wanted {wanted!r}")


def heard(port):
    """Waits until somebody hears on a port."""
    for _ in range(1000):
        try:
            socket.create_connection(("127.0.0.1", port), timeout=1).close()
            return
        except OSError:
            time.sleep(0.01)
    sys.exit(f"nobody hears on port {port}")


def configuration(folder, port, server):
    """nginx's file of docs/HTTP.md, with ports of this trial."""
    found = re.search(r"```nginx\n(.*?)```", (TOP / "docs/HTTP.md").read_text(), re.S) or sys.exit("HTTP.md has no file of nginx")
    text = found[1].replace("8090", str(port)).replace("127.0.0.1:8080", f"127.0.0.1:{server}")
    secret = subprocess.run(["openssl", "passwd", "-apr1", "secret"], capture_output=True, text=True, check=True).stdout.strip()
    (folder / "tolls.users").write_text(f"clerk:{secret}\n")
    own = f"daemon off;\npid {folder}/pid;\nerror_log {folder}/error.log;\n"
    places = "".join(f"    {kind}_temp_path {folder}/{kind};\n" for kind in ("client_body", "proxy", "fastcgi", "uwsgi", "scgi"))
    (folder / "nginx.conf").write_text(own + text.replace("http {\n", "http {\n    access_log off;\n" + places, 1))
    return folder / "nginx.conf"


def raw(port, sent):
    with socket.create_connection(("127.0.0.1", port), timeout=30) as wire:
        wire.sendall(sent)
        taken = b""
        while piece := wire.recv(65536):
            taken += piece
        return taken


def ask(port, line, *fields, host=NAME, body=b""):
    """The status of an answer, and its body; 0 where the proxy only closes."""
    head = "\r\n".join([f"{line} HTTP/1.1", f"Host: {host}", "Connection: close", *fields])
    if line.startswith("POST"):
        head += f"\r\nContent-Length: {len(body)}"
    taken = raw(port, head.encode() + b"\r\n\r\n" + body)
    return (int(taken.split(b" ")[1]), taken.split(b"\r\n\r\n", 1)[1]) if taken else (0, b"")


def try_proxy(port):
    own = f"Origin: http://{NAME}:{port}"
    refused = [((), {}, 401), ((USER, "Origin: http://evil.example"), {}, 403), ((USER, "Origin: null"), {}, 403),
               ((USER, own, "Sec-Fetch-Site: cross-site"), {}, 403), ((USER, "Sec-Fetch-Site: same-site"), {}, 403),
               ((USER,), {"host": "evil.example"}, 0), ((USER,), {"host": f"127.0.0.1:{port}"}, 0)]
    for fields, words, status in refused:
        expect(f"a POST with {fields} {words}", ask(port, "POST /toll/days/100", *fields, **words)[0], status)
    for fields, words, status in refused:
        expect(f"a GET with {fields} {words}", ask(port, "GET /toll/days", *fields, **words)[0], status)
    expect("the days that those posted", ask(port, "GET /toll/days", USER, "Sec-Fetch-Site: same-origin"), (200, b"[]"))
    status, page = ask(port, "GET /toll/", USER, "Sec-Fetch-Site: none")
    expect("the page", (status, page[:15]), (200, b"<!DOCTYPE html>"))
    expect("paths of the page that begin at the root", re.findall(rb"ask\('/", page), [])
    expect("a POST of the office's own page", ask(port, "POST /toll/days/100", USER, own, "Sec-Fetch-Site: same-origin")[0], 200)
    expect("the live total", ask(port, "GET /toll/live", USER)[0], 200)


def try_stream(port):
    """A notice comes through the proxy before the whole body was sent."""
    lines = b"".join(b"0,%d,%d,30,0,1,0,10,52800,-1,-1,-1,-1,-1,-1\n" % (at // 500, at) for at in range(6000))
    with socket.create_connection(("127.0.0.1", port), timeout=20) as wire:
        head = f"POST /toll/answers/101 HTTP/1.1\r\nHost: {NAME}\r\n{USER}\r\nConnection: close\r\nContent-Length: {len(lines)}\r\n\r\n"
        wire.sendall(head.encode() + lines[:-1000])
        taken = b""
        while b"\n0," not in taken:
            piece = wire.recv(65536)
            if not piece:
                sys.exit(f"not as expected: no notice came before the end: {taken[:200]!r}")
            taken += piece
        wire.sendall(lines[-1000:])
        while piece := wire.recv(65536):
            taken += piece
    expect("the closing line", b"# answered day 101 tuples 6000 " in taken, True)


def try_unit(program):
    if shutil.which("systemd-analyze") is None:
        print("no systemd-analyze: the unit was not tried")
        return
    with tempfile.TemporaryDirectory() as folder:
        unit = pathlib.Path(folder) / "toll_serve.service"
        text = (TOP / "examples/toll_serve.service").read_text()
        unit.write_text(text.replace("/usr/local/bin/toll_serve", str(program)).replace("User=tolls", "User=daemon"))
        done = subprocess.run(["systemd-analyze", "verify", "--man=no", unit], capture_output=True, text=True)
    told = [line for line in done.stderr.splitlines() if "toll_serve" in line]
    expect("what systemd-analyze says of the unit", (done.returncode, told), (0, []))
    print("the unit of examples/: systemd-analyze finds nothing")


def main():
    words = argparse.ArgumentParser(description=__doc__, formatter_class=argparse.RawDescriptionHelpFormatter)
    words.add_argument("program", type=pathlib.Path)
    program = words.parse_args().program.resolve()
    nginx = shutil.which("nginx") or shutil.which("nginx", path="/usr/sbin") or sys.exit("no nginx: apt-get install nginx-light")
    folder = pathlib.Path(tempfile.mkdtemp())
    folder.chmod(0o755)
    server_port, port = free_port(), free_port()
    server = subprocess.Popen([program, str(server_port)], cwd=folder)
    proxy = None
    try:
        heard(server_port)
        proxy = subprocess.Popen([nginx, "-p", folder, "-c", configuration(folder, port, server_port)], stderr=subprocess.DEVNULL)
        heard(port)
        try_proxy(port)
        try_stream(port)
    finally:
        for child in (proxy, server):
            if child is not None:
                child.terminate()
                child.wait()
        shutil.rmtree(folder)
    print("behind nginx, by the file of HTTP.md: foreign names, origins and sites refused, a user asked for, notices as they come")
    try_unit(program)


if __name__ == "__main__":
    main()
