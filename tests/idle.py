#!/usr/bin/env python3
"""Tests that no connection of `omaha serve` holds up another, over the loopback.

    tests/idle.py [--program PATH] [--idle N] [--active N] [--slow N] [--readers N] [--resets N] [--workers N]
                  [--seconds N] [--size MIB] [--only PART ..]

It prints what it measures, and each test that fails with what was expected and found; then the exit status is 1.
`--only` names the parts to run:

`few`: 50 idle connections, 8 slow ones and 8 that read nothing of a large package, before 2 workers: another client gets a
hundred replies meanwhile, and then each idle and each slow one its own. `make test` runs this part.

`crowd`, which needs `wrk`, and room for the connections (`ulimit -n`): update checks over `--active` connections, alone and then beside a crowd: idle connections, slow ones that send
a byte a second, readers that take a package of 64 MiB at 1 KiB a second, and connections that are reset. At the end each
idle and each slow one gets a reply, and each package has its SHA-256.

`attacks`: clients of each kind (silent, slow, half-closed, reset, with a thousand messages at once, or that read nothing
of a large package, or nothing of a thousand replies) before servers of 2 and 8 workers: another client gets its reply
within a second, and beside 16 of them at the operator's address a script is published within a second. Those with a
thousand messages then read a thousand replies.

`log`: a log whose pipe nobody reads, under many replies.

`files`: a server that may open 256 files, before more connections than that: no wrong reply, little processor time while
it can accept none, and all is as before afterwards.
"""

import argparse
import contextlib
import hashlib
import json
import os
import pathlib
import re
import resource
import socket
import struct
import subprocess
import sys
import tempfile
import threading
import time

TOP = pathlib.Path(__file__).resolve().parent.parent
PARTS = ("few", "crowd", "attacks", "log", "files")
PATH = "/service/update2/json"
ASK = json.dumps({"request": {"protocol": "3.1", "app": [{"appid": "idle", "version": "1.0", "updatecheck": {}}]}}).encode()
TICKS = os.sysconf("SC_CLK_TCK")
KINDS = ("silent", "slow", "half-closed", "reset", "pipelining", "unread", "unread replies")
MANY = 1000
PROFILE = """schema = 1

[[mirror]]
name = "m0"
codebase = "http://127.0.0.1:8080/p/"
budget = 1152921504606846976

[[app]]
id = "idle"
default = "stable"

[[app.cohort]]
name = "stable"
target = "2.0"
"""
SCRIPT = """schema = 1
base = {base}

[[edit]]
do = "set_share"
app = "idle"
cohort = "stable"
share = {share}
"""
failures = []


def expect(what, found, wanted):
    if found != wanted:
        failures.append(what)
        print(f"  {what}\n    expected: {wanted!r:.300}\n    found:    {found!r:.300}", flush=True)


def free_port():
    with socket.socket() as found:
        found.bind(("127.0.0.1", 0))
        return found.getsockname()[1]


def connect(port, room=None):
    made = socket.socket()
    if room is not None:
        made.setsockopt(socket.SOL_SOCKET, socket.SO_RCVBUF, room)
    made.settimeout(60)
    made.connect(("127.0.0.1", port))
    made.setsockopt(socket.IPPROTO_TCP, socket.TCP_NODELAY, 1)
    return made


def post(body, path=PATH):
    return f"POST {path} HTTP/1.1\r\nHost: x\r\nContent-Length: {len(body)}\r\n\r\n".encode() + body


GET = b"GET /p/large.bin HTTP/1.1\r\nHost: x\r\n\r\n"


def read_reply(connection, digest=False):
    """One reply: its status, and its body or the body's SHA-256; or None if the connection ended before."""
    kept = b""
    while b"\r\n\r\n" not in kept:
        more = connection.recv(65536)
        if not more:
            return None
        kept += more
    head, _, body = kept.partition(b"\r\n\r\n")
    left = int(re.search(rb"(?i)content-length: *(\d+)", head).group(1)) - len(body)
    hashed = hashlib.sha256(body)
    while left > 0:
        more = connection.recv(min(left, 1 << 20))
        if not more:
            return None
        left -= len(more)
        hashed.update(more)
        if not digest:
            body += more
    return int(head.split(b" ")[1]), hashed.hexdigest() if digest else body


def is_offer(reply):
    return reply is not None and reply[0] == 200 and b'"version":"2.0"' in reply[1].replace(b" ", b"")


class Server:
    """A running server over a small and a large package."""

    def __init__(self, program, folder, workers, *more, files=None, errors=subprocess.PIPE):
        self.port, self.operator = free_port(), free_port()
        words = [program, "serve", "--profile", "profile.toml", "--packages", "packages", "--workers", str(workers)]
        words += ["--listen", f"127.0.0.1:{self.port}", "--operator", f"127.0.0.1:{self.operator}", *more]
        limit = None if files is None else (lambda: resource.setrlimit(resource.RLIMIT_NOFILE, (files, files)))
        self.process = subprocess.Popen(words, cwd=folder, stdout=subprocess.PIPE, stderr=errors, preexec_fn=limit)
        line = self.process.stdout.readline()
        if line != b"ready\n":
            sys.exit(f"the server printed {line!r} {self.process.stderr.read() if self.process.stderr else ''!r}")

    def memory(self):
        text = pathlib.Path(f"/proc/{self.process.pid}/status").read_text()
        return int(re.search(r"VmRSS:\s+(\d+)", text).group(1)) * 1024

    def seconds(self):
        fields = pathlib.Path(f"/proc/{self.process.pid}/stat").read_text().rpartition(")")[2].split()
        return (int(fields[11]) + int(fields[12])) / TICKS

    def asks(self, what, limit=1.0):
        """Another client gets its reply, within so many seconds if there is a limit."""
        began = time.monotonic()
        with connect(self.port) as one:
            one.sendall(post(ASK))
            expect(f"{what}: a reply", is_offer(read_reply(one)), True)
        took = time.monotonic() - began
        expect(f"{what}: a reply within {limit} s", limit is None or took < limit or took, True)
        return took

    def publishes(self, what, base, limit=1.0):
        """A script is published within so many seconds."""
        began = time.monotonic()
        with connect(self.operator) as one:
            one.sendall(post(SCRIPT.format(base=base, share=900 + base % 100).encode(), "/operate"))
            reply = read_reply(one)
        expect(f"{what}: a publish", reply and (reply[0], reply[1].split()[:2]), (200, [b"edition", str(base + 1).encode()]))
        took = time.monotonic() - began
        expect(f"{what}: a publish within {limit} s", took < limit or took, True)

    def end(self):
        self.process.kill()
        self.process.communicate()


def make_folder(folder, large):
    packages = pathlib.Path(folder) / "packages"
    packages.mkdir()
    tables = ""
    for version, (name, size) in enumerate((("small.bin", 1 << 10), ("large.bin", large)), 1):
        held = hashlib.sha256(name.encode()).digest() * (size // 32)
        (packages / name).write_bytes(held)
        digest = hashlib.sha256(held).hexdigest()
        tables += f'\n[[app.release]]\nversion = "{version}.0"\nname = "{name}"\nsize = {size}\nsha256 = "{digest}"\n'
    (pathlib.Path(folder) / "profile.toml").write_text(PROFILE + tables)
    return digest


def load(server, options):
    """Update checks of many connections for a while: how many a second, and the 99th percentile in milliseconds."""
    script = f'wrk.method = "POST"\nwrk.body = [[{ASK.decode()}]]\n'
    with tempfile.NamedTemporaryFile("w", suffix=".lua") as file:
        file.write(script)
        file.flush()
        words = ["wrk", "-t2", f"-c{options.active}", f"-d{options.seconds}s", "--latency", "-s", file.name]
        told = subprocess.run([*words, f"http://127.0.0.1:{server.port}{PATH}"], capture_output=True, text=True, check=True).stdout
    rate = float(re.search(r"Requests/sec:\s+([\d.]+)", told).group(1))
    value, unit = re.search(r"99%\s+([\d.]+)(us|ms|s)", told).groups()
    wrong = re.search(r"Non-2xx.*|Socket errors.*", told)
    expect("each check is replied to", wrong.group(0) if wrong else "", "")
    return rate, float(value) * {"us": 0.001, "ms": 1, "s": 1000}[unit]


class Crowd(threading.Thread):
    """Connections that do little, each for a long time."""

    def __init__(self, port, options):
        super().__init__(daemon=True)
        self.large = options.size << 20
        self.idle = [connect(port) for _ in range(options.idle)]
        self.slow = [connect(port) for _ in range(options.slow)]
        self.readers = [connect(port, 4096) for _ in range(options.readers)]
        self.taken = [hashlib.sha256() for _ in self.readers]
        self.got = [b"" for _ in self.readers]
        self.message = post(ASK)
        self.sent = 0
        self.over = threading.Event()
        for reader in self.readers:
            reader.sendall(GET)

    def run(self):
        while not self.over.wait(1):
            if self.sent < len(self.message) - 1:
                for one in self.slow:
                    one.sendall(self.message[self.sent : self.sent + 1])
                self.sent += 1
            for index, one in enumerate(self.readers):
                self.got[index] += one.recv(1024)

    def finish(self):
        """Lets each have what it waits for: how many idle, slow and reading ones got it."""
        self.over.set()
        self.join()
        for one in self.idle:
            one.sendall(self.message)
        idle = sum(is_offer(read_reply(one)) for one in self.idle)
        for one in self.slow:
            one.sendall(self.message[self.sent :])
        slow = sum(is_offer(read_reply(one)) for one in self.slow)
        return idle, slow, [self.rest_of(index) for index in range(len(self.readers))]

    def rest_of(self, index):
        """The SHA-256 of a reader's package."""
        one, kept = self.readers[index], self.got[index]
        body = kept.partition(b"\r\n\r\n")[2]
        hashed, left = hashlib.sha256(body), self.large - len(body)
        one.setsockopt(socket.SOL_SOCKET, socket.SO_RCVBUF, 1 << 20)
        while left > 0:
            more = one.recv(min(left, 1 << 20))
            if not more:
                return f"{left} bytes are missing"
            hashed.update(more)
            left -= len(more)
        return hashed.hexdigest()


def reset(connection):
    connection.setsockopt(socket.SOL_SOCKET, socket.SO_LINGER, struct.pack("ii", 1, 0))
    connection.close()


def few(program, folder, digest, options):
    server = Server(program, folder, 2, "--timeout", "600", "--idle", "600")
    idle = [connect(server.port) for _ in range(50)]
    slow = [client_of("slow", server.port, PATH) for _ in range(8)]
    unread = [client_of("unread", server.port, PATH) for _ in range(8)]
    took = [server.asks("beside a few", None) for _ in range(100)]
    print(f"beside 50 idle, 8 slow and 8 that read nothing: a reply took at most {max(took) * 1000:.1f} ms", flush=True)
    message = post(ASK)
    for one, left in [(one, message) for one in idle] + [(one, message[20:]) for one in slow]:
        one.sendall(left)
        expect("each idle and each slow one gets a reply", is_offer(read_reply(one)), True)
    for one in unread:
        one.setsockopt(socket.SOL_SOCKET, socket.SO_RCVBUF, 1 << 20)
        expect("a package", read_reply(one, digest=True), (200, digest))
    server.end()


def crowd(program, folder, digest, options):
    server = Server(program, folder, options.workers, "--timeout", "600", "--idle", "600", "--connections", "20000")
    alone = load(server, options)
    print(f"alone: {alone[0]:.0f} checks a second, p99 {alone[1]:.2f} ms", flush=True)
    before = server.memory()
    others = Crowd(server.port, options)
    time.sleep(2)
    each = (server.memory() - before) / max(1, options.idle + options.slow)
    for _ in range(options.resets):
        one = connect(server.port)
        one.sendall(post(ASK)[:40])
        reset(one)
    others.start()
    beside = load(server, options)
    print(f"beside {options.idle} idle, {options.slow} slow, {options.readers} readers, {options.resets} resets: "
          f"{beside[0]:.0f} checks a second ({beside[0] / alone[0]:.2f}), p99 {beside[1]:.2f} ms ({beside[1] / alone[1]:.2f}); "
          f"{each:.0f} bytes a connection", flush=True)
    idle, slow, digests = others.finish()
    expect("each idle one gets a reply", idle, options.idle)
    expect("each slow one gets a reply", slow, options.slow)
    expect("each package is whole", digests, [digest] * options.readers)
    server.end()


def push(connection, left):
    """Sends as many of the bytes as the system takes at once: how many are left."""
    connection.setsockopt(socket.SOL_SOCKET, socket.SO_SNDBUF, 1 << 20)
    connection.setblocking(False)
    with contextlib.suppress(BlockingIOError):
        while left:
            left = left[connection.send(left) :]
    connection.settimeout(60)
    return left


def replies_to(connection, left):
    """Sends what is left of many messages while it reads their replies: how many came before the connection ended."""
    sender = threading.Thread(target=connection.sendall, args=(left,), daemon=True)
    sender.start()
    connection.setsockopt(socket.SOL_SOCKET, socket.SO_RCVBUF, 1 << 20)
    heads, kept = 0, b""
    while more := connection.recv(1 << 20):
        kept += more
        heads += kept.count(b"HTTP/1.1 200 ")
        kept = kept[-12:]
    sender.join()
    return heads


def client_of(kind, port, path):
    """A client of a kind, of which the server is rid only by its limits."""
    one = connect(port, 4096)
    message = post(ASK if path == PATH else b"dump", path)
    if kind == "slow":
        one.sendall(message[:20])
    elif kind == "half-closed":
        one.sendall(message[:20])
        one.shutdown(socket.SHUT_WR)
    elif kind == "reset":
        one.sendall(message[:20])
        reset(one)
    elif kind in ("pipelining", "unread replies"):
        push(one, message * MANY)
    elif kind == "unread":
        one.sendall(GET)
    return one


def pipelines(server, what):
    """A client with many messages at once reads as many replies."""
    for port, path, body in ((server.port, PATH, ASK), (server.operator, "/operate", b"dump")):
        with connect(port, 4096) as one:
            left = push(one, post(body, path) * MANY)
            expect(f"{what}: replies at {path}", replies_to(one, left), MANY)


def attacks(program, folder, digest, options):
    for workers in (2, 8):
        for kind in KINDS:
            server = Server(program, folder, workers)
            what = f"{kind} before {workers} workers"
            held = [client_of(kind, server.port, PATH) for _ in range(64)]
            took = [server.asks(what) for _ in range(20)]
            others = [client_of(kind, server.operator, "/operate") for _ in range(16)]
            for base in (1, 2, 3):
                server.publishes(what, base)
            print(f"{what}: a reply took at most {max(took) * 1000:.1f} ms", flush=True)
            if kind == "pipelining":
                pipelines(server, what)
            for one in held + others:
                one.close()
            server.end()


def log(program, folder, digest, options):
    read, write = os.pipe()
    server = Server(program, folder, 2, "--log", "-", errors=write)
    os.close(write)
    for _ in range(20):
        with connect(server.port) as one:
            for index in range(1000):
                one.sendall(post(ASK))
                expect(f"reply {index} beside a log that nobody reads", is_offer(read_reply(one)), True)
    server.asks("a log that nobody reads")
    os.close(read)
    server.end()


def files(program, folder, digest, options):
    server = Server(program, folder, 2, "--idle", "600", files=256)
    held = []
    with contextlib.suppress(OSError):
        for _ in range(400):
            held.append(connect(server.port))
    time.sleep(1)
    before = server.seconds()
    time.sleep(5)
    spun = server.seconds() - before
    expect("little processor time", spun < 0.5 or spun, True)
    server.asks("beside as many as it may open", 3.0)
    wrong = 0
    for one in held:
        with contextlib.suppress(OSError):
            one.sendall(post(ASK))
            reply = read_reply(one)
            wrong += reply is not None and not is_offer(reply)
    expect("wrong replies", wrong, 0)
    for one in held:
        one.close()
    server.asks("afterwards")
    server.end()


def main():
    parser = argparse.ArgumentParser(description=__doc__, formatter_class=argparse.RawDescriptionHelpFormatter)
    parser.add_argument("--program", default=str(TOP / "crates" / "omaha" / "out" / "omaha"))
    parser.add_argument("--idle", type=int, default=10000)
    parser.add_argument("--active", type=int, default=64)
    parser.add_argument("--slow", type=int, default=64)
    parser.add_argument("--readers", type=int, default=64)
    parser.add_argument("--resets", type=int, default=200)
    parser.add_argument("--workers", type=int, default=2)
    parser.add_argument("--size", type=int, default=64, help="the MiB of the large package")
    parser.add_argument("--seconds", type=int, default=10)
    parser.add_argument("--only", nargs="+", choices=PARTS, default=PARTS)
    options = parser.parse_args()
    most = resource.getrlimit(resource.RLIMIT_NOFILE)[1]
    resource.setrlimit(resource.RLIMIT_NOFILE, (most, most))
    with tempfile.TemporaryDirectory() as folder:
        digest = make_folder(folder, options.size << 20)
        for part in options.only:
            globals()[part](options.program, folder, digest, options)
    return 1 if failures else 0


if __name__ == "__main__":
    sys.exit(main())
