#!/usr/bin/env python3
"""Tests that connections which do nothing keep neither the operator nor a client out of `omaha serve`.

    tests/door.py [--program PATH] [--count N] [--seconds N] [--only KIND ..]

`make door` runs it, after `make install`. PATH is the built program, else that of the last build. It prints how long each
call took, and each test that fails with what was expected and found; then the exit status is 1.

N connections, 64 by default, are opened of each kind:
- `silent`: it sends nothing;
- `half`: it sends half of a message;
- `slow`: it sends a byte of a message now and then;
- `unread`: it sends many messages, and reads no reply.

At the operator's address they are twice as many as it has places; those that are `unread` are at a socket, since one takes
fewer bytes that nobody reads. Three seconds later, and once the server rests, it replies to each of these within N seconds,
1 by default: a publish, a `follow`, a page, `omaha publish` and at last a stop. Another publish comes as soon as the
connections are open, and has a reply within four seconds. At the clients' address silent connections use all places, and
those of other kinds leave some: an update check and a publish get a reply in time. There N/8 are `unread`, since of each the
server hashes some MiB. A connection that makes room is closed. Of 128 operators who send a whole message at once each gets
a reply.
"""

import argparse
import contextlib
import hashlib
import pathlib
import re
import socket
import subprocess
import sys
import tempfile
import threading
import time

TOP = pathlib.Path(__file__).resolve().parent.parent
KINDS = ("silent", "half", "slow", "unread")
APPS, COHORTS = 64, 16
PLACES = 32
ASK = b'{"request":{"protocol":"3.1","app":[{"appid":"a0","version":"1.0","updatecheck":{}}]}}'
CHECK = "/service/update2/json"
HEAD = """schema = 1

[[mirror]]
name = "m0"
codebase = "http://127.0.0.1:8080/p/"
budget = 1152921504606846976
"""
APP = """
[[app]]
id = "a{number}"
default = "c0"
"""
COHORT = """
[[app.cohort]]
name = "c{number}"
"""
RELEASE = """
[[app.release]]
version = "1.0"
name = "large.bin"
size = {size}
sha256 = "{digest}"
"""
SCRIPT = """schema = 1
base = {base}

[[edit]]
do = "set_share"
app = "a0"
cohort = "c0"
share = {share}
"""
failures = []


def expect(what, found, wanted):
    if found != wanted:
        failures.append(what)
        print(f"  {what}\n    expected: {wanted!r:.300}\n    found:    {found!r:.300}", flush=True)


def free_port():
    with socket.socket() as found:
        found.bind(("127.0.0.1", 0))
        return found.getsockname()[1]


def post(body, path):
    return f"POST {path} HTTP/1.1\r\nHost: localhost\r\nContent-Length: {len(body)}\r\n\r\n".encode() + body


def get(path):
    return f"GET {path} HTTP/1.1\r\nHost: localhost\r\n\r\n".encode()


def connect(address, room=None):
    """A connection to a port of the loopback or to the path of a socket, which takes so many bytes that nobody reads."""
    is_port = isinstance(address, int)
    made = socket.socket(socket.AF_INET if is_port else socket.AF_UNIX)
    if room is not None:
        made.setsockopt(socket.SOL_SOCKET, socket.SO_RCVBUF, room)
    made.settimeout(60)
    made.connect(("127.0.0.1", address) if is_port else address)
    return made


def ask(address, message):
    """Sends a message on a new connection: the status and the body of its reply, or None."""
    with contextlib.suppress(OSError), connect(address) as one:
        one.sendall(message)
        kept = b""
        while b"\r\n\r\n" not in kept:
            more = one.recv(65536)
            if not more:
                return None
            kept += more
        head, _, body = kept.partition(b"\r\n\r\n")
        length = int(re.search(rb"(?i)content-length: *(\d+)", head).group(1))
        while len(body) < length:
            more = one.recv(65536)
            if not more:
                return None
            body += more
        return int(head.split(b" ")[1]), body
    return None


class Server:
    """A running server with an operator, and with so many places for clients."""

    def __init__(self, program, folder, places, path=None):
        self.program, self.edition = program, 1
        self.port, self.operator = free_port(), path or free_port()
        self.to = f"unix:{path}" if path else f"127.0.0.1:{self.operator}"
        words = ["--profile", "profile.toml", "--packages", "packages", "--workers", "2", "--connections", str(places)]
        words += ["--listen", f"127.0.0.1:{self.port}", "--operator", self.to, "--timeout", "20"]
        self.process = subprocess.Popen(
            [program, "serve", *words], cwd=folder, stdout=subprocess.PIPE, stderr=subprocess.PIPE
        )
        line = self.process.stdout.readline()
        if line != b"ready\n":
            sys.exit(f"the server printed {line!r}")

    def rest(self):
        """Waits until the server does nothing, for two minutes at most."""
        used, same = None, 0
        for _ in range(120):
            fields = pathlib.Path(f"/proc/{self.process.pid}/stat").read_text().rpartition(")")[2].split()
            before, used = used, int(fields[11]) + int(fields[12])
            same = same + 1 if used == before else 0
            if same == 2:
                return
            time.sleep(1)

    def script(self):
        return SCRIPT.format(base=self.edition, share=self.edition % 1000).encode()

    def published(self):
        """What the reply to a script is, and notes that there is one more edition."""
        self.edition += 1
        return 200, f"edition {self.edition}\n".encode()

    def end(self):
        self.process.kill()
        self.process.communicate()


class Crowd:
    """Connections of a kind, at an address, and what each sends."""

    def __init__(self, kind, address, message, count):
        self.kind, self.message, self.over = kind, message, threading.Event()
        self.all = [connect(address, 4096 if kind == "unread" else None) for _ in range(count)]
        for one in self.all:
            one.setblocking(False)
        self.sender = threading.Thread(target=self.send, daemon=True)
        self.sender.start()

    def give(self, one, piece):
        """Sends a piece, as far as the system takes it and the server is there."""
        with contextlib.suppress(OSError):
            one.send(piece)

    def send(self):
        half = self.message[: len(self.message) // 2]
        if self.kind == "half":
            for one in self.all:
                self.give(one, half)
        if self.kind == "unread":
            for one in self.all:
                self.give(one, self.message * 20)
        sent = 0
        while self.kind == "slow" and not self.over.wait(0.2) and sent < len(self.message) - 1:
            for one in self.all:
                self.give(one, self.message[sent : sent + 1])
            sent += 1

    def ended(self):
        """How many the server has closed that wait for a reply."""
        count = 0
        for one in self.all:
            with contextlib.suppress(BlockingIOError):
                try:
                    count += one.recv(1, socket.MSG_PEEK) == b""
                except ConnectionError:
                    count += 1
        return count

    def end(self):
        self.over.set()
        self.sender.join()
        for one in self.all:
            one.close()


def timed(what, limit, wanted, call):
    """Makes a call, compares what it returns, and how long it took: that in seconds."""
    began = time.monotonic()
    found = call()
    took = time.monotonic() - began
    expect(what, found, wanted)
    expect(f"{what} within {limit} s", took < limit or took, True)
    return took


def publish(server, what, limit):
    script = server.script()
    return timed(f"{what}: a publish", limit, server.published(), lambda: ask(server.operator, post(script, "/operate")))


def command(server, what, limit, folder):
    """`omaha publish` of a script."""
    (folder / "script.toml").write_bytes(server.script())
    words = [server.program, "publish", "--to", server.to, "script.toml"]
    wanted = 0, server.published()[1]

    def call():
        done = subprocess.run(words, cwd=folder, capture_output=True)
        return done.returncode, done.stdout

    return timed(f"{what}: omaha publish", limit, wanted, call)


# rule: Room for one more
def operators_door(program, folder, kind, options):
    """The operator comes in beside connections at its own address."""
    what, limit = f"{options.count} {kind} at the operator's address", options.seconds
    is_unread = kind == "unread"
    server = Server(program, folder, 1024, str(folder / "operator") if is_unread else None)
    crowd = Crowd(kind, server.operator, get("/metrics") if is_unread else post(b"dump", "/operate"), options.count)
    early = 0 if is_unread else publish(server, f"{what}, just opened", 4)
    time.sleep(3)
    server.rest()
    if not is_unread:
        expect(f"{what}: those without a place are closed", crowd.ended() >= options.count - PLACES, True)
    took = [publish(server, what, limit)]
    follows = 200, f"edition {server.edition}\n".encode()
    took.append(timed(f"{what}: a follow", limit, follows, lambda: ask(server.operator, post(b"follow", "/operate"))))
    took.append(timed(f"{what}: a page", limit, follows, lambda: ask(server.operator, get("/healthz"))))
    took.append(command(server, what, limit, folder))
    stopping = 200, b"stopping\n"
    took.append(timed(f"{what}: a stop", limit, stopping, lambda: ask(server.operator, post(b"stop", "/operate"))))
    crowd.end()
    expect(f"{what}: the server ends", server.process.wait(30), 0)
    print(f"{what}: at most {max(took):.2f} s; as they opened {early:.2f} s", flush=True)


# rule: Room for one more
def clients_door(program, folder, kind, options):
    """Clients and the operator come in beside connections at the clients' address."""
    count = options.count // 8 if kind == "unread" else options.count
    what, limit = f"{count} {kind} at the clients' address", options.seconds
    places = count // 2 if kind == "silent" else 4 * count
    server = Server(program, folder, places)
    message = get("/p/large.bin") if kind == "unread" else post(ASK, CHECK)
    crowd = Crowd(kind, server.port, message, count)
    time.sleep(3)
    server.rest()
    took = []
    for _ in range(5):
        reply = lambda: (ask(server.port, post(ASK, CHECK)) or (None,))[0]
        took.append(timed(f"{what}: a check", limit, 200, reply))
        took.append(publish(server, what, limit))
    crowd.end()
    print(f"{what}: at most {max(took):.2f} s", flush=True)
    server.end()


# rule: Room for one more
def busy_door(program, folder, options):
    """Connections whose scripts are to be performed keep their places while others ask for one."""
    server = Server(program, folder, 1024)
    replies = []

    def send(number):
        replies.append(ask(server.operator, post(b"dump" if number % 2 else b"status", "/operate")))

    senders = [threading.Thread(target=send, args=(number,)) for number in range(4 * PLACES)]
    for sender in senders:
        sender.start()
    for sender in senders:
        sender.join()
    expect("each of many operators gets a reply", [reply and reply[0] for reply in replies], [200] * len(senders))
    server.end()


def make_folder(folder):
    (folder / "packages").mkdir()
    held = bytes(8 << 20)
    (folder / "packages" / "large.bin").write_bytes(held)
    digest = hashlib.sha256(held).hexdigest()
    cohorts = "".join(COHORT.format(number=number) for number in range(COHORTS))
    first, *others = (APP.format(number=number) + cohorts for number in range(APPS))
    release = RELEASE.format(size=len(held), digest=digest)
    (folder / "profile.toml").write_text(HEAD + first + release + "".join(others))


def main():
    parser = argparse.ArgumentParser()
    parser.add_argument("--program", default=TOP / "crates/omaha/out/omaha")
    parser.add_argument("--count", type=int, default=2 * PLACES)
    parser.add_argument("--seconds", type=float, default=1)
    parser.add_argument("--only", nargs="+", choices=KINDS, default=KINDS)
    options = parser.parse_args()
    program = str(pathlib.Path(options.program).resolve())
    with tempfile.TemporaryDirectory() as folder:
        folder = pathlib.Path(folder)
        make_folder(folder)
        busy_door(program, folder, options)
        for kind in options.only:
            operators_door(program, folder, kind, options)
            clients_door(program, folder, kind, options)
    sys.exit(bool(failures))


if __name__ == "__main__":
    main()
