"""A running server of the built program, and connections to it."""

import pathlib
import re
import select
import shutil
import socket
import subprocess
import time

from fuzzing import corpus, http_model

LIMIT = 20
TIMEOUT = 1
TRIES = 5
PROFILE = corpus.FOLDER / "served.toml"
LINE = re.compile(rb'127\.0\.0\.1 - - \[\d\d/[A-Z][a-z]{2}/\d{4}:\d\d:\d\d:\d\d \+0000\] "[ -~]*" \d{3} \d+ "[ -~]*" "[ -~]*"')


class Wrong(Exception):
    """What the program did and may not do."""


def free_port():
    """A port of the loopback that nobody listens on."""
    with socket.socket() as found:
        found.bind(("127.0.0.1", 0))
        return found.getsockname()[1]


class Reply:
    """A reply: its status, its body as far as it came, and whether it announces the end of the connection."""

    def __init__(self, status, kind, policy, allow, length, is_last):
        self.status, self.kind, self.policy, self.allow = status, kind, policy, allow
        self.length, self.is_last, self.body = length, is_last, b""


class Connection:
    """A connection to a server, whose replies are read one after the other."""

    def __init__(self, port):
        self.socket = socket.create_connection(("127.0.0.1", port), timeout=LIMIT)
        self.socket.setsockopt(socket.IPPROTO_TCP, socket.TCP_NODELAY, 1)
        self.kept, self.is_open = b"", True

    def __enter__(self):
        return self

    def __exit__(self, *_):
        self.socket.close()

    def send(self, data, cuts=()):
        """Sends the bytes in pieces, and returns whether all could be sent."""
        try:
            for start, end in zip((0, *cuts), (*cuts, len(data))):
                self.socket.sendall(data[start:end])
        except (BrokenPipeError, ConnectionResetError):
            return False
        return True

    def finish(self):
        """Ends this side."""
        try:
            self.socket.shutdown(socket.SHUT_WR)
        except OSError:
            pass

    def more(self):
        """Reads what comes next; whether anything did."""
        try:
            found = self.socket.recv(65536)
        except ConnectionResetError:
            found = b""
        except TimeoutError:
            raise Wrong(f"no byte for {LIMIT} s") from None
        self.kept += found
        self.is_open = bool(found)
        return self.is_open

    def read(self):
        """The next reply, `None` if the connection ended before it."""
        while b"\r\n\r\n" not in self.kept:
            if len(self.kept) > 1000:
                raise Wrong(f"no head of a reply: {self.kept[:200]!r}")
            if not self.more():
                if self.kept:
                    raise Wrong(f"a part of a reply: {self.kept[:200]!r}")
                return None
        found = http_model.REPLY.match(self.kept)
        if not found:
            raise Wrong(f"no head of a reply: {self.kept[:200]!r}")
        status, reason, kind, policy, allow, length, last = found.groups()
        reply = Reply(int(status), kind, policy, allow, int(length), last is not None)
        fault = http_model.reply_fault(reply.status, reason, kind, allow, reply.length, reply.is_last)
        if fault:
            raise Wrong(fault)
        self.kept = self.kept[found.end() :]
        while len(self.kept) < reply.length and self.more():
            pass
        reply.body, self.kept = self.kept[: reply.length], self.kept[reply.length :]
        return reply

    def rest(self):
        """What comes until the server ends its side."""
        while self.more():
            pass
        return self.kept


class Served:
    """A server of `served.toml` with two workers and an operator, which ends after so many connections."""

    def __init__(self, program, folder, sessions, edits, log=False):
        self.sessions, self.edits = sessions, edits
        folder = pathlib.Path(folder)
        self.packages = folder / "packages"
        if not self.packages.exists():
            shutil.copytree(corpus.EXAMPLES / "packages", self.packages)
        self.log = folder / "log" if log else None
        if log:
            self.log.unlink(missing_ok=True)
        words = [program, "serve", "--profile", str(PROFILE), "--packages", str(self.packages), "--workers", "2"]
        words += ["--timeout", str(TIMEOUT), "--idle", str(TIMEOUT)]
        words += ["--sessions", str(sessions), "--edits", str(edits)]
        words += ["--log", str(self.log)] if log else []
        for _ in range(TRIES):
            said = self.start(words)
            if said is None:
                return
            if b"omaha: net" not in said:
                break
        raise Wrong(f"the server didn't begin: {said[:300]!r}")

    def start(self, words):
        """Starts the server at free ports; what it printed in place of `ready`, as if another program took one meanwhile."""
        self.port, self.operator = free_port(), free_port()
        words = [*words, "--listen", f"127.0.0.1:{self.port}", "--operator", f"127.0.0.1:{self.operator}"]
        self.process = subprocess.Popen(words, stdout=subprocess.PIPE, stderr=subprocess.PIPE)
        ready, _, _ = select.select([self.process.stdout], [], [], LIMIT)
        line = self.process.stdout.readline() if ready else b""
        if line == b"ready\n":
            return None
        self.process.kill()
        return line + self.process.communicate()[1]

    def connect(self):
        self.sessions -= 1
        return Connection(self.port)

    def operate(self):
        self.edits -= 1
        return Connection(self.operator)

    def kill(self):
        self.process.kill()
        self.process.communicate()

    def end(self):
        """Makes the connections that are left, and returns the totals by mirror."""
        for port, count in ((self.operator, self.edits), (self.port, self.sessions)):
            for _ in range(count):
                socket.create_connection(("127.0.0.1", port), timeout=LIMIT).close()
        try:
            output, errors = self.process.communicate(timeout=LIMIT)
        except subprocess.TimeoutExpired:
            self.kill()
            raise Wrong("the server didn't end after its sessions") from None
        if (self.process.returncode, errors) != (0, b""):
            raise Wrong(f"the server ended with {self.process.returncode} and {errors[:300]!r}")
        totals = {}
        for line in output.decode().splitlines():
            name, _, total = line.partition(" ")
            totals[name] = int(total)
        return totals

    def check_log(self, lines):
        """Compares the log with how many lines it must have, if that is known."""
        found = self.log.read_bytes().split(b"\n")
        if found.pop() != b"" or not all(LINE.fullmatch(line) for line in found):
            raise Wrong("a line of the log has another form")
        if lines is not None and len(found) != lines:
            raise Wrong(f"the log has {len(found)} lines after {lines} replies")


def run(words, data=None):
    """What a command printed, and its exit status; `Wrong` if it didn't end or broke down."""
    begun = time.monotonic()
    try:
        ran = subprocess.run(words, input=data, capture_output=True, timeout=LIMIT)
    except subprocess.TimeoutExpired:
        raise Wrong(f"no end after {time.monotonic() - begun:.0f} s") from None
    if ran.returncode not in (0, 1):
        raise Wrong(f"exit status {ran.returncode}: {ran.stderr[:300]!r}")
    check_errors(ran.returncode, ran.stderr)
    return ran.returncode, ran.stdout, ran.stderr


def check_errors(status, errors):
    """Checks that a failure has one line on standard error, without control characters, and a success none."""
    if status == 0:
        if errors:
            raise Wrong(f"status 0 and {errors[:200]!r}")
        return
    line = errors.decode("utf-8", "replace")
    if errors.count(b"\n") != 1 or not line.endswith("\n") or not line.startswith("omaha: "):
        raise Wrong(f"status 1 and {errors[:200]!r}")
    if any(is_control(character) for character in line[:-1]):
        raise Wrong(f"a control character in {errors[:200]!r}")


def is_control(character):
    code = ord(character)
    return code < 32 or 127 <= code < 160 or character in "\u2028\u2029\ufffd" or 0x202A <= code <= 0x202E or 0x2066 <= code <= 0x2069
