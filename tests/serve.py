#!/usr/bin/env python3
"""Tests `omaha serve` over the loopback, with connections as clients and strangers make them.

    tests/serve.py [PROGRAM]

`make serving` runs it, after `make install`. PROGRAM is the built program, else that of the last build. Each test
prints its name and, if it fails, what was expected and what was found; then the exit status is 1.
"""

import contextlib
import hashlib
import json
import os
import pathlib
import re
import resource
import shutil
import socket
import struct
import subprocess
import sys
import tempfile
import threading
import time
import urllib.error
import urllib.request

TOP = pathlib.Path(__file__).resolve().parent.parent
EXAMPLES = TOP / "examples"
PROFILE = (EXAMPLES / "mini.toml").read_text()
PATH = "/service/update2/json"
ASK = json.dumps({"request": {"protocol": "3.1", "app": [{"appid": "mini", "updatecheck": {}}]}}).encode()
TIMEOUT = 2
failures = []


def free_port():
    """A port of the loopback that nobody listens on."""
    with socket.socket() as found:
        found.bind(("127.0.0.1", 0))
        return found.getsockname()[1]


class Server:
    """A running server over a copy of the example's packages."""

    def __init__(self, program, folder, sessions=None, profile=PROFILE, log=None, more=()):
        self.folder = pathlib.Path(folder)
        self.packages = self.folder / "packages"
        if not self.packages.exists():
            shutil.copytree(EXAMPLES / "packages", self.packages)
        self.port = free_port()
        (self.folder / "profile.toml").write_text(profile.replace("127.0.0.1:8080", f"127.0.0.1:{self.port}"))
        words = ["--profile", "profile.toml", "--packages", "packages", "--listen", f"127.0.0.1:{self.port}"]
        words += ["--timeout", str(TIMEOUT)]
        if sessions is not None:
            words += ["--sessions", str(sessions)]
        if log is not None:
            words += ["--log", log]
        words += more
        self.process = subprocess.Popen(
            [program, "serve", *words], cwd=self.folder, stdout=subprocess.PIPE, stderr=subprocess.PIPE
        )
        self.ready = self.process.stdout.readline()

    def connect(self):
        made = socket.create_connection(("127.0.0.1", self.port), timeout=20)
        made.setsockopt(socket.IPPROTO_TCP, socket.TCP_NODELAY, 1)
        return made

    def end(self):
        """Ends the server if it hasn't ended: what it printed, and its exit status."""
        with contextlib.suppress(subprocess.TimeoutExpired):
            self.process.wait(5)
        if self.process.poll() is None:
            self.process.kill()
        rest, errors = self.process.communicate()
        return self.ready + rest, errors, self.process.returncode


def post(body, extra=b"", path=PATH):
    head = f"POST {path} HTTP/1.1\r\nHost: x\r\nContent-Length: {len(body)}\r\n".encode()
    return head + extra + b"\r\n" + body


def get(name):
    return f"GET /p/{name} HTTP/1.1\r\nHost: x\r\n\r\n".encode()


def read_reply(connection, kept=b""):
    """One reply of a connection, by its length: the status, the body, and what came after it."""
    while b"\r\n\r\n" not in kept:
        more = connection.recv(65536)
        if not more:
            return None, kept, b""
        kept += more
    head, _, rest = kept.partition(b"\r\n\r\n")
    fields = dict(line.lower().split(b": ", 1) for line in head.split(b"\r\n")[1:])
    length = int(fields.get(b"content-length", b"0"))
    while len(rest) < length:
        more = connection.recv(65536)
        if not more:
            break
        rest += more
    return int(head.split(b" ")[1]), rest[:length], rest[length:]


def read_all(connection):
    found = b""
    with contextlib.suppress(ConnectionResetError):
        while more := connection.recv(65536):
            found += more
    return found


def expect(what, found, wanted):
    if found != wanted:
        failures.append(what)
        print(f"  {what}\n    expected: {wanted!r:.300}\n    found:    {found!r:.300}")


def is_offer(body, version):
    return body.startswith(b")]}'\n") and json.loads(body[5:])["response"]["app"][0]["updatecheck"]["manifest"]["version"] == version


def keeps_a_connection(server):
    with server.connect() as connection:
        kept = b""
        for index in range(200):
            connection.sendall(post(ASK))
            status, body, kept = read_reply(connection, kept)
            if status != 200 or not is_offer(body, "1.0"):
                expect(f"reply {index}", (status, body), (200, "an offer of 1.0"))
                return


def replies_to_pipelined_requests(server):
    with server.connect() as connection:
        connection.sendall(post(ASK) + get("mini-1.0.bin") + post(b"{") + get("nothing") + post(ASK))
        kept, statuses = b"", []
        for _ in range(5):
            status, _body, kept = read_reply(connection, kept)
            statuses.append(status)
        expect("statuses", statuses, [200, 200, 400, 404, 200])


def reads_byte_by_byte(server):
    with server.connect() as connection:
        for byte in post(ASK):
            connection.sendall(bytes([byte]))
        status, body, _ = read_reply(connection)
        expect("status", status, 200)
        expect("an offer of 1.0", is_offer(body, "1.0"), True)


def replies_to_a_half_closed_connection(server):
    with server.connect() as connection:
        connection.sendall(post(ASK))
        connection.shutdown(socket.SHUT_WR)
        found = read_all(connection)
        expect("status", found[:15], b"HTTP/1.1 200 OK")


def survives_a_reset(server):
    connection = server.connect()
    connection.sendall(post(ASK)[:60])
    connection.setsockopt(socket.SOL_SOCKET, socket.SO_LINGER, struct.pack("ii", 1, 0))
    connection.close()
    keeps_a_connection(server)


def takes_a_thousand_connections(server):
    for index in range(1000):
        with server.connect() as connection:
            connection.sendall(post(ASK, b"Connection: close\r\n"))
            if not read_all(connection).startswith(b"HTTP/1.1 200"):
                expect(f"connection {index}", "no reply", "200")
                return


def shows_a_413(server):
    with server.connect() as connection:
        body = b"x" * 300000
        with contextlib.suppress(BrokenPipeError, ConnectionResetError):
            connection.sendall(post(body))
        found = read_all(connection)
        expect("status", found[:12], b"HTTP/1.1 413")


def shows_a_400_of_a_bad_head(server):
    with server.connect() as connection:
        connection.sendall(b"BAD\x00HEAD / HTTP/1.1\r\n\r\n" + b"y" * 20000)
        expect("status", read_all(connection)[:12], b"HTTP/1.1 400")


def cuts_a_silent_client(server):
    with server.connect() as connection:
        begun = time.monotonic()
        connection.sendall(post(ASK)[:30])
        found = read_all(connection)
        took = time.monotonic() - begun
        expect("bytes", found, b"")
        expect(f"within {TIMEOUT} to {TIMEOUT + 3} s", TIMEOUT - 0.5 < took < TIMEOUT + 3, True)
    keeps_a_connection(server)


def sends_packages(server):
    for package in sorted((EXAMPLES / "packages").iterdir()):
        with server.connect() as connection:
            connection.sendall(get(package.name))
            status, body, _ = read_reply(connection)
            expect(package.name, (status, body), (200, package.read_bytes()))


def cuts_a_replaced_package(server):
    path = server.packages / "mini-1.0.bin"
    kept = path.read_bytes()
    path.write_bytes(b"X" + kept[1:])
    with server.connect() as connection:
        connection.sendall(get("mini-1.0.bin"))
        status, body, _ = read_reply(connection)
        expect("status", status, 200)
        expect("a body that is cut", len(body) < len(kept), True)
    path.write_bytes(kept[:-1])
    with server.connect() as connection:
        connection.sendall(get("mini-1.0.bin"))
        expect("no body of another size", read_reply(connection)[1], b"")
    path.write_bytes(kept)
    sends_packages(server)


def cuts_a_missing_package(server):
    path = server.packages / "mini-1.0.bin"
    kept = path.read_bytes()
    path.unlink()
    with server.connect() as connection:
        connection.sendall(get("mini-1.0.bin"))
        expect("no body", read_reply(connection)[1], b"")
    path.symlink_to("/etc/hostname")
    with server.connect() as connection:
        connection.sendall(get("mini-1.0.bin"))
        expect("no body by a link", read_reply(connection)[1], b"")
    path.unlink()
    path.write_bytes(kept)


def rejects_other_paths_and_methods(server):
    wanted = [
        (b"GET /service/update2/json HTTP/1.1\r\n\r\n", b"405"),
        (b"GET /p/../profile.toml HTTP/1.1\r\n\r\n", b"404"),
        (b"GET /p/mini-9.bin HTTP/1.1\r\n\r\n", b"404"),
        (b"GET / HTTP/1.1\r\n\r\n", b"404"),
        (b"POST /service/update2/json HTTP/1.1\r\n\r\n", b"411"),
        (b"POST /service/update2/json HTTP/1.1\r\nTransfer-Encoding: chunked\r\n\r\n", b"501"),
        (post(ASK, b"Content-Length: 5\r\n"), b"400"),
    ]
    for request, status in wanted:
        with server.connect() as connection:
            connection.sendall(request)
            connection.shutdown(socket.SHUT_WR)
            expect(request.split(b"\r")[0].decode(), read_all(connection)[9:12], status)


def speaks_to_urllib(server):
    with urllib.request.urlopen(f"http://127.0.0.1:{server.port}{PATH}", ASK, timeout=10) as reply:
        expect("status", reply.status, 200)
    with urllib.request.urlopen(f"http://127.0.0.1:{server.port}/p/mini-3.0.bin", timeout=10) as reply:
        wanted = (EXAMPLES / "packages" / "mini-3.0.bin").read_bytes()
        expect("hash", hashlib.sha256(reply.read()).hexdigest(), hashlib.sha256(wanted).hexdigest())


ON_ONE_SERVER = [
    keeps_a_connection,
    replies_to_pipelined_requests,
    reads_byte_by_byte,
    replies_to_a_half_closed_connection,
    survives_a_reset,
    takes_a_thousand_connections,
    shows_a_413,
    shows_a_400_of_a_bad_head,
    cuts_a_silent_client,
    sends_packages,
    cuts_a_replaced_package,
    cuts_a_missing_package,
    rejects_other_paths_and_methods,
    speaks_to_urllib,
]


def ends_after_its_sessions(program):
    """Two offers, of 1960 and 188 bytes: the totals are printed after the last session."""
    at_one = {"appid": "mini", "version": "1.0", "updatecheck": {}}
    at_one["packages"] = {"package": [{"fp": "1." + hashlib.sha256((EXAMPLES / "packages" / "mini-1.0.bin").read_bytes()).hexdigest()}]}
    asks = [ASK, json.dumps({"request": {"protocol": "3.1", "app": [at_one]}}).encode()]
    with tempfile.TemporaryDirectory() as folder:
        server = Server(program, folder, sessions=2)
        for ask in asks:
            with server.connect() as connection:
                connection.sendall(post(ask, b"Connection: close\r\n"))
                expect("status", read_all(connection)[9:12], b"200")
        expect("output and status", server.end(), (b"ready\nm0 2148\n", b"", 0))


def offers_no_more_than_the_budget(program):
    with tempfile.TemporaryDirectory() as folder:
        server = Server(program, folder, sessions=1, profile=PROFILE.replace("1000000000000", "5000"))
        with server.connect() as connection:
            kept, states = b"", []
            for _ in range(3):
                connection.sendall(post(ASK))
                _, body, kept = read_reply(connection, kept)
                states.append(json.loads(body[5:])["response"]["app"][0]["updatecheck"]["status"])
        expect("statuses", states, ["ok", "ok", "error-internal"])
        expect("output and status", server.end(), (b"ready\nm0 3920\n", b"", 0))


def reports_an_address_in_use(program):
    with tempfile.TemporaryDirectory() as folder, socket.socket() as taken:
        taken.bind(("127.0.0.1", 0))
        taken.listen()
        address = f"127.0.0.1:{taken.getsockname()[1]}"
        (pathlib.Path(folder) / "profile.toml").write_text(PROFILE)
        ran = subprocess.run(
            [program, "serve", "--profile", "profile.toml", "--packages", folder, "--listen", address],
            cwd=folder,
            capture_output=True,
            timeout=20,
        )
        expect("status", ran.returncode, 1)
        expect("output", (ran.stdout, ran.stderr), (b"", f"omaha: net {address}\n".encode()))


def is_unharmed_by_an_unreadable_folder(program):
    with tempfile.TemporaryDirectory() as folder:
        server = Server(program, folder, sessions=2)
        shutil.rmtree(server.packages)
        for request, wanted in [(get("mini-1.0.bin"), b""), (post(ASK, b"Connection: close\r\n"), None)]:
            with server.connect() as connection:
                connection.sendall(request)
                status, body, _ = read_reply(connection)
                expect("status", status, 200)
                if wanted is not None:
                    expect("body", body, wanted)
        expect("exit status", server.end()[2], 0)


def run(program, folder, *words, files=None):
    """What a command printed, by its arguments, and its exit status; it may have so many files open."""
    limit = (lambda: resource.setrlimit(resource.RLIMIT_NOFILE, (files, files))) if files else None
    ran = subprocess.run([program, *words], cwd=folder, capture_output=True, timeout=20, preexec_fn=limit)
    return ran.stdout, ran.stderr, ran.returncode


def serve_words(packages):
    return ["serve", "--profile", "profile.toml", "--packages", packages, "--listen", f"127.0.0.1:{free_port()}", "--sessions", "0"]


def looks_for_its_folder(program):
    with tempfile.TemporaryDirectory() as folder:
        pathlib.Path(folder, "profile.toml").write_text(PROFILE)
        pathlib.Path(folder, "empty").mkdir()
        for packages in ["nowhere", "profile.toml"]:
            expect("a folder that is none", run(program, folder, *serve_words(packages)), (b"", f"omaha: file {packages}\n".encode(), 1))
        expect("no folder", run(program, folder, *serve_words("")), (b"", b'omaha: file ""\n', 1))
        expect("an empty folder", run(program, folder, *serve_words("empty")), (b"ready\nm0 0\n", b"", 0))


def says_that_it_may_open_too_few_files(program):
    with tempfile.TemporaryDirectory() as folder:
        pathlib.Path(folder, "profile.toml").write_text(PROFILE)
        for files, status in [(6, 1), (7, 0)]:
            words = serve_words(folder)
            output, errors, ended = run(program, folder, *words, files=files)
            expect(f"status with {files} files", ended, status)
            if status:
                expect("output", (output, errors), (b"", f"omaha: net {words[6]}\n".encode()))


def waits_for_no_pipe(program):
    with tempfile.TemporaryDirectory() as folder:
        os.mkfifo(pathlib.Path(folder, "pipe"))
        pathlib.Path(folder, "profile.toml").write_text(PROFILE)
        refused = (b"", b"omaha: file pipe\n", 1)
        expect("a profile", run(program, folder, "check", "pipe"), refused)
        expect("a certificate", run(program, folder, "verify", "profile.toml", "pipe"), refused)
        expect("a package", run(program, folder, "describe", "pipe"), (b"", b"omaha: file pipe: not a regular file\n", 1))


LINE = re.compile(r'127\.0\.0\.1 - - \[\d\d/[A-Z][a-z][a-z]/\d{4}:\d\d:\d\d:\d\d \+0000\] ("[^"]*") (\d+) (\d+) ("[^"]*" "[^"]*")')


def logged(text):
    """The parts of each line of a log, but for the address and the time; or the line, if it has another form."""
    lines = text.decode().splitlines()
    return [found.groups() if (found := LINE.fullmatch(line)) else line for line in lines]


def ask_for_the_log(server):
    """Replies of two connections, and no reply on a third."""
    with server.connect() as connection:
        connection.sendall(post(ASK, b'User-Agent: a"\xc3\xa9\r\nReferer: b\r\n') + get("mini-1.0.bin") + b"GET /no HTTP/1.1\r\n\r\n")
        kept, statuses, lengths = b"", [], []
        for _ in range(3):
            status, body, kept = read_reply(connection, kept)
            statuses.append(status)
            lengths.append(len(body))
        expect("statuses", statuses, [200, 200, 404])
    with server.connect() as connection:
        connection.sendall(b"BAD\x00HEAD\r\n\r\n")
        expect("status", read_all(connection)[9:12], b"400")
    with server.connect() as connection:
        connection.sendall(post(ASK)[:40])
    return [
        (f'"POST {PATH} HTTP/1.1"', "200", str(lengths[0]), '"b" "a\\x22\\xC3\\xA9"'),
        ('"GET /p/mini-1.0.bin HTTP/1.1"', "200", str(lengths[1]), '"-" "-"'),
        ('"GET /no HTTP/1.1"', "404", "0", '"-" "-"'),
        ('"BAD\\x00HEAD"', "400", "0", '"-" "-"'),
    ]


def logs_each_reply(program):
    with tempfile.TemporaryDirectory() as folder:
        path = pathlib.Path(folder, "access.log")
        path.write_text("kept\n")
        server = Server(program, folder, sessions=3, log="access.log")
        wanted = ask_for_the_log(server)
        expect("exit status", server.end()[1:], (b"", 0))
        expect("the log", logged(path.read_bytes()), ["kept", *wanted])


def logs_to_standard_error(program):
    with tempfile.TemporaryDirectory() as folder:
        server = Server(program, folder, sessions=3, log="-")
        wanted = ask_for_the_log(server)
        output, errors, status = server.end()
        expect("output and status", (output, status), (b"ready\nm0 1960\n", 0))
        expect("the log", logged(errors), wanted)


def loses_lines_and_no_replies_on_a_full_disk(program):
    with tempfile.TemporaryDirectory() as folder:
        server = Server(program, folder, sessions=3, log="/dev/full")
        ask_for_the_log(server)
        expect("output and status", server.end(), (b"ready\nm0 1960\n", b"", 0))


def reports_a_log_that_it_cannot_open(program):
    with tempfile.TemporaryDirectory() as folder:
        server = Server(program, folder, log="none/access.log")
        expect("output and status", server.end(), (b"", b"omaha: file none/access.log\n", 1))


def operate(port, body):
    """Sends a body to the operator's address: the status and the reply."""
    asked = urllib.request.Request(f"http://127.0.0.1:{port}/operate", data=body)
    try:
        with urllib.request.urlopen(asked, timeout=20) as reply:
            return reply.status, reply.read()
    except urllib.error.HTTPError as error:
        return error.code, error.read()


def walk(program, server, *more):
    """The steps of a client that begins without the app, and the last line."""
    words = ["walk", "--to", f"127.0.0.1:{server.port}", "--app", "mini", "--version", "", *more]
    output, errors, status = run(program, server.folder, *words)
    expect("the walk's errors and status", (errors, status), (b"", 0))
    return output.decode().splitlines()


TO_2_0 = ["step 1 full 1.0 1960", "step 2 diff 2.0 188", "done 2 steps 2148 bytes"]
TO_3_0 = [*TO_2_0[:2], "step 3 diff 3.0 235", "done 3 steps 2383 bytes"]


def publishes_while_it_serves(program):
    """A release is staged, widened, halted and taken back; then the dump is served by another server."""
    live = (EXAMPLES / "live.toml").read_text()
    with tempfile.TemporaryDirectory() as folder:
        operator = free_port()
        words = ["--operator", f"127.0.0.1:{operator}", "--workers", "4"]
        server = Server(program, folder, profile=live, more=words)
        expect("before a publish", walk(program, server, "--cohort", "stable:7"), TO_2_0)
        first = operate(operator, b"dump")
        rows = [("stage", TO_3_0, TO_2_0), ("widen", TO_3_0, TO_3_0), ("halt", TO_2_0, TO_2_0), ("take_back", TO_2_0, TO_2_0)]
        for number, (name, low, middle) in enumerate(rows, 2):
            script = (EXAMPLES / "scripts" / f"{name}.toml").read_bytes()
            expect(name, operate(operator, script), (200, f"edition {number}\n".encode()))
            expect(f"{name} again", operate(operator, script), (409, f"stale {number}\n".encode()))
            expect(f"a client of bucket 7 after {name}", walk(program, server, "--cohort", "stable:7"), low)
            expect(f"a client of bucket 300 after {name}", walk(program, server, "--cohort", "stable:300"), middle)
        status, dump = operate(operator, b"dump")
        expect("dumps", (first[0], status, first[1] == dump), (200, 200, False))
        expect("no script", operate(operator, b"x = [")[0], 400)
        server.process.kill()
        expect("nothing on standard error", server.end()[1], b"")
    with tempfile.TemporaryDirectory() as folder:
        pathlib.Path(folder, "profile.toml").write_bytes(dump)
        shutil.copytree(EXAMPLES / "packages", pathlib.Path(folder, "packages"))
        addresses = ["--listen", f"127.0.0.1:{free_port()}", "--operator", f"127.0.0.1:{operator}"]
        words = [program, "serve", "--profile", "profile.toml", "--packages", "packages", *addresses]
        with subprocess.Popen(words, cwd=folder, stdout=subprocess.PIPE) as again:
            expect("first line", again.stdout.readline(), b"ready\n")
            expect("the dump of a dump", operate(operator, b"dump"), (200, dump))
            again.kill()


def publishes_by_its_commands(program):
    """`publish` and `dump` print the replies, and exit with 0 exactly if the status is 200."""
    live = (EXAMPLES / "live.toml").read_text()
    with tempfile.TemporaryDirectory() as folder:
        to = f"127.0.0.1:{free_port()}"
        server = Server(program, folder, profile=live, more=["--operator", to])
        files = {
            "stage.toml": (EXAMPLES / "scripts" / "stage.toml").read_bytes(),
            "no_script.toml": b"x = [",
            "large.toml": b"#" * 262145,
            "huge.toml": b"#" * 8000000,
            "largest.toml": b"schema = 1\nbase = 2\n" + b"#" * (262144 - 20),
        }
        for name, content in files.items():
            pathlib.Path(folder, name).write_bytes(content)

        def call(*words):
            found = subprocess.run([program, *words], cwd=folder, capture_output=True)
            return found.returncode, found.stdout, found.stderr

        def publish(name):
            return call("publish", "--to", to, name)

        first = call("dump", "--to", to)
        expect("first dump", (first[0], first[1][:10], first[2]), (0, b"schema = 2", b""))
        expect("publish", publish("stage.toml"), (0, b"edition 2\n", b""))
        expect("publish again", publish("stage.toml"), (1, b"stale 2\n", b""))
        expect("publish no script", publish("no_script.toml"), (1, b"F1 NotToml\n", b""))
        expect("publish 262145 bytes", publish("large.toml"), (1, b"", b""))
        expect("publish 8000000 bytes", publish("huge.toml"), (1, b"", b""))
        expect("publish 262144 bytes", publish("largest.toml"), (0, b"edition 3\n", b""))
        expect("publish no file", publish("none.toml"), (1, b"", b"omaha: file none.toml\n"))
        dump = call("dump", "--to", to)
        pathlib.Path(folder, "dump.toml").write_bytes(dump[1])
        expect("check of a dump", call("check", "dump.toml")[0], 0)
        server.process.kill()
        server.end()
        line = f"omaha: net {to}\n".encode()
        expect("publish to nobody", publish("stage.toml"), (1, b"", line))
        expect("dump of nobody", call("dump", "--to", to), (1, b"", line))


def takes_scripts_at_a_socket(program):
    """A socket is for its owner and its group, and no other server takes it, nor any other file; one left over is replaced."""
    live = (EXAMPLES / "live.toml").read_text()
    with tempfile.TemporaryDirectory() as folder:
        path = pathlib.Path(folder, "operator")
        to, line = f"unix:{path}", f"omaha: net unix:{path}\n".encode()
        words = ["--operator", to, "--log", "access.log"]
        server = Server(program, folder, profile=live, more=words)
        stage = str(EXAMPLES / "scripts" / "stage.toml")
        expect("first line", server.ready, b"ready\n")
        expect("mode", (path.is_socket(), oct(path.stat().st_mode & 0o777)), (True, "0o660"))
        expect("publish", run(program, folder, "publish", "--to", to, stage), (b"edition 2\n", b"", 0))
        expect("raise", run(program, folder, "raise", "--to", to, "m0", "1"), (b"refused B3 Lower 1000000000000\n", b"", 1))
        expect("dump", run(program, folder, "dump", "--to", to)[0][:10], b"schema = 2")
        expect("who it was is not known", pathlib.Path(folder, "access.log").read_bytes()[:7], b"- - - [")
        expect("in use", Server(program, folder, profile=live, more=words).end(), (b"", line, 1))
        expect("still there", run(program, folder, "publish", "--to", to, stage), (b"stale 2\n", b"", 1))
        server.process.kill()
        server.end()
        expect("left over", path.is_socket(), True)
        expect("nobody listens", run(program, folder, "dump", "--to", to), (b"", line, 1))
        again = Server(program, folder, profile=live, sessions=0, more=[*words, "--edits", "1"])
        expect("replaced", run(program, folder, "publish", "--to", to, stage), (b"edition 2\n", b"", 0))
        expect("the end", again.end(), (b"ready\nm0 0\n", b"", 0))
        expect("removed", path.exists(), False)
        path.write_text("kept")
        expect("another file", Server(program, folder, profile=live, more=words).end(), (b"", line, 1))
        expect("it is kept", path.read_text(), "kept")


def raises_by_its_command(program):
    """`raise` prints the reply; a dump has the raised budget, and no publish changes it."""
    live = (EXAMPLES / "live.toml").read_text().replace("1000000000000", "1000")
    with tempfile.TemporaryDirectory() as folder:
        to = f"127.0.0.1:{free_port()}"
        server = Server(program, folder, profile=live, more=["--operator", to])

        def call(*words):
            return run(program, folder, *words)

        def raise_to(name, budget):
            return call("raise", "--to", to, name, budget)

        def budget():
            return re.search(rb"budget = (\d+)", call("dump", "--to", to)[0])[1]

        expect("an offer above the budget", operate_client(server), "error-internal")
        expect("first budget", budget(), b"1000")
        expect("a raise", raise_to("m0", "1960"), (b"raised m0 1960\n", b"", 0))
        expect("an offer within the budget", operate_client(server), "ok")
        expect("an offer above the rest", operate_client(server), "error-internal")
        expect("a smaller one", raise_to("m0", "1959"), (b"refused B3 Lower 1960\n", b"", 1))
        expect("an unknown mirror", raise_to("m9", "1"), (b"refused B1 UnknownMirror\n", b"", 1))
        expect("too high", raise_to("m0", "9" * 40), (b"refused B2 TooHigh\n", b"", 1))
        expect("no number", raise_to("m0", "1e9"), (b"bad raise\n", b"", 1))
        expect("two words", raise_to("m0 ", "2000"), (b"bad raise\n", b"", 1))
        expect("no name", raise_to("", "2000"), (b"bad raise\n", b"", 1))
        script = (EXAMPLES / "scripts" / "stage.toml")
        expect("a publish", call("publish", "--to", to, script), (b"edition 2\n", b"", 0))
        expect("the budget after it", budget(), b"1960")
        server.process.kill()
        server.end()
        expect("a raise of nobody", raise_to("m0", "2000"), (b"", f"omaha: net {to}\n".encode(), 1))


def operate_client(server):
    """The status of an update check for `mini`."""
    with server.connect() as connection:
        connection.sendall(post(ASK, b"Connection: close\r\n"))
        _, body, _ = read_reply(connection)
        return json.loads(body[5:])["response"]["app"][0]["updatecheck"]["status"]


def raises_while_two_workers_serve(program):
    """From the budget 0 to that of 60 offers, by one offer at a time: as many offers are made as the total says."""
    live = (EXAMPLES / "live.toml").read_text().replace("1000000000000", "0")
    with tempfile.TemporaryDirectory() as folder:
        operator = free_port()
        words = ["--operator", f"127.0.0.1:{operator}", "--edits", "60", "--workers", "2"]
        server = Server(program, folder, sessions=2, profile=live, more=words)
        made = []

        def ask_on_and_on():
            with server.connect() as connection:
                kept = b""
                for _ in range(400):
                    connection.sendall(post(ASK))
                    _, body, kept = read_reply(connection, kept)
                    made.append(json.loads(body[5:])["response"]["app"][0]["updatecheck"]["status"])

        clients = [threading.Thread(target=ask_on_and_on) for _ in range(2)]
        for client in clients:
            client.start()
        raised = [operate(operator, f"raise m0 {1960 * count}".encode()) for count in range(1, 61)]
        for client in clients:
            client.join()
        expect("raises", raised, [(200, f"raised m0 {1960 * count}\n".encode()) for count in range(1, 61)])
        expect("statuses", set(made) <= {"ok", "error-internal"}, True)
        expect("no more offers than the budget", made.count("ok") <= 60, True)
        total = 1960 * made.count("ok")
        expect("output and status", server.end(), (f"ready\nm0 {total}\n".encode(), b"", 0))


def accepts_again_after_it_could_not(program):
    """No more files for a while: the clients that come meanwhile are served later, or their connections end."""
    with tempfile.TemporaryDirectory() as folder:
        server = Server(program, folder)
        expect("before", operate_client(server), "ok")
        process = server.process.pid
        was = resource.prlimit(process, resource.RLIMIT_NOFILE)
        resource.prlimit(process, resource.RLIMIT_NOFILE, (3, was[1]))
        replies = []
        # a worker that already waits has the file of the next client, and may reply to that one
        for _ in range(2):
            with server.connect() as connection:
                connection.settimeout(0.5)
                connection.sendall(post(ASK, b"Connection: close\r\n"))
                with contextlib.suppress(TimeoutError, ConnectionResetError):
                    replies.append(connection.recv(65536))
        expect("replies without files", len(list(filter(None, replies))) < 2, True)
        resource.prlimit(process, resource.RLIMIT_NOFILE, was)
        expect("after", [operate_client(server) for _ in range(3)], ["ok"] * 3)
        server.process.kill()
        expect("nothing on standard error", server.end()[1], b"")


SCRIPT = """schema = 1
base = {base}
[[edit]]
do = "add_release"
app = "mini"
version = "4.{base}"
name = "mini-4.{base}.bin"
size = 100
sha256 = "{base:064x}"
[[edit]]
do = "set_target"
app = "mini"
cohort = "stable"
target = "4.{base}"
"""


def never_goes_back_while_200_are_published(program):
    """Each connection's replies offer one of the published releases, in their order; the totals are what they offered."""
    live = (EXAMPLES / "live.toml").read_text()
    with tempfile.TemporaryDirectory() as folder:
        operator = free_port()
        words = ["--operator", f"127.0.0.1:{operator}", "--edits", "200", "--workers", "4"]
        server = Server(program, folder, sessions=64, profile=live, more=words)
        expect("first publish", operate(operator, SCRIPT.format(base=1).encode()), (200, b"edition 2\n"))
        offers = [[] for _ in range(64)]

        def ask_thirty_times(offered):
            with server.connect() as connection:
                kept = b""
                for _ in range(30):
                    connection.sendall(post(ASK))
                    _, body, kept = read_reply(connection, kept)
                    check = json.loads(body[5:])["response"]["app"][0]["updatecheck"]
                    offered.append(int(check["manifest"]["version"].removeprefix("4.")))

        clients = [threading.Thread(target=ask_thirty_times, args=(offered,)) for offered in offers]
        for client in clients[:32]:
            client.start()
        published = [operate(operator, SCRIPT.format(base=base).encode()) for base in range(2, 201)]
        for client in clients[32:]:
            client.start()
        for client in clients:
            client.join()
        expect("publishes", published, [(200, f"edition {base + 1}\n".encode()) for base in range(2, 201)])
        expect("how many replies", sum(map(len, offers)), 64 * 30)
        expect("connections in order", sum(offered == sorted(offered) for offered in offers), 64)
        expect("published releases", {number for offered in offers for number in offered} <= set(range(1, 201)), True)
        expect("output and status", server.end(), (b"ready\nm0 192000\n", b"", 0))


def logs_whole_lines_of_all_workers(program):
    """Eight clients at a time, each with connections of its own."""
    with tempfile.TemporaryDirectory() as folder:
        server = Server(program, folder, sessions=80, log="access.log", more=["--workers", "8"])

        def ask_ten_times():
            for _ in range(10):
                with server.connect() as connection:
                    connection.sendall(post(ASK) + post(ASK, b"Connection: close\r\n"))
                    read_all(connection)

        clients = [threading.Thread(target=ask_ten_times) for _ in range(8)]
        for client in clients:
            client.start()
        for client in clients:
            client.join()
        expect("output and status", server.end(), (b"ready\nm0 313600\n", b"", 0))
        lines = logged(pathlib.Path(folder, "access.log").read_bytes())
        expect("how many lines", len(lines), 160)
        expect("kinds of lines", {line[:2] for line in lines}, {(f'"POST {PATH} HTTP/1.1"', "200")})


def page(port, path):
    """A page of the operator's address: its status and its body."""
    try:
        with urllib.request.urlopen(f"http://127.0.0.1:{port}{path}", timeout=20) as reply:
            return reply.status, reply.read()
    except urllib.error.HTTPError as error:
        return error.code, error.read()


def wait_for(what, holds):
    """Whether something holds within ten seconds."""
    end = time.monotonic() + 10
    while not holds():
        if time.monotonic() > end:
            return expect(what, "not within ten seconds", "soon")
        time.sleep(0.02)


def begin_stop(program, folder, to, *more):
    """Begins to stop a server, once its operator's address says that it is stopping: the command."""
    pipes = {"stdout": subprocess.PIPE, "stderr": subprocess.PIPE}
    stop = subprocess.Popen([program, "stop", "--to", to, *more], cwd=folder, **pipes)
    wait_for("it is stopping", lambda: page(to.split(":")[1], "/healthz") == (503, b"stopping\n"))
    return stop


def big_profile(content):
    """The example's profile, with another app of one package."""
    app = '[[app]]\nid = "big"\ndefault = "stable"\ncohort = [{ name = "stable", target = "1.0" }]\n'
    release = f'[[app.release]]\nversion = "1.0"\nname = "big.bin"\nsize = {len(content)}\n'
    return f'{PROFILE}\n{app}{release}sha256 = "{hashlib.sha256(content).hexdigest()}"\n'


def finishes_a_slow_download(program):
    """24 MiB by a client that takes 2 MiB at a time while the operator stops the server."""
    content = os.urandom(24 << 20)
    with tempfile.TemporaryDirectory() as folder:
        to = f"127.0.0.1:{free_port()}"
        shutil.copytree(EXAMPLES / "packages", pathlib.Path(folder, "packages"))
        pathlib.Path(folder, "packages", "big.bin").write_bytes(content)
        more = ["--operator", to, "--workers", "2"]
        server = Server(program, folder, profile=big_profile(content), log="access.log", more=more)
        idle, slow = server.connect(), server.connect()
        idle.sendall(post(ASK))
        expect("a reply before", read_reply(idle)[0], 200)
        slow.sendall(get("big.bin"))
        found = slow.recv(65536)
        stop = begin_stop(program, folder, to)
        expect("the end of an idle connection", read_all(idle), b"")
        wait_for("a connection is rejected", lambda: is_rejected(server.port))
        expect("the status of a server that is stopping", page(to.split(":")[1], "/status")[0], 200)
        expect("a second stop", operate(to.split(":")[1], b"stop"), (200, b"stopping\n"))
        expect("the command waits", stop.poll(), None)
        while piece := slow.recv(65536):
            found += piece
            if len(found) % (2 << 20) < len(piece):
                time.sleep(0.25)
        body = found.partition(b"\r\n\r\n")[2]
        wanted = (len(content), hashlib.sha256(content).hexdigest())
        expect("the download", (len(body), hashlib.sha256(body).hexdigest()), wanted)
        expect("the command", (*stop.communicate(timeout=20), stop.returncode), (b"stopping\n", b"", 0))
        expect("output and status", server.end(), (b"ready\nm0 1960\n", b"", 0))
        lines = [line[:3] for line in logged(pathlib.Path(folder, "access.log").read_bytes())]
        expect("its line", lines.count(('"GET /p/big.bin HTTP/1.1"', "200", str(len(content)))), 1)
        expect("the lines of two stops", lines.count(('"POST /operate HTTP/1.1"', "200", "9")), 2)
        idle.close()
        slow.close()


def is_rejected(port):
    """Whether nobody listens any more. A connection that is made while a listener closes is reset: that is not yet."""
    try:
        with contextlib.suppress(ConnectionResetError):
            socket.create_connection(("127.0.0.1", port), timeout=5).close()
    except ConnectionRefusedError:
        return True
    return False


def read_one(connection):
    """One reply: its body, or None if the connection ended before its first byte; a cut one is False."""
    kept = b""
    with contextlib.suppress(ConnectionResetError):
        while more := connection.recv(65536):
            kept += more
            head, end, body = kept.partition(b"\r\n\r\n")
            if end and len(body) == int(re.search(rb"content-length: (\d+)", head.lower())[1]):
                return body
    return False if kept else None


def cuts_no_reply_when_it_is_stopped(program):
    """Eight clients ask and download as fast as they can, on connections that are kept for five messages."""
    with tempfile.TemporaryDirectory() as folder:
        to = f"127.0.0.1:{free_port()}"
        server = Server(program, folder, log="access.log", more=["--operator", to, "--workers", "4"])
        package = (server.packages / "mini-2.0.bin").read_bytes()
        offers, downloads, cut = [], [], []

        def talk(connection):
            for _ in range(5):
                for message, found in ((post(ASK), offers), (get("mini-2.0.bin"), downloads)):
                    connection.sendall(message)
                    body = read_one(connection)
                    if body is None:
                        return
                    (cut if body is False else found).append(body)

        def ask_until_the_end():
            while True:
                try:
                    connection = server.connect()
                except ConnectionRefusedError:
                    return
                with connection, contextlib.suppress(BrokenPipeError, ConnectionResetError):
                    talk(connection)

        clients = [threading.Thread(target=ask_until_the_end) for _ in range(8)]
        for client in clients:
            client.start()
        time.sleep(1)
        stopped = run(program, folder, "stop", "--to", to)
        for client in clients:
            client.join()
        expect("the command", stopped, (b"stopping\n", b"", 0))
        expect("cut replies", cut, [])
        expect("offers", all(is_offer(body, "1.0") for body in offers), True)
        expect("downloads", all(body == package for body in downloads), True)
        expect("many of them", len(offers) > 50, True)
        expect("output and status", server.end(), (f"ready\nm0 {1960 * len(offers)}\n".encode(), b"", 0))
        lines = [line[0] for line in logged(pathlib.Path(folder, "access.log").read_bytes())]
        messages = [f"POST {PATH}", "GET /p/mini-2.0.bin", "POST /operate"]
        found = [lines.count(f'"{message} HTTP/1.1"') for message in messages]
        expect("lines of the log", (found, len(lines)), ([len(offers), len(downloads), 1], sum(found)))


def gives_up_a_stop_in_time(program):
    """A client takes nothing for as long as the server allows; the command fails before, and the server ends after."""
    content = bytes(24 << 20)
    with tempfile.TemporaryDirectory() as folder:
        to = f"127.0.0.1:{free_port()}"
        shutil.copytree(EXAMPLES / "packages", pathlib.Path(folder, "packages"))
        pathlib.Path(folder, "packages", "big.bin").write_bytes(content)
        server = Server(program, folder, profile=big_profile(content), more=["--operator", to])
        with server.connect() as silent:
            silent.sendall(get("big.bin"))
            silent.recv(1)
            begun = time.monotonic()
            late = (b"stopping\n", f"omaha: stopping {to}\n".encode(), 1)
            expect("a stop of a second", run(program, folder, "stop", "--to", to, "--timeout", "1"), late)
            expect("its seconds", 0.9 < time.monotonic() - begun < 2.5, True)
            expect("a longer stop", run(program, folder, "stop", "--to", to), (b"stopping\n", b"", 0))
        expect("output and status", server.end(), (b"ready\nm0 0\n", b"", 0))
        nobody = (b"", f"omaha: net {to}\n".encode(), 1)
        expect("a stop of nobody", run(program, folder, "stop", "--to", to), nobody)


ALONE = [
    finishes_a_slow_download,
    cuts_no_reply_when_it_is_stopped,
    gives_up_a_stop_in_time,
    publishes_while_it_serves,
    publishes_by_its_commands,
    takes_scripts_at_a_socket,
    raises_by_its_command,
    raises_while_two_workers_serve,
    accepts_again_after_it_could_not,
    never_goes_back_while_200_are_published,
    logs_whole_lines_of_all_workers,
    logs_each_reply,
    logs_to_standard_error,
    loses_lines_and_no_replies_on_a_full_disk,
    reports_a_log_that_it_cannot_open,
    ends_after_its_sessions,
    offers_no_more_than_the_budget,
    reports_an_address_in_use,
    is_unharmed_by_an_unreadable_folder,
    looks_for_its_folder,
    says_that_it_may_open_too_few_files,
    waits_for_no_pipe,
]


def main():
    program = os.path.abspath(sys.argv[1] if len(sys.argv) > 1 else TOP / "crates" / "omaha" / "out" / "omaha")
    with tempfile.TemporaryDirectory() as folder:
        server = Server(program, folder)
        expect("first line", server.ready, b"ready\n")
        for test in ON_ONE_SERVER:
            print(test.__name__, flush=True)
            test(server)
            if server.process.poll() is not None:
                sys.exit(f"serve: the server ended: {server.end()}")
        server.process.kill()
        expect("nothing on standard error", server.end()[1], b"")
    for test in ALONE:
        print(test.__name__, flush=True)
        test(program)
    if failures:
        sys.exit(f"serve: {len(failures)} differ")


if __name__ == "__main__":
    main()
