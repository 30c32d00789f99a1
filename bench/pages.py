#!/usr/bin/env python3
"""Counts the instructions of the operator's pages and of what a server says of itself, by `valgrind --tool=callgrind`.

    bench/pages.py [--omaha PATH]

A server of `examples/live.toml` gets 20 messages and 120, and the difference is divided by 100: an update check, the
same of a server with `--verbose`, and each page. The page for people is also that of a catalogue of 50 apps of 60 releases
and 117 differentials each, which gets 2 messages and 4. The whole program is counted, without the work of the system.
"""

import argparse
import pathlib
import re
import socket
import subprocess
import tempfile

TOP = pathlib.Path(__file__).resolve().parent.parent
CHECK = (
    b'{"request":{"app":[{"appid":"mini","cohort":"stable:0","updatecheck":{},"version":"1.0"}],'
    b'"protocol":"3.1","sessionid":"abc"}}'
)
POST = b"POST /service/update2/json HTTP/1.1\r\nHost: 127.0.0.1\r\nContent-Length: %d\r\n\r\n" % len(CHECK) + CHECK
LIVE = TOP / "examples/live.toml"
ROWS = [("update check", None, []), ("of a verbose server", None, ["--verbose"])]
ROWS += [(path, path, []) for path in ("/healthz", "/status", "/metrics", "/")]


def large():
    """A profile of 50 apps, each with 60 releases and a differential from each to the next and to the last."""
    parts = ['schema = 1\nmirror = [{ name = "m0", codebase = "http://127.0.0.1:8080/p/", budget = 1 }]\n']
    for app in range(50):
        cohorts = '{ name = "stable", target = "60", held = "50", share = 500 }, { name = "beta", target = "59", open = true }'
        parts.append(f'[[app]]\nid = "app{app}"\ndefault = "stable"\ncohort = [{cohorts}]\nrelease = [\n')
        for number in range(1, 61):
            parts.append(f'{{ version = "{number}", name = "a{app}-{number}.bin", size = {10**7 + number}, sha256 = "{app * 1000 + number:064x}" }},\n')
        parts.append("]\ndiff = [\n")
        ends = [(start, start + 1) for start in range(1, 60)] + [(start, 60) for start in range(1, 59)]
        for number, (start, end) in enumerate(sorted(ends)):
            name = f'name = "d{app}-{start}-{end}.bin", size = {50_000 * (end - start)}, sha256 = "{10**6 + app * 1000 + number:064x}"'
            parts.append(f'{{ from = "{start}", to = "{end}", {name} }},\n')
        parts.append("]\n")
    return "".join(parts)


def free_ports():
    """Two ports that nobody listens on."""
    with socket.socket() as first, socket.socket() as second:
        for one in (first, second):
            one.bind(("127.0.0.1", 0))
        return first.getsockname()[1], second.getsockname()[1]


def talk(port, message, count):
    """Sends a message so often over one connection, each once the reply to the one before is there."""
    with socket.create_connection(("127.0.0.1", port), timeout=60) as peer:
        got = b""
        for _ in range(count):
            peer.sendall(message)
            while b"\r\n\r\n" not in got:
                got += peer.recv(65536)
            head, got = got.split(b"\r\n\r\n", 1)
            length = int(re.search(rb"Content-Length: (\d+)", head)[1])
            while len(got) < length:
                got += peer.recv(65536)
            got = got[length:]


def count(omaha, path, options, messages, profile=LIVE):
    """The instructions of a server that gets so many messages."""
    clients, operator = free_ports()
    words = ["serve", "--profile", profile, "--packages", TOP / "examples/packages"]
    words += ["--listen", f"127.0.0.1:{clients}", "--operator", f"127.0.0.1:{operator}"]
    words += ["--sessions", "1", "--edits", "1", *options]
    with tempfile.TemporaryDirectory() as folder:
        tool = ["valgrind", "--tool=callgrind", f"--callgrind-out-file={folder}/out"]
        command = [*tool, omaha, *words]
        with subprocess.Popen(command, stdout=subprocess.PIPE, stderr=subprocess.PIPE) as server:
            server.stdout.readline()
            page = f"GET {path or '/healthz'} HTTP/1.1\r\nHost: 127.0.0.1\r\n\r\n".encode()
            talk(clients, POST, 1 if path else messages)
            talk(operator, page, messages if path else 1)
            return int(re.search(rb"Collected : (\d+)", server.communicate()[1])[1])


def main():
    parser = argparse.ArgumentParser(description=__doc__, formatter_class=argparse.RawDescriptionHelpFormatter)
    parser.add_argument("--omaha", default="omaha", metavar="PATH")
    asked = parser.parse_args()
    for name, path, options in ROWS:
        few, many = (count(asked.omaha, path, options, messages) for messages in (20, 120))
        print(f"{name:22} {(many - few) // 100:11,}", flush=True)
    with tempfile.TemporaryDirectory() as folder:
        profile = pathlib.Path(folder, "large.toml")
        profile.write_text(large(), encoding="utf-8")
        few, many = (count(asked.omaha, "/", [], messages, profile) for messages in (2, 4))
        print(f"{'/ of 50 apps':22} {(many - few) // 2:11,}", flush=True)


main()
