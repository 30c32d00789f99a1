#!/usr/bin/env python3
"""Measures `omaha serve` over the loopback with `wrk`, beside nginx on the same files.

    bench/http.py [--omaha PATH] [--seconds N] [--workers N ..] [--connections N ..] [--runs N] [--releases N ..]
                  [--publishes N] [--only PART ..]

It needs `wrk`; nginx is left out if it is not installed. It prints five tables; `--only` names those to print.

`files`: a profile of one app with a package of 1 KiB and one of 64 MiB is served, and how many update checks and
downloads there were a second, over one connection that is kept open. nginx, with one worker, sends a fixed reply of
the same length for the update checks, and the same files. `sha256` is how fast `sha256sum` reads the large package:
omaha hashes what it sends. Last comes the server's peak memory.

`downloads`: the same large package over 16 connections at once by 4 workers, in MB a second, and how fast four
`sha256sum` at once read it.

`workers`: update checks a second of that app with each number of workers, over as many connections, or over as many
as `--connections` says for each number; `to 1` is by how many times they are more than those of the first number;
`us` is the processor time of the server's own processes for a reply, user and system; `p99` is the latency below
which 99 in a hundred are, in microseconds. nginx has as many workers. Of each the run with the most checks counts.

`publishes`: a catalogue of 64 apps, of each number of releases and of 4 cohorts, is served by the last number of
workers, over as many connections. In every other run scripts of one `set_share` are posted to the operator, over one
connection, `--publishes` of them a second. `most` is the longest that a publish took. Of each the median of the runs.

`memory`: the resident memory of that server with 8 workers and an operator, before its first connection, and its peak,
in MiB. `edition` is by how much a server of one worker takes more with that profile than with the one of one app, and
`beyond` is what 8 workers take beside one edition.
"""

import argparse
import contextlib
import hashlib
import io
import json
import os
import pathlib
import re
import shutil
import socket
import statistics
import subprocess
import sys
import tempfile
import threading
import time

import generate

PARTS = ("files", "downloads", "workers", "publishes", "memory")
SIZES = {"small.bin": 1 << 10, "large.bin": 64 << 20}
PATH = "/service/update2/json"
TICKS = os.sysconf("SC_CLK_TCK")
UNITS = {"us": 1, "ms": 1e3, "s": 1e6}
PROFILE = """schema = 1

[[mirror]]
name = "m0"
codebase = "http://127.0.0.1:8080/p/"
budget = 1152921504606846976

[[app]]
id = "bench"
default = "stable"

[[app.cohort]]
name = "stable"
target = "2.0"
"""
SCRIPT = """schema = 1
base = {base}

[[edit]]
do = "set_share"
app = "org.example.app-{app}"
cohort = "cohort-0"
share = {share}
"""
NGINX = """daemon off;
worker_processes {workers};
error_log stderr crit;
pid {folder}/nginx.pid;
events {{}}
http {{
    access_log off;
    keepalive_requests 1000000000;
    client_body_temp_path {folder};
    proxy_temp_path {folder};
    fastcgi_temp_path {folder};
    uwsgi_temp_path {folder};
    scgi_temp_path {folder};
    server {{
        listen 127.0.0.1:{port};
        location = {path} {{ default_type application/json; return 200 '{reply}'; }}
        location /p/ {{ alias {folder}/packages/; sendfile on; }}
    }}
}}
"""


def free_port():
    with socket.socket() as found:
        found.bind(("127.0.0.1", 0))
        return found.getsockname()[1]


def wait_for(port):
    for _ in range(200):
        with contextlib.suppress(OSError), socket.create_connection(("127.0.0.1", port), 1):
            return
        time.sleep(0.05)
    sys.exit(f"nobody listens on port {port}")


def connect(port):
    made = socket.create_connection(("127.0.0.1", port), 20)
    made.setsockopt(socket.IPPROTO_TCP, socket.TCP_NODELAY, 1)
    return made


def post(connection, path, body):
    """Posts a body: the status of the reply, and its body. This file's name hides the library's `http.client`."""
    connection.sendall(f"POST {path} HTTP/1.1\r\nHost: x\r\nContent-Length: {len(body)}\r\n\r\n".encode() + body)
    held = b""
    while b"\r\n\r\n" not in held:
        held += receive(connection)
    head, _, reply = held.partition(b"\r\n\r\n")
    length = int(re.search(rb"(?i)\r\ncontent-length: *(\d+)", head).group(1))
    while len(reply) < length:
        reply += receive(connection)
    return int(head.split(b" ")[1]), reply


def receive(connection):
    part = connection.recv(65536)
    if not part:
        sys.exit("a connection was closed before its reply")
    return part


def body_of(app):
    """A request of one app."""
    asked = {"appid": app, "version": "1.0", "updatecheck": {}}
    return json.dumps({"request": {"protocol": "3.1", "app": [asked]}}).encode()


def make_packages(folder):
    """The packages, and the profile's tables of them."""
    tables = ""
    (folder / "packages").mkdir()
    for version, (name, size) in enumerate(SIZES.items(), 1):
        held = hashlib.sha256(name.encode()).digest() * (size // 32)
        (folder / "packages" / name).write_bytes(held)
        digest = hashlib.sha256(held).hexdigest()
        tables += f'\n[[app.release]]\nversion = "{version}.0"\nname = "{name}"\nsize = {size}\nsha256 = "{digest}"\n'
    return tables


def large_profile(releases):
    """A profile of 64 apps, of 4 cohorts each, whose mirror never runs out of room."""
    written = io.StringIO()
    generate.write_profile(written, 64, releases, 4)
    return written.getvalue().replace("budget = 1000000000\n", "budget = 1152921504606846976\n")


def seconds_of(pid):
    """The processor time of a process until now, user and system."""
    fields = pathlib.Path(f"/proc/{pid}/stat").read_text().rpartition(")")[2].split()
    return (int(fields[11]) + int(fields[12])) / TICKS


def status_of(pid, name):
    """A number of a process's status, in MiB."""
    text = pathlib.Path(f"/proc/{pid}/status").read_text()
    return int(re.search(rf"{name}:\s+(\d+)", text).group(1)) / 1024


class Server:
    """A running server, with what its processes are."""

    def __init__(self, process, port):
        self.process = process
        self.port = port

    def processes(self):
        """The processes that reply: the workers of nginx, or the server itself."""
        pid = self.process.pid
        children = pathlib.Path(f"/proc/{pid}/task/{pid}/children").read_text().split()
        return children or [pid]

    def seconds(self):
        return sum(seconds_of(pid) for pid in self.processes())

    def ask_once(self, body):
        """The reply to an update check."""
        with connect(self.port) as connection:
            return post(connection, PATH, body)[1]


@contextlib.contextmanager
def omaha(program, folder, profile, workers, operator=None):
    port = free_port()
    words = ["--profile", profile, "--packages", "packages", "--listen", f"127.0.0.1:{port}", "--workers", str(workers)]
    words += ["--operator", f"127.0.0.1:{operator}"] if operator else []
    with subprocess.Popen([program, "serve", *words], cwd=folder, stdout=subprocess.PIPE) as process:
        try:
            if process.stdout.readline() != b"ready\n":
                sys.exit("omaha serve isn't ready")
            yield Server(process, port)
        finally:
            process.kill()


@contextlib.contextmanager
def nginx(folder, workers, length):
    """nginx with a fixed reply of a length; it yields nothing if nginx is not installed."""
    if not shutil.which("nginx"):
        yield None
        return
    port = free_port()
    conf = NGINX.format(folder=folder, port=port, path=PATH, reply="x" * length, workers=workers)
    (folder / "nginx.conf").write_text(conf)
    with subprocess.Popen(["nginx", "-p", str(folder), "-c", str(folder / "nginx.conf")]) as process:
        try:
            wait_for(port)
            yield Server(process, port)
        finally:
            process.terminate()


def run_wrk(port, path, seconds, connections=1, script=None):
    """Requests a second, how many there were, and the 99th percentile of their latency in microseconds."""
    words = ["wrk", f"-t{min(connections, 2)}", f"-c{connections}", f"-d{seconds}s", "--latency", "--timeout", "60s"]
    words += ["-s", str(script)] if script else []
    ran = subprocess.run([*words, f"http://127.0.0.1:{port}{path}"], capture_output=True, text=True, check=True)
    if "Non-2xx" in ran.stdout or "Socket errors" in ran.stdout:
        sys.exit(ran.stdout)
    rate = float(re.search(r"Requests/sec:\s+([\d.]+)", ran.stdout).group(1))
    count = int(re.search(r"(\d+) requests in", ran.stdout).group(1))
    number, unit = re.search(r"99%\s+([\d.]+)(us|ms|s)", ran.stdout).groups()
    return rate, count, float(number) * UNITS[unit]


def write_lua(folder, body):
    script = folder / "post.lua"
    quoted = json.dumps(body.decode())
    script.write_text(f'wrk.method = "POST"\nwrk.body = {quoted}\nwrk.headers["Content-Type"] = "application/json"\n')
    return script


def measure_files(name, server, script, seconds):
    checks = run_wrk(server.port, PATH, seconds, 1, script)[0]
    small = run_wrk(server.port, "/p/small.bin", seconds)[0]
    large = run_wrk(server.port, "/p/large.bin", seconds)[0] * SIZES["large.bin"] / 1e6
    print(f"{name:8}{checks:16,.0f}{small:16,.0f}{large:16,.0f}", flush=True)


def print_files(program, folder, script, body, seconds):
    print(f"{'':8}{'checks/s':>16}{'1 KiB/s':>16}{'64 MiB, MB/s':>16}")
    with omaha(program, folder, "profile.toml", 1) as server:
        length = len(server.ask_once(body))
        measure_files("omaha", server, script, seconds)
        peak = status_of(server.process.pid, "VmHWM")
    with nginx(folder, 1, length) as server:
        if server:
            measure_files("nginx", server, script, seconds)
    print(f"{'sha256':8}{hash_rate(folder / 'packages/large.bin', 1):48,.0f}")
    print(f"peak memory of omaha: {peak:.1f} MiB\n", flush=True)


def hash_rate(path, count):
    """How many MB a second so many `sha256sum` at once read of a file."""
    start = time.perf_counter()
    hashing = [subprocess.Popen(["sha256sum", path], stdout=subprocess.DEVNULL) for _ in range(count)]
    for process in hashing:
        process.wait()
    return count * SIZES["large.bin"] / 1e6 / (time.perf_counter() - start)


def print_downloads(program, folder, given):
    print(f"{'':8}workers  connections  64 MiB, MB/s     to")
    hashed = max(hash_rate(folder / "packages/large.bin", 4) for _ in range(given.runs))
    with omaha(program, folder, "profile.toml", 4) as server:
        rate = max(run_wrk(server.port, "/p/large.bin", given.seconds, 16)[0] for _ in range(given.runs))
    sent = rate * SIZES["large.bin"] / 1e6
    print(f"{'omaha':8}{4:7}{16:13}{sent:14,.0f}{sent / hashed:7.2f}")
    print(f"{'sha256':8}{4:7}{'':13}{hashed:14,.0f}\n", flush=True)


def measure_checks(server, script, seconds, connections):
    """Checks a second, microseconds of the server's processor time for each, and the 99th percentile of latency."""
    before = server.seconds()
    rate, count, late = run_wrk(server.port, PATH, seconds, connections, script)
    return rate, (server.seconds() - before) / count * 1e6, late


def print_workers(program, folder, script, body, given):
    """Runs with both servers at each number of workers, one after the other, so that both see the same other work."""
    connections = given.connections or given.workers
    print(f"{'':8}workers  connections  checks/s  to 1     us    p99")
    first = {}
    for workers, number in zip(given.workers, connections):
        with omaha(program, folder, "profile.toml", workers) as ours, nginx(folder, workers, len(ours.ask_once(body))) as theirs:
            servers = {"omaha": ours} | ({"nginx": theirs} if theirs else {})
            runs = {name: [] for name in servers}
            for _ in range(given.runs):
                for name, server in servers.items():
                    runs[name].append(measure_checks(server, script, given.seconds, number))
        for name, seen in runs.items():
            rate, each, late = max(seen)
            first.setdefault(name, rate)
            print(f"{name:8}{workers:7}{number:13}{rate:10,.0f}{rate / first[name]:6.2f}{each:7.1f}{late:7.0f}", flush=True)
    print()


class Publisher(threading.Thread):
    """Posts scripts to an operator, so many a second, until it is stopped."""

    def __init__(self, operator, base, rate):
        super().__init__()
        self.connection = connect(operator)
        self.base = base
        self.rate = rate
        self.done = threading.Event()
        self.times = []

    def run(self):
        start = time.perf_counter()
        while not self.done.is_set():
            script = SCRIPT.format(base=self.base, app=self.base % 64, share=self.base % 1000)
            begun = time.perf_counter()
            reply = post(self.connection, "/operate", script.encode())
            if reply != (200, f"edition {self.base + 1}\n".encode()):
                sys.exit(f"publish {self.base}: {reply}")
            self.base += 1
            self.times.append(time.perf_counter() - begun)
            self.done.wait(max(0, start + len(self.times) / self.rate - time.perf_counter()))

    def stop(self):
        self.done.set()
        self.join()
        self.connection.close()


def measure_publishes(server, script, given, connections, operator, base):
    """A run with publishes: checks a second, their 99th percentile, publishes a second, and the longest in milliseconds."""
    publisher = Publisher(operator, base, given.publishes)
    publisher.start()
    start = time.perf_counter()
    rate, _, late = run_wrk(server.port, PATH, given.seconds, connections, script)
    passed = time.perf_counter() - start
    publisher.stop()
    return rate, late, len(publisher.times) / passed, max(publisher.times) * 1e3


def print_publishes(program, folder, given):
    workers = given.workers[-1]
    connections = (given.connections or given.workers)[-1]
    print(f"64 apps, {workers} workers, {connections} connections")
    print(f"{'':10}releases  checks/s     to    p99     to  publishes/s  most ms")
    for releases in given.releases:
        (folder / "large.toml").write_text(large_profile(releases))
        script = write_lua(folder, body_of("org.example.app-63"))
        operator = free_port()
        without, beside = [], []
        with omaha(program, folder, "large.toml", workers, operator) as server:
            base = 1
            for _ in range(given.runs):
                without.append(run_wrk(server.port, PATH, given.seconds, connections, script)[::2])
                beside.append(measure_publishes(server, script, given, connections, operator, base))
                base = published(operator)
        checks, late = (statistics.median(column) for column in zip(*without))
        print(f"{'alone':10}{releases:8}{checks:10,.0f}{'':7}{late:7.0f}", flush=True)
        seen, later, number, most = (statistics.median(column) for column in zip(*beside))
        print(f"{'beside':10}{releases:8}{seen:10,.0f}{seen / checks:7.2f}{later:7.0f}{later / late:7.2f}{number:13.0f}{most:9.1f}", flush=True)
    print()


def published(operator):
    """The number of the published edition: what a script of edition 0 is rejected with."""
    with connect(operator) as connection:
        return int(post(connection, "/operate", SCRIPT.format(base=0, app=0, share=0).encode())[1].split()[1])


def memory_of(program, folder, profile, workers):
    """The resident memory of an idle server with an operator, and its peak, in MiB."""
    with omaha(program, folder, profile, workers, free_port()) as server:
        time.sleep(0.5)
        return tuple(status_of(server.process.pid, name) for name in ("VmRSS", "VmHWM"))


def print_memory(program, folder, given):
    print("64 apps, MiB  releases  8 workers   peak  edition  beyond")
    small = memory_of(program, folder, "profile.toml", 1)[0]
    for releases in given.releases:
        (folder / "large.toml").write_text(large_profile(releases))
        edition = memory_of(program, folder, "large.toml", 1)[0] - small
        resident, peak = memory_of(program, folder, "large.toml", 8)
        print(f"{releases:22}{resident:11.1f}{peak:7.1f}{edition:9.1f}{resident - edition:8.1f}", flush=True)


def main():
    here = pathlib.Path(__file__).resolve().parent
    options = argparse.ArgumentParser(description=__doc__, formatter_class=argparse.RawTextHelpFormatter)
    options.add_argument("--omaha", default=str(here.parent / "crates/omaha/out/omaha"), help="the program [default: as it was built here]")
    options.add_argument("--seconds", type=int, default=5, help="how long each is measured [default: 5]")
    options.add_argument("--workers", type=int, nargs="+", default=[1, 2, 4], help="numbers of workers, 1 to 8 [default: 1 2 4]")
    options.add_argument("--connections", type=int, nargs="+", help="connections for each number of workers [default: as many as workers]")
    options.add_argument("--runs", type=int, default=3, help="runs of each with several workers [default: 3]")
    options.add_argument("--releases", type=int, nargs="+", default=[16, 512], help="releases of each of the 64 apps [default: 16 512]")
    options.add_argument("--publishes", type=int, default=100, help="publishes a second [default: 100]")
    options.add_argument("--only", nargs="+", choices=PARTS, default=PARTS, help="the parts to print [default: all]")
    given = options.parse_args()
    if not shutil.which("wrk"):
        sys.exit("bench/http.py needs wrk")
    if given.connections and len(given.connections) != len(given.workers):
        sys.exit("bench/http.py: as many numbers of connections as of workers")
    with tempfile.TemporaryDirectory() as made:
        folder = pathlib.Path(made)
        os.chmod(folder, 0o755)
        (folder / "profile.toml").write_text(PROFILE + make_packages(folder))
        body = body_of("bench")
        script = write_lua(folder, body)
        if "files" in given.only:
            print_files(given.omaha, folder, script, body, given.seconds)
        if "downloads" in given.only:
            print_downloads(given.omaha, folder, given)
        if "workers" in given.only:
            print_workers(given.omaha, folder, script, body, given)
        if "publishes" in given.only:
            print_publishes(given.omaha, folder, given)
        if "memory" in given.only:
            print_memory(given.omaha, folder, given)


if __name__ == "__main__":
    main()
