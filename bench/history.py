#!/usr/bin/env python3
"""Measures what `omaha serve --history` costs.

    bench/history.py [--omaha PATH] [--runs N] [--seconds N] [--records N] [--publishes N] [--only PART ..]

It needs `wrk` for the part `beside`. Each part runs the server on the catalogue of `bench/http.py` with 64 apps of 16
releases and 4 cohorts, without a history and with one in a new file.

`publish`: how long one script of one `set_share` takes from its first byte to its reply, over one connection: the
median and the 99th percentile in milliseconds. `syncs` is how often a script synced a file, by `strace`, if it is
installed. `sync` is how long a write of 4 KiB and its `fdatasync` take in that folder without the server.

`beside`: update checks a second by 4 workers over 4 connections, and the latency below which 99 in a hundred are, in
microseconds; beside them so many scripts are published a second. `to` compares with a server without a history.

`start`: how long a server takes from its start to `ready`, in milliseconds: from the profile of the last edition, and
from a history that has so many scripts of 2 KB. The least of the runs counts, since both make the same tables.
"""

import argparse
import contextlib
import os
import pathlib
import re
import shutil
import statistics
import subprocess
import sys
import tempfile
import time

import http as load

PARTS = ("publish", "beside", "start")
WORKERS = 4


@contextlib.contextmanager
def serving(program, folder, operator, more, before=()):
    """A server of the large profile; its words end with `more`."""
    port = load.free_port()
    words = ["--packages", "packages", "--listen", f"127.0.0.1:{port}", "--workers", str(WORKERS)]
    words += ["--operator", f"127.0.0.1:{operator}", *more]
    with subprocess.Popen([*before, program, "serve", *words], cwd=folder, stdout=subprocess.PIPE) as process:
        try:
            if process.stdout.readline() != b"ready\n":
                sys.exit("omaha serve isn't ready")
            yield load.Server(process, port)
        finally:
            subprocess.run(["pkill", "-KILL", "-P", str(process.pid)], check=False)
            process.kill()


def kinds(name):
    """The arguments of a server without a history, and of one with a new one."""
    return {"without": ("--profile", "large.toml"), "with": ("--profile", "large.toml", "--history", name)}


def publish(connection, base, note=""):
    """Publishes the next edition: how many seconds it took."""
    script = f"{note}{load.SCRIPT.format(base=base, app=base % 64, share=base % 1000)}".encode()
    begun = time.perf_counter()
    reply = load.post(connection, "/operate", script)
    if reply != (200, f"edition {base + 1}\n".encode()):
        sys.exit(f"publish {base}: {reply}")
    return time.perf_counter() - begun


def sync_time(folder):
    """How many milliseconds a write of a page and its sync take, the median of 50."""
    times = []
    with open(folder / "page", "wb", buffering=0) as file:
        for _ in range(50):
            begun = time.perf_counter()
            file.write(bytes(4096))
            os.fdatasync(file.fileno())
            times.append(time.perf_counter() - begun)
    return statistics.median(times) * 1e3


def syncs_of(program, folder):
    """How many syncs a script makes, by `strace`; None if it isn't installed."""
    if not shutil.which("strace"):
        return None
    operator, trace = load.free_port(), folder / "trace"
    before = ("strace", "-f", "-qq", "-e", "trace=fsync,fdatasync", "-o", str(trace))
    with serving(program, folder, operator, kinds("traced.db")["with"], before), load.connect(operator) as connection:
        publish(connection, 1)
        count = len(re.findall(r"sync\(", trace.read_text()))
        for base in range(2, 12):
            publish(connection, base)
        time.sleep(0.5)
        return (len(re.findall(r"sync\(", trace.read_text())) - count) / 10


def print_publish(program, folder, given):
    print(f"{'':10}publish ms    p99  syncs     (sync {sync_time(folder):.2f} ms)")
    for name, words in kinds("published.db").items():
        operator = load.free_port()
        with serving(program, folder, operator, words), load.connect(operator) as connection:
            times = sorted(publish(connection, base) for base in range(1, 301))
        syncs = syncs_of(program, folder) if name == "with" else 0
        print(f"{name:10}{statistics.median(times) * 1e3:10.2f}{times[296] * 1e3:7.2f}{'' if syncs is None else syncs:7}", flush=True)
    print()


def print_beside(program, folder, given):
    script = load.write_lua(folder, load.body_of("org.example.app-63"))
    print(f"{'':10}checks/s     to    p99     to  publishes/s  most ms")
    first = None
    seen = {name: [] for name in ("alone", *kinds(""))}
    for run in range(given.runs):
        for name, words in kinds(f"beside-{run}.db").items():
            operator = load.free_port()
            with serving(program, folder, operator, words) as server:
                if name == "without":
                    seen["alone"].append((*load.run_wrk(server.port, load.PATH, given.seconds, WORKERS, script)[::2], 0, 0))
                seen[name].append(load.measure_publishes(server, script, given, WORKERS, operator, 1))
    first = [statistics.median(column) for column in zip(*seen["without"])]
    for name, runs in seen.items():
        checks, late, number, most = (statistics.median(column) for column in zip(*runs))
        print(f"{name:10}{checks:8,.0f}{checks / first[0]:7.2f}{late:7.0f}{late / first[1]:7.2f}{number:13.0f}{most:9.1f}", flush=True)
    print()


def ready_time(program, folder, words):
    """How many milliseconds a server takes to `ready`."""
    begun = time.perf_counter()
    with serving(program, folder, load.free_port(), words):
        return (time.perf_counter() - begun) * 1e3


def print_start(program, folder, given):
    note = "# " + "x" * (2048 - 120) + "\n"
    operator = load.free_port()
    with serving(program, folder, operator, kinds("start.db")["with"]), load.connect(operator) as connection:
        for base in range(1, given.records + 1):
            publish(connection, base, note)
    exported = subprocess.run([program, "history", "export", "start.db"], cwd=folder, capture_output=True, check=True).stdout
    (folder / "last.toml").write_bytes(exported)
    size = (folder / "start.db").stat().st_size + (folder / "start.db-wal").stat().st_size
    starts = {"profile": ("--profile", "last.toml"), "history": ("--history", "start.db")}
    least = {name: min(ready_time(program, folder, words) for _ in range(given.runs)) for name, words in starts.items()}
    print(f"start, ms   profile  history  beyond   {given.records} scripts, {size / 2**20:.1f} MiB in two files")
    print(f"{least['profile']:19.1f}{least['history']:9.1f}{least['history'] - least['profile']:8.1f}\n", flush=True)


def main():
    here = pathlib.Path(__file__).resolve().parent
    options = argparse.ArgumentParser(description=__doc__, formatter_class=argparse.RawTextHelpFormatter)
    options.add_argument("--omaha", default=str(here.parent / "crates/omaha/out/omaha"), help="the program [default: as it was built here]")
    options.add_argument("--runs", type=int, default=5, help="runs of `beside` and of `start` [default: 5]")
    options.add_argument("--seconds", type=int, default=5, help="how long each load is [default: 5]")
    options.add_argument("--records", type=int, default=1000, help="scripts in the history of `start` [default: 1000]")
    options.add_argument("--publishes", type=int, default=20, help="publishes a second [default: 20]")
    options.add_argument("--only", nargs="+", choices=PARTS, default=PARTS, help="the parts to print [default: all]")
    given = options.parse_args()
    program = str(pathlib.Path(given.omaha).resolve())
    parts = {"publish": print_publish, "beside": print_beside, "start": print_start}
    with tempfile.TemporaryDirectory() as made:
        folder = pathlib.Path(made)
        (folder / "packages").mkdir()
        (folder / "large.toml").write_text(load.large_profile(16))
        for name in given.only:
            parts[name](program, folder, given)


if __name__ == "__main__":
    main()
