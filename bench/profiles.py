#!/usr/bin/env python3
"""Times how the program reads and applies large profiles, beside Python's `tomllib`.

    bench/profiles.py [--omaha PATH] [--runs N] [--apps N ..] [--diffs N] [--descending] [--no-targets]

For each count of apps, of 512 releases and 4 cohorts each, it runs `omaha once --profile F` on a
request without apps and `python3 -c` with `tomllib` on the same file in turn, and prints the least
time of each in seconds, their quotient, and the program's peak memory in MiB.
"""

import argparse
import os
import pathlib
import subprocess
import sys
import tempfile
import time

import generate

REQUEST = b'{"request":{"protocol":"3.1"}}'
PARSE = "import sys, time, tomllib; f = open(sys.argv[1], 'rb').read().decode(); t = time.perf_counter(); tomllib.loads(f); print(time.perf_counter() - t)"


def run_omaha(program, path):
    """Runs the program once: its seconds and its peak memory in KiB."""
    read, write = os.pipe()
    os.write(write, REQUEST)
    os.close(write)
    start = time.perf_counter()
    child = subprocess.Popen([program, "once", "--profile", path], stdin=read, stdout=subprocess.DEVNULL)
    _, status, usage = os.wait4(child.pid, 0)
    seconds = time.perf_counter() - start
    os.close(read)
    if status != 0:
        sys.exit(f"{program} once --profile {path}: status {status}")
    return seconds, usage.ru_maxrss


def run_tomllib(path):
    """Parses the file in a process of its own: the seconds of the parse alone."""
    done = subprocess.run([sys.executable, "-c", PARSE, path], check=True, capture_output=True)
    return float(done.stdout)


def measure(program, path, runs):
    ours, memory, theirs = [], [], []
    for _ in range(runs):
        seconds, peak = run_omaha(program, path)
        ours.append(seconds)
        memory.append(peak)
        theirs.append(run_tomllib(path))
    return min(ours), min(theirs), max(memory)


def main():
    here = pathlib.Path(__file__).resolve().parent
    options = argparse.ArgumentParser(description=__doc__, formatter_class=argparse.RawTextHelpFormatter)
    options.add_argument("--omaha", default=str(here.parent / "crates/omaha/out/omaha"), help="the program [default: as it was built here]")
    options.add_argument("--runs", type=int, default=5, help="runs of each [default: 5]")
    options.add_argument("--apps", type=int, nargs="+", default=[8, 16, 32, 64], help="counts of apps [default: 8 16 32 64]")
    options.add_argument("--diffs", type=int, default=0, help="differentials of an app [default: 0]")
    options.add_argument("--descending", action="store_true", help="differentials in descending order")
    options.add_argument("--no-targets", action="store_true", help="cohorts without targets, so no tables of prices")
    asked = options.parse_args()
    print("apps  releases    MB  omaha s  tomllib s  quotient  us/release  MiB")
    with tempfile.TemporaryDirectory() as folder:
        for apps in asked.apps:
            path = os.path.join(folder, f"{apps}.toml")
            with open(path, "w") as out:
                generate.write_profile(out, apps, 512, 4, asked.diffs, not asked.no_targets, asked.descending)
            ours, theirs, peak = measure(asked.omaha, path, asked.runs)
            releases = apps * 512
            print(
                f"{apps:4}  {releases:8}  {os.path.getsize(path) / 1e6:4.1f}  {ours:7.3f}  {theirs:9.3f}"
                f"  {ours / theirs:8.3f}  {ours / releases * 1e6:10.1f}  {peak / 1024:3.0f}"
            )


if __name__ == "__main__":
    main()
