#!/usr/bin/env python3
"""Runs the gate, and says what its processor time goes into.

    bench/gate.py [--log FILE] [--top N]

It runs `rt ci` at the top of the repository, by `rt ci --anew` if the toolchain keeps what it proved and has that flag, so
that all is proved from nothing. The output goes to FILE, by default `gate.log` in the folder for temporary files. Four
times a second it reads the clocks of the checks that this has started, and of the compilers that these start, and sums
them in the end: processor minutes for the proofs of libraries, of tests, for the must-fail edits (the first of a crate
proves the crate again) and for the programs, and the most expensive crates of each. Where other work runs beside it, the
same checks take more processor time. So do several jobs for one check: unless RT_JOBS is set it is the number of
processors, by which each check has one job, as in `make test` if there is memory.

Processors differ: one took half of another's time for each check. So it first runs `rt selftest`, by which the toolchain
proves and builds an example of its own, and prints what that took beside the sums. It is the same work for one toolchain
on any machine: divide the sums by it to compare two machines. A loop of Python doesn't serve for that: on one machine it
took 2.9 times as long as on another one, and a large crate's proof 1.1 times.

It exits with its status, whose last line it repeats.
"""

import argparse
import collections
import os
import pathlib
import re
import subprocess
import sys
import tempfile
import time

TOP = pathlib.Path(__file__).resolve().parent.parent
TICKS = os.sysconf("SC_CLK_TCK")
KINDS = ("proof", "tests", "edits", "program")
# the last line of a gate that ran
ENDED = re.compile(r"\d+ passed, \d+ failed")


def selftest_seconds():
    """The processor seconds of the toolchain's own test, by one job a check."""
    began = os.times()
    environment = {**os.environ, "RT_JOBS": "1"}
    subprocess.run(["rt", "selftest"], env=environment, stdin=subprocess.DEVNULL, stdout=subprocess.DEVNULL, check=True)
    ended = os.times()
    return ended.children_user + ended.children_system - began.children_user - began.children_system


def read(path):
    """The bytes of a file of /proc, empty if the process has ended."""
    try:
        with open(path, "rb") as file:
            return file.read()
    except OSError:
        return b""


def parent_and_time(pid):
    """The parent of a process, and its processor seconds; None if it has ended."""
    fields = read(f"/proc/{pid}/stat").rpartition(b") ")[2].split()
    if len(fields) < 13:
        return None
    return int(fields[1]), (int(fields[11]) + int(fields[12])) / TICKS


def kind_of(pid, words):
    """What a check is for: a proof, a crate's tests, an edit or a program."""
    try:
        folder = os.readlink(f"/proc/{pid}/cwd")
    except OSError:
        folder = ""
    if "/rt-edit-" in folder:
        return "edits"
    target = words[words.index("-o") + 1] if "-o" in words[:-1] else ""
    if target.endswith("_tests.o"):
        return "tests"
    return "proof" if target.endswith(".rlib") else "program"


def check_of(pid):
    """What a process checks: what for, and its crate; None if it is no check."""
    words = read(f"/proc/{pid}/cmdline").decode(errors="replace").split("\0")
    if "--crate-name" not in words:
        return None
    return kind_of(pid, words), words[words.index("--crate-name") + 1]


def checks_below(root):
    """The checks that run below a process, and the compilers that they started.

    Of each it yields its number, what the check is for, its crate, and its own seconds so far.
    """
    times = {int(name): parent_and_time(name) for name in os.listdir("/proc") if name.isdigit()}
    checks = {pid: check_of(pid) for pid, known in times.items() if known}
    for pid in checks:
        above, check = pid, None
        while above > 1 and above != root and times.get(above):
            check = check or checks[above]
            above = times[above][0]
        if above == root and check:
            yield pid, *check, times[pid][1]


def watch(gate):
    """The seconds of each check and of what it started, by what it is for and its crate, until the gate ends."""
    seen = {}
    while gate.poll() is None:
        for pid, kind, crate, seconds in checks_below(gate.pid):
            known = seen.get(pid, (kind, crate, 0.0))
            seen[pid] = (known[0], crate, max(known[2], seconds))
        time.sleep(0.25)
    sums = collections.Counter()
    for kind, crate, seconds in seen.values():
        sums[kind, crate] += seconds
    return sums


def run(words, log):
    """Runs the gate with its output in a file: its status, its last line, and the seconds of its checks."""
    environment = {"RT_JOBS": str(len(os.sched_getaffinity(0))), **os.environ}
    with open(log, "w", encoding="utf-8") as output:
        gate = subprocess.Popen(words, cwd=TOP, env=environment, stdin=subprocess.DEVNULL, stdout=output, stderr=subprocess.STDOUT)
        sums = watch(gate)
    last = pathlib.Path(log).read_text(encoding="utf-8").rstrip("\n").rpartition("\n")[2]
    return gate.returncode, last, sums


def main():
    parser = argparse.ArgumentParser(description=__doc__, formatter_class=argparse.RawDescriptionHelpFormatter)
    parser.add_argument("--log", default=os.path.join(tempfile.gettempdir(), "gate.log"))
    parser.add_argument("--top", type=int, default=10)
    options = parser.parse_args()
    selftest = selftest_seconds()
    began = time.time()
    status, last, sums = run(["rt", "ci", "--anew"], options.log)
    if not ENDED.fullmatch(last):
        # a toolchain without the flag keeps nothing
        status, last, sums = run(["rt", "ci"], options.log)
    print(f"{(time.time() - began) / 60:.1f} minutes on {len(os.sched_getaffinity(0))} processors")
    total = sum(sums.values())
    print(f"{total / 60:8.1f} processor minutes in all, {total / selftest:.0f} times the {selftest:.0f} s of `rt selftest`")
    for kind in KINDS:
        own = {crate: seconds for (of, crate), seconds in sums.items() if of == kind}
        print(f"{sum(own.values()) / 60:8.1f} {kind} ({len(own)} crates)")
    print(f"the most expensive {options.top}, in processor seconds:")
    for (kind, crate), seconds in sums.most_common(options.top):
        print(f"{seconds:8.0f} {kind} of {crate}")
    print(last)
    return status


if __name__ == "__main__":
    sys.exit(main())
