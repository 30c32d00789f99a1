#!/usr/bin/env python3
"""Proves and builds the program: packaging/build.py [--jobs N | --gate]

`make install` runs it. It copies the crates that the program is made of, without their mutants, to a new folder, and
runs `rt ci` there, which proves several crates side by side, those first that most others wait for. `--jobs` is how many
processors it uses, else all. The program is then `crates/omaha/out/omaha`, as after `make test`.

With --gate it runs the gate, `rt ci` at the top, as `make test` does. What a run has proved and built is noted beside the
program: by which toolchain, from which files. If all of these are as noted, a later `make install` proves nothing.

By itself `rt ci` proves no more crates at once than it expects memory for, which is two or three times what they take.
Here it proves one for each processor, if there is memory for that, or as many as RT_JOBS in the environment says.
"""

import argparse
import hashlib
import os
import pathlib
import re
import shutil
import subprocess
import sys
import tempfile

TOP = pathlib.Path(__file__).resolve().parent.parent
PROGRAM = "omaha"
BUILT = TOP / "crates" / PROGRAM / "out" / PROGRAM
NOTE = BUILT.with_name("made-of")
# what no program is made of
APART = shutil.ignore_patterns("out", "must-fail")
# what the proof of a crate takes at most, but for the largest ones, in kB
ROOM = 4_000_000


def lines_of(crates):
    """The lines of a list of crates, by their names."""
    names = {}
    for line in crates.splitlines():
        name = line.partition("#")[0].partition(":")[0].split()
        if name:
            names[name[0]] = line
    return names


def below(name, lines):
    """The names of a crate and of those that it is made of, lowest first."""
    found = []
    for library in lines[name].partition(":")[2].split():
        if library in lines:
            found += below(library, lines)
    return list(dict.fromkeys([*found, name]))


def copy(room):
    """Copies what the program is made of to a folder."""
    lines = lines_of((TOP / "crates.txt").read_text(encoding="utf-8"))
    names = below(PROGRAM, lines)
    (room / "crates.txt").write_text("".join(f"{lines[it]}\n" for it in names), encoding="utf-8")
    shutil.copy(TOP / "HANDLES", room)
    for name in names:
        shutil.copytree(TOP / "crates" / name, room / "crates" / name, ignore=APART)


def sources():
    """The checksum of the toolchain and of all files that the program is made of."""
    total = hashlib.sha256(subprocess.run(["rt", "version"], stdout=subprocess.PIPE, check=True).stdout)
    with tempfile.TemporaryDirectory(prefix="omaha-sources-") as folder:
        room = pathlib.Path(folder)
        copy(room)
        for path in sorted(it for it in room.rglob("*") if it.is_file()):
            total.update(f"{path.relative_to(room)} {path.stat().st_size}\n".encode())
            total.update(path.read_bytes())
    return total.hexdigest()


def noted(made_of):
    """What is noted of a program that is built of these sources."""
    return f"{made_of} {hashlib.sha256(BUILT.read_bytes()).hexdigest()}\n"


def is_built(made_of):
    """Whether the program was proved and built of these sources, and is as it was then."""
    return BUILT.is_file() and NOTE.is_file() and NOTE.read_text(encoding="utf-8") == noted(made_of)


def at_once():
    """How many crates are proved at once: one for each processor, if there is memory; else None, and `rt ci` chooses."""
    meminfo = pathlib.Path("/proc/meminfo").read_text(encoding="utf-8")
    available = int(re.search(r"MemAvailable: *([0-9]+) kB", meminfo)[1])
    processors = len(os.sched_getaffinity(0))
    return processors if processors * ROOM <= available else None


def run(folder, jobs=None):
    """Runs `rt ci` in a folder, with so many crates at once; its status."""
    chosen = jobs or os.environ.get("RT_JOBS") or at_once()
    environment = {**os.environ, "RT_JOBS": str(chosen)} if chosen else os.environ
    return subprocess.run(["rt", "ci"], cwd=folder, env=environment, check=False).returncode


def gate():
    """Runs the gate, and notes what the program was made of unless that changed meanwhile."""
    made_of = sources()
    status = run(TOP)
    if status == 0 and sources() == made_of:
        NOTE.write_text(noted(made_of), encoding="utf-8")
    return status


def build(jobs):
    """Proves and builds the program in a folder of its own, unless that was done."""
    made_of = sources()
    if is_built(made_of):
        print(f"{BUILT.relative_to(TOP)} is proved and built of just these files")
        return 0
    with tempfile.TemporaryDirectory(prefix="omaha-build-") as folder:
        room = pathlib.Path(folder)
        copy(room)
        status = run(room, jobs)
        if status == 0:
            BUILT.parent.mkdir(exist_ok=True)
            shutil.copy(room / BUILT.relative_to(TOP), BUILT)
            NOTE.write_text(noted(made_of), encoding="utf-8")
    return status


def main():
    parser = argparse.ArgumentParser(description=__doc__, formatter_class=argparse.RawDescriptionHelpFormatter)
    which = parser.add_mutually_exclusive_group()
    which.add_argument("--jobs", type=int, metavar="N")
    which.add_argument("--gate", action="store_true")
    asked = parser.parse_args()
    return gate() if asked.gate else build(asked.jobs)


if __name__ == "__main__":
    sys.exit(main())
