#!/usr/bin/env python3
"""Tries the wrong bodies of `mutants/`, which the prover must reject: tests/mutants.py [CRATE..]

`make mutants [CRATE..]` runs it. The gate tries the mutants in the crates' `must-fail/` alone: those that the table
"Wrong servers that cannot be built" names. All others are in `mutants/CRATE/`. Here they take the place of those in
`must-fail/`, in a copy of the repository, and `rt must-fail` tries them: all of them, or those of the crates that
are named. What an earlier check in this repository proved, in the folders `out/`, is proved once.

It prints a line for each mutant, and exits with 1 if one is not rejected.
"""

import os
import pathlib
import shutil
import subprocess
import sys
import tempfile

TOP = pathlib.Path(__file__).resolve().parent.parent
MUTANTS = TOP / "mutants"


def copy_file(source, target):
    """Copies a file, by a link if the file system allows."""
    try:
        os.link(source, target)
    except OSError:
        shutil.copy2(source, target)


def copy_crate(crate, room):
    """Copies a crate, with what is kept of its libraries' proofs, and its mutants as its edits."""
    source, target = TOP / "crates" / crate, room / "crates" / crate
    for part in ("src", "specs", "proofs"):
        if (source / part).is_dir():
            shutil.copytree(source / part, target / part)
    if (source / "out" / "rlib").is_dir():
        shutil.copytree(source / "out" / "rlib", target / "out" / "rlib", copy_function=copy_file)
    if (MUTANTS / crate).is_dir():
        shutil.copytree(MUTANTS / crate, target / "must-fail")


def main(crates):
    known = sorted(path.name for path in MUTANTS.iterdir())
    for crate in crates:
        if crate not in known:
            sys.exit(f"tests/mutants.py: mutants/{crate}: no such folder")
    with tempfile.TemporaryDirectory(prefix="mutants-") as folder:
        room = pathlib.Path(folder)
        for name in ("crates.txt", "HANDLES"):
            shutil.copy2(TOP / name, room / name)
        for path in sorted((TOP / "crates").iterdir()):
            copy_crate(path.name, room)
        return subprocess.run(["rt", "must-fail", *(crates or known)], cwd=room).returncode


if __name__ == "__main__":
    sys.exit(main(sys.argv[1:]))
