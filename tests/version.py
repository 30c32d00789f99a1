#!/usr/bin/env python3
"""Compares the version of the program with that of the changelog: the number of its first heading.

    tests/version.py            compares the constant that `omaha --version` prints, the row of it and the README
"""

import pathlib
import re
import sys

TOP = pathlib.Path(__file__).resolve().parent.parent

# Where the version is, and what is before it.
PLACES = [
    ("crates/omaha_arguments/src/command_line.rt", r'pub const VERSION: &str = "'),
    ("tests/rows/arguments.rows", r"\| omaha "),
    ("README.md", r"^Version "),
]


def versions(path, before):
    """Returns the numbers in a file that are after a pattern."""
    return re.findall(before + r"(\d+\.\d+\.\d+)", (TOP / path).read_text(encoding="utf-8"), re.MULTILINE)


def main():
    """Prints each place whose version is another one, and ends with 1 if there is one."""
    newest = versions("CHANGELOG.md", "^## ")[0]
    wrong = 0
    for path, before in PLACES:
        found = versions(path, before)
        if not found or set(found) != {newest}:
            print(f"tests/version.py: {path}: {', '.join(found) or 'no version'}, and the changelog has {newest}")
            wrong += 1
    if not wrong:
        print(f"version {newest} is that of the changelog in {len(PLACES)} places")
    sys.exit(1 if wrong else 0)


if __name__ == "__main__":
    main()
