#!/usr/bin/env python3
"""Gives the built program each case of `tests/corpus/` as it is, and compares what it does with `tests/corpus/outcomes`.

    tests/corpus.py [--program PATH]

It prints a line for each case that has another outcome, and exits with 1 if there is one, or if a case has no outcome.
`make test` runs it, and `tests/fuzz.py` begins with the same.
"""

import argparse
import os
import sys

from fuzzing import corpus, outcomes

PROGRAM = corpus.TOP / "crates" / "omaha" / "out" / "omaha"


def main():
    reader = argparse.ArgumentParser(description="Gives the built program each case of tests/corpus as it is.")
    reader.add_argument("--program", default=str(PROGRAM))
    program = os.path.abspath(reader.parse_args().program)
    if not os.path.isfile(program):
        sys.exit(f"{program} isn't built: make install builds it")
    if corpus.strays():
        sys.exit(f"tests/corpus/outcomes and the files differ: {', '.join(corpus.strays())}")
    if outcomes.check_outcomes(program):
        sys.exit(1)


if __name__ == "__main__":
    main()
