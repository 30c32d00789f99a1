#!/usr/bin/env python3
"""Gives the built program changed cases of `tests/corpus/`, and judges each by a small model of its own.

    tests/fuzz.py [--program FILE] [--seed N] [--cases N] [--seconds N] [--jobs N] [--kinds NAME,..]
    tests/fuzz.py --replay FILE

`make fuzz` runs it, after `make install`. The kinds are update checks, heads and bodies that are cut anywhere, scripts,
profiles, certificates, requests on standard input, and the replies that a client gets. A case is wrong if the program
breaks down, does not end within 20 s, prints more than one line of failure, or does anything else than the models in
`tests/fuzzing/` say. It first compares the outcome of each case of the corpus as it is. It prints a line for each kind,
and saves each wrong case to a file for `--replay`. It makes so many cases, as far as the time allows; the same seed and
number of cases make the same cases.
"""

import argparse
import collections
import json
import multiprocessing
import os
import pathlib
import random
import sys
import tempfile
import time

from fuzzing import corpus, kinds
from fuzzing.outcomes import KINDS, MEMORY, check_outcomes

TOP = pathlib.Path(__file__).resolve().parent.parent
MOST_SAVED = 20


def read_arguments():
    reader = argparse.ArgumentParser(description="Gives the built program changed cases of tests/corpus, and judges each.")
    reader.add_argument("--program", default=str(TOP / "crates" / "omaha" / "out" / "omaha"))
    reader.add_argument("--seed", type=int, default=1)
    reader.add_argument("--cases", type=int, default=1000000)
    reader.add_argument("--seconds", type=int, default=600)
    # (a job waits for the program half of its time)
    reader.add_argument("--jobs", type=int, default=2 * os.cpu_count())
    reader.add_argument("--kinds", default=",".join(kind.name for kind in KINDS))
    reader.add_argument("--saved", help="the folder for wrong cases; a new one if not given")
    reader.add_argument("--replay", metavar="FILE", help="runs a saved case again")
    return reader.parse_args()


class Outcome:
    """What came of a batch: its kind, how many cases had each status, and the wrong ones."""

    def __init__(self, kind):
        self.kind, self.statuses, self.wrong = kind, collections.Counter(), []

    def record(self, case, status, wrong):
        self.statuses[status] += 1
        if wrong:
            saved = {"kind": self.kind, "wrong": wrong, "how": case.how, "bytes": case.data.decode("latin-1"), "before": case.before}
            self.wrong.append(saved)


def run_batch(batch):
    """Makes the cases of a batch, and runs them."""
    number, index, count, seed, program, until = batch
    kind = KINDS[number]
    outcome = Outcome(kind.name)
    if time.monotonic() < until:
        with tempfile.TemporaryDirectory(prefix="omaha-fuzz-", dir=MEMORY) as folder:
            made = kind(program, folder)
            made.run(made.make(random.Random(f"{seed}/{kind.name}/{index}"), count), outcome.record)
    return outcome


def batches_of(arguments, until):
    """The batches of all kinds, mixed so that each part of the time has all kinds."""
    chosen = [number for number, kind in enumerate(KINDS) if kind.name in arguments.kinds.split(",")]
    shares = sum(KINDS[number].share for number in chosen)
    counts = {number: arguments.cases * KINDS[number].share // shares for number in chosen}
    counts[chosen[0]] += arguments.cases - sum(counts.values())
    batches = []
    for number in chosen:
        left, index = counts[number], 0
        while left > 0:
            count = min(left, KINDS[number].batch)
            batches.append((index * KINDS[number].batch / counts[number], number, index, count))
            left, index = left - count, index + 1
    return [(*batch[1:], arguments.seed, arguments.program, until) for batch in sorted(batches)]


def save(folder, wrong, seed, number):
    path = pathlib.Path(folder) / f"{number}-{wrong['kind']}.json"
    path.write_text(json.dumps({"seed": seed, **wrong}, indent=1))
    print(f"wrong: {wrong['kind']}: {wrong['wrong'][:500]}\n  {path}", flush=True)


def report(totals, wrong):
    """Prints a line for each kind, and how many cases there were."""
    for kind, statuses in totals.items():
        shown = ", ".join(f"{status} {count}" for status, count in sorted(statuses.items(), key=str) if status != "wrong")
        print(f"{kind}: {statuses.total()} cases, {shown}; {statuses['wrong']} wrong")
    print(f"{sum(it.total() for it in totals.values())} cases, {wrong} wrong")


def fuzz(arguments):
    """Runs all batches: how many cases were wrong."""
    batches = batches_of(arguments, time.monotonic() + arguments.seconds)
    totals, saved, wrong = {kind.name: collections.Counter() for kind in KINDS if kind.name in arguments.kinds.split(",")}, None, 0
    with multiprocessing.Pool(arguments.jobs) as pool:
        for outcome in pool.imap_unordered(run_batch, batches):
            totals[outcome.kind] += outcome.statuses
            for case in outcome.wrong:
                wrong += 1
                if wrong <= MOST_SAVED:
                    saved = saved or arguments.saved or tempfile.mkdtemp(prefix="omaha-fuzz-wrong-")
                    os.makedirs(saved, exist_ok=True)
                    save(saved, case, arguments.seed, wrong)
    report(totals, wrong)
    return wrong


def replay(arguments):
    """Runs a saved case alone: how many were wrong."""
    saved = json.loads(pathlib.Path(arguments.replay).read_text())
    kind = next(kind for kind in KINDS if kind.name == saved["kind"])
    outcome = Outcome(kind.name)
    case = kinds.Case(saved["bytes"].encode("latin-1"), saved["how"], saved["before"])
    with tempfile.TemporaryDirectory(prefix="omaha-fuzz-", dir=MEMORY) as folder:
        kind(arguments.program, folder).run([case], outcome.record)
    for wrong in outcome.wrong:
        print(f"wrong: {wrong['wrong']}")
    print(f"1 cases, {len(outcome.wrong)} wrong")
    return len(outcome.wrong)


def main():
    arguments = read_arguments()
    if not os.path.isfile(arguments.program):
        sys.exit(f"{arguments.program} isn't built: make install builds it")
    if corpus.strays():
        sys.exit(f"tests/corpus/outcomes and the files differ: {', '.join(corpus.strays())}")
    arguments.program = os.path.abspath(arguments.program)
    if replay(arguments) if arguments.replay else check_outcomes(arguments.program, arguments.kinds.split(",")) + fuzz(arguments):
        sys.exit(1)


if __name__ == "__main__":
    main()
