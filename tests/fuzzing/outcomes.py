"""Gives the program each case of the corpus as it is."""

import os
import tempfile

from fuzzing import corpus, kinds, replies
from fuzzing.server import Wrong

# files of a case are written and read once, so they are better in memory
MEMORY = "/dev/shm" if os.access("/dev/shm", os.W_OK) else None
# the kinds of cases that the program can be given; two of them have the cases of `tests/corpus/requests/`
KINDS = [kinds.Requests, kinds.Heads, kinds.Scripts, kinds.Profiles, kinds.Certificates, kinds.Once, replies.Replies]


def found_outcome(kind, case):
    """What the program makes of a case, or what it did and may not do."""
    try:
        return kind.outcome(case.data)
    except (Wrong, OSError) as wrong:
        return f"{wrong}"


def check_outcomes(program, names=None):
    """Gives the program each case, of these kinds alone if they are named: how many have another outcome than theirs."""
    wrong, count = 0, 0
    for kind in KINDS:
        # (`once` gives the program the same bytes)
        if kind is kinds.Requests or (names is not None and kind.name not in names):
            continue
        with tempfile.TemporaryDirectory(prefix="omaha-corpus-", dir=MEMORY) as folder:
            made = kind(program, folder)
            for case in corpus.read_cases(made.folder_name()):
                count += 1
                found = found_outcome(made, case)
                if found != case.outcome:
                    wrong += 1
                    print(f"{made.folder_name()}/{case.name}: {found[:300]!r} and not {case.outcome[:300]!r}")
    print(f"corpus: {count} cases, {wrong} wrong", flush=True)
    return wrong
