"""The cases of `tests/corpus/`, by kind, with the outcome of each.

`tests/corpus/outcomes` has a line for each case: `KIND/NAME = OUTCOME`.
"""

import pathlib

TOP = pathlib.Path(__file__).resolve().parent.parent.parent
FOLDER = TOP / "tests" / "corpus"
EXAMPLES = TOP / "examples"


class Case:
    """A case of the corpus: its name, its bytes and its outcome."""

    def __init__(self, name, data, outcome):
        self.name, self.data, self.outcome = name, data, outcome


def read_outcomes():
    """The outcome of each case, by `KIND/NAME`, in the order of the file."""
    outcomes = {}
    for line in (FOLDER / "outcomes").read_text(encoding="utf-8").splitlines():
        if line and not line.startswith("#"):
            name, _, outcome = line.partition(" = ")
            outcomes[name] = outcome
    return outcomes


def read_cases(kind):
    """The cases of a kind, in the order of the outcomes."""
    cases = []
    for name, outcome in read_outcomes().items():
        of_kind, _, short = name.partition("/")
        if of_kind == kind:
            cases.append(Case(short, (FOLDER / name).read_bytes(), outcome))
    return cases


def strays():
    """The files of the folder without an outcome, and the outcomes without a file."""
    listed = set(read_outcomes())
    found = {str(path.relative_to(FOLDER)) for path in FOLDER.rglob("*") if path.is_file() and path.parent != FOLDER}
    return sorted(listed ^ found)
