#!/usr/bin/env python3
"""Checks the marks of the rules, and prints where each rule lives.

A rule has one plain name, which is a heading in `docs/definitions/`. Its marks name it:
- `-- rule: NAME` above the definition that states it, in a file of `specs/`;
- `// rule: NAME` above each function that keeps it, in a file of `src/`;
- `// rule: NAME` above a test that shows it, or above the test's helper, in a crate whose name ends in `_rows`;
- `# rule: NAME` above a row that shows it, in a file of `tests/rows/`, or above a function of a script of `tests/`;
- `# rule: NAME` in each mutant that breaks it, in the crate's `must-fail/` or in `mutants/CRATE/`.

A mark of `src/`, `specs/` or `tests/rows/` is above the item's comment and its attributes.

Every rule needs exactly one definition, a function, a test and a mutant, and its heading must name the definition with its
file in `specs/` and its crate. The rules without a test or a mutant are listed below with the reason.

    tests/rules.py            checks the marks, and that the index is the one that they give
    tests/rules.py NAME       prints where a rule is: its heading, definition, functions, proofs, tests and mutants, with
                              their paths; NAME may be a word of the field that a line `Also: ..` below the heading has
    tests/rules.py --table    prints the table of all rules
    tests/rules.py --index    writes that table, in short, into the index `docs/definitions/README.md`
"""

import os
import re
import signal
import sys

TOP = os.path.dirname(os.path.dirname(os.path.abspath(__file__)))
CRATES = os.path.join(TOP, "crates")
MUTANTS = os.path.join(TOP, "mutants")
TESTS = os.path.join(TOP, "tests")
ROWS = os.path.join(TESTS, "rows")
HEADINGS = os.path.join(TOP, "docs", "definitions")
INDEX = os.path.join(HEADINGS, "README.md")

# Rules that no mutant shows, and why.
NO_MUTANT = {
    "App of a profile": "its parts are rules of their own",
    "Choice by prices": "a law's, and no code of this repository",
    "Edit of a script": "its readers are those of a table",
    "Event": "a law's; `laws::wrong_machines` has wrong ones",
    "Events of a call": "a law's, and no code of this repository",
    "Every interleaving": "a law; `laws::wrong_machines` has machines that break it",
    "Faults of a script": "its parts are rules of their own",
    "Interleaving": "a law's, and no code of this repository",
    "Next ask": "a client's, and no code of this repository",
    "One history for all servers": "a law, and no code of this repository",
    "Published history": "a law's; `laws::wrong_machines` has wrong ones",
    "Quote by rows": "a law's, and no code of this repository",
    "Reply to an ask": "its parts are rules of their own",
    "Restart": "a law, and no code of this repository",
    "Run of a service": "a law; `laws::served_runs` has proceedings that are of none",
    "Service": "a law's, and no code of this repository",
    "Status of an update check": "its parts are rules of their own",
    "Statuses of every interleaving": "a law, and no code of this repository",
    "Tables of a profile": "its parts are rules of their own",
    "Tables of a script": "its parts are rules of their own",
    "TOML of a profile": "the reading is that of the crate toml",
    "Walk": "a client's, and no code of this repository",
    "Walk over one catalogue": "a law, and no code of this repository",
    "Worker": "a law's, and no code of this repository",
}

# Whether each rule must have the mark of a test; False as long as the crates of tests have no marks.
TESTS_ARE_MARKED = True

# Rules that no test shows, and why.
NO_TEST = {
    "Choice by prices": "the runs of `laws::runs` are worked by the prover",
    "Entries of a trace": "contracts alone see them",
    "Event": "the runs of `laws::runs` are worked by the prover",
    "Events of a call": "the runs of `laws::served_runs` are worked by the prover",
    "Every interleaving": "the runs of `laws::runs` are worked by the prover",
    "Interleaving": "the runs of `laws::runs` are worked by the prover",
    "Published history": "the runs of `laws::runs` are worked by the prover",
    "Quote by rows": "a law's, and no code of this repository",
    "Reply to an ask": "its parts are rules of their own",
    "Restart": "a law, and no code of this repository",
    "Run of a service": "the runs of `laws::served_runs` are worked by the prover",
    "Service": "the runs of `laws::runs` are worked by the prover",
    "Settled rows": "they are of a table that is not full yet, which no caller sees",
    "Statuses of every interleaving": "a law, and no code of this repository",
    "Worker": "the runs of `laws::runs` are worked by the prover",
}

ROW = re.compile(r"^== (.+)$")
SCRIPTED = re.compile(r"^def (\w+)\(")
MARK = re.compile(r"^\s*(?:--|//|#) rule: (.+?)\s*$")
COMMENT = re.compile(r"^\s*(?:--|//|#)")
DEFINITION = re.compile(r"^\s*(?:abbrev pub|unfoldable pub|pub record|pub data|abbrev|record|pub)\s+([\w◌-]+)")
FUNCTION = re.compile(
    r"^\s*(?:pub(?:\([a-z]+\))? )?(?:const )?fn (\w+)|^\s*impl.* for (\w+)"
    r"|^\s*(?:pub(?:\([a-z]+\))? )?(?:struct|enum|trait) (\w+)|^\s*(?:pub )?const (\w+)"
)


class Place:
    """A marked item: its crate, its name, and its file from the top with the line."""

    def __init__(self, crate, name, path, line):
        self.crate, self.name = crate, name
        self.path, self.line = os.path.relpath(path, TOP), line

    def __str__(self):
        return f"{self.path}:{self.line}: {self.name}"


class Rule:
    """The items that bear the mark of a rule."""

    def __init__(self):
        self.definitions, self.functions, self.tests, self.mutants = [], [], [], []


def files_below(folder, suffix):
    for path, below, names in os.walk(folder):
        below.sort()
        for name in sorted(names):
            if name.endswith(suffix):
                yield os.path.join(path, name)


def edits_of(crate):
    """The mutants of a crate: those that the gate tries, then those that `make mutants` tries."""
    yield from files_below(os.path.join(CRATES, crate, "must-fail"), ".edit")
    yield from files_below(os.path.join(MUTANTS, crate), ".edit")


def misplaced_marks(path):
    """The places of the marks in a file that are below a comment or an attribute of their item."""
    with open(path, encoding="utf-8") as file:
        lines = file.read().split("\n")
    for number, line in enumerate(lines[1:], 1):
        before = lines[number - 1]
        if MARK.match(line) and COMMENT.match(before) and not MARK.match(before):
            yield f"{os.path.relpath(path, TOP)}:{number + 1}"


def marked_files():
    """The files whose marks are above an item."""
    for crate in sorted(os.listdir(CRATES)):
        yield from files_below(os.path.join(CRATES, crate, "specs"), ".antt")
        yield from files_below(os.path.join(CRATES, crate, "src"), ".rt")
    yield from files_below(ROWS, ".rows")


def marks(path, item):
    """The rules marked in a file, each with the name and the line of the item below the mark."""
    with open(path, encoding="utf-8") as file:
        lines = file.read().split("\n")
    for number, line in enumerate(lines):
        found = MARK.match(line)
        if not found:
            continue
        name, at = "", number + 1
        for below in range(number + 1, min(number + 40, len(lines))):
            matched = item.match(lines[below]) if item else None
            if matched:
                name, at = next(group for group in matched.groups() if group), below + 1
                break
        yield found.group(1), name, at


def read_rules():
    """Each rule that is marked somewhere, by its name."""
    rules = {}
    for crate in sorted(os.listdir(CRATES)):
        for path in files_below(os.path.join(CRATES, crate, "specs"), ".antt"):
            for rule, name, line in marks(path, DEFINITION):
                rules.setdefault(rule, Rule()).definitions.append(Place(crate, name, path, line))
        for path in files_below(os.path.join(CRATES, crate, "src"), ".rt"):
            for rule, name, line in marks(path, FUNCTION):
                entry = rules.setdefault(rule, Rule())
                (entry.tests if crate.endswith("_rows") else entry.functions).append(Place(crate, name, path, line))
        for path in edits_of(crate):
            for rule, _, line in marks(path, None):
                mutant = os.path.basename(path).removesuffix(".edit")
                rules.setdefault(rule, Rule()).mutants.append(Place(crate, mutant, path, line))
    for path in files_below(ROWS, ".rows"):
        for rule, name, line in marks(path, ROW):
            file = os.path.relpath(path, TOP).removesuffix(".rows")
            rules.setdefault(rule, Rule()).tests.append(Place(file, name, path, line))
    for path in sorted(os.path.join(TESTS, name) for name in os.listdir(TESTS) if name.endswith(".py")):
        for rule, name, line in marks(path, SCRIPTED):
            rules.setdefault(rule, Rule()).tests.append(Place(os.path.relpath(path, TOP), name, path, line))
    return rules


def sections():
    """The headings of `docs/definitions/`: for each its place, and the paragraphs below it on one line."""
    found = {}
    for path in files_below(HEADINGS, ".md"):
        if path == INDEX:
            continue
        with open(path, encoding="utf-8") as file:
            parts = re.split(r"(?m)^## (.+)$", file.read())
        line = parts[0].count("\n") + 1
        for name, text in zip(parts[1::2], parts[2::2]):
            found[name] = Place("", name, path, line), " ".join(text.split())
            line += text.count("\n")
    return found


def module_of(place):
    """The file of a definition in `specs/`, as its heading names it."""
    return os.path.splitext(os.path.relpath(place.path, os.path.join("crates", place.crate, "specs")))[0]


def is_named(text, place):
    """Whether a section names a definition, its file and, after that, its crate."""
    file = f"`{module_of(place)}`"
    return f"`{place.name}`" in text and file in text and f"`{place.crate}`" in text.partition(file)[2]


def faults_of(rules, headings):
    """What the rules lack, a line each."""
    for name in rules:
        if name not in headings:
            yield f"{name}: no heading in docs/definitions/"
    for name, rule in sorted(rules.items()):
        if len(rule.definitions) != 1:
            yield f"{name}: {len(rule.definitions)} definitions: {', '.join(map(str, rule.definitions))}"
        for place in rule.definitions:
            if name in headings and not is_named(headings[name][1], place):
                yield f"{name}: its heading doesn't name {place.name} in {module_of(place)} of {place.crate}"
        if not rule.functions:
            yield f"{name}: no function"
        if not rule.mutants and name not in NO_MUTANT:
            yield f"{name}: no mutant"
        if TESTS_ARE_MARKED and not rule.tests and name not in NO_TEST:
            yield f"{name}: no test"
    for name in sorted((set(NO_MUTANT) | set(NO_TEST)) - set(rules)):
        yield f"{name}: excepted, and no rule"
    for path in marked_files():
        for place in misplaced_marks(path):
            yield f"{place}: the mark is below the item's comment or attribute"


def first_of(shown):
    """The first of several items, and how many more there are."""
    more = f", +{len(shown) - 1}" if len(shown) > 1 else ""
    return shown[0] + more if shown else "–"


def stated_by(text):
    """The crate and the name of each definition that a heading without marks names."""
    return [(crate, item) for item, crate in re.findall(r"`(\w+)` in `[\w/]+` of `(\w+)`", text)]


def title_of(place):
    """The title of a heading's page."""
    with open(os.path.join(TOP, place.path), encoding="utf-8") as file:
        return file.readline().removeprefix("# ").strip()


def row_of(name, rules, headings, above):
    """The row of a heading in the index, and the crate of its definition, named if the row above has another."""
    rule = rules.get(name, Rule())
    stated = [(place.crate, place.name) for place in rule.definitions] or stated_by(headings[name][1])
    crate = stated[0][0] if stated else above
    functions = [f"{'' if place.crate == crate else place.crate + ' '}`{place.name}`" for place in rule.functions]
    definition = ("" if crate == above else crate + " ") + first_of([f"`{item}`" for _, item in stated])
    return f"{name} | {definition} | {first_of(functions)}", crate


def index_of(rules, headings):
    """The rows of the index: a row for each page, in their order, and below it one for each of its headings."""
    page = crate = ""
    yield from ["Rule | Definition | Function", "---|---|---"]
    for name, (place, _) in headings.items():
        file = os.path.basename(place.path)
        if file != page:
            page, crate = file, ""
            yield f"**[{title_of(place)}]({file})** | |"
        row, crate = row_of(name, rules, headings, crate)
        yield row


def table_of(rules):
    """The rows of the table of all rules, with every item."""
    yield "| Rule | Definition | Function | Test | Mutant |"
    yield "|---|---|---|---|---|"
    for name, rule in sorted(rules.items(), key=lambda entry: entry[0].lower()):
        cells = [
            ", ".join(f"{place.path}: {place.name}" for place in rule.definitions),
            ", ".join(f"{place.crate}: {place.name}" for place in rule.functions),
            ", ".join(f"{place.crate}: {place.name}" for place in rule.tests) or "–",
            ", ".join(mutant.path for mutant in rule.mutants) or "–",
        ]
        yield "| " + " | ".join([name, *cells]) + " |"


def read_index():
    """The lines of the index's file before its table, and the table."""
    with open(INDEX, encoding="utf-8") as file:
        lines = file.read().splitlines()
    start = next((number for number, line in enumerate(lines) if line.startswith("Rule | ")), len(lines))
    return lines[:start], lines[start:]


def write_index(rules, headings):
    before, _ = read_index()
    with open(INDEX, "w", encoding="utf-8") as file:
        file.write("\n".join([*before, *index_of(rules, headings)]) + "\n")


def proofs_of(function):
    """The folders of a function's proofs, below that of its module; none if the search of the prover found them."""
    module = os.path.splitext(os.path.relpath(function.path, os.path.join("crates", function.crate, "src")))[0]
    for path, folders, _ in os.walk(os.path.join(CRATES, function.crate, "proofs", module)):
        folders.sort()
        if os.path.basename(path) == function.name:
            yield os.path.relpath(path, TOP)


def is_called(name, asked, headings):
    """Whether a rule has this name, or is also called so in the field."""
    also = re.search(r"\bAlso: ([^.]+)\.", headings[name][1])
    words = also.group(1).split(", ") if also else []
    return asked.lower() in [name.lower(), *map(str.lower, words)]


def headings_near(asked, headings):
    """The headings that have the asked words; else those whose paragraphs have the phrase, else the words."""
    phrase, words = asked.lower(), asked.lower().split()
    texts = {name: text.lower() for name, (_, text) in headings.items()}
    return (
        [name for name in headings if all(word in name.lower() for word in words)]
        or [name for name in headings if phrase in texts[name]]
        or [name for name in headings if all(word in texts[name] for word in words)]
    )


def print_rule(name, rules, headings):
    """Prints where a rule is, or where a heading is and then the rules that are its parts, by its links."""
    (place, text), rule = headings[name], rules.get(name, Rule())
    print(f"{name}\n  heading     {place.path}:{place.line}")
    if name not in rules:
        for crate, item in stated_by(text):
            print(f"  definition  {crate}: {item}")
        for part in dict.fromkeys(re.findall(r"\[([^]]+)\]\(", text)):
            if part in rules and part in headings:
                print_rule(part, rules, headings)
    proofs = [folder for function in rule.functions for folder in proofs_of(function)]
    searched = ["by search, without a file"] if rule.functions and not proofs else []
    kinds = [
        ("definition", rule.definitions),
        ("function", rule.functions),
        ("proof", dict.fromkeys(proofs or searched)),
        ("test", rule.tests),
        ("mutant", rule.mutants),
    ]
    for kind, places in kinds:
        for place in places:
            print(f"  {kind:<11} {place}")


def print_rules(asked, rules, headings):
    """Prints the rules that are called so; if there is none, the headings that speak of it."""
    named = [name for name in headings if is_called(name, asked, headings)]
    for name in named:
        print_rule(name, rules, headings)
    if not named:
        print(f"no rule {asked}; see")
        for name in headings_near(asked, headings):
            print(f"  {headings[name][0]}")
    return 0 if named else 1


def main():
    signal.signal(signal.SIGPIPE, signal.SIG_DFL)
    rules, headings = read_rules(), sections()
    words = sys.argv[1:]
    if words == ["--table"]:
        print("\n".join(table_of(rules)))
        return 0
    if words == ["--index"]:
        write_index(rules, headings)
        return 0
    if words:
        return print_rules(" ".join(words), rules, headings)
    wrong = list(faults_of(rules, headings))
    if read_index()[1] != list(index_of(rules, headings)):
        wrong.append("docs/definitions/README.md: not the index of these marks: run `tests/rules.py --index`")
    for line in wrong:
        print(f"tests/rules.py: {line}", file=sys.stderr)
    if not wrong:
        shown = "function, test and mutant" if TESTS_ARE_MARKED else "function and mutant"
        print(f"{len(rules)} rules have their heading, definition, {shown}")
    return 1 if wrong else 0


if __name__ == "__main__":
    sys.exit(main())
