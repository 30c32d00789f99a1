#!/usr/bin/env python3
"""Checks that the functions, clauses and rules exist that `docs/guarantees/` names. What a claim says is not checked.

Each crate of a group of `crates.txt` has a heading in the group's page. Below it are functions, on a line in bold, and
below these their claims, each with its clauses in parentheses: `docs/GUARANTEES.md` says the form. A page has at most
350 lines, and `docs/GUARANTEES.md` 150.

    tests/claims.py    checks the pages; exits with 1 if it finds a fault
"""

import collections
import itertools
import pathlib
import re
import sys

TOP = pathlib.Path(__file__).resolve().parent.parent
CRATES = TOP / "crates"

ITEM = re.compile(
    r"(?m)^ *(?:pub(?:\(\w+\))? )?(?:(?P<kind>impl|trait|struct|enum)\b(?P<head>[^{;]*)|(?:const )?fn (?P<function>\w+)"
    r"|(?P<clause>ensures|requires)\*? ?(?P<name>\w*) ?\{|ghost (?P<ghost>\w+)(?: =|:) \{)"
)
DEFINITION = re.compile(r"^(?:abbrev pub|unfoldable pub|pub record|pub data|abbrev|record|pub) +(\w+)", re.MULTILINE)
NAME = re.compile(r"`([\w:]+)`(?: as `(\w+)`)?(?:: `(\w+)`)?")
NAMES = re.compile(rf"\*\*{NAME.pattern}(, {NAME.pattern})*\*\*")
PART = re.compile(
    r"(?P<kind>unnamed|each clause|the model)?(?:the clauses of `(?P<trait>\w+)`)?(?:`(?P<name>\w+)`)?"
    r"(?: of `(?P<of>[\w:]+)`)?(?: ?by (?:field `(?P<field>\w+)` of )?(?P<by>`\w+`(?: in `\w+`)*))?"
)

RULE = re.compile(r"(?<!\*)\*([A-Z][^*]+)\*(?!\*)")
RULES = {
    heading
    for path in (TOP / "docs" / "definitions").glob("[0-9]*.md")
    for heading in re.findall(r"(?m)^## (.+)$", path.read_text(encoding="utf-8"))
}

# A clause; or a function or a type, which says None.
Clause = collections.namedtuple("Clause", "type trait function file name says")


def read_below(folder, suffix, comment):
    """Each file below a folder, without its comments."""
    for path in folder.rglob(f"*{suffix}"):
        yield path, re.sub(rf"(?m)^\s*{comment}.*$", "", path.read_text(encoding="utf-8"))


def owner_of(kind, head):
    """The type and the trait that the head of an item names."""
    while (shorter := re.sub(r"<[^<>]*>", "", head)) != head:
        head = shorter
    names = [re.findall(r"\w+", part)[-1] for part in re.split(r"\bwhere\b|\(|(?<!:):(?!:)", head)[0].split(" for ")]
    return ("", names[0]) if kind == "trait" else (names[-1], names[0] if len(names) > 1 else "")


def clauses_of(crate):
    for path, text in read_below(CRATES / crate / "src", ".rt", "//"):
        owner, function, file, items = ("", ""), "", (*path.parts, path.stem), list(ITEM.finditer(text))
        for item, end in zip(items, [*(after.start() for after in items[1:]), len(text)]):
            if item["kind"]:
                owner, function = owner_of(item["kind"], item["head"]), ""
            elif item["function"]:
                owner, function = owner if item[0].startswith(" ") else ("", ""), item["function"]
            # (a body begins with a line of its brace alone)
            says = re.split(r"\n *\{\n", text[item.end() : end])[0] if item["clause"] or item["ghost"] else None
            yield Clause(*owner, "" if item["ghost"] else function, file, item["name"] or item["ghost"], says)


CLAUSES = {crate: list(clauses_of(crate)) for crate in sorted(path.name for path in CRATES.iterdir())}
SPECS = collections.defaultdict(set)
for _, specs in read_below(CRATES, ".antt", "--"):
    for defined, body in zip(*[iter(DEFINITION.split(specs)[1:])] * 2):
        SPECS[defined] |= set(re.findall(r"\w+", body))


def reached(name):
    """The names in a definition, and in those that it uses."""
    seen, ahead = set(), {name}
    while ahead:
        seen |= ahead
        ahead = {word for used in ahead for word in SPECS.get(used, ())} - seen
    return seen


def named(crate, name, trait="", method=""):
    """The clauses of a function or a type, with those of its trait; none if there is no such function or type."""
    *before, last = name.split("::")
    found = CLAUSES.get(before.pop(0) if before and before[0] in CLAUSES else crate, [])
    if trait:
        found = [item for item in found if item[:2] == (last, trait)]
        found += [item for items in CLAUSES.values() for item in items if found and item[:2] == ("", trait)]
        return [item for item in found if not method or item.function in ("", method)]
    if last[0].isupper():
        return [item for item in found if last in (item.type or item.trait, item.type)]
    places = (lambda item: (item.type, item.trait, *item.file)) if before else (lambda item: (item.type + item.trait,))
    return [item for item in found if item.function == last and (before or [""])[-1] in places(item)]


def fault_of(crate, part, names):
    """What is wrong with a part of a claim's clauses, or None."""
    if not part or not (found := PART.fullmatch(part)):
        return "is not of the form of a clause"
    items = named(crate, found["of"]) if found["of"] else [item for name in names for item in named(crate, *name)]
    if found["trait"]:
        return None if any(item.type and item.trait == found["trait"] for item in items) else "are of no trait here"
    absent = {"unnamed": "name", "the model": "function"}.get(found["kind"])
    items = [item for item in items if item.says is not None and not (absent and getattr(item, absent))]
    items = [item for item in items if found["name"] in (None, item.name)]
    if not items:
        return "is no clause of " + (found["of"] or ", ".join(name[0] for name in names))
    words = set(re.findall(r"\w+", " ".join(item.says for item in items)))
    for used in reversed(re.findall(r"\w+", (found["by"] or "").replace(" in ", " "))):
        if used not in SPECS or used not in words:
            return f"doesn't use {used}"
        words = reached(used)
    return "is no such field" if found["field"] and found["field"] not in SPECS[used] else None


def faults_of(lines, crates):
    """The faults of a page, each with the number of its line."""
    crate, names = "", []
    for number, line in enumerate(lines, 1):
        if line.startswith("## "):
            crate, names = line[3:].strip("`"), []
            if crate not in crates:
                yield number, f"{crate} is no crate of this group"
        elif line.startswith("**"):
            names = NAME.findall(line) if NAMES.fullmatch(line) else []
            yield from ((number, f"{crate} has no {name[0]}") for name in names if not named(crate, *name))
        elif line.startswith("- "):
            below = itertools.takewhile(lambda more: more.startswith("  "), lines[number:])
            claim = re.fullmatch(r"- .*[.:] \((.+)\)", " ".join([line, *(more.strip() for more in below)]))
            parts = claim[1].split(", ") if names and claim else []
            if not parts:
                yield number, "no claim of the form, or no functions of the form above it"
            yield from ((number, f"{part} {fault}") for part in parts if (fault := fault_of(crate, part, names)))
            said = RULE.findall(claim[0]) if claim else []
            yield from ((number, f"{rule} is no rule") for rule in said if rule not in RULES)
    yield from ((1, f"no heading of {name}") for name in crates if f"## `{name}`" not in lines)


def main():
    groups = re.findall(r"(?m)^# (.+)\n((?:\w+:.*\n)+)", (TOP / "crates.txt").read_text(encoding="utf-8"))
    # (the groups of fixtures and tests, which are the last two, have no claims)
    pages = {f"{number}-{name.replace(' ', '-')}": crates for number, (name, crates) in enumerate(groups[:-2], 1)}
    wrong = [f"no page {name}" for name in pages if not (TOP / "docs" / "guarantees" / f"{name}.md").exists()]
    for path in [TOP / "docs" / "GUARANTEES.md", *sorted((TOP / "docs" / "guarantees").iterdir())]:
        lines = path.read_text(encoding="utf-8").splitlines()
        faults = list(faults_of(lines, re.findall(r"(?m)^(\w+):", pages[path.stem]))) if path.stem in pages else []
        faults += [(len(lines), "too many lines")] if len(lines) > (150 if path.stem == "GUARANTEES" else 350) else []
        wrong += [f"{path.relative_to(TOP)}:{number}: {fault}" for number, fault in faults]
    if wrong:
        sys.exit("\n".join(f"tests/claims.py: {line}" for line in wrong))
    print(f"the claims of {len(pages)} pages name functions and clauses that exist")


if __name__ == "__main__":
    main()
