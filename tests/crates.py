#!/usr/bin/env python3
"""Checks the list of crates, `crates/README.md`: each crate by its group, with the first sentence of its own page.

The groups and their order are those of `crates.txt`, and the sentence is the first one of `src/lib.rt`, or of
`src/main.rt`. Each folder of `crates/` is in `crates.txt`, and each name there has its folder. The line of a crate there
has each crate that its files name, in code, contracts and proofs: else its proof fails, long after.

    tests/crates.py            checks that the list is the one that they give, and the lines of `crates.txt`
    tests/crates.py --write    writes it
"""

import pathlib
import re
import sys

TOP = pathlib.Path(__file__).resolve().parent.parent
CRATES = TOP / "crates"
LIST = CRATES / "README.md"
HEAD = """# Crates

Lowest first: a crate depends on crates of its own group and of those above it in this list. `docs/ARCHITECTURE.md` says
how they work together. This list is written by `tests/crates.py --write`.
"""
# a crate's name, as definitions and code import from it
NAMED = re.compile(r"\bRattle\.(\w+)|^ *(?:pub )?use (\w+)::", re.M)


def missing():
    """What is missing in the lines of `crates.txt`: a crate, and one that its files name."""
    lines = dict(re.findall(r"^(\w+):(.*)$", (TOP / "crates.txt").read_text(encoding="utf-8"), re.M))
    for crate, listed in lines.items():
        files = [file for part in ("src", "specs", "proofs") for file in (CRATES / crate / part).rglob("*.*t")]
        named = {name for file in files for name in sum(NAMED.findall(file.read_text(encoding="utf-8")), ())}
        yield from ((crate, name) for name in sorted(named & set(lines) - {crate, *listed.split()}))


def groups():
    """The groups of `crates.txt`, each with the names of its crates."""
    found = {}
    for line in (TOP / "crates.txt").read_text(encoding="utf-8").splitlines()[1:]:
        if line.startswith("# "):
            name = line[2:]
            found[name.upper() if name == "http" else name.capitalize()] = []
        elif line:
            found[list(found)[-1]].append(line.partition(":")[0])
    return found


def sentence_of(crate):
    """The first sentence of a crate's own page; of tests, what they are rows of."""
    files = [CRATES / crate / "src" / name for name in ("lib.rt", "main.rt")]
    lines = next(file for file in files if file.exists()).read_text(encoding="utf-8").splitlines()
    page = [line.removeprefix("//!").strip() for line in lines if line.startswith("//!")]
    paragraph = " ".join(page[: page.index("") if "" in page else len(page)])
    sentence = re.match(r".*?\.(?= |$)", paragraph).group()
    return re.split(r"[:;]", sentence)[0].rstrip(".") + "." if crate.endswith("_rows") else sentence


def page_of(found):
    """The list."""
    parts = [HEAD]
    for group, crates in found.items():
        lines = [f"- `{crate}`: {sentence_of(crate)}\n" for crate in crates]
        parts.append(f"\n## {group}\n\n{''.join(lines)}")
    return "".join(parts)


def main():
    found = groups()
    named = {crate for crates in found.values() for crate in crates}
    folders = {path.name for path in CRATES.iterdir() if path.is_dir()}
    for crate in sorted(named ^ folders):
        print(f"tests/crates.py: {crate}: in crates.txt or in crates/, and not in both")
    if named != folders:
        return 1
    lacks = list(missing())
    for crate, name in lacks:
        print(f"crates.txt: {crate} names {name}, which isn't in its line")
    if lacks:
        return 1
    page = page_of(found)
    if sys.argv[1:] == ["--write"]:
        LIST.write_text(page, encoding="utf-8")
    elif not LIST.exists() or LIST.read_text(encoding="utf-8") != page:
        print("crates/README.md: not the list of these crates: run `tests/crates.py --write`")
        return 1
    print(f"{len(named)} crates are listed by their groups")
    return 0


if __name__ == "__main__":
    sys.exit(main())
