#!/usr/bin/env python3
"""Counts what shows whether the code stays easy to read and to add to, and prints a line for each figure.

`tests/figures.py` needs no toolchain and fails for nothing: the figures are for review. It counts
- the files of crates that name an edit, for each kind of edit: what the next one of its kind must touch;
- the functions whose clause says `result ≡ NAME ..` with their own name;
- the source files of libraries with fewer than 60 lines;
- the lemmas with a line of more than 200 columns;
- the names that specs define in two crates or more;
- the functions of libraries with more than 7 arguments, or with more than 4 type parameters;
- the types of errors, and the files for a thousand source lines;
- the crates whose proofs cite lemmas of another crate of the repository.
"""

import os
import re

TOP = os.path.dirname(os.path.dirname(os.path.abspath(__file__)))
CRATES = os.path.join(TOP, "crates")
FUNCTION = re.compile(r"(?:^|\n)\s*(?:pub(?:\([a-z]+\))? )?fn (\w+)(.*?)(?=\n\s*\{|\n\s*;)", re.DOTALL)
DEFINITION = re.compile(r"(?m)^(?:abbrev pub|unfoldable pub|pub record|pub data) ([^\s:]+)")
EDIT = re.compile(r"(?m)^    (\w+)\(\1\),$")
SIGNATURE = re.compile(r"(?m)^ *(?:pub(?:\([a-z]+\))? )?(?:const )?fn (\w+)")
ERROR = re.compile(r"(?m)^pub(?:\([a-z]+\))? (?:enum|struct) (\w*(?:Fault|Error|Failure|Failed|Refused|NoRoom))\b")
CITATION = re.compile(r"Rattle\.(\w+)\.proofs\.")
LEMMA = re.compile(r"(?m)^ *(?:pub )?([^\s:(){}|]+) :(?=\s)")


def texts(folders, suffix):
    """The path and content of each file with a suffix below a folder of a crate."""
    for crate in sorted(os.listdir(CRATES)):
        for folder in folders:
            for path, below, names in os.walk(os.path.join(CRATES, crate, folder)):
                for name in sorted(names):
                    if name.endswith(suffix):
                        with open(os.path.join(path, name), encoding="utf-8") as file:
                            yield crate, os.path.join(path, name), file.read()


def percent(part, whole):
    return f"{part} of {whole}, {100 * part // max(whole, 1)}%"


def parts_between(text, start):
    """The parts at the top level between the bracket at a place and the one that closes it, and where that is."""
    depth, part, parts = 0, "", []
    for index in range(start, len(text)):
        letter = text[index]
        depth += (letter in "(<[{") - (letter in ")]}" or (letter == ">" and text[index - 1] != "-"))
        if depth == 0:
            return [it for it in parts + [part[1:] if not parts else part] if it.strip()], index + 1
        if letter == "," and depth == 1:
            parts.append(part[1:] if not parts else part)
            part = ""
        else:
            part += letter
    return [], start


def signatures(text):
    """The name of each function of a file, with how many arguments and type parameters it has."""
    for found in SIGNATURE.finditer(text):
        place, types = found.end(), []
        if text[place] == "<":
            types, place = parts_between(text, place)
        arguments, _ = parts_between(text, place) if text[place] == "(" else ([], place)
        yield found[1], len(arguments), sum(1 for it in types if not it.strip().startswith("'"))


def main():
    every = [text for suffix in (".rt", ".antt", ".edit") for _, _, text in texts(("src", "specs", "proofs", "must-fail"), suffix)]
    with open(os.path.join(CRATES, "catalogue", "src", "edit.rt"), encoding="utf-8") as file:
        edits = EDIT.findall(file.read())
    named = {edit: sum(1 for text in every if re.search(rf"\b{edit}\b", text)) for edit in edits}
    print("files that name an edit:", ", ".join(f"{edit} {count}" for edit, count in named.items()))

    functions = [(name, rest) for _, _, text in texts(("src",), ".rt") for name, rest in FUNCTION.findall(text)]
    alike = sum(1 for name, rest in functions if re.search(rf"result(?:\.now)? ≡ {name}\b", rest))
    print("functions with the name of their definition:", percent(alike, len(functions)))

    sources = [text.count("\n") for crate, _, text in texts(("src",), ".rt") if not crate.endswith("_rows")]
    print("source files of fewer than 60 lines:", percent(sum(1 for lines in sources if lines < 60), len(sources)))

    libraries = [(crate, text) for crate, _, text in texts(("src",), ".rt") if not crate.endswith("_rows")]
    shapes = [(f"{crate}::{name}", count, types) for crate, text in libraries for name, count, types in signatures(text)]
    many = sorted(name for name, count, _ in shapes if count > 7)
    print(f"functions with more than 7 arguments: {len(many)}: {', '.join(many)}")
    many = sorted(name for name, _, types in shapes if types > 4)
    print(f"functions with more than 4 type parameters: {len(many)}: {', '.join(many)}")
    errors = sorted(f"{crate}::{name}" for crate, text in libraries for name in ERROR.findall(text))
    print(f"types of errors: {len(errors)}: {', '.join(errors)}")
    lines = sum(text.count("\n") for _, text in libraries)
    files = sum(1 for kind in (".rt", ".antt") for _ in texts(("src", "specs", "proofs"), kind))
    print(f"files for a thousand source lines: {1000 * files / max(lines, 1):.0f}")
    crates = set(os.listdir(CRATES))
    cited = sorted({
        f"{crate} of {other}" for kind in (".rt", ".antt") for crate, _, text in texts(("src", "specs", "proofs"), kind)
        for other in CITATION.findall(text) if other != crate and other in crates
    })
    print(f"crates whose proofs cite lemmas of another: {len(cited)}: {', '.join(cited)}")

    lemmas = wide = 0
    for _, _, text in texts(("proofs",), "Lemmas.antt"):
        starts = [found.start() for found in LEMMA.finditer(text)] + [len(text)]
        for start, end in zip(starts, starts[1:]):
            lemmas += 1
            wide += any(len(line) > 200 for line in text[start:end].split("\n"))
    print("lemmas with a line of more than 200 columns:", percent(wide, lemmas))

    where = {}
    for crate, _, text in texts(("specs",), ".antt"):
        for name in DEFINITION.findall(text):
            where.setdefault(name, set()).add(crate)
    twice = sorted(name for name, crates in where.items() if len(crates) > 1)
    print(f"names that specs of two crates define: {len(twice)}: {', '.join(twice)}")


if __name__ == "__main__":
    main()
