#!/usr/bin/env python3
"""Tests that each wrong body is still one: tests/edits.py

An edit of `mutants/` or of a crate's `must-fail/` replaces lines of a file by others, one by one. Each of those lines has
to be in its file, once, and the new ones have to differ; else the edit says nothing, though nobody tries it. Prints those that
don't apply, and exits with 1 then. It proves nothing: the gate tries those in `must-fail/`, `tests/mutants.py` the others.
"""

import pathlib
import re
import sys

TOP = pathlib.Path(__file__).resolve().parent.parent


def parts_of(edit):
    """The parts of an edit in order: a file's name, the lines that are replaced in it, and the new ones."""
    found = re.findall(r"(?ms)^(file|old|new): ?(.*?)(?=^(?:file|old|new):|\Z)", edit)
    name, old = None, None
    for key, value in found:
        if key == "file":
            name = value.strip()
        elif key == "old":
            old = value
        else:
            yield name, old, value


def fault_of(edit, crate):
    """What is wrong with an edit, or `None`."""
    changed = {}
    parts = list(parts_of(edit.read_text(encoding="utf-8")))
    for name, old, new in parts:
        path = crate / name
        if not path.is_file():
            return f"{name}: no such file"
        text = changed.get(name) or path.read_text(encoding="utf-8")
        lines = old.rstrip("\n")
        if "\n" in lines or "\n" in new.rstrip("\n"):
            return f"{name}: a text of several lines, of which the first alone is read"
        if text.count(lines) != 1:
            return f"{name}: {text.count(lines)} times there: {lines.strip()}"
        if new.rstrip("\n") == lines:
            return f"{name}: it changes nothing"
        changed[name] = text.replace(lines, new.rstrip("\n"))
    return None if parts else "it replaces nothing"


def main():
    edits = [(edit, TOP / "crates" / edit.parent.name) for edit in sorted(TOP.glob("mutants/*/*.edit"))]
    edits += [(edit, edit.parent.parent) for edit in sorted(TOP.glob("crates/*/must-fail/*.edit"))]
    faults = [(edit, fault) for edit, crate in edits if (fault := fault_of(edit, crate))]
    for edit, fault in faults:
        print(f"tests/edits.py: {edit.relative_to(TOP)}: {fault}")
    print(f"{len(edits) - len(faults)} edits apply")
    sys.exit(1 if faults else 0)


if __name__ == "__main__":
    main()
