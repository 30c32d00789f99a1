#!/usr/bin/env python3
"""Checks that each public function and method of the libraries is called, and each that may run out of memory without it.

A call counts if a program, a test or a trait's method makes it, or a function that one of these reaches. Calls are found
by name: `.NAME(` calls each method of that name, `TYPE::NAME` those of the types of that name, and any other call the
function of that name in the file, or in the crate that a `use` names. So nobody calls what the script lists; of two
methods with one name it may list none. A law, whose contract alone matters, needs no call: it returns nothing, and has
no argument but `&self`.

`tests/allocations.py` lets each allocation fail in turn, of the program's commands and of the tests whose names end in
`_without_memory`. So what has an allocator and may fail is called by one of these.

    tests/callers.py    lists the functions that aren't called so; exits with 1 if there is one
"""

import collections
import pathlib
import re
import sys

TOP = pathlib.Path(__file__).resolve().parent.parent
CRATES = TOP / "crates"

ITEM = re.compile(
    r"(?m)^(?P<indent> *)(?:(?P<test>#\[test\]\n *))?(?P<public>pub )?(?:pub\([a-z]+\) )?(?:const )?"
    r"(?:fn (?P<name>\w+)|(?P<kind>impl|trait)\b(?P<head>[^{;]*))"
)
MEMORY = re.compile(r"\b(?:Global|AllocGlobal|AllocError)\b")
LAW = re.compile(r"\((?:&self)?\)\s*(?:ensures|requires|\{)")
CALL = re.compile(r"(?P<dot>\.)?(?:(?P<of>\w+)(?:::<[^()]*?>)?::)?\b(?P<name>[a-z]\w*)(?P<called>(?:::<[^()]*?>)?\()?")
USE = re.compile(r"(?m)^ *(?:pub )?use (\w+)(::[^;]*);")

Function = collections.namedtuple("Function", "crate path owner name is_public is_root is_swept has_memory calls")


def owner_of(head):
    """The type or trait whose functions follow the head of an impl or a trait."""
    while (shorter := re.sub(r"<[^<>]*>", "", head)) != head:
        head = shorter
    return re.findall(r"\w+", head.split(" for ")[-1])[0]


def calls_of(text, names):
    """What a body calls: a method or none, the type or the module before the name, and the name."""
    # (a contract comes before the body, which then begins with a line of its brace alone)
    for it in CALL.finditer(re.split(r"(?m)^ *\{$", text, maxsplit=1)[-1]):
        if it["called"] or it["of"] or (not it["dot"] and it["name"] in names):
            yield bool(it["dot"]), it["of"] or "", it["name"]


def functions_of(crate):
    for path in sorted((CRATES / crate / "src").rglob("*.rt")):
        text = re.sub(r"(?m)//.*$", "", path.read_text(encoding="utf-8"))
        used = collections.defaultdict(set)
        for start, names in USE.findall(text):
            for name in re.findall(r"\w+", names):
                used[name].add(crate if start in ("crate", "super", "self") else start)
        items = list(ITEM.finditer(text))
        used.update((item["name"], {crate}) for item in items if item["name"] and not item["indent"])
        owner, of_trait = "", False
        for item, end in zip(items, [*(after.start() for after in items[1:]), len(text)]):
            if item["kind"]:
                owner, of_trait = owner_of(item["head"]), item["kind"] == "trait" or " for " in item["head"]
                continue
            own = owner if item["indent"] else ""
            is_law = "laws" in path.with_suffix("").parts or LAW.match(text, item.end())
            is_of_trait = bool(own and of_trait)
            is_swept = item["name"] == "main" or item["name"].endswith("_without_memory")
            is_swept = is_swept or (is_of_trait and not crate.endswith("_rows"))
            is_root = is_swept or is_of_trait or bool(item["test"] or is_law)
            body = text[item.end() : end]
            calls = {
                (dotted, own if of == "Self" else of, name, frozenset(used.get(name, ())))
                for dotted, of, name in calls_of(body, used)
            }
            head = re.split(r"\n *(?:requires|ensures)\b|\{", body, maxsplit=1)[0]
            has_memory = bool(MEMORY.search(head) and re.search(r"-> (?:Result|Option)\b", head))
            marks = bool(item["public"]), is_root, is_swept, has_memory
            yield Function(crate, path.relative_to(TOP), own, item["name"], *marks, calls)


def is_callee(function, call):
    dotted, of, _, crates = call
    if dotted or of[:1].isupper():
        return bool(function.owner) and (dotted or of == function.owner)
    return not function.owner and (function.crate in crates or bool(of))


def reached(functions, named, ahead):
    """The numbers of the functions that some reach by their calls, with these."""
    found = set()
    while ahead:
        found |= ahead
        calls = {call for number in ahead for call in functions[number].calls}
        ahead = {it for call in calls for it in named[call[2]] if is_callee(functions[it], call)} - found
    return found


def main():
    crates = re.findall(r"(?m)^(\w+):", (TOP / "crates.txt").read_text(encoding="utf-8"))
    functions = [function for crate in crates for function in functions_of(crate)]
    named = collections.defaultdict(list)
    for number, function in enumerate(functions):
        named[function.name].append(number)
    called, swept = (
        reached(functions, named, {number for number, it in enumerate(functions) if getattr(it, mark)})
        for mark in ("is_root", "is_swept")
    )
    wrong = []
    for number, it in enumerate(functions):
        name = "::".join(filter(None, (it.crate, it.owner, it.name)))
        if it.is_public and number not in called:
            wrong.append(f"{it.path}: nobody calls {name}")
        elif it.is_public and it.has_memory and number not in swept and it.crate != "fixtures":
            wrong.append(f"{it.path}: nobody calls {name} without memory")
    if wrong:
        sys.exit("\n".join(f"tests/callers.py: {line}" for line in wrong))
    print(f"each of {sum(it.is_public for it in functions)} public functions is called")


if __name__ == "__main__":
    main()
