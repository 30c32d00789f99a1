#!/usr/bin/env python3
"""Counts retired words in documents, comments and names, and prints each place with a better word.

It reads README, `docs/`, the documents of `examples/`, the comments of all code, specs, proofs, rows and
scripts, the docstrings, the strings of `--help` and of `explain`, and the names of the rows, of the must-fail edits, of
the functions, types, constants and modules of the code, and of the definitions in specs. Code between backticks is exempt, and so are
the names of the public surface below, options and printed codes. `tests/words.py` fails if it finds one;
`tests/words.py PATH ..` reads only the files whose path begins so.
"""

import io
import os
import re
import sys
import tokenize

TOP = os.path.dirname(os.path.dirname(os.path.abspath(__file__)))

# A pattern, and what to write instead.
RETIRED = [
    (r"wants? of memory", "out of memory"),
    (r"answer(s|ed|ing)?", "return, reply"),
    (r"tells?|telling|told", "report, print, say"),
    (r"the words (of|after|that)|(in|with|without|by|of|from|right) (the )?words", "the arguments"),
    (r"(no )?good|bad|is right|right (bytes|words|text)", "valid, invalid"),
    (r"(has|have|had|of|not|in) (no |the )?form (of|that)?|(has|have|had|of) (the|no|not the) forms?", "is well formed, is valid"),
    (r"(is|are|be|was|were) taken", "is accepted"),
    (r"refus(e|es|ed|ing|al|als)", "is rejected, error"),
    (r"stands?|stood|standing", "is"),
    (r"behind|in front of", "after, before"),
    (r"where (there (is|are|was|were|isn't|aren't)|memory|none|nothing|no \w+ (is|are|has|have|leads)|it (has|does|doesn't|isn't))", "if"),
    (r"(only|also|except|even|unless) where", "if"),
    (r"moments?", "timestamp, time"),
    (r"(open|stone|withdrawn|rollback) marks?", "flag"),
    (r"(is|are|be) led down|lowers|lowered|lowering", "is downgraded"),
    (r"(leads?|led) on", "reaches the target"),
    (r"wish(es|ed)?", "update check, requested bytes"),
    (r"lends?|lent", "borrows, borrowed"),
    (r"most_\w+|MOST_\w+", "max_.., MAX_.."),
    (r"(dear|cheap)(er|est|ly)?", "large, expensive; small"),
    (r"a share of clients", "a percentage of clients"),
    (r"strand(s|ed|ing)?", "leaves stuck"),
    (r"no clauses? (can|could) (say|express)|clauses? can't say", "the contract cannot express"),
    (r"(?<!cohort )texts?", "string, bytes"),
]
WORDS = [(re.compile(rf"(?<![\w-])(?:{pattern})(?![\w-])", re.IGNORECASE), better) for pattern, better in RETIRED]

CODE = re.compile(r"`[^`]*`")
COMMENTS = {
    ".rt": re.compile(r"(?:^|\s)//[/!]? ?(?!rule: )(.*)"),
    ".antt": re.compile(r"(?:^|\s)--+ (?!rule: )(.*)"),
    ".toml": re.compile(r"(?:^|\s)# ?(.*)"),
    ".rows": re.compile(r"^(?:# (?!rule: )|== )(.*)"),
    ".setup": re.compile(r"^# (.*)"),
    "Makefile": re.compile(r"^# ?(.*)"),
}
HELP = re.compile(r"crates/omaha_arguments/src/\w+\.rt$")
STRING = re.compile(r'^const \w+: &str =\s*"((?:[^"\\]|\\.)*)"', re.DOTALL | re.MULTILINE)
EXPLANATIONS = re.compile(r"crates/failures/src/explanations/\w+\.rt$")
# (an explanation begins with a line of its code and name)
EXPLANATION = re.compile(r'^ +"[^"\n]*\n((?:[^"\\]|\\.)*)"', re.DOTALL | re.MULTILINE)

ITEM = re.compile(r"^\s*(?:pub(?:\(\w+\))? )?(?:const )?(?:fn|struct|enum|trait|const|static|type|mod) (\w+)", re.MULTILINE)
DEFINITION = re.compile(r"^(?:abbrev pub|unfoldable pub|pub record|pub data|pub) (\w+)", re.MULTILINE)
PART = re.compile(r"[A-Z]?[a-z]+|[A-Z]+(?![a-z])|\d+")

# Names of the public surface: `Answer` and `Desk::answer`, `Text`, `CohortText`, `BadEntry`, `Refused`, and what is named after them.
FIXED = re.compile(r"\banswer(s|ing)?\b|\bcohort texts?\b|^text$|\bbad entry\b|\brefused\b")


def names(text, pattern):
    """The names that a file gives: the number of each line, and the words of the name that are not fixed.

    A name that begins with `MOST_` or `most_` is given whole: its words alone would not be found.
    """
    for found in pattern.finditer(text):
        name = found.group(1)
        words = " ".join(PART.findall(name)).lower()
        line = text.count("\n", 0, found.start(1)) + 1
        yield line, name if name.lower().startswith("most_") else FIXED.sub("", words)


def comments(text, pattern):
    """The comments of a file: the number of each line, and what is written there."""
    for number, line in enumerate(text.split("\n"), 1):
        found = pattern.search(line)
        if found:
            yield number, found.group(1)


def docstrings(text):
    """The comments and docstrings of a script, line by line."""
    for token in tokenize.generate_tokens(io.StringIO(text).readline):
        if token.type == tokenize.COMMENT or token.type == tokenize.STRING and token.string.startswith('"""'):
            for below, line in enumerate(token.string.split("\n")):
                yield token.start[0] + below, line


def strings(text, pattern):
    """The strings that a file prints, line by line."""
    for found in pattern.finditer(text):
        first = text.count("\n", 0, found.start()) + 1
        for below, line in enumerate(found.group(1).split("\n")):
            yield first + below, line


def prose(path, text):
    """What a file says to its reader, line by line."""
    name, suffix = os.path.basename(path), os.path.splitext(path)[1]
    if suffix == ".edit":
        yield 1, name.removesuffix(".edit").replace("_", " ")
    if suffix == ".md":
        yield from enumerate(text.split("\n"), 1)
    elif suffix == ".py":
        yield from docstrings(text)
    elif suffix in COMMENTS or name in COMMENTS:
        yield from comments(text, COMMENTS.get(suffix) or COMMENTS[name])
    if suffix == ".rt":
        yield from names(text, ITEM)
    if suffix == ".antt" and "/specs/" in path:
        yield from names(text, DEFINITION)
    if HELP.search(path):
        yield from strings(text, STRING)
    if EXPLANATIONS.search(path):
        yield from strings(text, EXPLANATION)


def files():
    for folder, below, names in os.walk(TOP):
        below[:] = sorted(name for name in below if name not in (".git", "out", "__pycache__"))
        for name in sorted(names):
            yield os.path.relpath(os.path.join(folder, name), TOP)


def main():
    asked = tuple(sys.argv[1:]) or ("",)
    found = []
    for path in files():
        if path == "tests/words.py" or not path.startswith(asked):
            continue
        if os.path.splitext(path)[1] not in (".md", ".edit", *COMMENTS, ".py") and path != "Makefile":
            continue
        with open(os.path.join(TOP, path), encoding="utf-8") as file:
            text = file.read()
        for number, line in prose(path, text):
            for word, better in WORDS:
                for match in word.finditer(CODE.sub("``", line)):
                    found.append(f"{path}:{number}: {match.group(0)}: better: {better}")
    for line in found:
        print(line, file=sys.stderr)
    print(f"{len(found)} retired words in documents, comments and names")
    return 1 if found else 0


if __name__ == "__main__":
    sys.exit(main())
