#!/usr/bin/env python3
"""Draws the pictures of this folder: docs/pictures/draw.py [--check]

`layers.svg` has the groups of crates, as `crates.txt` lists them, each above those that it depends on. `server.svg` has
a running server: its threads, what they share, and the bytes that go in and out. With `--check` it writes nothing, and
exits with 1 if a picture isn't the one that it would draw. `make test` calls it so.
"""

import html
import pathlib
import sys

HERE = pathlib.Path(__file__).resolve().parent
TOP = HERE.parent.parent

# The rows of layers.svg, the highest first, by the groups of crates.txt; programs that only test are left out.
ROWS = (("program", "laws"), ("server",), ("rollout and prices", "client"), ("catalogue", "protocol", "http"), ("base",))
TITLES = {"http": "HTTP"}
STYLE = """<style>
svg { font: 13px sans-serif; fill: #1b1f24 }
.title { font-weight: bold }
.small { font-size: 12px; fill: #3b434d }
rect { fill: #eef3f8; stroke: #5b7083; rx: 6 }
.thread { fill: #e9f5ec; stroke: #4f7f5d }
.shared { fill: #fdf3e3; stroke: #a3782f }
.outside { fill: #ffffff; stroke: #5b7083; stroke-dasharray: 4 3 }
path { fill: none; stroke: #3b434d; stroke-width: 1.3; marker-end: url(#tip) }
</style>
<defs><marker id="tip" markerWidth="9" markerHeight="9" refX="8" refY="4" orient="auto">
<path d="M1,1 L8,4 L1,7" style="marker-end: none"/></marker></defs>"""


def groups():
    """The crates of each group of crates.txt."""
    found, name = {}, None
    for line in (TOP / "crates.txt").read_text(encoding="utf-8").splitlines()[1:]:
        if line.startswith("# "):
            name = line[2:]
            found[name] = []
        elif line.strip():
            found[name].append(line.partition(":")[0])
    return found


def of_class(kind):
    """The attribute of a class, if there is one."""
    return f' class="{kind}"' if kind else ""


def text(x, y, words, kind=""):
    """Words in one line, from a point on."""
    return f'<text x="{x}" y="{y}"{of_class(kind)}>{html.escape(words)}</text>'


def box(x, y, width, height, title, lines=(), kind=""):
    """A box with a title and lines."""
    yield f'<rect x="{x}" y="{y}" width="{width}" height="{height}"{of_class(kind)}/>'
    yield text(x + 12, y + 22, title, "title")
    for number, line in enumerate(lines):
        yield text(x + 12, y + 42 + 17 * number, line, "small")


def arrow(points, label="", x=0, y=0):
    """An arrow along points, with its label at a place."""
    yield f'<path d="M{" L".join(f"{a},{b}" for a, b in points)}"/>'
    if label:
        yield text(x, y, label, "small")


def picture(width, height, title, parts):
    """A whole picture."""
    head = f'<svg xmlns="http://www.w3.org/2000/svg" viewBox="0 0 {width} {height}" role="img">'
    return "\n".join([head, f"<title>{html.escape(title)}</title>", STYLE, *parts, "</svg>", ""])


def wrapped(names, columns):
    """Names in lines of so many columns."""
    lines = [""]
    for name in names:
        if lines[-1] and len(lines[-1]) + len(name) + 2 > columns:
            lines.append("")
        lines[-1] += (", " if lines[-1] else "") + name
    return lines


def layers():
    """The groups of crates, the highest first."""
    known, parts, y, width = groups(), [], 10, 960
    for row in ROWS:
        each = (width - 20 - 12 * (len(row) - 1)) // len(row)
        lines = [wrapped(known[name], each // 7) for name in row]
        height = 38 + 17 * max(map(len, lines))
        for place, name in enumerate(row):
            title = TITLES.get(name, name.capitalize())
            parts += box(10 + place * (each + 12), y, each, height, title, lines[place])
        y += height + 12
    return picture(width, y, "The groups of crates, each above those that it depends on", parts)


def server():
    """A running server: threads, what they share, bytes in and out."""
    parts = [
        *box(10, 60, 170, 74, "clients", ("update checks,", "downloads"), "outside"),
        *box(10, 300, 170, 74, "operator", ("scripts, raises,", "dumps"), "outside"),
        *box(240, 20, 330, 160, "worker threads, 1 to 8", (
            "http_sessions: bytes to messages",
            "service_desks: a message to its reply",
            "replies, quotes: the plan by a table",
            "a view of the editions, a till of the budgets",
            "access_logs: the reply's line"), "thread"),
        *box(240, 280, 330, 110, "the calling thread", (
            "service_desks: a script to an edition",
            "editions, par_tables: catalogue and tables",
            "the press; who raises budgets"), "thread"),
        *box(640, 20, 300, 60, "the published edition", ("written by the press, entered by views",), "shared"),
        *box(640, 100, 300, 60, "a book for each mirror", ("granted on by tills, under a lock",), "shared"),
        *box(640, 180, 300, 60, "the log's thread", ("writes lines from a ring of each worker",), "thread"),
        *box(640, 290, 300, 74, "the folder of packages", ("read block by block, hashed,", "the last block held back"), "outside"),
        *arrow([(180, 85), (240, 85)]),
        *arrow([(240, 110), (180, 110)]),
        *arrow([(180, 325), (240, 325)]),
        *arrow([(240, 350), (180, 350)]),
        *arrow([(640, 50), (570, 50)], "enter", 586, 42),
        *arrow([(570, 125), (640, 125)], "grant", 586, 118),
        *arrow([(570, 165), (640, 205)], "lines", 600, 174),
        *arrow([(640, 320), (605, 320), (605, 240), (540, 180)], "blocks", 612, 282),
        *arrow([(480, 280), (480, 230), (625, 230), (625, 65), (640, 65)], "publish", 490, 224),
        *arrow([(400, 280), (400, 250), (618, 250), (618, 145), (640, 145)], "raise", 408, 264),
    ]
    return picture(950, 400, "A running server: its threads, what they share, and the bytes in and out", parts)


def main():
    wrong = 0
    for name, drawn in (("layers.svg", layers()), ("server.svg", server())):
        path = HERE / name
        if "--check" not in sys.argv[1:]:
            path.write_text(drawn, encoding="utf-8")
        elif not path.exists() or path.read_text(encoding="utf-8") != drawn:
            print(f"docs/pictures/{name}: not what docs/pictures/draw.py draws")
            wrong = 1
    return wrong


if __name__ == "__main__":
    sys.exit(main())
