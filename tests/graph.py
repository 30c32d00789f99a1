#!/usr/bin/env python3
"""Tests that other programs read what `omaha graph` prints: tests/graph.py [--program PATH] [--to FOLDER]

PATH is the built program, else that of the last build. Each profile of `examples/` and three that are made here are drawn:
one with forty releases, one whose names are markup, and one without a target. Python's XML parser has to read each SVG
image, which may name no other file and have no script; Graphviz' `dot`, if it is installed, has to read each graph. Prints
what is wrong, and exits with 1 then. With `--to` the images stay in FOLDER.
"""

import argparse
import pathlib
import re
import shutil
import subprocess
import sys
import tempfile
import xml.etree.ElementTree

TOP = pathlib.Path(__file__).resolve().parent.parent
EXAMPLES = TOP / "examples"
SVG = "{http://www.w3.org/2000/svg}"


def release(number, version, size, more=""):
    return f'[[app.release]]\nversion = "{version}"\nname = "r{number}.bin"\nsize = {size}\nsha256 = "{number:064x}"\n{more}\n'


def difference(number, start, end, size):
    return f'[[app.diff]]\nfrom = "{start}"\nto = "{end}"\nname = "d{number}.bin"\nsize = {size}\nsha256 = "{number:064x}"\n\n'


def profile(name, cohort, parts):
    head = 'schema = 1\n[[mirror]]\nname = "m0"\ncodebase = "http://m0.example/p/"\nbudget = 1\n'
    return f'{head}[[app]]\nid = {name}\ndefault = "stable"\n{cohort}{"".join(parts)}'


def forty():
    """Forty releases, of which every ninth is a stone, with a differential after every other one."""
    versions = [f"{number // 10 + 1}.{number % 10}" for number in range(40)]
    parts = [release(at + 1, version, 60000000 + at * 700001, "stone = true\n" if at % 9 == 4 else "") for at, version in enumerate(versions)]
    parts += [difference(at + 1, versions[at], versions[at + 1], 9000 * 3 ** (at % 7)) for at in range(0, 39, 2)]
    cohorts = [f'[[app.cohort]]\nname = "stable"\ntarget = "{versions[39]}"\n', f'[[app.cohort]]\nname = "early"\ntarget = "{versions[30]}"\nrollback = true\n']
    return profile('"editor"', "".join(cohorts), parts)


def profiles():
    """The profiles by their names."""
    found = {path.stem: path.read_text(encoding="utf-8") for path in sorted(EXAMPLES.glob("*.toml"))}
    found["forty"] = forty()
    found["hostile"] = profile('"<b>&amp;\\"\'\\\\N]]>"', '[[app.cohort]]\nname = "stable"\ntarget = "1.0"\n', [release(1, "1.0", 7)])
    found["plain"] = profile('"plain"', '[[app.cohort]]\nname = "stable"\n', [release(1, "1.0", 7)])
    return found


def unescaped(name):
    return re.sub(r"\\(.)", r"\1", name)


def apps_of(text):
    """The identifiers of a profile's apps."""
    return [unescaped(name) for name in re.findall(r'(?m)^id = "((?:\\.|[^"\\])*)"', text)]


def draw(program, path, app, *options):
    ran = subprocess.run([program, "graph", path, app, *options], capture_output=True, check=False)
    if ran.returncode != 0 or ran.stderr:
        sys.exit(f"tests/graph.py: {path} {app}: {ran.stderr.decode()}")
    return ran.stdout


def faults_of_image(image, app, releases):
    """What is wrong with an SVG image."""
    root = xml.etree.ElementTree.fromstring(image)
    shapes = [group for group in root.iter(f"{SVG}g") if group.get("class", "").startswith("release") and group.find(f"{SVG}title") is not None]
    names = {element.tag.removeprefix(SVG) for element in root.iter()}
    links = [key for element in root.iter() for key in element.attrib if "href" in key or key.startswith("on")]
    if root.find(f"{SVG}title").text != app:
        yield f"its title is {root.find(f'{SVG}title').text}"
    if len(shapes) != releases:
        yield f"it has {len(shapes)} releases, and not {releases}"
    if links or names & {"script", "image", "use", "foreignObject"}:
        yield "it has a link or a script"


def faults_of_graph(graph, releases):
    """What is wrong with a graph, as `dot` reads it; nothing without `dot`."""
    dot = shutil.which("dot")
    if not dot:
        return
    ran = subprocess.run([dot, "-Tsvg"], input=graph, capture_output=True, check=False)
    if ran.returncode != 0 or ran.stderr:
        yield f"dot: {ran.stderr.decode()}"
        return
    nodes = ran.stdout.decode().count('class="node"')
    if nodes != releases:
        yield f"dot draws {nodes} releases, and not {releases}"


def main():
    parser = argparse.ArgumentParser(description=__doc__, formatter_class=argparse.RawDescriptionHelpFormatter)
    parser.add_argument("--program", default=str(TOP / "crates" / "omaha" / "out" / "omaha"))
    parser.add_argument("--to")
    asked = parser.parse_args()
    wrong, drawn = [], 0
    with tempfile.TemporaryDirectory() as folder:
        for name, text in profiles().items():
            path = pathlib.Path(folder, f"{name}.toml")
            path.write_text(text, encoding="utf-8")
            for app in apps_of(text):
                part = text.split("[[app]]\n")[1 + apps_of(text).index(app)]
                releases = part.count("[[app.release]]")
                image = draw(asked.program, path, app)
                wrong += [f"{name}, {app}: {fault}" for fault in faults_of_image(image, app, releases)]
                wrong += [f"{name}, {app}: {fault}" for fault in faults_of_graph(draw(asked.program, path, app, "--dot"), releases)]
                drawn += 1
                if asked.to:
                    pathlib.Path(asked.to, f"{name}-{drawn}.svg").write_bytes(image)
    print("\n".join(wrong) or f"{drawn} apps are drawn; {'dot' if shutil.which('dot') else 'an XML parser alone'} reads them")
    sys.exit(bool(wrong))


if __name__ == "__main__":
    main()
