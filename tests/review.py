#!/usr/bin/env python3
"""Compares `omaha review` with all chains of 200 random catalogues: tests/review.py [--program PATH] [--seed N]

`make commands` runs it. Without PATH it builds the program without a proof. Each catalogue has an app of up to seven
releases, with differentials, stones, floors, audiences, withdrawn releases and two cohorts. The whole review is
predicted from a list of all chains, as lines and as JSON objects. Prints the first catalogue whose review differs, and
exits with 1 then.
"""

import argparse
import dataclasses
import json
import pathlib
import random
import subprocess
import sys
import tempfile

TOP = pathlib.Path(__file__).resolve().parent.parent
COUNT = 200
REASONS = [
    ("the target is withdrawn", "withdrawn"),
    ("the target is closed to the cohort", "audience"),
    ("a stone can't be reached", "stone"),
    ("below a floor", "floor"),
    ("above the target without a downgrade", "downgrade"),
]


@dataclasses.dataclass(frozen=True)
class Release:
    """A release: its version is its index and 1, and the floor is such a version or 0."""

    size: int
    withdrawn: bool
    stone: bool
    floor: int
    audience: tuple | None


@dataclasses.dataclass(frozen=True)
class Cohort:
    """A cohort: its targets are versions or 0 for none."""

    name: str
    target: int
    held: int
    rollback: bool


def random_catalogue(source):
    """Releases, differentials by their ends, and cohorts."""
    count = source.randint(1, 7)
    names = ["stable", "beta"]
    releases = [
        Release(
            source.randint(1, 2000),
            source.random() < 0.15,
            source.random() < 0.2,
            source.randint(1, version) if source.random() < 0.2 else 0,
            tuple(source.sample(names, source.randint(1, 2))) if source.random() < 0.15 else None,
        )
        for version in range(1, count + 1)
    ]
    pairs = [(low, high) for high in range(2, count + 1) for low in range(1, high)]
    diffs = {pair: source.randint(1, 500) for pair in pairs if source.random() < 0.3}
    cohorts = [
        Cohort(name, source.randint(0, count), source.randint(0, count), source.random() < 0.5)
        for name in names
    ]
    return releases, diffs, cohorts


def profile_of(catalogue):
    """The catalogue as a profile."""
    releases, diffs, cohorts = catalogue
    lines = ["schema = 2", 'mirror = [{ name = "m0", codebase = "http://m0.example/p/", budget = 1000000 }]']
    lines += ["[[app]]", 'id = "demo"', 'default = "stable"']
    for cohort in cohorts:
        lines += ["[[app.cohort]]", f'name = "{cohort.name}"']
        lines += [f'target = "{cohort.target}.0"'] if cohort.target else []
        lines += [f'held = "{cohort.held}.0"'] if cohort.held else []
        lines += ["rollback = true"] if cohort.rollback else []
    for version, release in enumerate(releases, 1):
        lines += ["[[app.release]]", f'version = "{version}.0"', f'name = "full-{version}"']
        lines += [f"size = {release.size}", f'sha256 = "{version:064x}"']
        lines += ["withdrawn = true"] if release.withdrawn else []
        lines += ["stone = true"] if release.stone else []
        lines += [f'floor = "{release.floor}.0"'] if release.floor else []
        if release.audience is not None:
            lines += ["audience = [" + ", ".join(f'"{name}"' for name in release.audience) + "]"]
    for (low, high), size in diffs.items():
        lines += ["[[app.diff]]", f'from = "{low}.0"', f'to = "{high}.0"', f'name = "diff-{low}-{high}"']
        lines += [f"size = {size}", f'sha256 = "{low * 16 + high + 256:064x}"']
    return "\n".join(lines) + "\n"


class Track:
    """A track: its releases, differentials and cohort, its target, and whether its clients may go back."""

    def __init__(self, releases, diffs, cohort, target, rollback):
        self.releases, self.diffs, self.cohort = releases, diffs, cohort
        self.target, self.rollback = target, rollback

    def without(self, rule):
        """The same track without one of its rules."""
        releases = []
        for version, it in enumerate(self.releases, 1):
            if rule == "withdrawn" and version == self.target:
                it = dataclasses.replace(it, withdrawn=False)
            elif rule == "audience" and version == self.target:
                it = dataclasses.replace(it, audience=None)
            elif rule == "stone":
                it = dataclasses.replace(it, stone=False)
            elif rule == "floor":
                it = dataclasses.replace(it, floor=0)
            releases.append(it)
        return Track(releases, self.diffs, self.cohort, self.target, self.rollback or rule == "downgrade")

    def payloads(self, version):
        """What a client at a version may be offered: the version it leads to, whether a differential, and its bytes."""
        for to, release in enumerate(self.releases, 1):
            closed = release.audience is not None and self.cohort.name not in release.audience
            if release.withdrawn or closed or version < release.floor:
                continue
            jumped = any(self.releases[between - 1].stone for between in range(version + 1, to))
            up = version < to <= self.target and not jumped
            if up or (self.rollback and self.target < version and to < version):
                yield to, False, release.size
            if up and (version, to) in self.diffs:
                yield to, True, self.diffs[version, to]

    def chains(self, version):
        """All chains from a version to the target, each a list of payloads."""
        if version == self.target:
            yield []
        else:
            for payload in self.payloads(version):
                for rest in self.chains(payload[0]):
                    yield [payload, *rest]

    def best(self, version):
        """The least sum from a version and the chain that clients follow, or nothing."""
        sums = [(sum(size for _, _, size in chain), chain) for chain in self.chains(version)]
        if not sums:
            return None
        least = min(total for total, _ in sums)
        firsts = [chain[0] for total, chain in sums if total == least and chain]
        if not firsts:
            return least, []
        first = max(firsts)
        return least, [first, *self.best(first[0])[1]]

    def reason(self, version):
        """Why a version is stuck."""
        for words, rule in REASONS:
            if any(True for _ in self.without(rule).chains(version)):
                return words
        return "several rules"

    def lines(self, lane):
        """The lines of the review."""
        name = f"demo {self.cohort.name} {lane} {'yes' if self.rollback else 'no'}"
        versions = range(1, len(self.releases) + 1)
        best = {version: self.best(version) for version in versions}
        stuck = [version for version in versions if best[version] is None]
        yield f"track   {name}: target {self.target}.0, {len(versions)} releases, {len(stuck)} stuck"
        for version in stuck:
            yield f"stuck   {name}: {version}.0, {self.reason(version)}"
        going = [version for version in versions if best[version] and version != self.target]
        for word, key in ("largest", lambda v: best[v][0]), ("longest", lambda v: len(best[v][1])):
            if not going:
                yield f"{word} {name}: none"
                continue
            first = max(going, key=lambda version: (key(version), -version))
            yield f"{word} {name}: {first}.0, {len(best[first][1])} steps, {best[first][0]} bytes"
        new = self.best(0)
        yield f"new     {name}: " + (f"{new[0]} bytes" if new else "stuck")

    def objects(self, lane):
        """The objects of the review."""
        track = {"app": "demo", "cohort": self.cohort.name, "lane": lane, "downgrade": self.rollback}
        best = {version: self.best(version) for version in range(1, len(self.releases) + 1)}
        stuck = [version for version, chain in best.items() if chain is None]
        counts = {"target": f"{self.target}.0", "releases": len(best), "stuck": len(stuck)}
        yield {"kind": "track"} | track | counts
        for version in stuck:
            yield {"kind": "stuck", "version": f"{version}.0", "reason": self.reason(version)} | track
        going = [version for version in best if best[version] and version != self.target]
        for kind, key in ("largest", lambda v: best[v][0]), ("longest", lambda v: len(best[v][1])):
            for first in sorted(going, key=lambda version: (-key(version), version))[:1]:
                chain = {"from": f"{first}.0", "steps": len(best[first][1]), "bytes": best[first][0]}
                yield {"kind": kind} | track | chain
        new = self.best(0)
        yield {"kind": "new", "bytes": new[0] if new else None} | track


def tracks_of(catalogue):
    """The tracks of a catalogue that have a target, with their lanes."""
    releases, diffs, cohorts = catalogue
    for cohort in cohorts:
        for lane, target in ("target", cohort.target), ("held", cohort.held):
            for rollback in [False, True] if cohort.rollback else [False]:
                if target:
                    yield Track(releases, diffs, cohort, target, rollback), lane


def review_of(catalogue, flag):
    """What is printed of a catalogue by a flag, `--all` or `--json`."""
    lines, objects, tracks = [], [], 0
    for track, lane in tracks_of(catalogue):
        tracks += 1
        lines += track.lines(lane)
        objects += track.objects(lane)
    releases = tracks * len(catalogue[0])
    stuck = sum(line.startswith("stuck") for line in lines)
    lines.append(f"total   {tracks} tracks, {releases} releases, {stuck} stuck")
    objects.append({"kind": "summary", "tracks": tracks, "releases": releases, "stuck": stuck})
    if flag == "--json":
        lines = [json.dumps(it, sort_keys=True, separators=(",", ":")) for it in objects]
    return "".join(f"{line}\n" for line in lines)


def built_reviews(folder, names, flag):
    """What a program that is built without a proof prints of each profile of a folder."""
    for name in names:
        pathlib.Path(folder, f"{name}.args").write_text(f"review\n{flag}\n{{}}\n")
    words = ["rt", "try", "--cases", folder]
    ran = subprocess.run(words, cwd=TOP / "crates" / "omaha", capture_output=True, text=True)
    parts = [part.partition("\n") for part in ran.stdout.split("== ")[1:]]
    return {name: output for name, _, output in parts}


def program_reviews(program, folder, names, flag):
    """What a program prints of each profile of a folder."""
    found = {}
    for name in names:
        words = [program, "review", flag, f"{folder}/{name}"]
        found[name] = subprocess.run(words, capture_output=True, text=True).stdout
    return found


def compare(catalogues, flag, found):
    """Exits with the first catalogue whose review isn't what was found by a flag."""
    for name, catalogue in catalogues.items():
        wanted = review_of(catalogue, flag)
        if found.get(name, "").strip() != wanted.strip():
            sys.exit(f"{profile_of(catalogue)}\nwanted:\n{wanted}\nfound:\n{found.get(name)}")


def main():
    parser = argparse.ArgumentParser()
    parser.add_argument("--program")
    parser.add_argument("--seed", type=int, default=1)
    asked = parser.parse_args()
    source = random.Random(asked.seed)
    catalogues = {f"case{index}": random_catalogue(source) for index in range(COUNT)}
    with tempfile.TemporaryDirectory() as folder:
        for name, catalogue in catalogues.items():
            pathlib.Path(folder, name).write_text(profile_of(catalogue))
        for flag in "--all", "--json":
            if asked.program:
                found = program_reviews(asked.program, folder, catalogues, flag)
            else:
                found = built_reviews(folder, catalogues, flag)
            compare(catalogues, flag, found)
    print(f"{COUNT} catalogues are reviewed as all of their chains say")


main()
