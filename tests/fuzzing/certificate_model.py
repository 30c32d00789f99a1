"""What `omaha verify` prints of a certificate's bytes: `docs/CERTIFICATES.md`, over the tracks of `reply_model`."""

import re

from fuzzing import reply_model

VERSION = rb"(?:0|[1-9]\d*)(?:\.(?:0|[1-9]\d*)){0,3}"
HEADING = [
    re.compile(rb"prices 1"),
    re.compile(rb"app ([!-~]{1,256})"),
    re.compile(rb"cohort ([a-z0-9-]{1,32})"),
    re.compile(rb"lane (target|held)"),
    re.compile(rb"rollback (no|yes)"),
    re.compile(rb"target (" + VERSION + rb") ([0-9a-f]{64})"),
    re.compile(rb"rows (0|[1-9]\d{0,3})"),
]
ROW = re.compile(rb"(" + VERSION + rb") (?:none|0 (end)|(0|[1-9]\d{0,16}) (full|diff) (" + VERSION + rb"))")


class Fault(Exception):
    """What is wrong with a certificate, as it is printed."""


def is_version(string):
    return all(int(part) < 2**32 for part in string.split(b"."))


class Lines:
    """The lines of a certificate, the first of which is 1."""

    def __init__(self, data):
        self.lines, self.number = data.split(b"\n"), 0
        self.last = self.lines.pop()

    def next(self, pattern):
        """The groups of the next line."""
        self.number += 1
        if self.number > len(self.lines):
            raise Fault(f"P1 BadLine {self.number}")
        found = pattern.fullmatch(self.lines[self.number - 1])
        if not found:
            raise Fault(f"P1 BadLine {self.number}")
        return found.groups()

    def check(self, is_valid, is_of_graph):
        if not is_valid:
            raise Fault(f"P1 BadLine {self.number}")
        if not is_of_graph:
            raise Fault(f"P2 NotOfThisGraph {self.number}")

    def end(self):
        self.number += 1
        if self.number <= len(self.lines) or self.last:
            raise Fault(f"P1 BadLine {self.number}")


def track_of(catalogue, lines):
    """The track of the first five lines, and its app."""
    lines.next(HEADING[0])
    (appid,) = lines.next(HEADING[1])
    app = next((app for app in catalogue.apps if app.id.encode() == appid), None)
    lines.check(True, app is not None)
    (cohort,) = lines.next(HEADING[2])
    lines.check(True, cohort.decode() in app.cohorts)
    (lane,) = lines.next(HEADING[3])
    (rollback,) = lines.next(HEADING[4])
    track = reply_model.Track(app, cohort.decode(), lane.decode(), rollback == b"yes", reply_model.Pin(""))
    if track.target is None or track.rollback != (rollback == b"yes"):
        raise Fault("no track")
    return app, track


def row_of(app, lines, release):
    """The row of a release: nothing, the end, or a price, whether it is a differential and the release that it leads to."""
    version, end, price, kind, to = lines.next(ROW)
    found = app.find(to.decode()) if to and is_version(to) else None
    is_valid = is_version(version) and (not to or (is_version(to) and int(price) < 2**50))
    lines.check(is_valid, version.decode() == release.shown and (not to or (found is not None and found.shown == to.decode())))
    if end:
        return 0, None, None
    return (int(price), kind == b"diff", found) if to else None


def broken(track, release, row, rows):
    """The first rule that a row breaks, or `None`."""
    is_end = row is not None and row[2] is None
    if is_end != (release is track.target):
        return "C1"
    payloads = [it for it in track.payloads(release.version, release) if rows[it[2].version] is not None]
    sums = [(size + rows[end.version][0], kind == "diff", end) for size, kind, end in payloads]
    if sums and (row is None or row[0] > min(it[0] for it in sums)):
        return "C2"
    if row is None or is_end:
        return None
    if not any(row == it for it in sums):
        return "C3"
    first = max((it for it in sums if it[0] == row[0]), key=lambda it: (it[2].version, it[1]))
    return None if row == first else "C4"


def check(catalogue, data):
    lines = Lines(data)
    app, track = track_of(catalogue, lines)
    version, hashed = lines.next(HEADING[5])
    lines.check(is_version(version), (version.decode(), hashed.decode()) == (track.target.shown, track.target.package[2]))
    (count,) = lines.next(HEADING[6])
    lines.check(int(count) <= 512, int(count) == len(app.releases))
    rows = {release.version: row_of(app, lines, release) for release in app.releases}
    lines.end()
    for release in reversed(app.releases):
        rule = broken(track, release, rows[release.version], rows)
        if rule:
            raise Fault(f"wrong {release.shown} {rule}")


def verified(catalogue, data):
    """The line that is printed."""
    try:
        check(catalogue, data)
    except Fault as fault:
        return str(fault)
    return "certified"
