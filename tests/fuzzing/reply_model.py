"""What a server of a profile replies to a request: the definitions of `docs/definitions/`, over Python's integers.

A catalogue is that of a valid profile without batches after it. Payloads, chains and least sums are counted anew for each
request, in no table.
"""

import hashlib
import json
import re
import tomllib

COHORT_TEXT = re.compile(r"([a-z0-9-]{1,32}):(0|[1-9][0-9]{0,2})")
DIGITS = re.compile(r"[0-9]+")
COMPONENTS = 16


def version_of(string):
    """The version that a client's string counts as, `None` if it spells none."""
    parts = string.split(".")
    if len(parts) > COMPONENTS or not all(DIGITS.fullmatch(part) for part in parts):
        return None
    numbers = [int(part) if len(part) < 4000 else int(part.lstrip("0")[:20] or "0") for part in parts]
    if max(numbers) >= 2**32:
        return None
    return tuple(numbers) + (0,) * (COMPONENTS - len(numbers))


class Release:
    """A release of an app."""

    def __init__(self, table):
        self.shown, self.version = table["version"], version_of(table["version"])
        self.package = table["name"], table["size"], table["sha256"]
        self.stone, self.withdrawn = table.get("stone", False), table.get("withdrawn", False)
        self.audience, self.floor = table.get("audience"), version_of(table.get("floor", "0"))


class App:
    """An app: its cohorts, its releases by ascending version, and its differentials by the versions of both ends."""

    def __init__(self, table):
        self.id, self.default = table["id"], table["default"]
        self.cohorts = {self.default: {}} | {cohort["name"]: cohort for cohort in table.get("cohort", [])}
        self.releases = sorted((Release(release) for release in table.get("release", [])), key=lambda it: it.version)
        self.diffs = {}
        for diff in table.get("diff", []):
            ends = version_of(diff["from"]), version_of(diff["to"])
            self.diffs[ends] = diff["name"], diff["size"], diff["sha256"]

    def find(self, string):
        """The release of a version, `None` without one."""
        version = version_of(string) if string else None
        return next((release for release in self.releases if release.version == version), None)


class Pin:
    """The versions that a prefix allows."""

    def __init__(self, prefix):
        self.prefix, self.is_only = prefix, prefix.endswith("$")
        bare = prefix[:-1] if self.is_only else prefix.removesuffix(".")
        self.version, self.count = version_of(bare), bare.count(".") + 1

    def allows(self, version):
        if self.prefix == "":
            return True
        if self.version is None:
            return False
        return version == self.version if self.is_only else version[: self.count] == self.version[: self.count]


class Track:
    """The clients of a cohort and lane, whether they may be downgraded, and their pin."""

    def __init__(self, app, cohort, lane, rollback, pin):
        self.app, self.cohort, self.pin = app, cohort, pin
        settings = app.cohorts[cohort]
        self.rollback = rollback and settings.get("rollback", False)
        self.target = app.find(settings.get(lane))
        if self.target and pin.prefix != "":
            allowed = [it for it in app.releases if self.is_offered(it) and it.version <= self.target.version]
            self.target = allowed[-1] if allowed else None
        self.prices = {}

    def is_offered(self, release):
        open_to = release.audience is None or self.cohort in release.audience
        return open_to and not release.withdrawn and self.pin.allows(release.version)

    def payloads(self, version, release):
        """The permitted payloads from a place, which is the release or outside at the version: bytes, kind and end."""
        found = []
        for end in self.app.releases if self.target else []:
            if not self.is_offered(end) or version < end.floor:
                continue
            between = [it for it in self.app.releases if it.stone and version < it.version < end.version]
            if version < end.version <= self.target.version and not between:
                found.append((end.package[1], "full", end))
                if release and (version, end.version) in self.app.diffs:
                    found.append((self.app.diffs[version, end.version][1], "diff", end))
            if end.version < version > self.target.version and self.rollback:
                found.append((end.package[1], "full", end))
        return found

    def best(self, version, release):
        """The least sum from a place, and the first payload; `None` if no chain leads to the target."""
        found = []
        for size, kind, end in self.payloads(version, release):
            price = self.price(end)
            if price is not None:
                # of the least sums the highest end, and of two of these the differential
                found.append((-(size + price), end.version, kind == "diff", end))
        if not found:
            return None
        least, _, is_diff, end = max(found, key=lambda it: it[:3])
        return -least, is_diff, end

    def price(self, release):
        if release is self.target:
            return 0
        if release.version not in self.prices:
            best = self.best(release.version, release)
            self.prices[release.version] = best[0] if best else None
        return self.prices[release.version]


class Catalogue:
    """The mirrors and the apps of a profile."""

    def __init__(self, profile):
        document = tomllib.loads(profile)
        self.mirrors = [(it["name"], it["codebase"], it["budget"]) for it in document["mirror"]]
        self.apps = [App(table) for table in document.get("app", [])]

    def app(self, appid):
        return next((app for app in self.apps if app.id.encode().lower() == appid.encode().lower()), None)

    def packages(self):
        """Each declared package: its size and hash by its name."""
        declared = [it.package for app in self.apps for it in app.releases]
        declared += [diff for app in self.apps for diff in app.diffs.values()]
        return {name: (size, hashed) for name, size, hashed in declared}

    def assign(self, app, session, ask):
        """The cohort and the bucket of a client."""
        named = COHORT_TEXT.fullmatch(ask.cohort)
        digest = hashlib.sha256(session.encode()).digest()
        bucket = int(named.group(2)) if named else int.from_bytes(digest[:4], "big") % 1000
        if app.cohorts.get(ask.hint, {}).get("open", False):
            return ask.hint, bucket
        return (named.group(1) if named and named.group(1) in app.cohorts else app.default), bucket

    def choice(self, app, cohort, bucket, ask):
        """What a client is offered: bytes, whether it is a differential, the release, the version before it; or `None`."""
        lane = "target" if bucket < app.cohorts[cohort].get("share", 1000) else "held"
        track = Track(app, cohort, lane, ask.rollback, Pin(ask.prefix))
        at = next((it for it in app.releases if ask.fp == f"1.{it.package[2]}"), None)
        version = at.version if at else version_of(ask.version) or (0,) * COMPONENTS
        if not track.target or at is track.target:
            return None
        best = track.best(version, at)
        if not best:
            return None
        _, is_diff, end = best
        size = app.diffs[version, end.version][1] if is_diff else end.package[1]
        return size, is_diff, end, version


def offer(app, choice, codebase):
    """The members of an update check that offers something."""
    _, is_diff, end, version = choice
    name, size, hashed = end.package
    package = {"fp": f"1.{hashed}", "hash_sha256": hashed, "name": name, "size": size}
    urls = [{"codebase": codebase}]
    if is_diff:
        package["namediff"], package["sizediff"], package["hashdiff_sha256"] = app.diffs[version, end.version]
        urls.append({"codebasediff": codebase})
    manifest = {"packages": {"package": [package]}, "version": end.shown}
    return {"manifest": manifest, "status": "ok", "urls": {"url": urls}}


class Books:
    """What the mirrors were granted."""

    def __init__(self, mirrors):
        self.mirrors, self.totals = mirrors, [0] * len(mirrors)

    def first(self, size):
        """The first mirror with room, `None` if none has."""
        for index, (_, _, budget) in enumerate(self.mirrors):
            if self.totals[index] + size <= budget:
                return index
        return None


def app_reply(catalogue, session, ask, mirror_of):
    """The reply for an app; `mirror_of` returns the mirror that grants so many bytes, or `None`."""
    app = catalogue.app(ask.appid)
    if app is None:
        return {"appid": ask.appid, "status": "error-unknownApplication"}
    cohort, bucket = catalogue.assign(app, session, ask)
    reply = {"appid": ask.appid, "cohort": f"{cohort}:{bucket}", "cohortname": cohort, "status": "ok"}
    if ask.events:
        reply["event"] = [{"status": "ok"}] * ask.events
    if ask.ping:
        reply["ping"] = {"status": "ok"}
    if ask.checks:
        choice = None if ask.disabled else catalogue.choice(app, cohort, bucket, ask)
        mirror = mirror_of(choice[0]) if choice else None
        if choice is None:
            reply["updatecheck"] = {"status": "noupdate"}
        elif mirror is None:
            reply["updatecheck"] = {"status": "error-internal"}
        else:
            reply["updatecheck"] = offer(app, choice, catalogue.mirrors[mirror][1])
    return reply


def reply_bytes(replies, days, seconds):
    """The bytes of a reply with these apps."""
    daystart = {"elapsed_days": days, "elapsed_seconds": seconds}
    reply = {"response": {"app": replies, "daystart": daystart, "protocol": "3.1"}}
    return b")]}'\n" + json.dumps(reply, sort_keys=True, separators=(",", ":"), ensure_ascii=False).encode()
