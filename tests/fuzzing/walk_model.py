"""What a client makes of a reply's bytes, and what a walk may print of what it was sent."""

import hashlib
import re

from fuzzing import json_model

HASH = re.compile(r"[0-9a-fA-F]{64}")
STEP = re.compile(rb"step (\d+) (full|diff) (.*) (\d+)")
DONE = re.compile(rb"done (\d+) steps (\d+) bytes")
FAILURE = re.compile(rb"omaha: (U1 Link|U2 Reply|U3 BadLength|U4 BadHash|U6 NoProgress|U7 TooManySteps|U8 Busy)\n")


def is_package(name, size, hashed):
    is_size = isinstance(size, int) and not isinstance(size, bool) and 1 <= size <= 2**40
    return isinstance(name, str) and is_size and isinstance(hashed, str) and HASH.fullmatch(hashed) is not None


def at(value, *keys):
    for key in keys:
        value = value.get(key) if isinstance(value, dict) else None
    return value


def addresses(check, key):
    listed = at(check, "urls", "url")
    return [it[key] for it in listed if isinstance(it, dict) and isinstance(it.get(key), str)] if isinstance(listed, list) else []


def is_offer(check):
    """Whether an update check of the status `ok` offers something."""
    packages = at(check, "manifest", "packages", "package")
    if not isinstance(packages, list) or len(packages) != 1 or not isinstance(packages[0], dict):
        return False
    package = packages[0]
    if not isinstance(at(check, "manifest", "version"), str) or not isinstance(package.get("fp"), str):
        return False
    if not addresses(check, "codebase") or not is_package(package.get("name"), package.get("size"), package.get("hash_sha256")):
        return False
    diff = [package.get(key) for key in ("namediff", "sizediff", "hashdiff_sha256")]
    has_diff = all(key in package for key in ("namediff", "sizediff", "hashdiff_sha256")) and addresses(check, "codebasediff")
    return not has_diff or is_package(*diff)


def is_app(app):
    if not isinstance(app, dict) or not isinstance(app.get("appid"), str) or not isinstance(app.get("status"), str):
        return False
    check = app.get("updatecheck")
    return app["status"] != "ok" or not isinstance(check, dict) or check.get("status") != "ok" or is_offer(check)


def reply_fault(data):
    """The fault K1 to K5 of a reply, or `None`."""
    if not data.startswith(b")]}'"):
        return "K1 NoPrefix"
    try:
        value = json_model.value_of(data[4:])
    except json_model.Invalid:
        return "K2 NotJson"
    response = at(value, "response")
    if not isinstance(response, dict):
        return "K3 NoResponse"
    if response.get("protocol") != "3.1":
        return "K4 BadProtocol"
    apps = response.get("app", [])
    if not isinstance(apps, list):
        return "K5 BadOffer 0"
    return next((f"K5 BadOffer {index}" for index, app in enumerate(apps) if not is_app(app)), None)


def heard(data, app):
    """What the status of an update check says to a client of the app: `ok`, `noupdate` or `error-internal`, else `None`."""
    apps = [] if reply_fault(data) else json_model.value_of(data[4:])["response"].get("app", [])
    if len(apps) != 1 or apps[0]["appid"].lower() != app or apps[0]["status"] != "ok":
        return None
    status = at(apps[0], "updatecheck", "status")
    return status if status in ("ok", "noupdate", "error-internal") else None


def first_fault(status, output, errors, said):
    """What is wrong with what a walk printed, by what its first reply said; or `None`."""
    if said == "ok":
        is_right = output != b"" or errors != b"omaha: U2 Reply\n"
    elif said == "noupdate":
        is_right = status == 0
    else:
        wanted = b"omaha: U8 Busy\n" if said else b"omaha: U2 Reply\n"
        is_right = (output, errors) == (b"", wanted)
    return None if is_right else f"after {said}: {status}, {output[:200]!r}, {errors[:200]!r}"


def hosts(value):
    """The strings of a value that hold an address."""
    if isinstance(value, str):
        return [value] if "://" in value or value.startswith("/") else []
    items = [*value, *value.values()] if isinstance(value, dict) else value if isinstance(value, list) else []
    return [host for item in items for host in hosts(item)]


def is_local(data):
    """Whether no address of a reply leads away from the loopback."""
    try:
        found = hosts(json_model.value_of(data[4:]))
    except json_model.Invalid:
        return True
    return all(re.match(r"\w*://(a@)?127\.0\.0\.1(:\d+)?/", host) for host in found)


def walk_fault(status, output, errors, posts, bodies):
    """What is wrong with what a walk printed, by the replies and the whole downloads that it got; or `None`."""
    lines = output.split(b"\n")
    if lines.pop() != b"":
        return "a last line without an end"
    last = lines.pop() if status == 0 and lines else None
    total = 0
    for number, line in enumerate(lines, 1):
        step = STEP.fullmatch(line)
        if not step or int(step.group(1)) != number:
            return f"step {number} is printed as {line[:200]!r}"
        if number > len(bodies) or bodies[number - 1] is None:
            return f"step {number} without a whole download"
        body, reply = bodies[number - 1], posts[number - 1] if number <= len(posts) else b""
        total += int(step.group(4))
        if int(step.group(4)) != len(body):
            return f"step {number} of {len(body)} bytes is printed as {line[:200]!r}"
        if b"\\" not in reply and hashlib.sha256(body).hexdigest().encode() not in reply.lower():
            return f"step {number} has another hash than was offered"
    if status == 0:
        done = DONE.fullmatch(last or b"")
        if not done or (int(done.group(1)), int(done.group(2))) != (len(lines), total):
            return f"after {len(lines)} steps of {total} bytes: {last!r}"
        return None
    return None if FAILURE.fullmatch(errors) else f"standard error is {errors[:200]!r}"
