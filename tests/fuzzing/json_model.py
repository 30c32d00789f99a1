"""What a request's bytes are: its first fault, or its asks. It has RFC 8259 as the server reads it, by Python's reader."""

import json
import re

DEEPEST = 127
MOST_APPS = 256
STRING = re.compile(rb'"(?:[^"\\]|\\.)*"?', re.DOTALL)


class Invalid(Exception):
    """The bytes have no value."""


def number(digits):
    found = float(digits)
    if found in (float("inf"), float("-inf")):
        raise Invalid
    return found


def whole(digits):
    if len(digits) > 300:
        number(digits)
        return 0
    return int(digits)


def reject(_):
    raise Invalid


READER = json.JSONDecoder(parse_float=number, parse_int=whole, parse_constant=reject)


def depth(data):
    """How deep lists and objects nest."""
    deepest = now = 0
    for byte in STRING.sub(b"", data):
        if byte in b"[{":
            now += 1
            deepest = max(deepest, now)
        elif byte in b"]}":
            now -= 1
    return deepest


def has_lone(value):
    """Whether a string of a value has half of a pair of surrogates."""
    if isinstance(value, str):
        return any("\ud800" <= character <= "\udfff" for character in value)
    if isinstance(value, list):
        return any(has_lone(item) for item in value)
    if isinstance(value, dict):
        return any(has_lone(key) or has_lone(item) for key, item in value.items())
    return False


def hidden_lone(data):
    """Whether an escape is half of a pair; the reader drops the earlier of two members of one name."""
    escapes = re.findall(rb"(?<!\\)(?:\\\\)*((?:\\u[0-9a-fA-F]{4})+)", data)
    for run in escapes:
        values = [int(four, 16) for four in re.findall(rb"u(....)", run)]
        at = 0
        while at < len(values):
            if 0xD800 <= values[at] < 0xDC00:
                if at + 1 == len(values) or not 0xDC00 <= values[at + 1] < 0xE000:
                    return True
                at += 1
            elif 0xDC00 <= values[at] < 0xE000:
                return True
            at += 1
    return False


def value_of(data):
    """The value of the bytes; `Invalid` if there is none."""
    if depth(data) > DEEPEST:
        raise Invalid
    try:
        value = READER.decode(data.decode("utf-8"))
    except (ValueError, RecursionError):
        raise Invalid from None
    if b"\\u" in data and (has_lone(value) or hidden_lone(data)):
        raise Invalid
    return value


def string(value):
    return value if isinstance(value, str) else ""


class Ask:
    """What a request asks for an app."""

    def __init__(self, app):
        self.appid = app["appid"]
        self.version, self.cohort, self.hint = (string(app.get(key)) for key in ("version", "cohort", "cohorthint"))
        packages = app.get("packages")
        packages = packages.get("package") if isinstance(packages, dict) else None
        first = packages[0] if isinstance(packages, list) and packages else None
        self.fp = string(first.get("fp")) if isinstance(first, dict) else ""
        check = app.get("updatecheck")
        self.checks = isinstance(check, dict)
        check = check if self.checks else {}
        self.disabled, self.rollback = check.get("updatedisabled") is True, check.get("rollback_allowed") is True
        self.prefix = string(check.get("targetversionprefix"))
        self.ping = isinstance(app.get("ping"), dict)
        events = app.get("event")
        self.events = len(events) if isinstance(events, list) else 0


def is_app(app):
    appid = app.get("appid") if isinstance(app, dict) else None
    return isinstance(appid, str) and 1 <= len(appid.encode("utf-8")) <= 256


def read_request(data):
    """The first fault of a request, or `None`; its session; its asks."""
    try:
        value = value_of(data)
    except Invalid:
        return "J1 NotJson", "", []
    request = value.get("request") if isinstance(value, dict) else None
    if not isinstance(request, dict):
        return "J2 NoRequest", "", []
    if request.get("protocol") != "3.1":
        return "J3 BadProtocol", "", []
    apps = request.get("app", [])
    if not isinstance(apps, list):
        return "J4 BadApp 0", "", []
    for index, app in enumerate(apps):
        if not is_app(app):
            return f"J4 BadApp {index}", "", []
    if len(apps) > MOST_APPS:
        return "J5 TooManyApps", "", []
    return None, string(request.get("sessionid")), [Ask(app) for app in apps]
