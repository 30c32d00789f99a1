"""The first fault of F1 to F5 of a profile's or a script's bytes, by Python's reader of TOML 1.0.

The program reads TOML 1.1, so bytes that Python rejects may be a profile. Of these, and of some values whose limits differ,
nothing is known.
"""

import math
import re
import tomllib

UNKNOWN = "unknown"
DEEP = 60
MIRROR_NAME = re.compile(r"[a-z0-9-]{1,32}")
CODEBASE = re.compile(r'http://[^"#?\\\x00- \x7f-\U0010ffff]+/|http://[^"#?\\\x00- \x7f-\U0010ffff]*/')
MIRROR = [("name", "string", True), ("codebase", "string", True), ("budget", "integer", True)]
COHORT = [
    ("name", "string", True), ("target", "string", False), ("held", "string", False), ("share", "integer", False),
    ("rollback", "boolean", False), ("open", "boolean", False),
]  # fmt: skip
PACKAGE = [("name", "string", True), ("size", "integer", True), ("sha256", "string", True)]
RELEASE = [
    ("version", "string", True), *PACKAGE, ("stone", "boolean", False), ("withdrawn", "boolean", False), ("audience", "strings", False),
]  # fmt: skip
DIFF = [("from", "string", True), ("to", "string", True), *PACKAGE]
APP = [("id", "string", True), ("default", "string", True), *((key, "tables", False) for key in ("cohort", "release", "diff"))]
FLAG = [("app", "string", True), ("version", "string", True), ("on", "boolean", True)]
OF_COHORT = [("app", "string", True), ("cohort", "string", True)]
EDITS = {
    "add_app": [("app", "string", True), ("default", "string", True)],
    "add_cohort": OF_COHORT,
    "add_release": [("app", "string", True), ("version", "string", True), *PACKAGE],
    "add_diff": [("app", "string", True), *DIFF],
    "set_target": [*OF_COHORT, ("target", "string", False), ("held", "string", False)],
    "set_share": [*OF_COHORT, ("share", "integer", True)],
    "set_rollback": [*OF_COHORT, ("on", "boolean", True)],
    "set_open": [*OF_COHORT, ("on", "boolean", True)],
    "set_stone": FLAG,
    "set_withdrawn": FLAG,
    "set_audience": [("app", "string", True), ("version", "string", True), ("cohorts", "strings", False)],
    "set_floor": [("app", "string", True), ("version", "string", True), ("floor", "string", True)],
}


class Fault(Exception):
    """A fault of the bytes, as it is printed; or `UNKNOWN`."""


def document_of(data):
    """The document of the bytes."""
    try:
        document = tomllib.loads(data.decode("utf-8"))
    except UnicodeDecodeError:
        raise Fault("F1 NotToml") from None
    except (ValueError, RecursionError, OverflowError):
        raise Fault(UNKNOWN) from None
    check_values(document, 0)
    return document


def check_values(value, depth):
    if depth > DEEP or (isinstance(value, float) and math.isinf(value)):
        raise Fault(UNKNOWN)
    if isinstance(value, int) and not -(2**63) <= value < 2**63:
        raise Fault("F1 NotToml")
    items = value.values() if isinstance(value, dict) else value if isinstance(value, list) else ()
    for item in items:
        check_values(item, depth + 1)


def is_control(character):
    return character < " " or "\x7f" <= character < "\xa0" or "\u2000" <= character <= "\u203f"


def shown(key):
    """A key as it is printed in a path."""
    if key == "":
        return '""'
    if not any(is_control(character) for character in key):
        return key
    return "".join(chr(byte) if 32 <= byte < 127 else f"%{byte:02X}" for byte in key.encode())


def reject(path, key):
    raise Fault(f"F3 BadEntry {path + '.' if path else ''}{shown(key)}")


def is_of(kind, value):
    if kind == "integer":
        return isinstance(value, int) and not isinstance(value, bool) and value >= 0
    return isinstance(value, {"string": str, "boolean": bool}.get(kind, list))


def check_table(table, path, keys):
    """The keys of a table: the unknown ones first, by their bytes."""
    unknown = sorted(set(table) - {key for key, _, _ in keys}, key=str.encode)
    if unknown:
        reject(path, unknown[0])
    for key, kind, is_required in keys:
        if key not in table:
            if is_required:
                reject(path, key)
            continue
        if not is_of(kind, table[key]):
            reject(path, key)
        if kind in ("tables", "strings"):
            for index, item in enumerate(table[key]):
                if not isinstance(item, dict if kind == "tables" else str):
                    reject(path, f"{key}[{index}]")


def schema_of(document):
    schema = document.get("schema")
    if isinstance(schema, bool) or schema not in (1, 2) or not isinstance(schema, int):
        raise Fault("F2 BadSchema")
    return schema


def is_mirror(mirror):
    name, codebase = mirror["name"], mirror["codebase"]
    return MIRROR_NAME.fullmatch(name) and 9 <= len(codebase) <= 256 and CODEBASE.fullmatch(codebase) and mirror["budget"] <= 2**60


def check_mirrors(mirrors):
    if not mirrors:
        raise Fault("F4 BadMirror 0")
    if len(mirrors) > 4:
        raise Fault("F4 BadMirror 4")
    for index, mirror in enumerate(mirrors):
        if not is_mirror(mirror) or any(it["name"] == mirror["name"] for it in mirrors[:index]):
            raise Fault(f"F4 BadMirror {index}")


def check_profile(data):
    document = document_of(data)
    release = RELEASE + ([("floor", "string", False)] if schema_of(document) == 2 else [])
    check_table(document, "", [("schema", "integer", True), ("mirror", "tables", True), ("app", "tables", False)])
    for index, mirror in enumerate(document["mirror"]):
        check_table(mirror, f"mirror[{index}]", MIRROR)
    for index, app in enumerate(document.get("app", [])):
        path = f"app[{index}]"
        check_table(app, path, APP)
        for key, keys in (("cohort", COHORT), ("release", release), ("diff", DIFF)):
            for at, table in enumerate(app.get(key, [])):
                check_table(table, f"{path}.{key}[{at}]", keys)
            if key == "cohort" and len({it["name"] for it in app.get("cohort", [])}) < len(app.get("cohort", [])):
                raise Fault(UNKNOWN)
    check_mirrors(document["mirror"])
    return document


def check_script(data):
    document = document_of(data)
    schema = schema_of(document)
    check_table(document, "", [("schema", "integer", True), ("base", "integer", True), ("edit", "tables", False)])
    for index, edit in enumerate(document.get("edit", [])):
        verb, path = edit.get("do"), f"edit[{index}]"
        if not isinstance(verb, str) or verb not in EDITS or (verb == "set_floor" and schema == 1):
            reject(path, "do")
        check_table({key: value for key, value in edit.items() if key != "do"}, path, EDITS[verb])
    if len(document.get("edit", [])) > 4096:
        raise Fault("F5 TooManyEdits")
    return document


def fault_of(check, data):
    """The first fault by `check_profile` or `check_script`, `None` if there is none, or `UNKNOWN`; and the document."""
    try:
        return None, check(data)
    except Fault as fault:
        return str(fault), None
