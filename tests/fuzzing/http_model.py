"""What a connection gets for the bytes that it sends, by `docs/HTTP.md`: statuses, and how the connection ends."""

import re

HEAD_LIMIT, FIELD_LIMIT, BODY_LIMIT, MESSAGE_LIMIT = 16384, 64, 262144, 1000
BLANK = re.compile(rb"(?:\r?\n)*")
TOKEN = re.compile(rb"[!#$%&'*+.^_`|~0-9A-Za-z-]+")
TARGET = re.compile(rb"[\x21-\x7e\x80-\xff]+")
VALUE = re.compile(rb"[\t\x20-\x7e\x80-\xff]*")
WHOLE, PART, INVALID = "whole", "part", "invalid"

REASONS = {
    200: b"OK",
    400: b"Bad Request",
    403: b"Forbidden",
    404: b"Not Found",
    405: b"Method Not Allowed",
    409: b"Conflict",
    411: b"Length Required",
    413: b"Content Too Large",
    422: b"Unprocessable Content",
    431: b"Request Header Fields Too Large",
    500: b"Internal Server Error",
    501: b"Not Implemented",
}
REPLY = re.compile(
    rb"HTTP/1\.1 (\d{3}) ([A-Za-z ]+)\r\n(?:Content-Type: ([a-z0-9/=;. -]+)\r\n)?"
    rb"(?:Content-Security-Policy: ([a-z;' -]+)\r\n)?(?:Allow: (GET|POST)\r\n)?"
    rb"Content-Length: (0|[1-9]\d*)\r\n(Connection: close\r\n)?\r\n"
)
# the pages of an operator's address, with the type of each, and what a browser may do with the one for people
PAGES = {
    b"/": b"text/html; charset=utf-8",
    b"/healthz": b"text/plain; charset=utf-8",
    b"/status": b"text/plain; charset=utf-8",
    b"/metrics": b"text/plain; version=0.0.4; charset=utf-8",
}
POLICY = b"default-src 'none'; style-src 'unsafe-inline'"


class Head:
    """The head of a message: how long it is, its first line and its fields."""

    def __init__(self):
        self.length, self.method, self.target, self.minor, self.fields = 0, b"", b"", 1, []


def line_end(data, at):
    """Where the line end at a place ends; or whether that is a part of one, or none."""
    if data[at : at + 1] == b"\n":
        return WHOLE, at + 1
    if data[at : at + 2] == b"\r\n":
        return WHOLE, at + 2
    return (PART if data[at:] in (b"", b"\r") else INVALID), at


def read_head(data):
    """What the bytes begin with: a whole head, a part of one, or none; and the head."""
    head = Head()
    at = BLANK.match(data).end()
    if data[at:] in (b"", b"\r"):
        return PART, head
    for name, pattern in (("method", TOKEN), ("target", TARGET)):
        found = pattern.match(data, at)
        if not found:
            return (PART if at == len(data) else INVALID), head
        setattr(head, name, found.group())
        at = found.end()
        if at == len(data):
            return PART, head
        if data[at : at + 1] != b" ":
            return INVALID, head
        at += 1
    try:
        head.target.decode("utf-8")
    except UnicodeDecodeError:
        return INVALID, head
    version = data[at : at + 8]
    if version not in (b"HTTP/1.0", b"HTTP/1.1"):
        return (PART if b"HTTP/1.1".startswith(version) else INVALID), head
    head.minor = version[7] - ord("0")
    how, at = line_end(data, at + 8)
    while how == WHOLE:
        how, end = line_end(data, at)
        if how != INVALID:
            head.length = end
            return how, head
        name = TOKEN.match(data, at)
        if not name:
            return INVALID, head
        if name.end() == len(data):
            return PART, head
        if data[name.end() : name.end() + 1] != b":":
            return INVALID, head
        value = VALUE.match(data, name.end() + 1)
        head.fields.append((name.group().lower(), value.group().strip(b" \t")))
        how, at = line_end(data, value.end())
    return how, head


def framing(head):
    """The status that rejects a head, or 0; and the length of its body."""
    if len(head.fields) > FIELD_LIMIT:
        return 400, 0
    if any(name == b"transfer-encoding" for name, _ in head.fields):
        return 501, 0
    lengths = [value for name, value in head.fields if name == b"content-length"]
    if len(lengths) > 1 or (lengths and not re.fullmatch(rb"[0-9]+", lengths[0])):
        return 400, 0
    if not lengths:
        return (411 if head.method == b"POST" else 0), 0
    digits = lengths[0].lstrip(b"0")
    length = int(digits or b"0") if len(digits) < 20 else BODY_LIMIT + 1
    return (413, 0) if length > BODY_LIMIT else (0, length)


def closes(head):
    """Whether the connection ends after the reply to a message."""
    listed = [part.strip(b" \t").lower() for name, value in head.fields if name == b"connection" for part in value.split(b",")]
    return head.minor == 0 or b"close" in listed


def is_from_browser(head):
    """Whether a browser sends a message."""
    return any(name in (b"origin", b"sec-fetch-site", b"sec-fetch-mode") for name, _ in head.fields)


def is_for_another(head):
    """Whether a message names another machine as its host."""
    hosts = [value.split(b":")[0] for name, value in head.fields if name == b"host"]
    return any(host.lower() != b"localhost" and not re.fullmatch(rb"[0-9.\[]*", host) for host in hosts)


class Expected:
    """A reply that is due: its status, whether the connection ends after it, the body of the request if it is the desk's.

    `package` is the size of the package and its bytes, which are `None` if the file isn't the declared one. `page` is the
    type of a page.
    """

    def __init__(self, status, is_last, body=None, package=None, allow=None, page=None):
        self.status, self.is_last, self.body, self.package, self.allow, self.page = status, is_last, body, package, allow, page


def use_of(head, body, desk, packages, pages):
    path = head.target.split(b"?")[0]
    if path == desk:
        if head.method != b"POST":
            return Expected(405, False, allow=b"POST")
        if pages and is_from_browser(head):
            return Expected(403, False)
        return Expected(None, False, body=body)
    if path in pages:
        if head.method != b"GET":
            return Expected(405, False, allow=b"GET")
        if is_for_another(head):
            return Expected(403, False)
        return Expected(200, False, page=pages[path])
    if path.startswith(b"/p/") and path[3:] in packages:
        if head.method != b"GET":
            return Expected(405, False, allow=b"GET")
        return Expected(200, False, package=packages[path[3:]])
    return Expected(404, False)


def expected_replies(data, desk, packages, pages):
    """The replies to all that a connection sends before it ends its side, by the pages of an operator or none."""
    replies, at = [], 0
    while len(replies) < MESSAGE_LIMIT and at < len(data):
        window = data[at : at + HEAD_LIMIT]
        how, head = read_head(window)
        if how == INVALID or (how == PART and len(window) == HEAD_LIMIT):
            replies.append(Expected(400 if how == INVALID else 431, True))
            break
        if how == PART:
            break
        status, length = framing(head)
        if status:
            replies.append(Expected(status, True))
            break
        at += head.length
        if len(data) - at < length:
            break
        reply = use_of(head, data[at : at + length], desk, packages, pages)
        at += length
        reply.is_last = closes(head) or len(replies) + 1 == MESSAGE_LIMIT
        replies.append(reply)
        if reply.is_last or (reply.package and reply.package[1] is None):
            break
    return replies


def reply_fault(status, reason, kind, allow, length, is_last):
    """What is wrong with the head of a reply, by the status alone; or `None`."""
    if REASONS.get(status) != reason:
        return f"status {status} {reason!r}"
    if (allow is not None) != (status == 405):
        return f"Allow with {status}"
    if (kind is not None) != (length > 0):
        return f"Content-Type with {length} bytes"
    if status in (403, 404, 405, 411, 413, 431, 500, 501) and length > 0:
        return f"a body with {status}"
    if status in (411, 413, 431, 500, 501) and not is_last:
        return f"{status} without Connection: close"
    return None
