"""Changes of a case's bytes: flipped, inserted, deleted and cut bytes, tokens of a dictionary, splices of two cases."""

import json
import re

NUMBERS = [
    "0", "-0", "-1", "1", "+1", "007", "0.1", "1e400", "1e-400", "-1e400", "1e308", "1E5", "0x10", "0b1", "1_0", "nan", "inf",
    "256", "257", "999", "1000", "1001", "4096", "4097", "65535", "65536", "262144", "262145", "1048576", "4294967295", "4294967296",
    "9007199254740991", "9007199254740992", "9007199254740993", "1099511627776", "1099511627777", "1125899906842623",
    "1125899906842624", "1152921504606846975", "1152921504606846976", "1152921504606846977", "9223372036854775807",
    "9223372036854775808", "-9223372036854775808", "-9223372036854775809", "18446744073709551615", "18446744073709551616",
    "340282366920938463463374607431768211456", "1" + "0" * 400,
]  # fmt: skip
CHARACTERS = [
    "\u0000", "\u0001", "\u001b", "\u007f", "\u0080", "\u0085", "\u009b", "\u009f", "\u00a0", "\u00e9", "\u200b", "\u202e", "\u2028",
    "\u2029", "\ufeff", "\uffff", "\U0001f600", "\U0010ffff", "\t", "\b", "\f",
]  # fmt: skip
RAW = [
    b"\x00", b"\xff", b"\x80", b"\xc0\xaf", b"\xed\xa0\x80", b"\xf4\x90\x80\x80", b"\xe2\x28\xa1", b"\xef\xbb\xbf", b"\r\n", b"\r",
    b"\n", b"\n\n", b" ", b"\t", b"\\", b'"', b"'", b'"""', b"%", b"%0A", b"\\u0000", b"\\u009b", b"\\u202e", b"\\u2028", b"\\ud800",
    b"\\udc00", b"\\ud83d\\ude00", b"\\ud83d", b"\\uZZZZ", b"\\x", b"\\e", b"\\n",
]  # fmt: skip
NESTED = [
    b"[" * 100 + b"]" * 100,
    b"[" * 200 + b"]" * 200,
    b'{"a":' * 100 + b"1" + b"}" * 100,
    b'{"a":' * 200 + b"1" + b"}" * 200,
    b"{a=" * 79 + b"1" + b"}" * 79,
    b"{a=" * 100 + b"1" + b"}" * 100,
    b"[" * 100000,
    b"[" * 100000 + b"]" * 100000,
    b"[{" * 50,
    b"a." * 200 + b"a",
]
LONG = [b"k" * 257, b"k" * 5000, b"k" * 20000, "é".encode() * 129, b"1." * 20 + b"1", b"0" * 70]
WORDS = {
    "json": (
        'request protocol "3.1" "3.0" app appid "mini" "MINI" "demo" "nope" version "1.0" "2.0" "" cohort "stable:0" "stable:319" '
        '"stable:1000" "stable:05" "beta:7" ":5" cohorthint "beta" packages package fp updatecheck updatedisabled rollback_allowed '
        'targetversionprefix "4" "4." "4.0$" "2." ping event sessionid "abc" response daystart elapsed_days elapsed_seconds status '
        '"ok" "noupdate" "error-internal" manifest urls url codebase codebasediff name namediff size sizediff hash_sha256 '
        "hashdiff_sha256 true false null {} [] [1] {\"a\":1}"
    ).split(" "),
    "toml": (
        "schema base mirror app cohort release diff edit name codebase budget id default target held share rollback open version size "
        "sha256 stone withdrawn audience floor from to do on cohorts true false [] {} [{}] [[app]] [[mirror]] [[edit]] [[app.cohort]] "
        "[[app.release]] [[app.diff]] [app] 1979-05-27 1979-05-27T07:32:00Z 07:32:00 '' \"\" '''a''' 'stable' 'beta' 'mini' 'demo' "
        "'1.0' '2.0' '3.0' '01.0' '1.0.0' 'add_app' 'add_cohort' 'add_release' 'add_diff' 'set_target' 'set_share' 'set_rollback' "
        "'set_open' 'set_stone' 'set_withdrawn' 'set_audience' 'set_floor' ['stable'] http://a/ http:/// #"
    ).split(" "),
    "certificate": (
        "prices 1 app demo DEMO cohort stable beta lane target held rollback no yes rows 1.0 2.0 3.0 3.5 4.0 1.0.0 none end full diff "
        "0 250 450 750 0750"
    ).split(" "),
    "http": [
        "GET", "POST", "HEAD", "get", "HTTP/1.0", "HTTP/1.1", "HTTP/2.0", "HTTP/1.10", "/service/update2/json", "/operate", "/p/",
        "/p/mini-1.0.bin", "/p/../served.toml", "/p/%2e%2e", "/", "?x=1", "http://a/p/mini-1.0.bin", "\r\n", "\r\n\r\n", "\n\n", ":",
        "Content-Length: 5\r\n", "Content-Length: 0\r\n", "Content-Length: +5\r\n", "Content-Length: 5, 5\r\n", "Content-Length: \r\n",
        "Content-Length: 262144\r\n", "Content-Length: 262145\r\n", "Content-Length: 18446744073709551616\r\n", "content-length: 007\r\n",
        "Transfer-Encoding: chunked\r\n", "transfer-encoding:\r\n", "Connection: close\r\n", "Connection: keep-alive, CLOSE\r\n",
        "Connection: closed\r\n", "Connection: ,close\r\n", "Host: a\r\n", "Host : a\r\n", " folded\r\n", "User-Agent: a\"\\\x1b\r\n",
        "Expect: 100-continue\r\n", "a: b\r\n" * 64, "a: b\r\n" * 65, "a: b\r\n" * 3000, "x: " + "y" * 16384 + "\r\n", "200", "404", "500", "302",
    ],
}  # fmt: skip
STRINGS = [word[1:-1] for word in WORDS["json"] if word.startswith('"')]
KEYS = [word for word in WORDS["json"] if word.isidentifier()] + STRINGS
VALUES = [None, True, False, 0, 1, -1, 2**53, 2**60, 2**63, 2**64, -(2**63), 0.5, 1e308, [], {}, [[]], {"a": 1}, [1, 2]]
WORD_STARTS = b"\"'0123456789+-._abcdefghijklmnopqrstuvwxyzABCDEFGHIJKLMNOPQRSTUVWXYZ"
PART = re.compile(rb'"(?:[^"\\\n]|\\.)*"|\'[^\'\n]*\'|[\w.+-]+|[\r\n]+|[^\w\s]')


def tokens_of(words):
    """The tokens for a format, as bytes."""
    plain = [word.encode() for word in WORDS[words] + NUMBERS]
    quoted = [f'"{character}"'.encode() for character in CHARACTERS]
    return plain + [character.encode() for character in CHARACTERS] + quoted + RAW


class Mutator:
    """Changes the cases of a corpus by a source of chances."""

    def __init__(self, chances, corpus, valid, words, limit):
        self.chances, self.corpus, self.valid, self.limit = chances, corpus, valid, limit
        self.tokens = tokens_of(words)
        self.changes = [
            self.flip, self.flip, self.write, self.insert, self.delete, self.delete, self.cut, self.token, self.token, self.token,
            self.replace, self.replace, self.replace, self.replace, self.repeat, self.splice, self.swap, self.line_ends, self.long,
        ]  # fmt: skip
        self.formal = [self.json] if words == "json" else [self.line, self.value, self.value]

    def case(self):
        """A case of the corpus, changed at some places: most of those without a fault in their format alone."""
        if self.chances.randrange(4):
            data, changes = self.chances.choice(self.valid), self.formal if self.chances.randrange(4) else self.changes
            count = self.chances.choice((0, 1, 1, 1, 1, 2, 2, 3))
        else:
            data, changes = self.chances.choice(self.corpus), self.changes
            count = self.chances.choice((0, 1, 1, 2, 3, 4, 8))
        for _ in range(count):
            data = self.chances.choice(changes)(data)
        return data[: self.limit]

    def json(self, data):
        """Changes a value of JSON, a key or a list."""
        start = data[:5] if data.startswith(b")]}'") else b""
        try:
            value = json.loads(data[len(start) :])
        except (ValueError, RecursionError):
            return self.replace(data)
        return start + json.dumps(self.changed(value, 0), ensure_ascii=bool(self.chances.randrange(2))).encode("utf-8", "surrogatepass")

    def changed(self, value, depth):
        """A value with a change somewhere in it, most often not near the top."""
        if self.chances.randrange(8 if depth > 2 else 60) and isinstance(value, (dict, list)) and value:
            keys = list(value) if isinstance(value, dict) else range(len(value))
            key = "app" if "app" in keys and self.chances.randrange(4) else self.chances.choice(keys)
            how = self.chances.randrange(12 if depth > 1 else 60)
            if how == 0:
                del value[key]
            elif how == 1 and isinstance(value, list):
                value.insert(key, value[key])
            elif how == 1:
                value[self.chances.choice(KEYS)] = value[key]
            elif how == 2 and isinstance(value, dict):
                value[self.chances.choice(KEYS)] = self.plain()
            else:
                value[key] = self.changed(value[key], depth + 1)
            return value
        return self.plain() if not isinstance(value, str) or self.chances.randrange(3) else self.string(value)

    def plain(self):
        """A value of no kind in particular."""
        return self.chances.choice((self.chances.choice(VALUES), self.chances.choice(STRINGS), self.chances.choice(CHARACTERS)))

    def string(self, value):
        """A string near another."""
        at = self.place(value)
        more = self.chances.choice((self.chances.choice(CHARACTERS), self.chances.choice(NUMBERS[:40]), " ", ".", "$", ":", "0"))
        end = at + self.chances.randrange(3)
        return value[:at] + more + value[end:]

    def line(self, data):
        """A line less, a line twice, two lines exchanged, or one of another case."""
        lines = data.split(b"\n")
        first, second = self.chances.randrange(len(lines)), self.chances.randrange(len(lines))
        how = self.chances.randrange(4)
        if how == 0:
            del lines[first]
        elif how == 1:
            lines.insert(second, lines[first])
        elif how == 2:
            lines[first], lines[second] = lines[second], lines[first]
        else:
            lines.insert(first, self.chances.choice(self.chances.choice(self.corpus).split(b"\n")))
        return b"\n".join(lines)

    def value(self, data):
        """Another word or string at the place of one, from the dictionary, from the bytes, or near the one that it was."""
        words = [found.span() for found in PART.finditer(data) if found.group()[0] in WORD_STARTS]
        if not words:
            return self.token(data)
        start, end = self.chances.choice(words)
        from_other, to_other = self.chances.choice(words)
        old = data[start:end]
        near = self.string(old.decode("utf-8", "replace")).encode()
        return data[:start] + self.chances.choice((self.chances.choice(self.tokens), data[from_other:to_other], near)) + data[end:]

    def place(self, data):
        return self.chances.randrange(len(data) + 1)

    def span(self, data, most=40):
        start = self.place(data)
        return start, min(len(data), start + self.chances.randrange(most))

    def flip(self, data):
        if not data:
            return data
        at = self.chances.randrange(len(data))
        return data[:at] + bytes([data[at] ^ (1 << self.chances.randrange(8))]) + data[at + 1 :]

    def write(self, data):
        at = self.place(data)
        return data[:at] + bytes([self.chances.randrange(256)]) + data[at + 1 :]

    def insert(self, data):
        at = self.place(data)
        return data[:at] + self.chances.randbytes(self.chances.randrange(1, 5)) + data[at:]

    def delete(self, data):
        start, end = self.span(data)
        return data[:start] + data[end:]

    def cut(self, data):
        return data[: self.place(data)]

    def token(self, data):
        at = self.place(data)
        return data[:at] + self.chances.choice(self.tokens) + data[at:]

    def part(self, data):
        """Where a string, a word or a mark of the bytes is."""
        start = self.place(data)
        found = PART.search(data, start) or PART.search(data)
        return found.span() if found else (start, start)

    def replace(self, data):
        start, end = self.part(data)
        return data[:start] + self.chances.choice(self.tokens) + data[end:]

    def repeat(self, data):
        start, end = self.span(data, 200)
        return data[:end] + data[start:end] * self.chances.choice((1, 1, 2, 5)) + data[end:]

    def splice(self, data):
        other = self.chances.choice(self.corpus)
        return data[: self.place(data)] + other[self.place(other) :]

    def swap(self, data):
        start, end = self.part(data)
        from_other, to_other = self.part(data)
        if start > from_other:
            start, end, from_other, to_other = from_other, to_other, start, end
        if end > from_other:
            return data
        return data[:start] + data[from_other:to_other] + data[end:from_other] + data[start:end] + data[to_other:]

    def line_ends(self, data):
        return self.chances.choice(
            (data.replace(b"\r\n", b"\n"), data.replace(b"\n", b"\r\n"), data.replace(b"\n", b"\r"), b"\xef\xbb\xbf" + data)
        )

    def long(self, data):
        """One of the long ones, rarely one of a megabyte."""
        start, end = self.part(data) if self.chances.randrange(2) else (self.place(data),) * 2
        many = LONG if self.chances.randrange(3) else NESTED
        chosen = self.chances.choice(many)
        if len(chosen) > 30000 and self.chances.randrange(8):
            chosen = chosen[:300]
        return data[:start] + chosen + data[end:]
