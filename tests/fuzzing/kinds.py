"""The kinds of cases: how each is made, given to the program and judged."""

import collections
import json
import pathlib
import re
import socket
import struct
import time

from fuzzing import certificate_model, corpus, http_model, json_model, mutations, raise_model, reply_model, server, toml_model
from fuzzing.server import Wrong

DESK, OPERATE = b"/service/update2/json", b"/operate"
GREETING = b'{"request":{"protocol":"3.1","sessionid":"abc","app":[{"appid":"mini","updatecheck":{}}]}}'
SUMMARY = re.compile(rb"edition 1: \d+ apps, \d+ releases, \d+ differentials, \d+ cohorts, \d+ tables\n")
REJECTED = re.compile(rb"omaha: edit \d+: C\d+ [A-Z][A-Za-z]+\n")
FAULT = re.compile(r"F1 NotToml|F2 BadSchema|F3 BadEntry [^\n]+|F4 BadMirror [0-4]|F5 TooManyEdits")
REFUSED = re.compile(rb"refused \d+ C\d+ [A-Z][A-Za-z]+\n|history full\n")
TIMES = re.compile(rb'"elapsed_days":(\d+),"elapsed_seconds":(\d+)')
MOMENT = 1767229261
# the outcomes of cases without a fault
VALID = re.compile("read|raised|edition|certified|dump|stale|[24]0[0-9](?![.])")


class Case:
    """The bytes of a case, how they are given to the program, and what a replay does before."""

    def __init__(self, data, how=None, before=()):
        self.data, self.how, self.before = data, how or {}, list(before)


def post(path, body):
    return b"POST " + path + b" HTTP/1.1\r\nContent-Length: " + str(len(body)).encode() + b"\r\n\r\n" + body


def served_catalogue():
    return reply_model.Catalogue(server.PROFILE.read_text())


def served_packages(catalogue):
    """The size and the bytes of each declared package, `None` for those that the folder hasn't."""
    packages = {}
    for name, (size, _) in catalogue.packages().items():
        path = corpus.EXAMPLES / "packages" / name
        packages[name.encode()] = size, path.read_bytes() if path.exists() else None
    return packages


class Kind:
    """What the kinds have in common: a corpus, and its mutations."""

    name, folder, words, limit, share, batch = "", "", "", 200000, 1, 1000

    def __init__(self, program, folder):
        self.program, self.folder = program, pathlib.Path(folder)
        cases = corpus.read_cases(self.folder_name())
        self.corpus = [case.data for case in cases]
        self.valid = [case.data for case in cases if VALID.match(case.outcome)]
        self.catalogue = served_catalogue()

    def folder_name(self):
        return self.name

    def make(self, chances, count):
        """So many cases."""
        mutator = mutations.Mutator(chances, self.corpus, self.valid, self.words, self.limit)
        return [self.case(chances, mutator) for _ in range(count)]

    def case(self, chances, mutator):
        return Case(mutator.case())

    def run(self, cases, record):
        """Runs the cases in order; `record` is called with each, its status and what is wrong with it, or `None`."""
        for case in cases:
            try:
                record(case, self.judge(case), None)
            except Wrong as wrong:
                record(case, "wrong", str(wrong))

    def judge(self, case):
        """Gives a case to the program: its status."""
        raise NotImplementedError

    def outcome(self, data):
        """What the program makes of a case of the corpus, as its outcome says it."""
        raise NotImplementedError

    def check_reply(self, body, session, asks, mirror_of=None):
        """Compares a reply with the model's, and returns what was granted, by mirror. Without `mirror_of` any mirror may have."""
        times = TIMES.search(body[-80:])
        if not body.startswith(b")]}'\n") or not times:
            raise Wrong(f"no reply: {body[:200]!r}")
        days, seconds = int(times.group(1)), int(times.group(2))
        granted = [0] * len(self.catalogue.mirrors)
        found = None if mirror_of else iter(mirrors_in(body, self.catalogue.mirrors))

        def grant(size):
            mirror = mirror_of(size) if mirror_of else next(found, None)
            if mirror is not None:
                granted[mirror] += size
            return mirror

        replies = [reply_model.app_reply(self.catalogue, session, ask, grant) for ask in asks]
        wanted = reply_model.reply_bytes(replies, days, seconds)
        if body != wanted:
            raise Wrong(f"the reply is {body[:2000]!r} and not {wanted[:2000]!r}")
        return granted, (13514 + days) * 86400 + seconds


def mirrors_in(body, mirrors):
    """The mirror of each offer or lack of room in a reply, in the order of its apps."""
    for app in json.loads(body[5:])["response"]["app"]:
        check = app.get("updatecheck", {})
        if check.get("status") == "error-internal":
            yield None
        elif check.get("status") == "ok":
            codebase = check["urls"]["url"][0]["codebase"]
            yield next((index for index, mirror in enumerate(mirrors) if mirror[1] == codebase), None)


class Requests(Kind):
    """Bodies of update checks, on kept connections to a running server, each reply compared byte for byte."""

    name, words, limit, share, batch = "requests", "json", 262144, 40, 4000

    def run(self, cases, record):
        rest = list(cases)
        while rest:
            rest = self.run_on_one(rest, record)

    def run_on_one(self, cases, record):
        """Runs the cases on one server, up to a wrong one: the cases after it."""
        books, at, case = reply_model.Books(self.catalogue.mirrors), 0, None
        served = server.Served(self.program, self.folder, len(cases) // 500 + 3, 0)
        try:
            while at < len(cases):
                with served.connect() as connection:
                    end = min(len(cases), at + 900)
                    while at < end:
                        group = next_group(cases[at:end])
                        connection.send(b"".join(post(DESK, case.data) for case in group))
                        for case in group:
                            at += 1
                            record(case, self.judge_reply(case, connection.read(), books), None)
            case = Case(GREETING)
            with served.connect() as connection:
                connection.send(post(DESK, GREETING))
                self.judge_reply(case, connection.read(), books)
            totals = served.end()
            if list(totals.values()) != books.totals:
                raise Wrong(f"the totals are {totals} and not {books.totals}")
        except (Wrong, OSError) as wrong:
            served.kill()
            record(case or cases[0], "wrong", f"{wrong}")
        return cases[at:]

    def judge_reply(self, case, reply, books):
        if reply is None:
            raise Wrong("no reply")
        fault, session, asks = json_model.read_request(case.data)
        if reply.is_last or reply.status != (400 if fault else 200):
            raise Wrong(f"status {reply.status} for {fault or 'a request'}, end {reply.is_last}")
        if fault:
            if reply.length:
                raise Wrong(f"a body with {fault}")
            return 400
        if reply.kind != b"application/json":
            raise Wrong(f"type {reply.kind!r}")

        def grant(size):
            mirror = books.first(size)
            if mirror is not None:
                books.totals[mirror] += size
            return mirror

        _, told = self.check_reply(reply.body, session, asks, grant)
        if abs(told - time.time()) > 60:
            raise Wrong(f"the time is {told}")
        return 200


def next_group(cases):
    """The first cases that are sent at once: sixteen at most, and one alone if it is long."""
    group, size = [], 0
    for case in cases[:16]:
        if group and size + len(case.data) > 20000:
            break
        group.append(case)
        size += len(case.data)
    return group


def line_of(status, output, errors):
    """The line that a command printed, without `omaha: `."""
    return (errors.removeprefix(b"omaha: ") if status else output).decode("utf-8", "replace").rstrip("\n")


class Once(Kind):
    """Requests on standard input, whose replies and failures are compared byte for byte."""

    name, words, limit, share, batch = "once", "json", 262144, 4, 200

    def folder_name(self):
        return "requests"

    def give(self, data):
        return server.run([self.program, "once", "--profile", str(server.PROFILE), "--moment", str(MOMENT)], data)

    def outcome(self, data):
        status, output, errors = self.give(data)
        return line_of(status, output, errors) if status else "read"

    def judge(self, case):
        status, output, errors = self.give(case.data)
        fault, session, asks = json_model.read_request(case.data)
        if fault:
            if (status, output, errors) != (1, b"", f"omaha: {fault}\n".encode()):
                raise Wrong(f"{fault}: {status}, {output[:200]!r}, {errors[:200]!r}")
            return fault[:2]
        if status:
            raise Wrong(f"a request: {status}, {errors[:200]!r}")
        books = reply_model.Books(self.catalogue.mirrors)

        def grant(size):
            mirror = books.first(size)
            if mirror is not None:
                books.totals[mirror] += size
            return mirror

        self.check_reply(output, session, asks, grant)
        return "reply"


class Heads(Kind):
    """All that a connection sends, cut anywhere; several connections at a time, on both addresses."""

    name, words, limit, share, batch = "heads", "http", 60000, 25, 2000

    def __init__(self, program, folder):
        super().__init__(program, folder)
        self.packages = served_packages(self.catalogue)
        bodies = [case.data for case in corpus.read_cases("requests") if len(case.data) < 1000]
        posts = [post(DESK, body) for body in bodies]
        self.corpus += posts
        self.valid += posts

    def case(self, chances, mutator):
        data = mutator.case()
        if chances.randrange(4) == 0:
            data = (data + chances.choice(self.corpus))[: self.limit]
        if chances.randrange(4) == 0:
            data = data[: chances.randrange(len(data) + 1)]
        how = {"to": "operator" if chances.randrange(8) == 0 else "clients", "cuts": []}
        if data and chances.randrange(3) == 0:
            how["cuts"] = sorted({chances.randrange(1, len(data) + 1) for _ in range(chances.randrange(1, 4))} - {len(data)})
        if chances.randrange(40) == 0:
            how["end"] = chances.choice(("reset", "vanish"))
        return Case(data, how)

    def make(self, chances, count):
        cases = super().make(chances, count)
        cases[0].how = {"to": "clients", "cuts": [], "end": "silent"}
        return cases

    def run(self, cases, record):
        rest = list(cases)
        while rest:
            rest = self.run_on_one(rest, record)

    def run_on_one(self, cases, record):
        sessions = sum(case.how["to"] == "clients" for case in cases) + 1
        served = server.Served(self.program, self.folder, sessions, len(cases) - sessions + 1, log=True)
        self.granted, self.replies, self.is_exact, self.is_changed = [0] * len(self.catalogue.mirrors), 0, True, False
        self.budgets = {name: budget for name, _, budget in self.catalogue.mirrors}
        at, case, opened = 0, cases[0], collections.deque()
        try:
            while at < len(cases) or opened:
                if at < len(cases) and len(opened) < 8:
                    opened.append((cases[at], self.open(served, cases[at])))
                    at += 1
                    continue
                case, connection = opened.popleft()
                record(case, self.judge_connection(case, connection), None)
            case = Case(GREETING)
            with served.connect() as connection:
                connection.send(post(DESK, GREETING))
                connection.finish()
                self.judge_connection(Case(post(DESK, GREETING), {"to": "clients"}), connection)
            self.check_end(served)
        except (Wrong, OSError) as wrong:
            served.kill()
            record(case, "wrong", f"{wrong}")
            if case.data == GREETING:
                return []
            return [it for it, _ in opened] + cases[at:]
        return []

    def outcome(self, data):
        """What the bytes get at once, and in pieces of 100 bytes if that is something else."""
        served = server.Served(self.program, self.folder, 2, 0)
        whole, cut = self.statuses(served, data, []), self.statuses(served, data, range(100, len(data), 100))
        served.end()
        return whole if whole == cut else f"{whole}, and in pieces {cut}"

    def statuses(self, served, data, cuts):
        """The statuses of the replies to what a connection sends."""
        statuses = []
        with served.connect() as connection:
            connection.send(data, cuts)
            connection.finish()
            while reply := connection.read():
                is_cut = len(reply.body) < reply.length
                statuses.append(f"{reply.status}{'.' * reply.is_last}{'!' * is_cut}")
        return " ".join(statuses) or "none"

    def check_end(self, served):
        totals = served.end()
        values = list(totals.values())
        if any(total > budget for total, budget in zip(values, self.budgets.values())):
            raise Wrong(f"the totals {totals} are above the budgets")
        if any(total < granted for total, granted in zip(values, self.granted)) or (self.is_exact and values != self.granted):
            raise Wrong(f"the totals are {totals}, and {self.granted} was granted")
        served.check_log(self.replies if self.is_exact else None)

    def open(self, served, case):
        """A connection that has sent what the case sends; `None` if it is not waited for."""
        connection = served.operate() if case.how["to"] == "operator" else served.connect()
        connection.send(case.data, case.how["cuts"])
        end = case.how.get("end")
        if end in ("reset", "vanish"):
            self.is_exact = False
            if end == "reset":
                connection.socket.setsockopt(socket.SOL_SOCKET, socket.SO_LINGER, struct.pack("ii", 1, 0))
            connection.socket.close()
            return None
        if end != "silent":
            connection.finish()
        return connection

    def judge_connection(self, case, connection):
        if connection is None:
            return case.how["end"]
        is_operator = case.how["to"] == "operator"
        if is_operator:
            expected = http_model.expected_replies(case.data, OPERATE, {}, http_model.PAGES)
        else:
            expected = http_model.expected_replies(case.data, DESK, self.packages, {})
        statuses = []
        with connection:
            for wanted in expected:
                reply = connection.read()
                if reply is None:
                    raise Wrong(f"{len(statuses)} replies {statuses} and not {len(expected)}")
                self.replies += 1
                self.check_head(wanted, reply)
                if wanted.package:
                    self.check_package(wanted.package, reply)
                elif wanted.page:
                    self.check_page(wanted.page, reply)
                elif wanted.status is None and is_operator:
                    self.check_script(wanted.body, reply)
                elif wanted.status is None:
                    self.check_desk(wanted.body, reply)
                statuses.append(reply.status)
            rest = connection.rest()
        if rest:
            raise Wrong(f"after the replies {statuses} came {rest[:200]!r}")
        return statuses[-1] if statuses else "none"

    def check_head(self, wanted, reply):
        if wanted.status not in (None, reply.status):
            raise Wrong(f"status {reply.status} and not {wanted.status}")
        if (wanted.is_last, wanted.allow) != (reply.is_last, reply.allow):
            raise Wrong(f"status {reply.status}: end {reply.is_last} and not {wanted.is_last}, Allow {reply.allow} and not {wanted.allow}")

    def check_package(self, package, reply):
        size, content = package
        if (reply.kind, reply.length, reply.body) != (b"application/octet-stream", size, content or b""):
            raise Wrong(f"a package of {size} bytes: {reply.kind} {reply.length} {reply.body[:100]!r}")

    def check_page(self, kind, reply):
        policy = http_model.POLICY if kind.startswith(b"text/html") else None
        if (reply.kind, reply.policy) != (kind, policy) or not reply.body.endswith(b"\n"):
            raise Wrong(f"a page: {reply.kind} {reply.policy} {reply.body[:100]!r}")

    def check_desk(self, body, reply):
        fault, session, asks = json_model.read_request(body)
        if reply.status != (400 if fault else 200):
            raise Wrong(f"status {reply.status} for {fault or 'a request'}")
        if fault or self.is_changed:
            self.is_exact = self.is_exact and bool(fault)
            return
        granted, _ = self.check_reply(reply.body, session, asks)
        self.granted = [total + more for total, more in zip(self.granted, granted)]

    def check_script(self, body, reply):
        if body == b"dump":
            if reply.status != 200 or reply.kind != b"text/plain" or toml_model.fault_of(toml_model.check_profile, reply.body)[0]:
                raise Wrong(f"a dump: {reply.status} {reply.body[:200]!r}")
            return
        if body.startswith(raise_model.WORD):
            # (which raises came before is not known: several connections are open)
            wanted = raise_model.reply_to(body, dict(self.budgets))
            if not raise_model.LINE.fullmatch(reply.body) or (wanted[0] == 400) != (reply.status == 400):
                raise Wrong(f"a raise: {reply.status} {reply.body[:200]!r}")
            if reply.status == 200:
                name, digits = raise_model.parts_of(body)
                self.budgets[name] = max(self.budgets[name], int(digits))
                self.is_changed = True
            return
        fault, _ = toml_model.fault_of(toml_model.check_script, body)
        if fault not in (None, toml_model.UNKNOWN) and (reply.status, reply.body) != (400, f"{fault}\n".encode()):
            raise Wrong(f"{fault}: {reply.status} {reply.body[:200]!r}")
        self.is_changed = self.is_changed or reply.status == 200


class Scripts(Kind):
    """Scripts that are posted to the operator of a running server, some for the edition that is published."""

    name, words, limit, share, batch = "scripts", "toml", 262144, 20, 2000

    def case(self, chances, mutator):
        return Case(mutator.case(), {"rebase": chances.randrange(3) > 0})

    def run(self, cases, record):
        rest = list(cases)
        while rest:
            rest = self.run_on_one(rest, record)

    def run_on_one(self, cases, record):
        at, case, accepted = 0, cases[0], []
        self.budgets = {name: budget for name, _, budget in self.catalogue.mirrors}
        sessions, edits = len(cases) // 200 + 2, len(cases) // 500 + 4 + sum(len(case.before) for case in cases)
        served = server.Served(self.program, self.folder, sessions, edits)
        try:
            for earlier in cases[0].before:
                with served.operate() as connection:
                    body = earlier.encode("latin-1")
                    connection.send(post(OPERATE, body))
                    self.judge_script(body, connection.read(), accepted)
            while at < len(cases):
                with served.operate() as connection:
                    for _ in range(min(900, len(cases) - at)):
                        case = cases[at]
                        at += 1
                        if case.how["rebase"]:
                            case.data = re.sub(rb"base = \d+", b"base = %d" % (len(accepted) + 1), case.data, count=1)
                            case.how["rebase"] = False
                        case.before = accepted[-50:] if len(accepted) < 50 else []
                        connection.send(post(OPERATE, case.data))
                        record(case, self.judge_script(case.data, connection.read(), accepted), None)
                        if at % 200 == 0:
                            self.greet(served)
            self.check_dump(served)
            self.greet(served)
            totals = served.end()
            if any(total > budget for total, budget in zip(totals.values(), self.budgets.values())):
                raise Wrong(f"the totals {totals} are above the budgets")
        except (Wrong, OSError) as wrong:
            served.kill()
            record(case, "wrong", f"{wrong}")
        return cases[at:]

    def outcome(self, data):
        served = server.Served(self.program, self.folder, 0, 1)
        with served.operate() as connection:
            connection.send(post(OPERATE, data))
            reply = connection.read()
        served.end()
        self.budgets = {name: budget for name, _, budget in self.catalogue.mirrors}
        self.judge_script(data, reply, [])
        return "dump" if b"codebase" in reply.body else reply.body.decode().rstrip("\n")

    def greet(self, served):
        """Whether a client gets a reply of one app."""
        with served.connect() as connection:
            connection.send(post(DESK, GREETING))
            reply = connection.read()
        if reply is None or reply.status != 200 or len(json.loads(reply.body[5:])["response"]["app"]) != 1:
            raise Wrong(f"a client gets {reply and (reply.status, reply.body[:200])}")

    def check_dump(self, served):
        """The dump is a profile that `check` accepts."""
        with served.operate() as connection:
            connection.send(post(OPERATE, b"dump"))
            reply = connection.read()
        (self.folder / "dump.toml").write_bytes(reply.body)
        status, output, errors = server.run([self.program, "check", str(self.folder / "dump.toml")])
        if status or not SUMMARY.fullmatch(output):
            raise Wrong(f"check of the dump: {status} {errors[:200]!r}")

    def judge_script(self, body, reply, accepted):
        if reply is None:
            raise Wrong("no reply")
        if reply.is_last or reply.kind != b"text/plain":
            raise Wrong(f"status {reply.status}, type {reply.kind!r}, end {reply.is_last}")
        if body == b"dump":
            if reply.status != 200 or toml_model.fault_of(toml_model.check_profile, reply.body)[0]:
                raise Wrong(f"a dump: {reply.status} {reply.body[:200]!r}")
            return "dump"
        if body.startswith(raise_model.WORD):
            wanted = raise_model.reply_to(body, self.budgets)
            if (reply.status, reply.body) != wanted:
                raise Wrong(f"a raise: {reply.status} {reply.body[:200]!r} for {wanted}")
            return f"raise {reply.status}"
        fault, document = toml_model.fault_of(toml_model.check_script, body)
        number = len(accepted) + 1
        wanted = {200: b"edition %d\n" % (number + 1), 409: b"stale %d\n" % number}.get(reply.status)
        if wanted and reply.body != wanted:
            raise Wrong(f"{reply.status} at edition {number}: {reply.body[:200]!r}")
        if reply.status == 400:
            line = reply.body.decode("utf-8", "replace")
            if not FAULT.fullmatch(line[:-1]) or line[-1] != "\n" or any(server.is_control(it) for it in line[:-1]):
                raise Wrong(f"400 with {reply.body[:200]!r}")
        elif not wanted and (reply.status != 422 or not REFUSED.fullmatch(reply.body)):
            raise Wrong(f"{reply.status} with {reply.body[:200]!r}")
        if fault is None and (reply.status == 400 or (reply.status == 409) != (document["base"] != number)):
            raise Wrong(f"{reply.status} {reply.body[:200]!r} for a script on {document['base']} at edition {number}")
        if fault not in (None, toml_model.UNKNOWN) and (reply.status, reply.body) != (400, f"{fault}\n".encode()):
            raise Wrong(f"{fault}: {reply.status} {reply.body[:200]!r}")
        if reply.status == 200:
            accepted.append(body.decode("latin-1"))
        return reply.status


class Profiles(Kind):
    """Files that are checked as profiles."""

    name, words, share, batch = "profiles", "toml", 10, 200

    def case(self, chances, mutator):
        return Case(mutator.case(), {"workers": chances.choice((1, 1, 1, 2))})

    def give(self, data, workers):
        path = self.folder / "profile.toml"
        path.write_bytes(data)
        return server.run([self.program, "check", str(path)] + (["--workers", str(workers)] if workers > 1 else []))

    def outcome(self, data):
        return line_of(*self.give(data, 1))

    def judge(self, case):
        status, output, errors = self.give(case.data, case.how["workers"])
        if (status == 0) != (SUMMARY.fullmatch(output) is not None) or (status and output):
            raise Wrong(f"status {status} and {output[:200]!r}")
        line = errors.decode("utf-8", "replace").removeprefix("omaha: ")[:-1]
        if status and not FAULT.fullmatch(line) and not REJECTED.fullmatch(errors):
            raise Wrong(f"standard error is {errors[:200]!r}")
        fault, document = toml_model.fault_of(toml_model.check_profile, case.data)
        if fault is None and status == 1 and not REJECTED.fullmatch(errors):
            raise Wrong(f"a profile: {errors[:200]!r}")
        if fault is None and not document.get("app") and output != b"edition 1: 0 apps, 0 releases, 0 differentials, 0 cohorts, 0 tables\n":
            raise Wrong(f"a profile without apps: {output[:200]!r}")
        if fault not in (None, toml_model.UNKNOWN) and line != fault:
            raise Wrong(f"{fault}: {status}, {errors[:200]!r}")
        return line.split(" ")[0] if status and not line.startswith("edit") else "edit" if status else "valid"


class Certificates(Kind):
    """Files that are verified as certificates of tracks of `served.toml`."""

    name, words, share, batch = "certificates", "certificate", 6, 200

    def give(self, data):
        path = self.folder / "certificate"
        path.write_bytes(data)
        return server.run([self.program, "verify", str(server.PROFILE), str(path)])

    def outcome(self, data):
        return line_of(*self.give(data))

    def judge(self, case):
        status, output, errors = self.give(case.data)
        wanted = certificate_model.verified(self.catalogue, case.data)
        line = (output or errors.removeprefix(b"omaha: ")).decode("utf-8", "replace")
        if line != f"{wanted}\n" or (status == 0) != (wanted == "certified") or (status and output):
            raise Wrong(f"{wanted}: {status}, {output[:200]!r}, {errors[:200]!r}")
        return {"wrong": "rule", "no": "no track"}.get(wanted.split(" ")[0], wanted.split(" ")[0])
