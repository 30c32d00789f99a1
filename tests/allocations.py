#!/usr/bin/env python3
"""Runs the built program, and each test without memory, with each allocation failing in turn.

    tests/allocations.py [--program FILE] [NAME ..]

`make allocations` runs it, after `make install`. A small library before the C library's `malloc` and `realloc` lets the Nth
call fail, for N from 1 until a run has no Nth call. It prints a line for each sweep: its name, how many allocations it has,
how many runs there were, and how many were wrong; NAME is a sweep alone, or the first part of the names of some.

A run of a command must end with the status 1, the line `omaha: memory` and no output, or go on without that memory and print
what it prints with memory. A run of `serve` has two workers and an operator. It is asked for updates, packages, a dump and
pages, a script is published and a budget raised; what it rejects since memory ran out it does when it is asked again. Its
mirror's total is the sum of what it offered, and of what it granted to the update check that ran out of memory, if it did.
It closes no connection without a byte once it did what a message asked for. A run of a test must pass.
Of a test whose name ends in `_once_memory_ran_out` all calls fail from the Nth on.

The public calls that may run out of memory are shown so:

- by `once`: `read_profile`, `make_service` with `Catalogue::applied`, `Edition::next_with`, `build_for` and `solve`,
  `open_edition`, `work_with_tills` with `open_books`, `read_request`, `reply_to` with `plan_with`, `render` and
  `CohortText::print`, and `write_reply`;
- by `serve`: the same but `work_with_tills`, and `run_with_tills`, the operator's `read_script`, `Press::prepare`,
  `Press::show_prepared`, `Certified::copy`, `Budgets::mirrors` and `write_profile`, its pages, the lines of the log, and the
  buffers of connections; with a history, its records;
- by `check`, `certify` and `verify`: `read_prices`, `write_prices`, `check_parallel` and `Graph::of_track`;
- by `walk`: `Client::walk` with `write_request` and `read_reply`, and by it, `publish`, `raise`, `dump` and `status` `post_to`;
- by `history`: `EditionBuilder` with `build`; by `review`, `graph`, `describe`, `script` and `explain` what each prints;
- by the tests: `Catalogue::apply`, `Catalogue::copy`, `Batch::copy`, `parts`, `cut_off` and `moves` of `buckets`, `tables`,
  `build`, `build_for`, `plan`, `open_books`, `close`, `open`, `Press::publish`, `serve` of `http_sessions`, and `Client::walk`
  over devices in memory.

It needs a C compiler, the program, and the tests whose names end in `_without_memory`, which `make allocations` builds.
"""

import argparse
import contextlib
import os
import pathlib
import re
import shutil
import subprocess
import sys
import tempfile

from fuzzing import server
from fuzzing.server import Connection, Wrong

TOP = pathlib.Path(__file__).resolve().parent.parent
EXAMPLES = TOP / "examples"
# the crates that have tests without memory
CRATES = ["catalogue_rows", "client_rows", "http_rows"]
# of a test with the second ending, the calls go on failing
ENDINGS = ("_without_memory", "_once_memory_ran_out")
LIMIT = 20
SHOWN = 5

SHIM = r"""
#define _GNU_SOURCE
#include <dlfcn.h>
#include <stdatomic.h>
#include <stdlib.h>
#include <unistd.h>

static atomic_long calls;
static long failing = -1;

static int fails(void) {
    if (failing < 0) {
        const char *text = getenv("FAILING_CALL");
        failing = text ? atol(text) : 0;
    }
    long call = atomic_fetch_add(&calls, 1) + 1;
    if (call < failing || (call > failing && !getenv("FAILING_ON")) || failing == 0) return 0;
    if (write(atoi(getenv("TELL_AT")), "x", 1) != 1) _exit(99);
    return 1;
}

void *malloc(size_t size) {
    static void *(*real)(size_t);
    if (!real) real = dlsym(RTLD_NEXT, "malloc");
    return fails() ? NULL : real(size);
}

void *realloc(void *old, size_t size) {
    static void *(*real)(void *, size_t);
    if (!real) real = dlsym(RTLD_NEXT, "realloc");
    return fails() ? NULL : real(old, size);
}
"""


def built(folder):
    """Compiles the library before `malloc`, and returns its path."""
    source, library = f"{folder}/failing.c", f"{folder}/failing.so"
    pathlib.Path(source).write_text(SHIM)
    subprocess.run(["cc", "-O1", "-shared", "-fPIC", "-o", library, source, "-ldl"], check=True)
    return library


class Shim:
    """The library with a call that fails, and perhaps all after it, and whether that call came."""

    def __init__(self, library, call, goes_on=False):
        self.reads, self.writes = os.pipe()
        own = {"LD_PRELOAD": library, "FAILING_CALL": str(call), "TELL_AT": str(self.writes)}
        own |= {"FAILING_ON": "1"} if goes_on else {}
        self.start = {"env": {**os.environ, **own}, "pass_fds": [self.writes]}

    def came(self):
        """Whether the call came; only once, after the process has ended."""
        os.close(self.writes)
        with os.fdopen(self.reads, "rb") as told:
            return bool(told.read())


def run(words, shim, data=b"", folder=None):
    """The exit status of a command, its output and its errors."""
    try:
        ran = subprocess.run(words, input=data, capture_output=True, timeout=LIMIT, cwd=folder, **shim.start)
    except subprocess.TimeoutExpired:
        return "no end", b"", b""
    return ran.returncode, ran.stdout, ran.stderr


class Command:
    """A command that fails as a whole, or prints what it prints with memory."""

    def __init__(self, name, words, data=b"", status=0):
        self.name, self.words, self.data, self.status, self.wanted = name, words, data, status, None

    def once(self, program, shim):
        found = run([program, *self.words], shim, self.data)
        if self.wanted is None:
            self.wanted = found
            return None if found[0] == self.status else f"with memory: {found!r:.300}"
        return None if found == self.wanted or self.fails(*found) else f"{found!r:.300}"

    def fails(self, status, output, errors):
        """Whether a run failed as it may without memory."""
        return (status, output, errors) == (1, b"", b"omaha: memory\n")


class Calling(Command):
    """A command that calls a server: its link and its installer report that memory ran out as failures of their own.

    Whole lines may come before the failure.
    """

    def __init__(self, name, words, lines, status=0):
        super().__init__(name, words, b"", status)
        self.lines = (b"omaha: memory\n", *lines)

    def fails(self, status, output, errors):
        return status == 1 and errors in self.lines and self.wanted[1].startswith(output) and output[-1:] in (b"", b"\n")


class Test:
    """A test of a crate, which passes whatever call fails."""

    def __init__(self, full, tests):
        self.full, self.tests = full, tests
        self.name = full.rsplit("::", 1)[-1].removesuffix("_without_memory")
        self.goes_on = full.endswith(ENDINGS[1])

    def once(self, _program, shim):
        found = run([self.tests, self.full], shim)
        return None if found[0] == 0 else f"{found!r:.400}"


# how a connection fails to a server that has ended, or ends meanwhile
ENDED = (ConnectionRefusedError, ConnectionResetError)
# how a server ends that has no memory for its books, or for a thread: it has accepted nobody
START = (b"omaha: memory\n", b"omaha: thread\n")
UPDATE = b'{"request":{"protocol":"3.1","app":[{"appid":"mini","cohort":"stable:7","updatecheck":{}}]}}'
SCRIPT = (EXAMPLES / "scripts" / "stage.toml").read_bytes()


def posted(path, body):
    return b"POST " + path + b" HTTP/1.1\r\nConnection: close\r\nContent-Length: %d\r\n\r\n" % len(body) + body


def got(path):
    return b"GET " + path + b" HTTP/1.1\r\nConnection: close\r\n\r\n"


def offered(reply):
    """The bytes that a reply offers: of each package, those of its differential if it has one."""
    found = re.findall(rb'"size":(\d+)(?:,"sizediff":(\d+))?', reply[1]) if reply else []
    return sum(int(differential or size) for size, differential in found)


def counted(name, page):
    """The sum of the samples of a metric."""
    return sum(int(number) for number in re.findall(rb"(?m)^%s\{.*\} (\d+)$" % name, page))


# rule: Due edition
# rule: Reply without memory
class Serving:
    """A server with two workers and an operator; a message that it rejects since memory ran out is sent again.

    Sent again it gets its first reply. So a script that was rejected, or whose connection was closed, wasn't published.
    """

    name = "serve, with publish, raise and dump"
    # the lines that standard error may have, whatever the server then does, and the options beside those of all
    lines, more = (b"",), ()
    messages = [
        ("clients", posted(b"/service/update2/json", UPDATE)),
        ("clients", got(b"/p/mini-1.0.bin")),
        ("operator", posted(b"/operate", SCRIPT)),
        ("clients", posted(b"/service/update2/json", UPDATE)),
        ("operator", posted(b"/operate", b"dump")),
        ("operator", posted(b"/operate", b"raise m0 2000000000000")),
        ("operator", posted(b"/operate", b"schema = 1\nbase = 2\n[[edit]]\ndo = 'set_share'\napp = 'x'\ncohort = 'y'\nshare = 1\n")),
        ("clients", posted(b"/service/update2/json", b"{")),
    ]  # fmt: skip
    # what the last one of says is compared with the total
    pages = (b"/healthz", b"/status", b"/", b"/metrics")

    def __init__(self, folder):
        self.folder, self.wanted = pathlib.Path(folder), None
        shutil.copytree(EXAMPLES / "packages", self.folder / "packages")
        shutil.copy(EXAMPLES / "live.toml", self.folder / "live.toml")

    def once(self, program, shim):
        ports = {"clients": server.free_port(), "operator": server.free_port()}
        self.left, self.again = {"clients": 6, "operator": 10}, None
        words = [program, "serve", "--profile", "live.toml", "--packages", "packages", "--workers", "2", "--timeout", "1"]
        words += ["--listen", f"127.0.0.1:{ports['clients']}", "--operator", f"127.0.0.1:{ports['operator']}"]
        words += ["--sessions", str(self.left["clients"]), "--edits", str(self.left["operator"]), "--log", "log", *self.more]
        process = subprocess.Popen(words, cwd=self.folder, stdout=subprocess.PIPE, stderr=subprocess.PIPE, **shim.start)
        try:
            return self.judge(process, ports)
        except (Wrong, OSError) as wrong:
            return f"{wrong}"
        finally:
            process.kill()
            process.communicate()

    def judge(self, process, ports):
        """What is wrong with a run, `None` if nothing is."""
        if process.stdout.readline() != b"ready\n":
            ended = process.communicate(timeout=LIMIT)[1], process.returncode
            return None if self.wanted and ended[0] in (b"omaha: memory\n", *self.lines[1:]) and ended[1] == 1 else f"before ready: {ended}"
        replies = [self.ask(ports, number, *message) for number, message in enumerate(self.messages)]
        pages = [self.ask(ports, len(self.messages), "operator", got(path)) for path in self.pages]
        for to, port in ports.items():
            for _ in range(self.left[to]):
                with contextlib.suppress(*ENDED):
                    server.Connection(port).socket.close()
        return self.judge_end(process, replies, pages[-1])

    def ask(self, ports, number, to, message):
        """The reply to a message; the first one of a run that is rejected is sent again."""
        reply = self.send(ports, to, message)
        wanted = self.wanted[number] if self.wanted and number < len(self.wanted) else None
        is_right = reply == wanted if wanted else reply and (reply[0], reply[2]) == (200, False)
        if not self.wanted or self.again is not None or is_right:
            return reply
        if reply and (reply[0] not in (200, 500) or (reply[0] == 200 and not reply[2])):
            raise Wrong(f"message {number}: {reply!r:.200}")
        self.again = number
        return self.settled(reply, self.send(ports, to, message), number)

    def settled(self, _first, reply, _number):
        """The reply to a message that was sent again, after its first one."""
        return reply

    def send(self, ports, to, message):
        """The status of the reply, its body, and whether that is a part; `None` without a reply."""
        self.left[to] -= 1
        try:
            connected = Connection(ports[to])
        except ENDED:
            return None
        with connected as connection:
            connection.send(message)
            reply = connection.read()
        if reply is None:
            return None
        body = reply.body.partition(b'"daystart"')[0]
        return reply.status, body, len(reply.body) < reply.length

    def judge_end(self, process, replies, metrics):
        output, errors = process.communicate(timeout=LIMIT)
        total = int(output.split()[1]) if output.startswith(b"m0 ") else None
        if self.wanted is None:
            self.wanted = replies
            are = [reply and reply[0] for reply in replies] == [200, 200, 200, 200, 200, 200, 422, 400] and self.is_total(total, metrics)
            return None if are and (process.returncode, errors) == (0, b"") else f"with memory: {replies!r:.300} {output} {errors}"
        if (process.returncode, output) == (1, b"") and errors in START and not any(replies):
            return None
        if (process.returncode, output, errors) == (1, b"", b"omaha: memory\n") and replies == self.wanted:
            return None  # the totals of a server whose last connection has ended
        if replies != self.wanted:
            return f"replies {replies!r:.300}, end {process.returncode} {output} {errors}"
        if process.returncode != 0 or errors not in self.lines or not self.is_total(total, metrics):
            return f"end: {process.returncode} {output} {errors} {self.again} {metrics!r:.3000}"
        return None

    def is_total(self, total, metrics):
        """Whether the total is what the mirror granted: what was offered, and the bytes of a check that ran out of memory."""
        if total is None or metrics is None:
            return False
        sums = [offered(reply) for reply in self.wanted] + [0]
        again = sums[self.again] if self.again is not None else 0
        granted, counts = counted(b"omaha_mirror_granted_bytes", metrics[1]), counted(b"omaha_offered_bytes_total", metrics[1])
        return total == granted >= counts and {total - sum(sums), counts - sum(sums)} <= {0, again}


class Keeping(Serving):
    """The same with a history: a script that got 500 may be kept, and its edition due. Sent again, it is stale."""

    name = "serve with a history, publish, raise and dump"
    lines = (b"", b"omaha: history kept.db: out of memory\n", b"omaha: history kept.db: closed by an earlier failure\n")
    more = ("--history", "kept.db")

    def once(self, program, shim):
        for path in self.folder.glob("kept.db*"):
            path.unlink()
        return super().once(program, shim)

    def settled(self, first, reply, number):
        due = number == 2 and first is not None and reply == (409, b"stale 2\n", False)
        return self.wanted[number] if due else reply


class Reading(Command):
    """A command that reads a history, and may name it in its failure."""

    def fails(self, status, output, errors):
        lines = (b"omaha: memory\n", f"omaha: history {self.words[-1]}: out of memory\n".encode())
        return status == 1 and output == b"" and errors in lines


def commands():
    """The commands that are swept."""
    staged, chains, served = (str(EXAMPLES / "staged.toml"), str(EXAMPLES / "chains.toml"), str(server.PROFILE))
    request = (EXAMPLES / "beta.json").read_bytes()
    track, packages = ["demo", "stable", "target", "no"], str(EXAMPLES / "packages")
    live, stage = str(EXAMPLES / "live.toml"), str(EXAMPLES / "scripts" / "stage.toml")
    return [
        Command("once", ["once", "--profile", staged, "--moment", "1767229261"], request),
        Command("once, no request", ["once", "--profile", staged], b"{", 1),
        Command("check", ["check", served, "--workers", "2"]),
        Command("certify", ["certify", chains, *track]),
        Command("verify", ["verify", chains, str(EXAMPLES / "chains.prices")]),
        Command("verify, wrong line", ["verify", staged, str(EXAMPLES / "chains.prices")], b"", 1),
        Command("check, with packages", ["check", str(EXAMPLES / "mini.toml"), "--packages", packages]),
        Command("describe", ["describe", f"{packages}/mini-1.0.bin", f"{packages}/mini-2.0.bin"]),
        Command("explain", ["explain"]),
        Command("script", ["script", "--base", "1", "set_share", "app=demo", "cohort=stable", "share=100", "--", "set_audience", "app=demo", "version=1.0", "cohorts=stable,beta"]),
        Command("script, no script", ["script", "--base", "1", "set_share", "app=demo", "share=a"], b"", 1),
        Command("review", ["review", chains]),
        Command("review, objects", ["review", chains, "--json"]),
        Command("review, with a script", ["review", live, "--script", stage]),
        Command("review, objects with a script", ["review", live, "--script", stage, "--json"]),
        Command("graph", ["graph", chains, "demo"]),
        Command("graph, for dot", ["graph", chains, "demo", "--dot"]),
    ]


def readings(program, folder):
    """The commands that read a history, of a server that published a script and raised a budget."""
    path, port, operator = str(pathlib.Path(folder, "read.db")), server.free_port(), server.free_port()
    words = ["--profile", str(EXAMPLES / "live.toml"), "--packages", str(EXAMPLES / "packages"), "--history", path]
    words += ["--listen", f"127.0.0.1:{port}", "--operator", f"127.0.0.1:{operator}"]
    with subprocess.Popen([program, "serve", *words], stdout=subprocess.PIPE) as process:
        process.stdout.readline()
        for message in (SCRIPT, b"raise m0 2000000000000"):
            with Connection(operator) as connection:
                connection.send(posted(b"/operate", message))
                connection.read()
        process.kill()
    return [Reading("history", ["history", path]), Reading("history, exported", ["history", "export", path])]


def calls(port, operator, script):
    """The commands that call a running server."""
    to, at = f"127.0.0.1:{port}", f"127.0.0.1:{operator}"
    net = [f"omaha: net {at}\n".encode()]
    return [
        Calling("walk", ["walk", "--to", to, "--app", "mini", "--version", ""], [b"omaha: U1 Link\n", b"omaha: U5 Install\n"]),
        Calling("publish", ["publish", "--to", at, script], net, 1),
        Calling("raise", ["raise", "--to", at, "m0", "1000000000000"], net),
        Calling("dump", ["dump", "--to", at], net),
        Calling("status", ["status", "--to", at], net),
    ]


@contextlib.contextmanager
def serving(program, folder):
    """A server with all its memory, and the commands that call it; its script is stale, so that it is never published."""
    port, operator = server.free_port(), server.free_port()
    profile, script = pathlib.Path(folder, "called.toml"), pathlib.Path(folder, "stale.toml")
    profile.write_text((EXAMPLES / "mini.toml").read_text().replace("127.0.0.1:8080", f"127.0.0.1:{port}"))
    script.write_text("schema = 1\nbase = 0\n")
    words = ["--packages", str(EXAMPLES / "packages"), "--listen", f"127.0.0.1:{port}", "--operator", f"127.0.0.1:{operator}"]
    process = subprocess.Popen([program, "serve", "--profile", str(profile), *words], stdout=subprocess.PIPE)
    try:
        process.stdout.readline()
        yield calls(port, operator, str(script))
    finally:
        process.kill()
        process.communicate()


def tests_of(crate):
    """The tests of a crate that are swept, by the names of their calls."""
    path = str(TOP / "crates" / crate / "out" / f"{crate}_tests")
    if not os.path.isfile(path):
        sys.exit(f"{path} isn't built: make allocations builds it")
    listed = subprocess.run([path, "--list"], capture_output=True, text=True, check=True).stdout
    names = [line.removesuffix(": test") for line in listed.splitlines()]
    return [Test(name, path) for name in names if name.endswith(ENDINGS)]


def sweep(library, program, swept):
    """Lets each call fail until a run has no such call: how many runs were wrong."""
    shim = Shim(library, 0)
    found = swept.once(program, shim)
    if shim.came() or found:
        print(f"{swept.name}: with memory: {found}")
        return 1
    call, wrong = 0, 0
    while True:
        call += 1
        shim = Shim(library, call, getattr(swept, "goes_on", False))
        found = swept.once(program, shim)
        if not shim.came():
            break
        if found:
            wrong += 1
            if wrong <= SHOWN:
                print(f"  {swept.name}, call {call}: {found}")
    print(f"{swept.name}: {call - 1} allocations, {call - 1} runs, {wrong} wrong", flush=True)
    return wrong


def main():
    reader = argparse.ArgumentParser(description="Lets each allocation fail in turn.")
    reader.add_argument("--program", type=os.path.abspath, default=TOP / "crates" / "omaha" / "out" / "omaha")
    reader.add_argument("names", nargs="*", metavar="NAME")
    arguments = reader.parse_args()
    if not os.path.isfile(arguments.program):
        sys.exit(f"{arguments.program} isn't built: make install builds it")
    with tempfile.TemporaryDirectory(prefix="omaha-allocations-") as folder:
        library = built(folder)
        with serving(arguments.program, folder) as called:
            tests = [test for crate in CRATES for test in tests_of(crate)]
            kept = pathlib.Path(folder, "kept")
            kept.mkdir()
            swept = [*tests, *commands(), *readings(arguments.program, folder), *called, Serving(folder), Keeping(kept)]
            chosen = [it for it in swept if not arguments.names or any(it.name.startswith(name) for name in arguments.names)]
            wrong = sum(sweep(library, arguments.program, it) for it in chosen)
    print(f"{len(chosen)} sweeps, {wrong} wrong")
    if wrong:
        sys.exit(1)


if __name__ == "__main__":
    main()
