#!/usr/bin/env python3
"""Tests the recipe of `examples/cluster/`: three servers that share a history in three nodes of etcd, and nginx in front.

    tests/cluster.py [OMAHA] [--rounds N]      OMAHA is the program, `crates/omaha/out/omaha` if not given

It needs Debian's `etcd-server` and `nginx`, and runs the files of the recipe with other ports.

First the recipe as it is: a script that is published to one server is offered by all, a second server says `stale`, a
walk through nginx, and an end that leaves nothing running. Then the processes of the recipe are started again, by their
own command lines, which goes on from what the nodes keep, and a table says how long a publish took, and how long until all
servers had it.

Then N rounds, 20 by default, while clients ask through nginx and two operators publish at any of the servers: in each a
server is killed or paused, and half a second later the leader of etcd too; then both come back. In the end

- no reply is missing, and each is of one of the editions;
- each dump that any server gave meanwhile is that of an edition of the one history;
- each script that got `edition N` is edition N there, and no script is there twice;
- all servers have the same edition and the same catalogue, and each of their histories is the same.

A script without a reply, or whose reply was `history in doubt`, may be there or not.
"""

import argparse
import contextlib
import http.client
import json
import os
import pathlib
import random
import shutil
import signal
import socket
import statistics
import subprocess
import sys
import tempfile
import threading
import time

TOP = pathlib.Path(__file__).resolve().parent.parent
EXAMPLES = TOP / "examples"
ASK = b'{"request":{"protocol":"3.1","app":[{"appid":"mini","cohort":"stable:7","version":"2.0","updatecheck":{}}]}}'
OLD, NEW = (200, '"status":"noupdate"'), (200, '"version":"3.0"')
NUMBERS = (1, 2, 3)
failures = []


def expect(what, found, wanted):
    if found != wanted:
        failures.append(what)
        print(f"  {what}\n    expected: {wanted}\n    found:    {found}")


class Ports:
    """Free ports: of nginx, and each server's and node's by its number."""

    def __init__(self):
        made = [socket.socket() for _ in range(13)]
        for it in made:
            it.bind(("127.0.0.1", 0))
        found = [str(it.getsockname()[1]) for it in made]
        for it in made:
            it.close()
        self.front = found[0]
        kinds = zip(("listen", "operator", "etcd", "peer"), (found[i : i + 3] for i in range(1, 13, 3)))
        for name, three in kinds:
            setattr(self, name, dict(zip(NUMBERS, three)))
        self.all = found

    def within(self, text):
        """A file of the recipe with these ports; those of a loop are looked up in the environment."""
        for kind, first in (("listen", "808"), ("operator", "809"), ("etcd", "237"), ("peer", "238")):
            text = text.replace(f":{first}$number", f":$(eval echo \\${kind}_$number)")
            for number, port in getattr(self, kind).items():
                text = text.replace(f"127.0.0.1:{first}{number}", f"127.0.0.1:{port}")
        return text.replace("listen 8080;", f"listen 127.0.0.1:{self.front};")

    def environment(self):
        kinds = ("listen", "operator", "etcd", "peer")
        return {f"{kind}_{number}": port for kind in kinds for number, port in getattr(self, kind).items()}

    def history(self):
        return f"etcd://{','.join(f'127.0.0.1:{port}' for port in self.etcd.values())}/omaha"


class Process:
    """A process of the recipe, which is started by its command line, paused, killed and started again."""

    def __init__(self, words, folder, environment):
        self.words, self.folder, self.environment, self.made = words, folder, environment, None

    def start(self):
        # Not in the folder's name: that of a server may be started while the one before it is still ending.
        log = open(pathlib.Path(self.folder) / "processes.log", "ab")
        self.made = subprocess.Popen(self.words, cwd=self.folder, env=self.environment, stdout=log, stderr=log)

    def is_running(self):
        return self.made is not None and self.made.poll() is None

    def send(self, sign):
        if self.is_running():
            self.made.send_signal(sign)

    def kill(self):
        self.send(signal.SIGKILL)
        self.made.wait()


def is_listened_on(port):
    with socket.socket() as made:
        return made.connect_ex(("127.0.0.1", int(port))) == 0


def wait_until(what, is_so, seconds=30):
    until = time.monotonic() + seconds
    while not is_so():
        if time.monotonic() > until:
            failures.append(what)
            print(f"  {what}: not after {seconds} seconds")
            return
        time.sleep(0.02)


def exchange(port, path, body, timeout=20):
    """The status and the body of a reply to a post, or to a read without a body."""
    made = http.client.HTTPConnection("127.0.0.1", int(port), timeout=timeout)
    with contextlib.closing(made):
        made.request("GET" if body is None else "POST", path, body)
        reply = made.getresponse()
        return reply.status, reply.read()


def ask(port):
    """The status and the kind of a reply to an update check, or its body if it is of neither kind."""
    status, body = exchange(port, "/service/update2/json", ASK)
    for kind in (OLD[1], NEW[1]):
        if kind.encode() in body:
            return status, kind
    return status, body


def edition_of(operator):
    """The number of a server's edition, or `None` if it doesn't say one."""
    try:
        return int(exchange(operator, "/status", None)[1].split()[1])
    except (OSError, ValueError, IndexError, http.client.HTTPException):
        return None


def leader_of(ports):
    """The number of the node that leads, or `None`."""
    for number, port in ports.etcd.items():
        try:
            said = json.loads(exchange(port, "/v3/maintenance/status", b"{}", 2)[1])
            if said["header"]["member_id"] == said["leader"]:
                return number
        except (OSError, ValueError, KeyError, http.client.HTTPException):
            pass
    return None


def script_of(name, base, share):
    return (
        f"# {name}\nschema = 1\nbase = {base}\n\n[[edit]]\ndo = \"set_share\"\napp = \"mini\"\n"
        f'cohort = "stable"\nshare = {share}\n'
    ).encode()


class Operator(threading.Thread):
    """Publishes at any server, one script after the other, and notes what came of each."""

    def __init__(self, name, ports, is_done):
        super().__init__()
        self.called, self.ports, self.is_done, self.random = name, ports, is_done, random.Random(name)
        self.accepted, self.lost, self.doubtful, self.stale, self.unreachable = {}, set(), set(), 0, 0

    def run(self):
        base, number = 2, 0
        while not self.is_done.is_set():
            number += 1
            name = f"{self.called} {number}"
            port = self.random.choice(list(self.ports.operator.values()))
            try:
                status, body = exchange(port, "/operate", script_of(name, base, self.random.randrange(1001)))
            except (OSError, http.client.HTTPException):
                self.lost.add(name)
                continue
            words = body.decode().split()
            if status == 200:
                base = int(words[1])
                self.accepted[name] = base
            elif words[:1] == ["stale"]:
                base = int(words[1])
                self.stale += 1
            elif words == ["history", "unreachable"]:
                self.unreachable += 1
            else:
                self.doubtful.add(name)
            time.sleep(self.random.uniform(0, 0.1))


def repeat(is_done, kept, what):
    """A thread that keeps what a call gives until it is done, or the error."""

    def run():
        while not is_done.is_set():
            try:
                kept.append(what())
            except (OSError, http.client.HTTPException) as error:
                kept.append(str(error))

    made = threading.Thread(target=run)
    made.start()
    return made


def dump_of_any(ports):
    """A dump of some server that replies; it is down or paused in some rounds."""
    try:
        status, body = exchange(random.choice(list(ports.operator.values())), "/operate", b"dump")
        return body.decode() if status == 200 else None
    except (OSError, http.client.HTTPException):
        return None


def words_of(start):
    """The command lines of the processes below the one that was started, by the port that each listens on."""
    found = []
    for child in subprocess.run(["pgrep", "-P", str(start.pid)], stdout=subprocess.PIPE, text=True).stdout.split():
        words = pathlib.Path(f"/proc/{child}/cmdline").read_text().split("\0")[:-1]
        if os.path.basename(words[0]) == "etcd" or "serve" in words:
            found.append(words)
    return found


def test_recipe(ports, folder, how, program):
    """The recipe as it is. Returns the command lines of its processes."""
    start = subprocess.Popen(["./start.sh", "live.toml", EXAMPLES / "packages"], start_new_session=True, **how)
    try:
        expect("ready", [start.stdout.readline() for _ in NUMBERS], ["ready\n"] * 3)
        wait_until("nginx", lambda: is_listened_on(ports.front))
        seen, is_done = [], threading.Event()
        asking = repeat(is_done, seen, lambda: ask(ports.front))
        expect("before", {ask(ports.front) for _ in range(9)}, {OLD})
        script = EXAMPLES / "scripts" / "stage.toml"

        def publish(number):
            to = f"127.0.0.1:{ports.operator[number]}"
            done = subprocess.run([program, "publish", "--to", to, script], **how)
            return done.returncode, done.stdout

        expect("publish", publish(1), (0, "edition 2\n"))
        wait_until("the others", lambda: {edition_of(port) for port in ports.operator.values()} == {2})
        expect("after", {ask(ports.front) for _ in range(9)}, {NEW})
        expect("publish again", publish(2), (1, "stale 2\n"))
        walk = [program, "walk", "--to", f"127.0.0.1:{ports.front}", "--app", "mini", "--version", "", "--cohort", "stable:7"]
        walked = subprocess.run(walk, **how)
        expect("a walk", (walked.returncode, walked.stdout[-22:]), (0, "done 3 steps 2383 bytes\n"[-22:]))
        is_done.set()
        asking.join()
        expect("all the time", set(map(str, seen)) <= {str(OLD), str(NEW)}, True)
        return words_of(start)
    finally:
        start.terminate()
        expect("the end of the recipe", start.wait(timeout=20), 143)
        left = [port for port in ports.all if port != ports.front]
        wait_until("what is left", lambda: not [port for port in left if is_listened_on(port)], 10)


def measure(ports, count):
    """How long publishes took, and how long until all servers had them, in milliseconds."""
    accepted, followed, base = [], [], edition_of(ports.operator[1])
    for number in range(count):
        port = ports.operator[random.choice(NUMBERS)]
        begun = time.monotonic()
        status, body = exchange(port, "/operate", script_of(f"measured {number}", base, random.randrange(1001)))
        accepted.append(1000 * (time.monotonic() - begun))
        expect(f"measured {number}", (status, body), (200, f"edition {base + 1}\n".encode()))
        base += 1
        while {edition_of(port) for port in ports.operator.values()} != {base}:
            time.sleep(0.002)
        followed.append(1000 * (time.monotonic() - begun))
    for what, times in (("accepted", accepted), ("at all servers", followed)):
        print(f"{what}: median {statistics.median(times):.1f} ms, at most {max(times):.1f} ms, of {count} publishes")


def run_rounds(ports, servers, nodes, count):
    """Faults, one round after the other."""
    for number in range(count):
        sign = signal.SIGKILL if number % 2 == 0 else signal.SIGSTOP
        server = servers[random.choice(NUMBERS)]
        leader = nodes[leader_of(ports) or 1]
        for it in (server, leader):
            it.send(sign)
            time.sleep(0.5)
        time.sleep(1.5)
        for it in (leader, server):
            if sign == signal.SIGSTOP:
                it.send(signal.SIGCONT)
            else:
                it.made.wait()
                it.start()
            time.sleep(0.5)
        for at, it in servers.items():
            # As a unit of systemd does: it ends if no node replies at its start.
            while not is_listened_on(ports.operator[at]):
                if not it.is_running():
                    it.start()
                time.sleep(0.2)


def history_of(program, ports, how, *words):
    done = subprocess.run([program, "history", *words, ports.history()], **how)
    expect(f"history {' '.join(words)}", done.returncode, 0)
    return done.stdout


def test_rounds(ports, folder, how, program, lines, rounds):
    def of(kind, key):
        return {n: Process(w, folder, how["env"]) for w in lines for n, p in getattr(ports, kind).items() if key(w, p)}

    nodes = of("etcd", lambda words, port: f"http://127.0.0.1:{port}" in words)
    servers = of("listen", lambda words, port: f"127.0.0.1:{port}" in words and "serve" in words)
    expect("processes", (len(nodes), len(servers)), (3, 3))
    try:
        for it in nodes.values():
            it.start()
        wait_until("a leader", lambda: leader_of(ports))
        for it in servers.values():
            it.start()
        wait_until("the servers", lambda: {edition_of(port) for port in ports.operator.values()} == {2})
        measure(ports, 40)
        is_done, seen, dumps = threading.Event(), [], []
        operators = [Operator(name, ports, is_done) for name in ("first", "second")]
        others = [repeat(is_done, seen, lambda: ask(ports.front)) for _ in range(4)]
        others.append(repeat(is_done, dumps, lambda: dump_of_any(ports)))
        for it in operators:
            it.start()
        run_rounds(ports, servers, nodes, rounds)
        time.sleep(1)
        is_done.set()
        for it in [*operators, *others]:
            it.join()
        wait_until("all equal", lambda: len({edition_of(port) for port in ports.operator.values()}) == 1)
        time.sleep(1)
        judge(ports, how, program, operators, seen, dumps)
    finally:
        for it in [*servers.values(), *nodes.values()]:
            it.send(signal.SIGCONT)
            it.kill()


def judge(ports, how, program, operators, seen, dumps):
    expect("each reply", set(map(str, seen)) - {str(OLD), str(NEW)}, set())
    editions = {edition_of(port) for port in ports.operator.values()}
    expect("one edition", len(editions), 1)
    last = max(editions)
    records = [line.split(" ", 4) for line in history_of(program, ports, how).splitlines()]
    there = [(words[4].removeprefix("# "), int(words[3])) for words in records if words[1] == "script"]
    names = [name for name, _ in there]
    expect("no script twice", len(names), len(set(names)))
    expect("editions in order", [edition for _, edition in there], list(range(2, last + 1)))
    for it in operators:
        for name, edition in it.accepted.items():
            expect(f"{name}, which got edition {edition}", (name, edition) in there, True)
        unknown = {name for name in names if name.startswith(f"{it.called} ")} - set(it.accepted) - it.lost - it.doubtful
        expect(f"scripts of {it.called} that are there and weren't accepted", unknown, set())
    exports = {history_of(program, ports, how, "export", "--edition", str(number)) for number in range(1, last + 1)}
    kept = {dump for dump in dumps if dump is not None}
    expect("dumps that are of no edition", len(kept - exports), 0)
    lasts = {exchange(port, "/operate", b"dump")[1].decode() for port in ports.operator.values()}
    expect("the last dumps", lasts, {history_of(program, ports, how, "export")})
    accepted = sum(len(it.accepted) for it in operators)
    print(f"{len(seen)} update checks, {len(kept)} different dumps of {len(dumps)}")
    lost, doubtful = sum(len(it.lost) for it in operators), sum(len(it.doubtful) for it in operators)
    stale, unreachable = sum(it.stale for it in operators), sum(it.unreachable for it in operators)
    print(f"scripts: {accepted} accepted, {stale} stale, {unreachable} unreachable, {doubtful} in doubt, {lost} without a reply")
    print(f"edition {last} at all servers")


def main():
    parser = argparse.ArgumentParser(description=__doc__.split("\n")[0])
    parser.add_argument("program", nargs="?", default=TOP / "crates" / "omaha" / "out" / "omaha")
    parser.add_argument("--rounds", type=int, default=20)
    asked = parser.parse_args()
    program = os.path.abspath(asked.program)
    path = os.environ["PATH"] + ":/usr/sbin"
    nginx, _ = [shutil.which(name, path=path) or sys.exit(f"cluster: {name} isn't installed") for name in ("nginx", "etcd")]
    ports = Ports()
    with tempfile.TemporaryDirectory() as folder:
        os.chmod(folder, 0o755)
        at = pathlib.Path(folder)
        os.symlink(program, at / "omaha")
        for name in ("start.sh", "nginx.conf"):
            (at / name).write_text(ports.within((EXAMPLES / "cluster" / name).read_text()))
            (at / name).chmod(0o755)
        (at / "live.toml").write_text((EXAMPLES / "live.toml").read_text().replace("127.0.0.1:8080", f"127.0.0.1:{ports.front}"))
        environment = {**os.environ, **ports.environment(), "PATH": f"{folder}:{os.environ['PATH']}"}
        how = {"cwd": folder, "env": environment, "stdout": subprocess.PIPE, "text": True}
        front = subprocess.Popen([nginx, "-p", folder, "-c", at / "nginx.conf", "-e", at / "nginx.log", "-g", "daemon off;"])
        try:
            lines = test_recipe(ports, folder, how, program)
            test_rounds(ports, folder, how, program, lines, asked.rounds)
        finally:
            front.terminate()
            front.wait()
    if failures:
        sys.exit(f"cluster: {len(failures)} differ")
    print("cluster: as expected")


if __name__ == "__main__":
    main()
