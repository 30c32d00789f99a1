#!/usr/bin/env python3
"""Tests the history of `omaha serve`: what was published is there after the server was killed.

    tests/history.py [PROGRAM] [--kills N] [--mishaps N] [--only NAME]

`make history` runs it, after `make install`. PROGRAM is the built program, else that of the last build. Each test
prints its name and, if it fails, what was expected and what was found; then the exit status is 1.

- `kills`: N times, 500 by default, a server with clients, publishes and raises is killed at a random time. After each
  start nothing that was replied to is missing, at most one script or raise more is there, and scripts go on from there.
- `commands`: `omaha history` lists, exports and compacts what was kept, and a server goes on from the compacted file.
- `faults`: a file of another program, a truncated one, one without permission, one in use and one that began with another
  profile end the server with a line, and are left as they are.
- `full`: at the limit of the records a publish gets 500 and changes nothing; with a larger limit it goes on.
- `disk`: on a full disk a publish gets 500 and changes nothing, and with room the next start goes on. Only root can mount
  such a disk.
- `mishaps`: N times, 300 by default, something happens to the files of a server that was killed: one of them is missing,
  empty or cut, or has a wrong bit, or is older than the other, or the log is another history's. Then a start has all that
  was replied to, or a line that says why it doesn't begin, and leaves both files as they are.
- `sqlite3`: Debian's `sqlite3`, if it is installed, reads the file and finds it whole.
"""

import argparse
import contextlib
import os
import pathlib
import random
import re
import shutil
import socket
import subprocess
import sys
import tempfile
import threading
import time
import urllib.error
import urllib.request

TOP = pathlib.Path(__file__).resolve().parent.parent
EXAMPLES = TOP / "examples"
ASK = b'{"request":{"app":[{"appid":"mini","updatecheck":{}}],"protocol":"3.1"}}'
failures = []


def check(name, expected, found):
    """Reports a difference."""
    if expected != found:
        failures.append(name)
        print(f"{name}: expected {expected!r}, found {found!r}")


def free_port():
    with socket.socket() as found:
        found.bind(("127.0.0.1", 0))
        return found.getsockname()[1]


def post(port, path, body):
    """The status and the body of a reply; None if there is none."""
    request = urllib.request.Request(f"http://127.0.0.1:{port}{path}", data=body, method="POST")
    try:
        with urllib.request.urlopen(request, timeout=10) as reply:
            return reply.status, reply.read().decode()
    except urllib.error.HTTPError as error:
        return error.code, error.read().decode()
    except OSError:
        return None


class Server:
    """A server over a history in a folder."""

    def __init__(self, program, folder, more=("--profile", "profile.toml"), history=("--history", "history.db")):
        self.port, self.operator = free_port(), free_port()
        words = ["--packages", "packages", "--workers", "8", *history, *more]
        words += ["--listen", f"127.0.0.1:{self.port}", "--operator", f"127.0.0.1:{self.operator}"]
        self.process = subprocess.Popen(
            [program, "serve", *words], cwd=folder, stdout=subprocess.PIPE, stderr=subprocess.PIPE
        )
        self.ready = self.process.stdout.readline()

    def operate(self, body):
        return post(self.operator, "/operate", body.encode())

    def edition(self):
        """The number of the published edition: a script on base 0 is stale."""
        status, line = self.operate("schema = 1\nbase = 0\nedit = []\n")
        return int(re.fullmatch(r"stale (\d+)\n", line)[1]) if status == 409 else None

    def budget(self):
        status, profile = self.operate("dump")
        return int(re.search(r"^budget = (\d+)$", profile, re.MULTILINE)[1]) if status == 200 else None

    def kill(self):
        self.process.kill()
        return self.process.communicate()


@contextlib.contextmanager
def folder_of():
    with tempfile.TemporaryDirectory() as folder:
        folder = pathlib.Path(folder)
        shutil.copytree(EXAMPLES / "packages", folder / "packages")
        shutil.copy(EXAMPLES / "mini.toml", folder / "profile.toml")
        yield folder


def share_script(base, share):
    return f'schema = 1\nbase = {base}\n[[edit]]\ndo = "set_share"\napp = "mini"\ncohort = "stable"\nshare = {share}\n'


class Publisher(threading.Thread):
    """Publishes and raises one after the other, and keeps the last of each that was replied to."""

    def __init__(self, server, mirror, edition, budget):
        super().__init__(daemon=True)
        self.server, self.mirror, self.edition, self.budget = server, mirror, edition, budget
        self.wrong = None

    def run(self):
        while True:
            reply = self.server.operate(share_script(self.edition, self.edition % 1001))
            if reply is None:
                return
            if reply != (200, f"edition {self.edition + 1}\n"):
                self.wrong = reply
                return
            self.edition += 1
            reply = self.server.operate(f"raise {self.mirror} {self.budget + 1}")
            if reply is None:
                return
            if reply != (200, f"raised {self.mirror} {self.budget + 1}\n"):
                self.wrong = reply
                return
            self.budget += 1


def ask_on(server, stop, wrong):
    """Asks until the server is gone; each reply is 200."""
    while not stop.is_set():
        reply = post(server.port, "/service/update2/json", ASK)
        if reply is None:
            return
        if reply[0] != 200:
            wrong.append(reply)


def kills(program, count):
    began, most = time.time(), 0
    with folder_of() as folder:
        mirror = re.search(r'^name = "([a-z0-9]+)"$', (folder / "profile.toml").read_text(), re.MULTILINE)[1]
        edition, budget = 1, None
        for round_ in range(count):
            if edition > 3900:
                (folder / "history.db").unlink()
                for rest in folder.glob("history.db-*"):
                    rest.unlink()
                edition, budget = 1, None
            server = Server(program, folder)
            check("kills: ready", b"ready\n", server.ready)
            now, present = server.edition(), server.budget()
            if round_ and budget is not None:
                check("kills: an edition that was replied to, or one more", True, now in (edition, edition + 1))
                check("kills: a budget that was replied to, or one more", True, present in (budget, budget + 1))
                most += (now == edition + 1) + (present == budget + 1)
            publisher, stop, wrong = Publisher(server, mirror, now, present), threading.Event(), []
            asking = [threading.Thread(target=ask_on, args=(server, stop, wrong), daemon=True) for _ in range(8)]
            for thread in (publisher, *asking):
                thread.start()
            time.sleep(random.uniform(0.0, 0.25))
            server.kill()
            stop.set()
            for thread in (publisher, *asking):
                thread.join(20)
            check("kills: each publish and raise", None, publisher.wrong)
            check("kills: each reply", [], wrong)
            edition, budget = publisher.edition, publisher.budget
            if failures:
                return
    print(f"kills: {count}, nothing lost, {most} times one more than was replied to, {time.time() - began:.0f} s")


def run(program, folder, *words):
    done = subprocess.run([program, *words], cwd=folder, capture_output=True, text=True, check=False)
    return done.returncode, done.stdout, done.stderr


def commands(program):
    with folder_of() as folder:
        server = Server(program, folder)
        for base in (1, 2):
            check("commands: publish", (200, f"edition {base + 1}\n"), server.operate(share_script(base, 100 * base)))
        dumped = server.operate("dump")[1]
        server.kill()
        status, listed, _errors = run(program, folder, "history", "history.db")
        check("commands: list", (0, ["1 profile", "2 script", "3 script"]), (status, [" ".join(line.split()[:2]) for line in listed.splitlines()]))
        check("commands: export", (0, dumped, ""), run(program, folder, "history", "export", "history.db"))
        status, second, _errors = run(program, folder, "history", "export", "--edition", "2", "history.db")
        check("commands: export of an edition", (0, True), (status, "share = 100" in second))
        check("commands: no such edition", 1, run(program, folder, "history", "export", "--edition", "9", "history.db")[0])
        check("commands: compact", (0, "", ""), run(program, folder, "history", "compact", "history.db"))
        status, listed, _errors = run(program, folder, "history", "history.db")
        check("commands: compacted", (0, ["3 profile"]), (status, [" ".join(line.split()[:2]) for line in listed.splitlines()]))
        server = Server(program, folder, more=())
        check("commands: ready", b"ready\n", server.ready)
        check("commands: the edition stays", 3, server.edition())
        check("commands: the catalogue stays", (200, dumped), server.operate("dump"))
        check("commands: scripts go on", (200, "edition 4\n"), server.operate(share_script(3, 5)))
        server.kill()
    print("commands")


def ends(program, folder, *more, user=None):
    """How a server ends that can't begin: its status, and what it prints."""
    done = subprocess.run(
        [program, "serve", "--packages", "packages", "--listen", "127.0.0.1:0", "--history", "history.db", *more],
        cwd=folder, capture_output=True, text=True, timeout=30, check=False, user=user,
    )
    return done.returncode, done.stdout, done.stderr


def line(reason):
    """The end of a server whose history can't be used."""
    return 1, "", f"omaha: history history.db: {reason}\n"


def faults(program):
    profile = ("--profile", "profile.toml")
    with folder_of() as folder:
        foreign = b"a file of another program\n" * 100
        (folder / "history.db").write_bytes(foreign)
        check("faults: another program's", line("not a history"), ends(program, folder, *profile))
        check("faults: it is left", foreign, (folder / "history.db").read_bytes())
    with folder_of() as folder:
        check("faults: nothing to begin with", line("cannot be opened"), ends(program, folder))
        check("faults: and nothing is made", False, (folder / "history.db").exists())
        (folder / "history.db").touch()
        check("faults: no records", line("has no records: name a profile"), ends(program, folder))
    with folder_of() as folder:
        server = Server(program, folder)
        check("faults: in use", line("in use by another program"), ends(program, folder, *profile))
        server.kill()
        (folder / "other.toml").write_text((folder / "profile.toml").read_text() + "\n")
        other = line("begins with another profile: leave --profile out, or begin another file")
        check("faults: another profile", other, ends(program, folder, "--profile", "other.toml"))
        data = (folder / "history.db").read_bytes()
        (folder / "history.db").write_bytes(data[: len(data) // 2 or 1])
        for rest in folder.glob("history.db-*"):
            rest.unlink()
        status, printed, error = ends(program, folder, *profile)
        check("faults: truncated", (1, "", True), (status, printed, error.startswith("omaha: history history.db: ")))
    if os.geteuid() == 0:
        with folder_of() as folder:
            Server(program, folder).kill()
            (folder / "history.db").chmod(0)
            for path in (folder, *folder.rglob("*")):
                os.chown(path, 65534, 65534)
            check("faults: no permission", line("cannot be opened"), ends(program, folder, *profile, user=65534))
    print("faults")


@contextlib.contextmanager
def small_disk(folder):
    """A disk of 2 MiB in memory, as a folder below this one."""
    disk = folder / "disk"
    disk.mkdir()
    subprocess.run(["mount", "-t", "tmpfs", "-o", "size=2m", "tmpfs", disk], check=True)
    try:
        yield disk
    finally:
        subprocess.run(["umount", "-l", disk], check=True)


def disk(program):
    if os.geteuid() != 0:
        print("disk: not root")
        return
    with folder_of() as folder, small_disk(folder) as mounted:
        more = ("--profile", "profile.toml", "--history", "disk/history.db")
        server = Server(program, folder, more, history=())
        check("disk: ready", b"ready\n", server.ready)
        edition, reply = 1, (200, "")
        while reply[0] == 200 and edition < 2000:
            reply = server.operate("# " + "x" * 20000 + "\n" + share_script(edition, edition % 1001))
            edition += reply[0] == 200
        check("disk: full", 500, reply[0])
        check("disk: nothing changed", edition, server.edition())
        check("disk: clients are served", 200, post(server.port, "/service/update2/json", ASK)[0])
        errors = server.kill()[1].decode()
        check("disk: the reason", "omaha: history disk/history.db: the disk is full", errors.partition("\n")[0])
        subprocess.run(["mount", "-o", "remount,size=16m", mounted], check=True)
        server = Server(program, folder, more, history=())
        check("disk: what was published is there", edition, server.edition())
        check("disk: and goes on", (200, f"edition {edition + 1}\n"), server.operate(share_script(edition, 1)))
        server.kill()
    print("disk")


def full(program):
    with folder_of() as folder:
        size = (folder / "profile.toml").stat().st_size
        server = Server(program, folder, more=("--profile", "profile.toml", "--history-limit", str(size + 100)))
        check("full: first", (200, "edition 2\n"), server.operate(share_script(1, 7)))
        check("full: second", 500, (server.operate(share_script(2, 8)) or (500, ""))[0])
        check("full: nothing changed", 2, server.edition())
        server.kill()
        server = Server(program, folder)
        check("full: a larger limit", (200, "edition 3\n"), server.operate(share_script(2, 8)))
        server.kill()
    print("full")


def pairs(program, count, share=0):
    """The files of a server, and the records of its history, after each of its calls; it is killed at the end.

    The first script gives this share, and each one a higher one."""
    with folder_of() as folder:
        server, found = Server(program, folder), []
        for number in range(1, count):
            budget = 2000000000000 + number
            body = share_script(number // 2 + 1, share + number) if number % 2 else f"raise m0 {budget}"
            check("mishaps: a call", 200, server.operate(body)[0])
            files = tuple((folder / name).read_bytes() for name in ("history.db", "history.db-wal"))
            found.append((files, number + 1))
        server.kill()
        return found


def mishap(chance, files, older, other):
    """What happens to the two files, and its name."""
    at, names = chance.randrange(2), ("the file", "the log")
    kind = chance.choice(["missing", "empty", "cut", "a wrong bit", "older"] + ["another's"] * at)
    data = files[at]
    if kind == "cut":
        data = data[: chance.randrange(len(data))]
    elif kind == "a wrong bit":
        place = chance.randrange(len(data))
        data = data[:place] + bytes([data[place] ^ 1 << chance.randrange(8)]) + data[place + 1 :]
    else:
        data = {"missing": None, "empty": b"", "older": older[at], "another's": other[at]}[kind]
    return f"{names[at]}: {kind}", tuple(data if index == at else file for index, file in enumerate(files))


def mishaps(program, count):
    chance, began, refused = random.Random(1), time.monotonic(), 0
    kept, others = pairs(program, 12), pairs(program, 12, 500)
    for _ in range(count):
        place = chance.randrange(3, len(kept))
        files, records = kept[place]
        name, left = mishap(chance, files, kept[chance.randrange(place)][0], chance.choice(others)[0])
        with folder_of() as folder:
            for path, data in zip(("history.db", "history.db-wal"), left):
                if data is not None:
                    (folder / path).write_bytes(data)
            more = ("--profile", "profile.toml", "--sessions", "0")
            status, printed, error = ends(program, folder, *more)
            if status == 1 and printed == "" and error.startswith("omaha: history history.db: "):
                refused += 1
                found = tuple(path.read_bytes() if path.exists() else None for path in (folder / "history.db", folder / "history.db-wal"))
                check(f"mishaps: {name}: what is left", [data or b"" for data in left], [data or b"" for data in found])
                continue
            check(f"mishaps: {name}: a start", (0, ""), (status, error))
            listed = run(program, folder, "history", "history.db")[1].splitlines()
            check(f"mishaps: {name}: records", records, len(listed))
    print(f"mishaps: {count}, {refused} rejected with a line, {time.monotonic() - began:.0f} s")


def sqlite3(program):
    found = shutil.which("sqlite3")
    if not found:
        print("sqlite3: not installed")
        return
    with folder_of() as folder:
        server = Server(program, folder)
        server.operate(share_script(1, 7))
        server.kill()
        rows = "-2|0\n-1|0\n1|1\n2|2\n"
        check("sqlite3", (0, rows, ""), run(found, folder, "history.db", "select number, kind from record order by number"))
        check("sqlite3: whole", (0, "ok\n", ""), run(found, folder, "history.db", "pragma integrity_check"))
        server = Server(program, folder)
        check("sqlite3: the server goes on", 2, server.edition())
        server.kill()
    print("sqlite3")


def main():
    parser = argparse.ArgumentParser(description=__doc__, formatter_class=argparse.RawDescriptionHelpFormatter)
    parser.add_argument("program", nargs="?", default=str(TOP / "crates" / "omaha" / "out" / "omaha"))
    parser.add_argument("--kills", type=int, default=500)
    parser.add_argument("--mishaps", type=int, default=300)
    parser.add_argument("--only")
    options = parser.parse_args()
    tests = {"commands": commands, "faults": faults, "full": full, "disk": disk, "sqlite3": sqlite3}
    tests["mishaps"] = lambda program: mishaps(program, options.mishaps)
    tests["kills"] = lambda program: kills(program, options.kills)
    for name, test in tests.items():
        if options.only in (None, name):
            test(options.program)
    sys.exit(1 if failures else 0)


if __name__ == "__main__":
    main()
