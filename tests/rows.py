#!/usr/bin/env python3
"""Runs the rows of `tests/rows/` against the built program: what it prints, its exit status, what its server replies.

    tests/rows.py [--program PATH] [NAME ..]

`make test` runs it, after `rt ci`. NAME is a file of rows, as `walks`, or a part of a row's name; without one, all rows
are run. PATH is the program, else that of the last build. A row that differs is printed with what was expected and
what was found; then the exit status is 1. `tests/rows/README.md` says how a row is written.
"""

import argparse
import concurrent.futures
import contextlib
import os
import pathlib
import re
import select
import signal
import socket
import subprocess
import sys
import tempfile
import time

TOP = pathlib.Path(__file__).resolve().parent.parent
FOLDER = TOP / "tests" / "rows"
PROGRAM = TOP / "crates" / "omaha" / "out" / "omaha"
# seconds for a row, and how many run at a time
LIMIT, JOBS = 20, 4
# two each, below those that the system gives to clients
PORTS = range(10000, 32000, 2)
NO_EOL = " (no-eol)"
# what a line may leave open, by the name that it gives to it
OPEN = {"$TIME": r"\d\d/[A-Z][a-z]{2}/\d{4}:\d\d:\d\d:\d\d \+0000", "$NUMBER": r"\d+"}


class Wrong(Exception):
    """That a step differs: the lines that were found, and those that were wanted if they aren't its own."""

    def __init__(self, found, wanted=None):
        super().__init__()
        self.found, self.wanted = found, wanted


class Step:
    """A line `$ ..` or `@ ..`, and the lines below it: each its mark and the rest."""

    def __init__(self, line):
        self.mark, self.words, self.below = line[0], line[2:], []

    def lines(self, mark):
        return [rest for its, rest in self.below if its == mark]


class Row:
    """A row: its name and place, the steps before it and its own, and the files that it finds."""

    def __init__(self, name, place, steps, files):
        self.name, self.place, self.steps, self.files = name, place, steps, files


def read_rows(path):
    """The rows of a file, the steps above the first one and the files below the last one; `use NAME` reads NAME.setup."""
    before, rows, files, file = [], [], {}, None
    for number, line in enumerate(path.read_text(encoding="utf-8").splitlines(), 1):
        place, steps = f"{path.relative_to(TOP)}:{number}", rows[-1].steps if rows else before
        if found := re.fullmatch(r"-- (\S+) --", line):
            file = found[1]
            files[file] = ""
        elif file is not None:
            files[file] += line + "\n"
        elif line.startswith("use ") and not rows:
            _, used_steps, used_files = read_rows(path.with_name(f"{line[4:]}.setup"))
            before += used_steps
            files |= used_files
        elif line.startswith("== "):
            rows.append(Row(line[3:], place, list(before), files))
        elif line.startswith(("$ ", "@ ")):
            steps.append(Step(line))
        elif steps and re.match(r"[|!><]( |$)", line):
            steps[-1].below.append((line[0], line[2:]))
        elif steps and re.fullmatch(r"\[\d+\]", line):
            steps[-1].below.append(("[", line[1:-1]))
        elif line and not line.startswith("#"):
            sys.exit(f"rows: {place}: no line of a row: {line}")
    for row in rows:
        for step in row.steps:
            if step.lines("!") and not step.lines("["):
                sys.exit(f"rows: {row.place}: {step.words}: lines of standard error, and no exit status")
    return rows, before, files


def line_of(mark, rest):
    """A line of a row, by its mark and the rest."""
    return f"[{rest}]" if mark == "[" else f"{mark} {rest}".rstrip(" ")


def shown(mark, string):
    """A string as the lines of a row."""
    *lines, last = string.split("\n")
    return [line_of(mark, line) for line in lines] + ([line_of(mark, last) + NO_EOL] if last else [])


def text_of(data):
    return data.decode("utf-8", errors="backslashreplace")


def matches(lines, string):
    """Whether a string has these lines, and no others; a line `...` is any lines."""
    parts = []
    for line in lines:
        part = re.escape(line.removesuffix(NO_EOL)) + ("" if line.endswith(NO_EOL) else r"\n")
        for name, meant in OPEN.items():
            part = part.replace(re.escape(name), meant)
        parts.append(r"(?:.*\n)*.*" if line == "..." else part)
    return re.fullmatch("".join(parts), string) is not None


def split_replies(data):
    """The replies in these bytes: for each its head, its body as far as it came, and whether it is whole."""
    while data:
        head, end, rest = data.partition(b"\r\n\r\n")
        found = re.search(rb"\r\ncontent-length: *(\d+)", head, re.IGNORECASE)
        length = int(found[1]) if found else 0
        yield text_of(head + end), rest[:length], bool(end) and len(rest) >= length
        data = rest[length:]


def reply_lines(head, body):
    """A reply as lines: those of a head end with CR LF, else that is shown."""
    lines = head.removesuffix("\r\n\r\n").replace("\n", "\\n").replace("\r\\n", "\n").split("\n")
    return [*lines, "" if head.endswith("\r\n\r\n") else "no end of the head", *(text_of(body).split("\n") if body else [])]


class Run:
    """A run of a row: its folder, its addresses, the commands that it started and its connections."""

    def __init__(self, row, program, folder, port):
        self.row, self.folder, self.end = row, folder / "files", time.monotonic() + LIMIT
        self.jobs, self.connections = [], {}
        self.addresses = {"$LISTEN": f"127.0.0.1:{port}", "$OPERATOR": f"127.0.0.1:{port + 1}"}
        (folder / "bin").mkdir()
        (folder / "bin" / "omaha").symlink_to(program)
        (folder / "input").write_text("{")
        self.input = os.open(folder / "input", os.O_RDONLY)
        self.env = {"PATH": f"{folder}/bin:/usr/local/bin:/usr/bin:/bin", "HOME": str(self.folder), "LANG": "C.UTF-8"}
        self.env |= {name[1:]: address for name, address in self.addresses.items()} | {"TOP": str(TOP)}
        self.folder.mkdir()
        for name, content in row.files.items():
            (self.folder / name).write_text(self.filled(content), encoding="utf-8")

    def filled(self, string):
        for name, address in self.addresses.items():
            string = string.replace(name, address)
        return string

    def left(self):
        """The seconds that are left for the row."""
        left = self.end - time.monotonic()
        if left <= 0:
            raise TimeoutError
        return left

    def start(self, command):
        """Starts a command, which may read nothing of its standard input."""
        errors = tempfile.TemporaryFile(dir=self.folder.parent)
        pipes = {"stdin": self.input, "stdout": subprocess.PIPE, "stderr": errors}
        job = subprocess.Popen(["sh", "-c", command], cwd=self.folder, env=self.env, start_new_session=True, **pipes)
        job.errors = errors
        self.jobs.append(job)
        return job

    def read_output(self, job, lines=None):
        """So many lines of what a command prints, or the rest of it."""
        found, output = b"", job.stdout.fileno()
        while lines is None or found.count(b"\n") < lines:
            if not select.select([output], [], [], self.left())[0]:
                raise TimeoutError
            more = os.read(output, 65536 if lines is None else 1)
            if not more:
                break
            found += more
        return text_of(found)

    def compare_output(self, job, output, step, status=None):
        """Compares what a command printed so far, and perhaps its exit status, with a step's lines."""
        job.errors.seek(0)
        found = {"|": output, "!": text_of(job.errors.read())}
        is_printed = all(matches(map(self.filled, step.lines(mark)), string) for mark, string in found.items())
        if not is_printed or (status is not None and [str(status)] != (step.lines("[") or ["0"])):
            lines = [line for mark, string in found.items() for line in shown(mark, string)]
            raise Wrong(lines if status is None else [*lines, line_of("[", status)])

    def finish(self, job, step):
        """Waits for a command's end, and compares it with a step's lines."""
        output = self.read_output(job)
        with contextlib.suppress(subprocess.TimeoutExpired):
            job.wait(self.left())
        if job.returncode is None:
            raise TimeoutError
        self.jobs.remove(job)
        self.compare_output(job, output, step, job.returncode if job.returncode >= 0 else 128 - job.returncode)
        if os.lseek(self.input, 0, os.SEEK_CUR):
            raise Wrong(["the standard input was read"])

    def command(self, step):
        """`$ COMMAND` is run by sh to its end, `$ COMMAND &` until it has printed the lines below; `$ wait` ends that."""
        if step.words == "wait" and self.jobs:
            self.finish(self.jobs[0], step)
        elif step.words.endswith(" &"):
            job = self.start(step.words.removesuffix(" &"))
            self.compare_output(job, self.read_output(job, len(step.lines("|"))), step)
        else:
            self.finish(self.start(step.words), step)

    def message_of(self, lines):
        """The bytes of messages: heads, whose lines end with CR LF, each with a line as its body if it has a length."""
        done, head, is_body = b"", b"", False
        for line in lines:
            data = re.sub(rb"\\x([0-9a-f]{2})", lambda found: bytes([int(found[1], 16)]), self.filled(line).encode())
            if line.startswith("@"):
                data = (self.folder / line[1:]).read_bytes()
            elif not is_body and not line.endswith(NO_EOL):
                data += b"\r\n"
            data = data.removesuffix(NO_EOL.encode())
            if is_body:
                done, head = done + head.replace(b"$LENGTH", str(len(data)).encode()) + data, b""
            else:
                head += data
            is_body = not line and b"content-length: " in head.lower()
        return done + head

    def connection(self, name, is_operator):
        """The connection of a name, which is made if there is none."""
        if name not in self.connections:
            host, _, port = self.addresses["$OPERATOR" if is_operator else "$LISTEN"].partition(":")
            self.connections[name] = socket.create_connection((host, int(port)), timeout=self.left())
            self.connections[name].setsockopt(socket.IPPROTO_TCP, socket.TCP_NODELAY, 1)
        return self.connections[name]

    def talk(self, step):
        """`@ NAME` sends the lines `>` over a connection, and reads the replies of the lines `<`."""
        name, *options = step.words.split()
        connection, wanted = self.connection(name, "$OPERATOR" in options), step.lines("<")
        with contextlib.suppress(BrokenPipeError, ConnectionResetError):
            message = self.message_of(step.lines(">"))
            for piece in [message] if "whole" in options else [bytes([byte]) for byte in message]:
                connection.settimeout(self.left())
                connection.sendall(piece)
            if "finish" in options:
                connection.shutdown(socket.SHUT_WR)
        data, replies, count = b"", [], sum(line.startswith("HTTP/1.1 ") for line in wanted)
        while "finish" in options or "ended" in options or sum(is_whole for _, _, is_whole in replies) < count:
            connection.settimeout(self.left())
            more = connection.recv(65536)
            if not more:
                self.connections.pop(name).close()
                break
            data += more
            replies = list(split_replies(data))
        self.compare_replies(replies, wanted)

    def compare_replies(self, replies, wanted):
        """Compares replies with lines, of which `@FILE` is the lines of that file; `$LENGTH` is the length of the body."""
        lengths, lines = iter([str(len(body)) for _, body, _ in replies]), []
        for line in map(self.filled, wanted):
            if "$LENGTH" in line:
                line = line.replace("$LENGTH", next(lengths, "$LENGTH"))
            lines += (self.folder / line[1:]).read_text().removesuffix("\n").split("\n") if line.startswith("@") else [line]
        found = [line for head, body, _ in replies for line in reply_lines(head, body)]
        if not matches(lines, "".join(f"{line}\n" for line in found)):
            raise Wrong([line_of("<", line) for line in found], [line_of("<", line) for line in lines])

    def take_steps(self):
        """Takes the steps in their order; what is printed of the first that differs."""
        for step in self.row.steps:
            try:
                self.command(step) if step.mark == "$" else self.talk(step)
            except Wrong as wrong:
                return report(self.row, step, wrong)
            except TimeoutError:
                return report(self.row, step, Wrong([f"not decided within {LIMIT} seconds"]))
            except OSError as error:
                return report(self.row, step, Wrong([str(error)]))
        return None

    def close(self):
        for job in self.jobs:
            with contextlib.suppress(ProcessLookupError):
                os.killpg(job.pid, signal.SIGKILL)
            job.wait()
        for connection in self.connections.values():
            connection.close()
        os.close(self.input)


def report(row, step, wrong):
    """What is printed of a row that differs."""
    wanted = [line_of(mark, rest) for mark, rest in step.below if mark != ">"] if wrong.wanted is None else wrong.wanted
    lines = [f"{row.place}: {row.name}", f"  {step.mark} {step.words}"]
    for what, below in [("expected", wanted), ("found", wrong.found)]:
        lines += [f"  {what}:", *(f"    {line:.1000}" for line in below or ["nothing"])]
    return "\n".join(lines)


def free_port(start):
    """The first of two ports of the loopback that nobody listens on."""
    for port in [*PORTS[start % len(PORTS) :], *PORTS]:
        with contextlib.suppress(OSError), socket.socket() as first, socket.socket() as second:
            first.bind(("127.0.0.1", port))
            second.bind(("127.0.0.1", port + 1))
            return port
    sys.exit("rows: no free port")


def run_row(row, program, start):
    """Runs a row in a folder of its own; what is printed of it if it differs."""
    with tempfile.TemporaryDirectory(prefix="omaha-rows-") as folder:
        run = Run(row, program, pathlib.Path(folder), free_port(start))
        try:
            return run.take_steps()
        finally:
            run.close()


def chosen_rows(names):
    """The rows of the files, or those of these names: a name is a file's, or a part of a row's."""
    files = {path.stem: read_rows(path)[0] for path in sorted(FOLDER.glob("*.rows"))}
    found = [row for rows in files.values() for row in rows if not names]
    for name in names:
        found += files.get(name) or [row for rows in files.values() for row in rows if name in row.name]
    return found or sys.exit("rows: no row of that name")


def main():
    parser = argparse.ArgumentParser(description=__doc__, formatter_class=argparse.RawDescriptionHelpFormatter)
    parser.add_argument("--program", type=pathlib.Path, default=PROGRAM, metavar="PATH")
    parser.add_argument("names", nargs="*", metavar="NAME")
    asked = parser.parse_args()
    if not asked.program.exists():
        sys.exit(f"rows: no program {asked.program}: `rt ci` builds it")
    rows, failed = chosen_rows(asked.names), 0
    with concurrent.futures.ProcessPoolExecutor(max_workers=JOBS) as pool:
        starts = range(os.getpid() * 97, os.getpid() * 97 + len(rows))
        for wrong in pool.map(run_row, rows, [asked.program.resolve()] * len(rows), starts):
            if wrong is not None:
                failed += 1
                print(wrong, flush=True)
    print(f"{len(rows) - failed} rows passed, {failed} failed")
    sys.exit(1 if failed else 0)


if __name__ == "__main__":
    main()
