#!/usr/bin/env python3
"""Tests `omaha walk` against `omaha serve` over the loopback: tests/walk.py [PROGRAM]

`make serving` runs it, after `make install`. PROGRAM is the built program, else that of the last build. Each row is
a profile of `examples/`, changed perhaps, a client and what its walk prints. Prints what differs, and exits with 1 then.
"""

import hashlib
import pathlib
import shutil
import socket
import subprocess
import sys
import tempfile

TOP = pathlib.Path(__file__).resolve().parent.parent
EXAMPLES = TOP / "examples"
PROFILE = (EXAMPLES / "mini.toml").read_text()
failures = []


def fp(version):
    """The fingerprint of a version of the example."""
    return "1." + hashlib.sha256((EXAMPLES / "packages" / f"mini-{version}.bin").read_bytes()).hexdigest()


def free_port():
    with socket.socket() as found:
        found.bind(("127.0.0.1", 0))
        return found.getsockname()[1]


def as_stone(profile, version):
    return profile.replace(f'version = "{version}"\n', f'version = "{version}"\nstone = true\n')


def without_diffs(profile):
    return profile.split("[[app.diff]]")[0]


def back_to(profile, version):
    return profile.replace('target = "3.0"', f'target = "{version}"\nrollback = true')


NEW = []
AT_1 = ["--fp", fp("1.0")]
AT_3 = ["--fp", fp("3.0")]
# the name, the profile, what is done with the folder of packages, the version and options, and what is printed:
# standard output, standard error, exit status
ROWS = [
    (
        "from nothing, by the fewest bytes",
        PROFILE,
        {},
        ("", NEW),
        ("step 1 full 1.0 1960\nstep 2 diff 2.0 188\nstep 3 diff 3.0 235\ndone 3 steps 2383 bytes\n", "", 0),
    ),
    (
        "by differentials",
        PROFILE,
        {},
        ("1.0", AT_1),
        ("step 1 diff 2.0 188\nstep 2 diff 3.0 235\ndone 2 steps 423 bytes\n", "", 0),
    ),
    (
        "without a fingerprint the first step is a full package",
        PROFILE,
        {},
        ("1.0", NEW),
        ("step 1 full 2.0 2600\nstep 2 diff 3.0 235\ndone 2 steps 2835 bytes\n", "", 0),
    ),
    (
        "by a stone",
        as_stone(without_diffs(PROFILE), "2.0"),
        {},
        ("1.0", AT_1),
        ("step 1 full 2.0 2600\nstep 2 full 3.0 3480\ndone 2 steps 6080 bytes\n", "", 0),
    ),
    (
        "without the stone",
        without_diffs(PROFILE),
        {},
        ("1.0", AT_1),
        ("step 1 full 3.0 3480\ndone 1 steps 3480 bytes\n", "", 0),
    ),
    ("at the target", PROFILE, {}, ("3.0", AT_3), ("done 0 steps 0 bytes\n", "", 0)),
    (
        "to the highest release that a prefix allows",
        PROFILE,
        {},
        ("1.0", [*AT_1, "--prefix", "2"]),
        ("step 1 diff 2.0 188\ndone 1 steps 188 bytes\n", "", 0),
    ),
    (
        "past a release that a prefix doesn't allow",
        PROFILE,
        {},
        ("1.0", [*AT_1, "--prefix", "3.0$"]),
        ("step 1 full 3.0 3480\ndone 1 steps 3480 bytes\n", "", 0),
    ),
    (
        "not past a stone that a prefix doesn't allow",
        as_stone(PROFILE, "2.0"),
        {},
        ("1.0", [*AT_1, "--prefix", "3"]),
        ("done 0 steps 0 bytes\n", "", 0),
    ),
    ("by no release that a prefix allows", PROFILE, {}, ("1.0", [*AT_1, "--prefix", "4"]), ("done 0 steps 0 bytes\n", "", 0)),
    (
        "back, if the client allows it",
        back_to(PROFILE, "1.0"),
        {},
        ("3.0", [*AT_3, "--rollback"]),
        ("step 1 full 1.0 1960\ndone 1 steps 1960 bytes\n", "", 0),
    ),
    ("not back, if it doesn't", back_to(PROFILE, "1.0"), {}, ("3.0", AT_3), ("done 0 steps 0 bytes\n", "", 0)),
    (
        "a package that was replaced is cut",
        PROFILE,
        {"mini-2.0-3.0.bin": b"x" * 235},
        ("1.0", AT_1),
        ("step 1 diff 2.0 188\n", "omaha: U3 BadLength\n", 1),
    ),
    (
        "a package that is missing",
        PROFILE,
        {"mini-1.0-2.0.bin": None},
        ("1.0", AT_1),
        ("", "omaha: U3 BadLength\n", 1),
    ),
    (
        "mirrors without room",
        PROFILE.replace("budget = 1000000000000", "budget = 200"),
        {},
        ("1.0", AT_1),
        ("step 1 diff 2.0 188\n", "omaha: U8 Busy\n", 1),
    ),
    ("an app that the server doesn't know", PROFILE, {}, ("1.0", ["--app", "other"]), ("", "omaha: U2 Reply\n", 1)),
]


def walk(program, port, version, options):
    words = ["--to", f"127.0.0.1:{port}", "--version", version, *options]
    if "--app" not in options:
        words += ["--app", "mini"]
    ran = subprocess.run([program, "walk", *words], capture_output=True, text=True, timeout=60)
    return ran.stdout, ran.stderr, ran.returncode


def found_in(program, profile, changes, client):
    """What a walk prints against a server of the profile, over a changed copy of the packages."""
    port = free_port()
    with tempfile.TemporaryDirectory() as folder:
        packages = pathlib.Path(folder, "packages")
        shutil.copytree(EXAMPLES / "packages", packages)
        for name, content in changes.items():
            if content is None:
                (packages / name).unlink()
            else:
                (packages / name).write_bytes(content)
        path = pathlib.Path(folder, "profile.toml")
        path.write_text(profile.replace("127.0.0.1:8080", f"127.0.0.1:{port}"))
        words = ["--profile", str(path), "--packages", str(packages), "--listen", f"127.0.0.1:{port}"]
        server = subprocess.Popen([program, "serve", *words], stdout=subprocess.PIPE, text=True)
        try:
            server.stdout.readline()
            return walk(program, port, *client)
        finally:
            server.kill()
            server.communicate()


def expect(name, found, wanted):
    print(name, flush=True)
    if found != wanted:
        failures.append(name)
        print(f"  expected: {wanted!r}\n  found:    {found!r}")


def main():
    program = sys.argv[1] if len(sys.argv) > 1 else str(TOP / "crates" / "omaha" / "out" / "omaha")
    for name, profile, changes, client, wanted in ROWS:
        expect(name, found_in(program, profile, changes, client), wanted)
    expect("nobody listens", walk(program, free_port(), "1.0", NEW), ("", "omaha: U1 Link\n", 1))
    if failures:
        sys.exit(f"walk: {len(failures)} differ")


if __name__ == "__main__":
    main()
