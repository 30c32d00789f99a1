#!/usr/bin/env python3
"""Tests the Debian package: tests/deb.py [OMAHA]      the program, `crates/omaha/out/omaha` if not given

`make deb` runs it. It installs the package in a root of its own, checks the profile and serves it with a history,
upgrades, serves that history again, removes and purges. Nothing of the machine's own packages is touched. It needs root,
as by `fakeroot`, and systemd.
"""

import http.client
import os
import pathlib
import re
import socket
import subprocess
import sys
import tempfile

TOP = pathlib.Path(__file__).resolve().parent.parent
ASK = b'{"request":{"protocol":"3.1","app":[{"appid":"mini","version":"1.0","updatecheck":{}}]}}'
ADDED = '\n[[app]]\nid = "mini"\ndefault = "stable"\n\n[[app.cohort]]\nname = "stable"\n'
HISTORY = "var/lib/omaha/history.db"
failures = []


def expect(what, found, wanted):
    if found != wanted:
        failures.append(what)
        print(f"  {what}\n    expected: {wanted}\n    found:    {found}")


def dpkg(root, *words):
    """Runs `dpkg` on another root, with the package's scripts."""
    options = [f"--root={root}", "--force-script-chrootless", "--force-depends", f"--log={root}/log"]
    ran = subprocess.run(["dpkg", *options, *words], capture_output=True, text=True)
    if ran.returncode != 0:
        sys.exit(f"deb: dpkg {' '.join(map(str, words))}: {ran.stdout}{ran.stderr}")


def build(folder, program, version):
    words = ["--program", program, "--to", folder, "--version", version]
    ran = subprocess.run([TOP / "packaging" / "deb.py", *words], check=True, capture_output=True, text=True)
    return ran.stdout.strip()


def ask(port):
    """The status of an update check, and that of its app."""
    made = http.client.HTTPConnection("127.0.0.1", port, timeout=20)
    made.request("POST", "/service/update2/json", ASK)
    reply = made.getresponse()
    body = reply.read()
    made.close()
    return reply.status, b'"status":"noupdate"' in body


def serve(root):
    """Serves what the package has for one client: what that client gets, and the status of the server."""
    with socket.socket() as found:
        found.bind(("127.0.0.1", 0))
        port = found.getsockname()[1]
    words = ["--profile", root / "etc/omaha/profile.toml", "--history", root / HISTORY]
    words += ["--packages", root / "var/lib/omaha/packages", "--listen", f"127.0.0.1:{port}", "--sessions", "1"]
    server = subprocess.Popen([root / "usr/bin/omaha", "serve", *words], stdout=subprocess.PIPE, text=True)
    expect("ready", server.stdout.readline(), "ready\n")
    got = ask(port)
    server.communicate(timeout=20)
    return got, server.returncode


def main():
    program = os.path.abspath(sys.argv[1] if len(sys.argv) > 1 else TOP / "crates" / "omaha" / "out" / "omaha")
    with tempfile.TemporaryDirectory() as folder:
        root = pathlib.Path(folder, "root")
        for part in ("var/lib/dpkg/info", "var/lib/dpkg/updates", "etc"):
            (root / part).mkdir(parents=True)
        (root / "var/lib/dpkg/status").touch()
        profile, unit = root / "etc/omaha/profile.toml", root / "usr/lib/systemd/system/omaha.service"

        dpkg(root, "--install", build(folder, program, "1.0"))
        checked = subprocess.run([root / "usr/bin/omaha", "check", profile], capture_output=True, text=True)
        expect("check", checked.stdout[:18], "edition 1: 0 apps,")
        expect("the user", [line.split(":")[0] for line in (root / "etc/passwd").read_text().splitlines()].count("omaha"), 1)
        lines = "\n".join(line for line in unit.read_text().splitlines() if not line.startswith("#"))
        paths = sorted(set(re.findall(r"/(?:usr|etc|var/lib|srv)/\S+", lines)))
        wanted = ["/etc/omaha/profile.toml", "/usr/bin/omaha", f"/{HISTORY}", "/var/lib/omaha/packages"]
        expect("paths of the unit", paths, wanted)
        expect("paths that are missing", [path for path in paths if not (root / path[1:]).exists()], [f"/{HISTORY}"])
        stops = [line for line in lines.split("\n") if line.startswith("ExecStop=")]
        expect("the stop of the unit", stops, ["ExecStop=-/usr/bin/omaha stop --to unix:/run/omaha/operator --timeout 300"])
        expect("the folder of the history", "StateDirectory=omaha" in lines.split("\n"), True)

        profile.write_text(profile.read_text() + ADDED)
        expect("a served client", serve(root), ((200, True), 0))
        expect("a history", (root / HISTORY).exists(), True)
        dpkg(root, "--install", build(folder, program, "1.1"))
        expect("an upgrade", serve(root), ((200, True), 0))

        dpkg(root, "--remove", "omaha")
        expect("a removal", ((root / "usr/bin/omaha").exists(), unit.exists(), profile.exists()), (False, False, True))
        expect("a history after the removal", (root / HISTORY).exists(), True)
        dpkg(root, "--purge", "omaha")
        expect("a purge", ((root / "etc/omaha").exists(), list((root / "var/lib/omaha").glob("history.db*"))), (False, []))
    if failures:
        sys.exit(f"deb: {len(failures)} differ")
    print("installed, served, upgraded, removed and purged")


if __name__ == "__main__":
    main()
