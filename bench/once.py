#!/usr/bin/env python3
"""Counts the instructions of `omaha once`, by `valgrind --tool=callgrind`.

    bench/once.py [--omaha PATH] [--releases N]

It runs the program on an empty input (start-up: the catalogue is made and the input read), and on
requests of 1 and of 255 known apps: on the built-in catalogue, and on a profile of 64 apps of 512
releases. Each app sends a cohort text, a ping, an update check and the fingerprint of its first,
middle or last release, or none: at the first release's version, or between it and the second's. A
client at the last release is at its target: it gets no update.

`one app` is what a request of one app takes beyond start-up, and `each further` what the other 254
take, each. `more` compares a catalogue with the built-in one for the same kind of client.
"""

import argparse
import json
import os
import pathlib
import re
import shutil
import subprocess
import sys
import tempfile

import generate

APPS = 64
MANY = 255
AIMS = {"one app": 75_000, "each further": 45_000, "more": 12_000}
# a version above that of each first release and below that of the second
BETWEEN = "1.0.1"
BUILTIN = {
    "first": ("1.0", "ba7816bf8f01cfea414140de5dae2223b00361a396177a9cb410ff61f20015ad"),
    "last": ("2.0", "248d6a61d20638b8e5c026930c3e6039a33ce45964ff2167f6ecedd419db06c1"),
    "between": (BETWEEN, None),
}


def count(program, arguments, request, status):
    """Runs the program on a request: how many instructions it takes."""
    command = ["valgrind", "--tool=callgrind", "--callgrind-out-file=/dev/null", program, *arguments]
    ran = subprocess.run(command, input=request, capture_output=True)
    found = re.search(rb"Collected : (\d+)", ran.stderr)
    if ran.returncode != status or not found:
        sys.exit(f"{' '.join(command)}: status {ran.returncode}\n{ran.stderr.decode()}")
    return int(found.group(1))


def asked(app, cohort, version, digest):
    """An app of a request, with that fingerprint if there is one."""
    found = {"appid": app, "cohort": cohort, "ping": {}, "updatecheck": {}, "version": version}
    if digest:
        found["packages"] = {"package": [{"fp": f"1.{digest}"}]}
    return found


def request_of(apps):
    whole = {"request": {"app": apps, "protocol": "3.1", "sessionid": "abc"}}
    return json.dumps(whole, separators=(",", ":")).encode()


def builtin_app(_number, place):
    version, digest = BUILTIN.get(place, ("1.0", None))
    return asked("mini", "stable:7", version, digest)


def large_app(releases):
    places = {"first": 0, "middle": releases // 2, "last": releases - 1}

    def app(number, place):
        version, _ = generate.release(number % APPS, places.get(place, 0))
        digest = generate.digest_of(number % APPS, version) if place in places else None
        version = BETWEEN if place == "between" else version
        return asked(f"org.example.app-{number % APPS}", "cohort-0:7", version, digest)

    return app


def measure(program, arguments, app, places):
    """The start-up; and by fingerprint what one app takes, and each further one."""
    start = count(program, arguments, b"", 1)
    costs = {}
    for place in places:
        one = count(program, arguments, request_of([app(0, place)]), 0)
        many = count(program, arguments, request_of([app(number, place) for number in range(MANY)]), 0)
        costs[place] = (one - start, (many - one) // (MANY - 1))
    return start, costs


def print_rows(name, start, costs, beside):
    for place, (one, further) in costs.items():
        like = beside.get("first" if place == "middle" else place)
        more = f"{one - like[0]:+9,}  {further - like[1]:+9,}" if like else f"{'':9}  {'':9}"
        print(f"{name:10}  {place:11}  {start:13,}  {one:9,}  {further:12,}  {more}".rstrip())


def main():
    here = pathlib.Path(__file__).resolve().parent
    options = argparse.ArgumentParser(description=__doc__, formatter_class=argparse.RawTextHelpFormatter)
    options.add_argument("--omaha", default=str(here.parent / "crates/omaha/out/omaha"), help="the program [default: as it was built here]")
    options.add_argument("--releases", type=int, default=512, help="releases of an app, 8 to 512 [default: 512]")
    chosen = options.parse_args()
    if not shutil.which("valgrind"):
        print("bench/once.py: skipped, since valgrind is not installed")
        return
    if not os.path.isfile(chosen.omaha):
        sys.exit(f"{chosen.omaha} isn't built: make install builds it")
    print(f"{'catalogue':10}  {'fingerprint':11}  {'start-up':>13}  {'one app':>9}  {'each further':>12}  {'more: one':>9}  {'further':>9}")
    start, builtin = measure(chosen.omaha, ["once"], builtin_app, ["first", "last", "none", "between"])
    print_rows("built-in", start, builtin, {})
    with tempfile.TemporaryDirectory() as folder:
        path = os.path.join(folder, "large.toml")
        with open(path, "w") as out:
            generate.write_profile(out, APPS, chosen.releases, 4)
        arguments = ["once", "--profile", path]
        start, large = measure(chosen.omaha, arguments, large_app(chosen.releases), ["first", "middle", "last", "none", "between"])
    print_rows(f"64 x {chosen.releases}", start, large, builtin)
    print("aims: " + ", ".join(f"{name} {aim:,}" for name, aim in AIMS.items()))


if __name__ == "__main__":
    main()
