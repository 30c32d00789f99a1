#!/usr/bin/env python3
"""Compares the replies of the built program on random catalogues with a model that counts all payloads anew.

    tests/chains.py [--program PATH] [--count N] [--seed N]

`make test` runs it. Each catalogue has an app of six releases of one to five bytes, so that sums are often equal, with
differentials, stones, floors, audiences, withdrawn releases, and two cohorts with both targets. Its request has clients at
each release and outside of all, held ones and others, with and without a downgrade, and with pins. The model is
`tests/fuzzing/reply_model.py`, by Python's integers and without tables. Prints the first profile whose reply differs with
both replies, and exits with 1 then.
"""

import argparse
import json
import os
import pathlib
import random
import subprocess
import sys
import tempfile

from fuzzing import json_model, reply_model

TOP = pathlib.Path(__file__).resolve().parent.parent
PROGRAM = TOP / "crates" / "omaha" / "out" / "omaha"
VERSIONS = ["1.1", "1.2", "1.3", "2.1", "2.2", "2.3"]
FLOORS = [*VERSIONS, "1.8", "2.4"]
AUDIENCES = ["[]", '["stable"]', '["beta", "stable"]']
PREFIXES = ["", "1", "2", "2.", "1.2", "2.1", "2.2$", "1.3$", "x"]
OUTSIDE = ["0", "1.0", "1.2", "1.9", "2.1.5", "2.3", "3", "no version"]
# the first day of the protocol's count, so that a reply's count of days and seconds is 0
MOMENT = 13514 * 86400


def chance(source, one_in):
    return source.randrange(one_in) == 0


def release_of(source, number, version):
    """The lines of a release."""
    lines = ["[[app.release]]", f'version = "{version}"', f'name = "full-{number}"']
    lines += [f"size = {source.randint(1, 5)}", f'sha256 = "{number:064x}"']
    lines += ["stone = true"] if chance(source, 4) else []
    lines += ["withdrawn = true"] if chance(source, 5) else []
    lines += [f'floor = "{source.choice(FLOORS)}"'] if chance(source, 3) else []
    lines += [f"audience = {source.choice(AUDIENCES)}"] if chance(source, 6) else []
    return lines


def cohort_of(source, name):
    """The lines of a cohort, half of whose clients are held."""
    lines = ["[[app.cohort]]", f'name = "{name}"', "share = 500", f'held = "{source.choice(VERSIONS)}"']
    lines += [f'target = "{source.choice(VERSIONS[2:])}"']
    return lines + (["rollback = true"] if chance(source, 2) else [])


def profile_of(source):
    """A random profile."""
    lines = ["schema = 2", 'mirror = [{ name = "m0", codebase = "http://m0.example/p/", budget = 1000000 }]']
    lines += ["[[app]]", 'id = "demo"', 'default = "stable"']
    lines += cohort_of(source, "stable") + cohort_of(source, "beta")
    for number, version in enumerate(VERSIONS, 1):
        lines += release_of(source, number, version)
    for high in range(1, len(VERSIONS)):
        for low in range(high):
            if chance(source, 2):
                lines += ["[[app.diff]]", f'from = "{VERSIONS[low]}"', f'to = "{VERSIONS[high]}"']
                lines += [f'name = "diff-{low}-{high}"', f"size = {source.randint(1, 5)}"]
                lines += [f'sha256 = "{16 * low + high + 256:064x}"']
    return "\n".join(lines) + "\n"


def client(cohort, place, prefix, rollback):
    """What a client asks: the place is the number of its release, or its version outside of all."""
    check = {"rollback_allowed": rollback, "targetversionprefix": prefix}
    app = {"appid": "demo", "cohort": cohort, "updatecheck": check}
    if isinstance(place, int):
        return app | {"version": "1.0", "packages": {"package": [{"fp": f"1.{place:064x}"}]}}
    return app | {"version": place}


def request_of(source):
    """The request of a client of each prefix at each place, at most 256."""
    asked = []
    for place in [*range(1, len(VERSIONS) + 1), *OUTSIDE]:
        for prefix in PREFIXES:
            cohort = f"{source.choice(['stable', 'beta'])}:{source.choice([0, 499, 500, 999])}"
            asked.append(client(cohort, place, prefix, chance(source, 2)))
    request = {"request": {"app": asked, "protocol": "3.1", "sessionid": "abc"}}
    return json.dumps(request).encode()


def reply_of(profile, request):
    """The model's reply."""
    catalogue = reply_model.Catalogue(profile)
    _, session, asks = json_model.read_request(request)
    replies = [reply_model.app_reply(catalogue, session, ask, lambda _size: 0) for ask in asks]
    return reply_model.reply_bytes(replies, 0, 0)


# rule: Audience
# rule: Chosen payload
# rule: Downward
# rule: Floor
# rule: Graph of a track
# rule: Least sum
# rule: Offered release
# rule: Payloads from a release
# rule: Place of a client
# rule: Quote
# rule: Rollback of a key
# rule: Stone
# rule: Table of a key
# rule: Tables of a plan
# rule: Target of a track
# rule: Upward
# rule: Version of a client's string
# rule: Window of a release
def compare(program, folder, source):
    """Compares the replies of a random catalogue, and returns how many offers they have."""
    profile, request = profile_of(source), request_of(source)
    path = pathlib.Path(folder, "random.toml")
    path.write_text(profile, encoding="utf-8")
    words = [program, "once", "--profile", str(path), "--moment", str(MOMENT)]
    ran = subprocess.run(words, input=request, capture_output=True, timeout=60, check=False)
    wanted = reply_of(profile, request)
    if ran.stdout != wanted:
        found = ran.stdout or ran.stderr
        sys.exit(f"{profile}\nrequest: {request.decode()}\nwanted: {wanted.decode()}\nfound: {found.decode(errors='replace')}")
    return wanted.count(b'"manifest"')


def main():
    parser = argparse.ArgumentParser(description="Compares replies on random catalogues with a model.")
    parser.add_argument("--program", default=str(PROGRAM))
    parser.add_argument("--count", type=int, default=100)
    parser.add_argument("--seed", type=int, default=1)
    asked = parser.parse_args()
    program = os.path.abspath(asked.program)
    if not os.path.isfile(program):
        sys.exit(f"{program} isn't built: make install builds it")
    source = random.Random(asked.seed)
    with tempfile.TemporaryDirectory() as folder:
        offers = sum(compare(program, folder, source) for _ in range(asked.count))
    print(f"{asked.count} catalogues, {offers} offers: each reply is the model's")


if __name__ == "__main__":
    main()
