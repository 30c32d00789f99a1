#!/usr/bin/env python3
"""Writes a large profile to standard output.

    bench/generate.py [--apps N] [--releases N] [--cohorts N] [--diffs N] [--descending] [--no-targets]

Each app has its cohorts, the first of which is the default one, and its releases in ascending
order; each cohort has a target, a held target and a share. The differentials of an app lead from each of its
last releases to the next one, then to the one after it, and so on; they are listed in ascending or in descending
order. Without targets there is no table of prices to make.
"""

import argparse
import hashlib
import itertools
import sys


def digest_of(app, version):
    """The hash of a release's package."""
    return hashlib.sha256(f"app-{app} {version}".encode()).hexdigest()


def release(app, number):
    """A release's version and its table."""
    version = f"{1 + number // 100}.{number % 100}.{number * 7 % 1000}"
    digest = digest_of(app, version)
    return version, (
        "[[app.release]]\n"
        f'version = "{version}"\n'
        f'name = "app-{app}-{version}.bin"\n'
        f"size = {1000000 + number}\n"
        f'sha256 = "{digest}"\n\n'
    )


def differential(app, number, start, end):
    """The table of the differential between two versions."""
    name = f"app-{app}-{number}.diff"
    digest = hashlib.sha256(name.encode()).hexdigest()
    return (
        "[[app.diff]]\n"
        f'from = "{start}"\n'
        f'to = "{end}"\n'
        f'name = "{name}"\n'
        f"size = {1000 + number}\n"
        f'sha256 = "{digest}"\n\n'
    )


def pairs(releases, count):
    """The pairs of releases that so many differentials lead between, in ascending order."""
    every = ((end - step, end) for step in range(1, releases) for end in range(releases - 1, step - 1, -1))
    return sorted(itertools.islice(every, count))


def write_profile(out, apps, releases, cohorts, diffs=0, has_targets=True, descending=False):
    out.write("schema = 1\n\n")
    out.write('[[mirror]]\nname = "m0"\ncodebase = "http://m0.example/p/"\nbudget = 1000000000\n\n')
    for app in range(apps):
        rows = [release(app, number) for number in range(releases)]
        out.write(f'[[app]]\nid = "org.example.app-{app}"\ndefault = "cohort-0"\n\n')
        for cohort in range(cohorts):
            target, held = rows[-1 - cohort][0], rows[-1 - cohort - cohorts][0]
            targets = f'target = "{target}"\nheld = "{held}"\n' if has_targets else ""
            out.write(
                "[[app.cohort]]\n"
                f'name = "cohort-{cohort}"\n'
                f"{targets}"
                f"share = {100 + cohort}\n"
                f"open = {'true' if cohort % 2 else 'false'}\n\n"
            )
        for _, text in rows:
            out.write(text)
        named = list(enumerate(pairs(releases, diffs)))
        for number, (start, end) in reversed(named) if descending else named:
            out.write(differential(app, number, rows[start][0], rows[end][0]))


def main():
    options = argparse.ArgumentParser(description=__doc__, formatter_class=argparse.RawTextHelpFormatter)
    options.add_argument("--apps", type=int, default=64, help="apps, 1 to 64 [default: 64]")
    options.add_argument("--releases", type=int, default=512, help="releases of an app, 8 to 512 [default: 512]")
    options.add_argument("--cohorts", type=int, default=4, help="cohorts of an app, 1 to 4 [default: 4]")
    options.add_argument("--diffs", type=int, default=0, help="differentials of an app, 0 to 16384 [default: 0]")
    options.add_argument("--descending", action="store_true", help="differentials in descending order")
    options.add_argument("--no-targets", action="store_true", help="cohorts without targets")
    asked = options.parse_args()
    write_profile(sys.stdout, asked.apps, asked.releases, asked.cohorts, asked.diffs, not asked.no_targets, asked.descending)


if __name__ == "__main__":
    main()
