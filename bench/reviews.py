#!/usr/bin/env python3
"""Times `omaha review` beside `omaha check`, on a large profile and with scripts that change one app.

    bench/reviews.py [--program PATH] [--apps N] [--releases N] [--cohorts N] [--runs N] [--instructions]

The profile is that of `bench/generate.py`. One script withdraws a release of one app, the other sets the target of one of
its cohorts. Processor time of the whole command in seconds, user's and system's: the least of the runs, the commands in
turn, and how many times a check that is. With `--instructions` Valgrind counts instructions instead, once for each
command; other work on the machine doesn't change them.
"""

import argparse
import pathlib
import re
import resource
import subprocess
import sys
import tempfile

import generate

TOP = pathlib.Path(__file__).resolve().parent.parent
SCRIPT = """schema = 2
base = 1

[[edit]]
app = "org.example.app-0"
"""


def options():
    """The arguments of the command line."""
    parser = argparse.ArgumentParser(description=__doc__.split("\n")[0])
    parser.add_argument("--program", default=TOP / "crates/omaha/out/omaha", type=pathlib.Path)
    parser.add_argument("--apps", default=64, type=int)
    parser.add_argument("--releases", default=512, type=int)
    parser.add_argument("--cohorts", default=4, type=int)
    parser.add_argument("--runs", default=21, type=int)
    parser.add_argument("--instructions", action="store_true")
    return parser.parse_args()


def seconds_of(command):
    """The processor time of a command that succeeds."""
    before = resource.getrusage(resource.RUSAGE_CHILDREN)
    subprocess.run(command, check=True, stdout=subprocess.DEVNULL)
    after = resource.getrusage(resource.RUSAGE_CHILDREN)
    return after.ru_utime + after.ru_stime - before.ru_utime - before.ru_stime


def instructions_of(command):
    """The instructions of a command that succeeds."""
    counting = ["valgrind", "--tool=callgrind", "--callgrind-out-file=/dev/null", *command]
    run = subprocess.run(counting, check=True, stdout=subprocess.DEVNULL, stderr=subprocess.PIPE, text=True)
    return int(re.search(r"Collected : (\d+)", run.stderr).group(1))


def commands(given, folder):
    """The commands by their names, on files that are written to a folder."""
    profile = folder / "large.toml"
    with profile.open("w") as out:
        generate.write_profile(out, given.apps, given.releases, given.cohorts)
    version, _ = generate.release(0, given.releases - 2)
    edits = {
        "withdraws": f'do = "set_withdrawn"\nversion = "{version}"\non = true\n',
        "sets a target": f'do = "set_target"\ncohort = "cohort-0"\ntarget = "{version}"\n',
    }
    made = {"check": [given.program, "check", profile], "review": [given.program, "review", profile]}
    for name, edit in edits.items():
        script = folder / f"{name.split()[0]}.toml"
        script.write_text(SCRIPT + edit)
        made[f"review of a script that {name}"] = [given.program, "review", profile, "--script", script]
    return {name: [str(word) for word in command] for name, command in made.items()}


def main():
    given = options()
    if not given.program.exists():
        sys.exit(f"bench/reviews.py: no program at {given.program}: run `make install`")
    with tempfile.TemporaryDirectory() as folder:
        asked = commands(given, pathlib.Path(folder))
        if given.instructions:
            least = {name: instructions_of(command) for name, command in asked.items()}
        else:
            runs = [{name: seconds_of(command) for name, command in asked.items()} for _ in range(given.runs)]
            least = {name: min(run[name] for run in runs) for name in asked}
    for name, figure in least.items():
        times = figure / least["check"]
        shown = f"{figure:,}" if given.instructions else f"{figure:.3f} s"
        print(f"{name:45} {shown:>16}  {times:.2f} times a check")


if __name__ == "__main__":
    main()
