#!/usr/bin/env python3
"""Runs the commands of the program on the profiles of `examples/`: tests/commands.py

`make commands` runs it. It builds the program without a proof. Each profile is checked, and each track that has
a target gets its certificate, which is then verified; that of one is compared with `examples/chains.prices`, and
checked by `examples/check_prices.py`. Prints what differs, and exits with 1 then.
"""

import pathlib
import subprocess
import sys
import tempfile

TOP = pathlib.Path(__file__).resolve().parent.parent
EXAMPLES = TOP / "examples"
SUMMARIES = {
    "staged.toml": "edition 1: 1 apps, 4 releases, 0 differentials, 2 cohorts, 3 tables\n",
    "chains.toml": "edition 1: 1 apps, 5 releases, 3 differentials, 2 cohorts, 3 tables\n",
}
TRACKS = [
    ("staged.toml", "demo", "stable", "target", "no"),
    ("staged.toml", "demo", "stable", "held", "no"),
    ("staged.toml", "DEMO", "beta", "target", "no"),
    ("chains.toml", "demo", "stable", "target", "no"),
    ("chains.toml", "demo", "beta", "target", "no"),
    ("chains.toml", "demo", "beta", "target", "yes"),
]


def outputs_of(cases, files):
    """What the program prints for each case, by name; a case is its arguments."""
    with tempfile.TemporaryDirectory() as folder:
        for name, words in cases.items():
            pathlib.Path(folder, name).write_text("")
            pathlib.Path(folder, f"{name}.args").write_text("".join(f"{word}\n" for word in words))
        data = [word for name, path in files.items() for word in ("--data", f"{name}={path}")]
        ran = subprocess.run(
            ["rt", "try", *data, "--cases", folder],
            cwd=TOP / "crates" / "omaha",
            capture_output=True,
            text=True,
        )
    found = {}
    for part in ran.stdout.split("== ")[1:]:
        name, _, output = part.partition("\n")
        found[name] = output
    if set(found) != set(cases):
        print(ran.stdout + ran.stderr, file=sys.stderr)
        sys.exit("commands: the program did not run")
    return found


def compare(what, found, wanted):
    """Prints what differs; whether nothing does."""
    if found.strip() == wanted.strip():
        return True
    print(f"{what}\n  wanted: {wanted!r}\n  found:  {found!r}")
    return False


def main():
    profiles = {name: EXAMPLES / name for name in SUMMARIES}
    cases = {f"check-{name}": ["check", name] for name in SUMMARIES}
    cases |= {f"track-{index}": ["certify", *track] for index, track in enumerate(TRACKS)}
    found = outputs_of(cases, profiles)
    good = [compare(f"check {name}", found[f"check-{name}"], line) for name, line in SUMMARIES.items()]
    kept = (EXAMPLES / "chains.prices").read_text()
    good.append(compare("certify chains.toml demo stable target no", found["track-3"], kept))
    with tempfile.TemporaryDirectory() as folder:
        files = dict(profiles)
        for index in range(len(TRACKS)):
            path = pathlib.Path(folder, f"{index}.prices")
            path.write_text(found[f"track-{index}"].rstrip("\n") + "\n")
            files[path.name] = path
        again = outputs_of(
            {f"verify-{index}": ["verify", track[0], f"{index}.prices"] for index, track in enumerate(TRACKS)},
            files,
        )
        for index, track in enumerate(TRACKS):
            good.append(compare(f"verify {' '.join(track)}", again[f"verify-{index}"], "certified\n"))
        checked = subprocess.run(
            [sys.executable, EXAMPLES / "check_prices.py", pathlib.Path(folder, "3.prices"), EXAMPLES / "chains.payloads"],
            capture_output=True,
            text=True,
        )
        good.append(compare("check_prices.py", checked.stdout, "certified\n"))
    print(f"{sum(good)} of {len(good)} commands print what they should")
    sys.exit(0 if all(good) else 1)


if __name__ == "__main__":
    main()
