#!/usr/bin/env python3
"""Times entries of published editions, and publishes.

    bench/publisher.py [--turns N] [--publishes N] [--runs N] [--keep FOLDER]

It copies the crates that a press depends on to a folder, adds a program that opens a press and enters or publishes
again and again, and proves and builds it by `rt run`, which takes some minutes; `--keep` keeps the folder for the next
time. The catalogue has 64 apps of 16 releases and 2 cohorts. The program prints the nanoseconds of a turn, by the
clock of the machine; of each figure the least of the runs counts.

`enter` is an entry, a look at the edition's number, and leaving: `alone`, and `beside` a thread that publishes empty
batches without a pause. `publish` is a publish of an empty batch: `alone`, and `beside` two threads that enter without
a pause. `entry after a receipt` is the first one after a view has learnt the receipt of edition 4096.

The aims: an entry in at most 200 ns, and at most twice that beside a publisher; a publish in at most 2 ms, and at most
three times that of `alone` beside two readers.
"""

import argparse
import pathlib
import shutil
import subprocess
import sys
import tempfile

TOP = pathlib.Path(__file__).resolve().parent.parent
LINE = "publisher_times: publisher par_tables editions catalogue values\n"
MODES = (
    ("enter alone", "enter"),
    ("enter beside a publisher", "enter_beside"),
    ("publish alone", "publish"),
    ("publish beside two readers", "publish_beside"),
    ("entry after a receipt", "learnt"),
)
PROGRAM = r"""//! Enters editions and publishes batches again and again.

#![tactic(auto)]

use catalogue::{AddApp, AddCohort, AddRelease, Batch, Edit, SetTarget};
use par_tables::Free;
use publisher::{Press, View, open};
use std::alloc::{AllocError, Global};
use std::io;
use std::rt::Clock;
use std::sync::atomic::{AtomicU64, Ordering};
use std::sync::Wait;
use std::thread::{Threads, join};
use std::time::Instant;
use values::Text;

fn text(alloc: Global, name: &str, number: u64) -> Result<Text, AllocError> {
    Ok(Text::new(format!(in alloc; "{name}{number}")?))
}

fn release(alloc: Global, app: u64, number: u64) -> Result<Edit, AllocError> {
    let name = Text::new(format!(in alloc; "demo{app}-{number}.bin")?);
    let sha256 = Text::new(format!(in alloc; "{app:032}{number:032}")?);
    let app = text(alloc, "demo", app)?;
    Ok(Edit::AddRelease(AddRelease {
        app,
        version: text(alloc, "", number)?,
        name,
        size: 1000,
        sha256,
    }))
}

fn target(alloc: Global, app: u64, cohort: &str) -> Result<Edit, AllocError> {
    let target = Some(text(alloc, "", 16)?);
    Ok(Edit::SetTarget(SetTarget {
        app: text(alloc, "demo", app)?,
        cohort: Text::copy_of(alloc, cohort)?,
        target,
        held: None,
    }))
}

fn add_app(alloc: Global, edits: &mut Vec<Edit>, app: u64) -> Result<(), AllocError> {
    let default = Text::copy_of(alloc, "stable")?;
    edits.push(Edit::AddApp(AddApp {
        app: text(alloc, "demo", app)?,
        default,
    }))?;
    let cohort = Text::copy_of(alloc, "beta")?;
    edits.push(Edit::AddCohort(AddCohort {
        app: text(alloc, "demo", app)?,
        cohort,
    }))?;
    for number in 1..17u64 {
        edits.push(release(alloc, app, number)?)?;
    }
    edits.push(target(alloc, app, "stable")?)?;
    edits.push(target(alloc, app, "beta")?)?;
    Ok(())
}

fn first_batch(alloc: Global, apps: u64) -> Result<Batch, AllocError> {
    let mut edits = Vec::new(alloc);
    for app in 0..apps {
        add_app(alloc, &mut edits, app)?;
    }
    Ok(Batch::new(edits))
}

fn empty(alloc: Global) -> Batch {
    Batch::new(Vec::new(alloc))
}

// The nanoseconds since a start, 0 if the clock could not be read.
fn passed_since<R: Clock>(rt: &R, start: io::Result<Instant>) -> u64 {
    let Ok(start) = start else {
        return 0;
    };
    match start.elapsed(rt) {
        Ok(passed) => u64::try_from(passed.as_nanos()).unwrap_or(0),
        Err(_) => 0,
    }
}

// Enters and leaves so many times, or until the flag is set; the sum of the numbers.
fn enter_often(view: View, times: u64, done: &AtomicU64) -> (View, u64) {
    let mut view = view;
    let mut sum = 0u64;
    for _turn in 0..times {
        match view.enter() {
            Ok(entered) => {
                sum = sum.wrapping_add(entered.edition().number());
                view = entered.leave();
            }
            Err(back) => view = back,
        }
    }
    done.store(1, Ordering::SeqCst);
    (view, sum)
}

fn enter_until(view: View, done: &AtomicU64) -> u64 {
    let mut view = view;
    let mut sum = 0u64;
    for _turn in 0..u64::MAX {
        if done.load(Ordering::SeqCst) == 1 {
            return sum;
        }
        match view.enter() {
            Ok(entered) => {
                sum = sum.wrapping_add(entered.edition().number());
                view = entered.leave();
            }
            Err(back) => view = back,
        }
    }
    sum
}

// Publishes so many empty batches; how many were published.
fn publish_often<R: Threads + Sync + Wait>(rt: &R, alloc: Global, press: &mut Press, times: u64) -> u64 {
    let mut published = 0u64;
    for _turn in 0..times {
        let base = press.edition().number();
        if press.publish(rt, alloc, base, empty(alloc), 1, &Free).is_ok() {
            published = published.wrapping_add(1);
        }
    }
    published
}

// Publishes empty batches until the flag is set.
fn publish_until<R: Threads + Sync + Wait>(rt: &R, alloc: Global, press: &mut Press, done: &AtomicU64) -> u64 {
    let mut published = 0u64;
    for _turn in 0..u64::MAX {
        if done.load(Ordering::SeqCst) == 1 {
            return published;
        }
        let base = press.edition().number();
        if press.publish(rt, alloc, base, empty(alloc), 1, &Free).is_ok() {
            published = published.wrapping_add(1);
        }
    }
    published
}

// What was entered and what was published in a run of a mode.
fn run<R: Threads + Wait + Clock + Sync>(
    rt: &R,
    alloc: Global,
    mode: &str,
    turns: u64,
    press: &mut Press,
    views: Vec<View>,
) -> (u64, u64) {
    let mut views = views;
    let done = AtomicU64::new(0);
    let (Some(one), Some(two)) = (views.pop(), views.pop()) else {
        return (0, 0);
    };
    match mode {
        "enter" => (enter_often(one, turns, &done).1, 0),
        "enter_beside" => {
            let (sum, published) = join(
                rt,
                || enter_often(one, turns, &done).1,
                || publish_until(rt, alloc, press, &done),
            );
            (sum, published)
        }
        "publish" => (0, publish_often(rt, alloc, press, turns)),
        "publish_beside" => publish_beside(rt, alloc, turns, press, one, two),
        _ => (learn(rt, alloc, press, one), 0),
    }
}

fn publish_beside<R: Threads + Wait + Sync>(
    rt: &R,
    alloc: Global,
    turns: u64,
    press: &mut Press,
    one: View,
    two: View,
) -> (u64, u64) {
    let done = AtomicU64::new(0);
    let (sums, published) = join(
        rt,
        || join(rt, || enter_until(one, &done), || enter_until(two, &done)),
        || {
            let published = publish_often(rt, alloc, press, turns);
            done.store(1, Ordering::SeqCst);
            published
        },
    );
    (sums.0.wrapping_add(sums.1), published)
}

// Publishes up to 4096, and has a view learn the last receipt and enter: the nanoseconds of the entry.
fn learn<R: Threads + Sync + Wait + Clock>(rt: &R, alloc: Global, press: &mut Press, view: View) -> u64 {
    let mut view = view;
    publish_often(rt, alloc, press, 4094);
    let base = press.edition().number();
    if let Ok(receipt) = press.publish(rt, alloc, base, empty(alloc), 1, &Free) {
        view.learn(&receipt);
    }
    let start = Instant::now(rt);
    let Ok(entered) = view.enter() else {
        return 0;
    };
    let passed = passed_since(rt, start);
    entered.leave();
    passed
}

// Each line of the input: a mode, the apps, and the turns. It prints the nanoseconds of all turns, with what was
// entered and published.
fn main(rt: HostRuntime) -> io::Result<()> {
    let alloc = rt.alloc();
    for line in rt.lines(alloc) {
        let line = line?;
        let mut words = line.as_str().split(' ');
        let mode = words.next().unwrap_or("");
        let apps = words.next().unwrap_or("").parse().unwrap_or(0);
        let turns = words.next().unwrap_or("").parse().unwrap_or(0);
        let Ok(batch) = first_batch(alloc, apps) else {
            return Ok(());
        };
        let Ok((press, views)) = open(&rt, alloc, batch, 2, 1, &Free) else {
            return Ok(());
        };
        let mut press = press;
        let start = Instant::now(&rt);
        let (entered, published) = run(&rt, alloc, mode, turns, &mut press, views);
        let passed = passed_since(&rt, start);
        press.end(&rt);
        println!(rt; "{passed} {entered} {published}")?;
    }
    Ok(())
}
"""


def crates_below(name, lines):
    """The crates of the repository that a crate depends on, with itself."""
    found = {name}
    for below in lines.get(name, "").split():
        if below in lines:
            found |= crates_below(below, lines)
    return found


def build(folder, name, below, line, source, proofs=()):
    """The program of a name, of a line of `crates.txt` and a source, built over copies of the crates that some need.

    The pairs of `proofs` are paths below its folder `proofs` and what is in those files.
    """
    program = folder / f"crates/{name}/out/{name}"
    if not program.exists():
        text = (TOP / "crates.txt").read_text()
        lines = dict(each.split(":", 1) for each in text.splitlines() if ":" in each and not each.startswith("#"))
        names = set().union(*(crates_below(each, lines) for each in below.split()))
        for each in names:
            if not (folder / "crates" / each).exists():
                ignored = shutil.ignore_patterns("out", "must-fail")
                shutil.copytree(TOP / "crates" / each, folder / "crates" / each, ignore=ignored)
        shutil.copy(TOP / "HANDLES", folder / "HANDLES")
        (folder / "crates.txt").write_text("".join(f"{each}:{lines[each]}\n" for each in sorted(names)) + line)
        (folder / f"crates/{name}/src").mkdir(parents=True, exist_ok=True)
        (folder / f"crates/{name}/specs").mkdir(parents=True, exist_ok=True)
        (folder / f"crates/{name}/specs/Lib.antt").write_text("")
        (folder / f"crates/{name}/src/main.rt").write_text(source)
        for path, proof in proofs:
            (folder / f"crates/{name}/proofs/{path}").parent.mkdir(parents=True, exist_ok=True)
            (folder / f"crates/{name}/proofs/{path}").write_text(proof)
        subprocess.run(["rt", "run", "--jobs", "1"], cwd=folder / f"crates/{name}", input=b"", check=True)
    return program


def run_once(program, mode, apps, turns):
    """The nanoseconds of a run, what was entered, and how many batches were published."""
    ran = subprocess.run([program], input=f"{mode} {apps} {turns}\n", capture_output=True, text=True)
    words = ran.stdout.split()
    if ran.returncode != 0 or len(words) != 3:
        sys.exit(f"{program}: status {ran.returncode}: {ran.stdout}{ran.stderr}")
    return tuple(int(word) for word in words)


def main():
    options = argparse.ArgumentParser(description=__doc__, formatter_class=argparse.RawDescriptionHelpFormatter)
    options.add_argument("--turns", type=int, default=3_000_000, help="entries of a run")
    options.add_argument("--publishes", type=int, default=500, help="publishes of a run, at most 4095")
    options.add_argument("--runs", type=int, default=3, help="runs of each figure")
    options.add_argument("--keep", help="a folder for the program, kept for the next time")
    asked = options.parse_args()
    with tempfile.TemporaryDirectory() as made:
        program = build(pathlib.Path(asked.keep or made), "publisher_times", "publisher", LINE, PROGRAM)
        for name, mode in MODES:
            turns = asked.publishes if mode.startswith("publish") else asked.turns
            runs = [run_once(program, mode, 64, turns) for _ in range(asked.runs)]
            passed, _, published = min(runs)
            each = passed / turns if mode != "learnt" else min(run[1] for run in runs)
            print(f"{name:<28}{each:>12,.0f} ns{published:>8} publishes")


if __name__ == "__main__":
    main()
