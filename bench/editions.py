#!/usr/bin/env python3
"""Times the tables of a catalogue by several threads, and a publish of one edit.

    bench/editions.py [--apps N] [--releases N] [--next N] [--workers N ..] [--runs N] [--keep FOLDER]

It copies the crates that an edition depends on to a folder, adds a program, and proves and builds it by `rt run`,
which takes some minutes; `--keep` keeps the folder for the next time. The catalogue has N apps of N releases and 4
cohorts, each of which has both targets; from each release there are differentials to each of the `--next` releases
that follow. The program prints milliseconds by the clock of the machine; of each figure the least of the runs counts.

`tables` is all tables of the catalogue, by each number of workers, made the second time: before the first of them the
allocator of glibc joins the small pieces of memory that making the catalogue freed. `publish` is the next edition
after a batch, of 20 such editions the one that took least time: a batch of no edit, of the share of one cohort or of one
cohort of each app, of another target of one cohort, or of a release that is withdrawn or offered again; and how many
tables it makes. `of an app` is all tables of a catalogue of
one such app. `KiB` is by how much the peak memory grows for an edition that is kept beside the one before it.
"""

import argparse
import os
import pathlib
import shutil
import sys
import tempfile

import graphs
import publisher

LINE = "edition_times: editions par_tables catalogue values\n"
KINDS = (
    ("none", "no edit"),
    ("share", "one share"),
    ("shares", "a share of each app"),
    ("target", "one target"),
    ("withdrawn", "one withdrawal"),
)
HEAD = r"""//! Makes the tables of catalogues, and editions.

#![tactic(auto)]

use catalogue::{
    AddApp, AddCohort, AddDiff, AddRelease, Batch, Catalogue, Edit, Refused, SetFloor,
    SetRollback, SetShare, SetTarget, SetWithdrawn,
};
use editions::{Edition, NextError};
use par_tables::{Free, Gate, build};
use std::alloc::{AllocError, Global};
use std::io;
use std::rt::Clock;
use std::sync::Wait;
use std::sync::atomic::{AtomicU64, Ordering};
use std::thread::Threads;
use std::time::Instant;
use values::{ReadError, Text};

"""
BODY = r"""
// The nanoseconds since a start, 0 if the clock could not be read.
fn passed_since<R: Clock>(rt: &R, start: io::Result<Instant>) -> u64 {
    let Ok(start) = start else {
        return 0;
    };
    match start.elapsed(rt) {
        Ok(passed) => u64::try_from(passed.as_nanos()).unwrap_or(0),
        Err(_) => 0,
    }
}

fn catalogue_of(alloc: Global, apps: u64, releases: u64, next: u64) -> Result<Catalogue, ReadError<Refused>> {
    let batch = batch_of(alloc, apps, 4, releases, next, "none")?;
    Catalogue::empty(alloc).applied(&batch)
}

// The nanoseconds in which all tables are made by 1, 2, 3, 4, 8 or 16 workers, and how many there are.
fn built<R: Threads + Wait + Clock>(rt: &R, alloc: Global, catalogue: &Catalogue, workers: u64) -> Result<(u64, u64), AllocError> {
    let start = Instant::now(rt);
    let tables = match workers {
        2 => build(rt, alloc, catalogue, 2, &Free)?,
        3 => build(rt, alloc, catalogue, 3, &Free)?,
        4 => build(rt, alloc, catalogue, 4, &Free)?,
        8 => build(rt, alloc, catalogue, 8, &Free)?,
        16 => build(rt, alloc, catalogue, 16, &Free)?,
        _ => build(rt, alloc, catalogue, 1, &Free)?,
    };
    Ok((passed_since(rt, start), tables.len() as u64))
}

// The tables are made twice, and the second time counts: the first large allocation after the catalogue was made has the
// allocator join all small pieces that making it freed.
fn run_build<R: Threads + Wait + Clock>(rt: &R, alloc: Global, apps: u64, releases: u64, next: u64, workers: u64) -> Result<(u64, u64), ReadError<Refused>> {
    let catalogue = catalogue_of(alloc, apps, releases, next)?;
    built(rt, alloc, &catalogue, workers)?;
    Ok(built(rt, alloc, &catalogue, workers)?)
}

fn withdrawn_set(alloc: Global, on: bool) -> Result<Edit, AllocError> {
    let app = id_of(alloc, 0)?;
    let version = version_of(alloc, 1)?;
    Ok(Edit::SetWithdrawn(SetWithdrawn { app, version, on }))
}

fn share_of(alloc: Global, app: u64, share: u64) -> Result<Edit, AllocError> {
    let app = id_of(alloc, app)?;
    let cohort = cohort_of(alloc, 0)?;
    Ok(Edit::SetShare(SetShare { app, cohort, share }))
}

// A batch of a kind, another one each turn.
fn change_of(alloc: Global, mode: &str, apps: u64, turn: u64) -> Result<Batch, AllocError> {
    let mut edits = Vec::new(alloc);
    match mode {
        "none" => {}
        "shares" => {
            for app in 0..apps {
                edits.push(share_of(alloc, app, turn)?)?;
            }
        }
        "target" => edits.push(target_set(alloc, 0, 0, turn)?)?,
        "withdrawn" => edits.push(withdrawn_set(alloc, turn % 2 == 0)?)?,
        _ => edits.push(share_of(alloc, 0, turn)?)?,
    }
    Ok(Batch::new(edits))
}

// How many tables the pieces that began have.
#[derive(Drop)]
struct Counter {
    tables: AtomicU64,
}

impl Gate for Counter {
    fn begin(&self, _piece: usize, tables: usize) {
        self.tables.fetch_add(tables as u64, Ordering::SeqCst);
    }
}

// The nanoseconds of the fastest of so many publishes, each of one batch of a kind, and how many tables one more makes.
fn published<R: Threads + Wait + Clock>(rt: &R, alloc: Global, mode: &str, apps: u64, batch: Batch, turns: u64) -> Result<(u64, u64), NextError> {
    let mut edition = Edition::empty(alloc).next(batch)?;
    let mut least = u64::MAX;
    for turn in 0..turns {
        let change = change_of(alloc, mode, apps, turn)?;
        let start = Instant::now(rt);
        let next = edition.next(change)?;
        least = least.min(passed_since(rt, start));
        edition = next;
    }
    let counter = Counter { tables: AtomicU64::new(0) };
    edition.next_with(rt, change_of(alloc, mode, apps, turns)?, 1, &counter)?;
    Ok((least, counter.tables.load(Ordering::SeqCst)))
}

// The same with the edition before each one kept until the end.
fn kept<R: Clock>(rt: &R, alloc: Global, batch: Batch) -> Result<(u64, u64), NextError> {
    let edition = Edition::empty(alloc).next(batch)?;
    let change = change_of(alloc, "share", 1, 0)?;
    let start = Instant::now(rt);
    let next = edition.next(change)?;
    let passed = passed_since(rt, start);
    Ok((passed, edition.number().saturating_add(next.number())))
}

fn run_publish<R: Threads + Wait + Clock>(rt: &R, alloc: Global, mode: &str, apps: u64, releases: u64, next: u64, turns: u64) -> Result<(u64, u64), NextError> {
    let batch = batch_of(alloc, apps, 4, releases, next, "none")?;
    match mode {
        "kept" => kept(rt, alloc, batch),
        _ => published(rt, alloc, mode, apps, batch, turns),
    }
}

fn run<R: Threads + Wait + Clock>(rt: &R, alloc: Global, mode: &str, apps: u64, releases: u64, next: u64, count: u64) -> Option<(u64, u64)> {
    match mode {
        "build" => run_build(rt, alloc, apps, releases, next, count).ok(),
        _ => run_publish(rt, alloc, mode, apps, releases, next, count).ok(),
    }
}

// Each line of the input: `build`, `kept` or the kind of a batch, the apps, the releases, the differentials from each,
// and the workers or the publishes. It prints nanoseconds, and how many tables were made, or the sum of the editions'
// numbers.
fn main(rt: HostRuntime) -> io::Result<()> {
    let alloc = rt.alloc();
    for line in rt.lines(alloc) {
        let line = line?;
        let mut words = line.as_str().split(' ');
        let mode = words.next().unwrap_or("");
        let apps = words.next().unwrap_or("").parse().unwrap_or(0);
        let releases = words.next().unwrap_or("").parse().unwrap_or(0);
        let next = words.next().unwrap_or("").parse().unwrap_or(0);
        let count = words.next().unwrap_or("").parse().unwrap_or(0);
        match run(&rt, alloc, mode, apps, releases, next, count) {
            Some((passed, number)) => println!(rt; "{passed} {number}")?,
            None => println!(rt; "failed")?,
        }
    }
    Ok(())
}
"""


def run_once(program, *words):
    """The nanoseconds and the number that the program prints, and its peak memory in KiB."""
    read, write = os.pipe()
    os.write(write, (" ".join(map(str, words)) + "\n").encode())
    os.close(write)
    with tempfile.TemporaryFile() as output:
        child = graphs.subprocess.Popen([program], stdin=read, stdout=output)
        _, status, usage = os.wait4(child.pid, 0)
        os.close(read)
        output.seek(0)
        printed = output.read().decode().split()
    if status != 0 or len(printed) != 2:
        sys.exit(f"{program} {words}: status {status}: {printed}")
    return int(printed[0]), int(printed[1]), usage.ru_maxrss


def least(program, runs, *words):
    return min(run_once(program, *words) for _ in range(runs))


def main():
    options = argparse.ArgumentParser(description=__doc__, formatter_class=argparse.RawDescriptionHelpFormatter)
    options.add_argument("--apps", type=int, default=64, help="apps [default: 64]")
    options.add_argument("--releases", type=int, default=512, help="releases of an app [default: 512]")
    options.add_argument("--next", type=int, default=32, help="differentials from each release [default: 32]")
    options.add_argument("--workers", type=int, nargs="+", default=[1, 2, 4], help="of 1, 2, 3, 4, 8, 16 [default: 1 2 4]")
    options.add_argument("--runs", type=int, default=3, help="runs of each figure [default: 3]")
    options.add_argument("--keep", help="a folder for the program, kept for the next time")
    asked = options.parse_args()
    folder = pathlib.Path(asked.keep or tempfile.mkdtemp()).resolve()
    try:
        program = publisher.build(folder, "edition_times", "editions", LINE, HEAD + graphs.EDITS + BODY)
        for workers in asked.workers:
            passed, tables, _ = least(program, asked.runs, "build", asked.apps, asked.releases, asked.next, workers)
            print(f"tables by {workers:2} workers  {passed / 1e6:10.2f} ms  {tables} tables", flush=True)
        for mode, what in KINDS:
            passed, tables, _ = least(program, asked.runs, mode, asked.apps, asked.releases, asked.next, 20)
            print(f"publish of {what:26}{passed / 1e6:8.3f} ms, {tables:3} tables made", flush=True)
        own, tables, _ = least(program, asked.runs, "build", 1, asked.releases, asked.next, 1)
        print(f"tables of an app      {own / 1e6:10.2f} ms  {tables} tables", flush=True)
        none = least(program, asked.runs, "share", asked.apps, asked.releases, asked.next, 0)[2]
        kept = least(program, asked.runs, "kept", asked.apps, asked.releases, asked.next, 1)[2]
        print(f"memory                {none:10,} KiB, {kept - none:,} KiB more for a kept edition", flush=True)
    finally:
        if not asked.keep:
            shutil.rmtree(folder)


if __name__ == "__main__":
    main()
