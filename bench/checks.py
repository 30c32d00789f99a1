#!/usr/bin/env python3
"""Times the check of a table of prices by several threads beside that by one.

    bench/checks.py [--releases N] [--turns N] [--runs N] [--pattern NAME] [--keep FOLDER]

It copies the crates that a check depends on to a folder, adds a program, and proves and builds it by `rt run`, which
takes some minutes; `--keep` keeps the folder for the next time. The table is that of an app of N releases, with
differentials from each release to each of the next 32; `--pattern` gives the releases floors, as in `bench/graphs.py`.

`valid` is the table itself. In the others one price is a byte too high: that of the release below the target, of the
one in the middle, or of the lowest one. `check` is the check by one thread, and `parallel` the one by several, both on
one processor; `on all` is the latter on all processors. Microseconds a check, by the clock of the machine; of each
figure the least of the runs counts.
"""

import argparse
import os
import pathlib
import shutil
import subprocess
import sys
import tempfile

import graphs
import publisher

LINE = "check_times: omaha_commands solver price_cert payload_graph catalogue cohorts values\n"
HEAD = r"""//! Checks a table of prices again and again.

#![tactic(auto)]

ghost use Rattle.std.specs.Prelude.{◌≡◌, ◌<◌, IfSome, length};

use catalogue::{
    AddApp, AddCohort, AddDiff, AddRelease, Batch, Catalogue, Edit, Refused, SetFloor,
    SetRollback, SetShare, SetTarget,
};
use cohorts::{Lane, Pin};
use omaha_commands::check_parallel;
use payload_graph::{Graph, TrackKey};
use price_cert::{Certified, Prices, Row, check};
use solver::solve;
use std::alloc::{AllocError, Global};
use std::io;
use std::rt::Clock;
use std::thread::Threads;
use std::time::Instant;
use values::{ReadError, Text};

"""
BODY = r"""
fn key() -> TrackKey {
    TrackKey {
        app: 0,
        cohort: 0,
        lane: Lane::Target,
        rollback: true,
        pin: Pin::Any,
    }
}

// A row whose price is a byte higher.
fn raised(row: Row) -> Row {
    match row {
        Row::Price { price, kind, to } => Row::Price {
            price: price.wrapping_add(1),
            kind,
            to,
        },
        _ => row,
    }
}

// A copy of a table with the row at an index raised, or with none if there is no such row.
fn table_with(table: &Certified, index: usize) -> Option<Prices>
    ensures key { IfSome result (λ prices. prices.key ≡ table.now.net.key) }
    ensures sized { IfSome result (λ prices. length prices.rows ≡ length table.now.rows) }
{
    let Prices { key, mut rows } = table.copy().ok()?.into_prices();
    match rows.as_slice().get(index) {
        None => Some(Prices { key, rows }),
        Some(row) => {
            let row = raised(*row);
            match rows.replace(index, row) {
                Ok(()) => Some(Prices { key, rows }),
                Err(_) => None,
            }
        }
    }
}

fn copy_of(prices: &Prices) -> Option<Prices>
    ensures key { IfSome result (λ copied. copied.key ≡ prices.now.key) }
    ensures sized { IfSome result (λ copied. copied.rows ≡ prices.now.rows) }
{
    match prices.rows.clone() {
        Ok(rows) => Some(Prices {
            key: prices.key,
            rows,
        }),
        Err(_) => None,
    }
}

// The index of the wrong row that was found last, with the number of checks before it added; 0 if memory ran out.
fn check_often(graph: &Graph, prices: &Prices, turns: u64) -> Option<u64>
    requires key { prices.now.key ≡ graph.now.key }
    requires sized { length prices.now.rows ≡ length graph.now.doors }
{
    let mut found: u64 = 0;
    for _turn in 0..turns {
        match check(graph, copy_of(prices)?) {
            Ok(_) => {}
            Err((wrong, _)) => found = (wrong.row as u64).wrapping_add(1),
        }
    }
    Some(found)
}

fn check_parallel_often<R: Threads + Sync>(rt: &R, graph: &Graph, prices: &Prices, turns: u64) -> Option<u64>
    requires key { prices.now.key ≡ graph.now.key }
    requires sized { length prices.now.rows ≡ length graph.now.doors }
{
    let mut found: u64 = 0;
    for _turn in 0..turns {
        match check_parallel(rt, graph, copy_of(prices)?) {
            Ok(_) => {}
            Err((wrong, _)) => found = (wrong.row as u64).wrapping_add(1),
        }
    }
    Some(found)
}

// The nanoseconds since a start, 0 if the clock could not be read.
fn passed_since<R: Clock>(rt: &R, start: io::Result<Instant>) -> u64 {
    let Ok(start) = start else {
        return 0;
    };
    match start.elapsed(rt) {
        Ok(passed) => u64::try_from(passed.as_nanos()).unwrap_or(0),
        Err(_) => 0,
    }
}

fn timed<R: Threads + Sync + Clock>(rt: &R, graph: &Graph, prices: &Prices, mode: &str, turns: u64) -> Option<(u64, u64)>
    requires key { prices.now.key ≡ graph.now.key }
    requires sized { length prices.now.rows ≡ length graph.now.doors }
{
    let start = Instant::now(rt);
    let found = match mode {
        "check" => check_often(graph, prices, turns)?,
        _ => check_parallel_often(rt, graph, prices, turns)?,
    };
    Some((passed_since(rt, start), found))
}

fn graph_of(alloc: Global, releases: u64, pattern: &str) -> Result<Option<Graph>, ReadError<Refused>> {
    let batch = batch_of(alloc, 1, 1, releases, 32, pattern)?;
    let catalogue = Catalogue::empty(alloc).applied(&batch)?;
    Ok(Graph::of_track(alloc, &catalogue, &key())?)
}

// The nanoseconds of so many checks of the table of an app, with the row at an index raised, and what was found last.
fn run<R: Threads + Sync + Clock>(rt: &R, alloc: Global, mode: &str, releases: u64, pattern: &str, index: usize, turns: u64) -> Option<(u64, u64)> {
    let graph = graph_of(alloc, releases, pattern).ok()??;
    let table = solve(alloc, &graph).ok()?;
    let _sized = table.rows();
    let prices = table_with(&table, index)?;
    timed(rt, &graph, &prices, mode, turns)
}

// Each line of the input: `check` or `parallel`, the releases, the pattern of floors, the index of the wrong row, and the
// checks. It prints nanoseconds, and the wrong row's index with 1 added, 0 if there is none.
fn main(rt: HostRuntime) -> io::Result<()> {
    let alloc = rt.alloc();
    for line in rt.lines(alloc) {
        let line = line?;
        let mut words = line.as_str().split(' ');
        let mode = words.next().unwrap_or("");
        let releases = words.next().unwrap_or("").parse().unwrap_or(0);
        let pattern = words.next().unwrap_or("none");
        let index = words.next().unwrap_or("").parse().unwrap_or(0);
        let turns = words.next().unwrap_or("").parse().unwrap_or(0);
        match run(&rt, alloc, mode, releases, pattern, index, turns) {
            Some((passed, found)) => println!(rt; "{passed} {found}")?,
            None => println!(rt; "failed")?,
        }
    }
    Ok(())
}
"""


def run_once(program, mode, releases, pattern, index, turns, processors=None):
    """The microseconds of a check, and the index of the wrong row that it finds, -1 if there is none."""
    limit = (lambda: os.sched_setaffinity(0, processors)) if processors else None
    line = f"{mode} {releases} {pattern} {index} {turns}\n"
    ran = subprocess.run([program], input=line, capture_output=True, text=True, preexec_fn=limit)
    printed = ran.stdout.split()
    if ran.returncode != 0 or len(printed) != 2:
        sys.exit(f"{program}: status {ran.returncode}: {ran.stdout}{ran.stderr}")
    return int(printed[0]) / turns / 1e3, int(printed[1]) - 1


def main():
    options = argparse.ArgumentParser(description=__doc__, formatter_class=argparse.RawDescriptionHelpFormatter)
    options.add_argument("--releases", type=int, default=512, help="releases of the app, at most 512 [default: 512]")
    options.add_argument("--turns", type=int, default=1000, help="checks of a run [default: 1000]")
    options.add_argument("--runs", type=int, default=5, help="runs of each figure [default: 5]")
    options.add_argument("--pattern", choices=graphs.PATTERNS, default="none", help="which releases have floors [default: none]")
    options.add_argument("--keep", help="a folder for the program, kept for the next time")
    asked = options.parse_args()
    folder = pathlib.Path(asked.keep or tempfile.mkdtemp()).resolve()
    try:
        program = publisher.build(folder, "check_times", "omaha_commands solver", LINE, HEAD + graphs.EDITS + BODY)
        last = asked.releases - 1
        tables = (("valid", asked.releases), ("below the target", last - 1), ("in the middle", last // 2), ("at the lowest", 0))
        one = {max(os.sched_getaffinity(0))}
        ways = (("check", one), ("parallel", one), ("parallel", None))
        print(f"{'wrong row':18}{'check us':>10}{'parallel us':>13}{'on all us':>11}", flush=True)
        for name, index in tables:
            runs = [[run_once(program, mode, asked.releases, asked.pattern, index, asked.turns, of) for mode, of in ways] for _ in range(asked.runs)]
            if len({found for run in runs for _, found in run}) != 1:
                sys.exit(f"{name}: the checks find other rows: {runs}")
            times = [min(column)[0] for column in zip(*runs)]
            print(f"{name:18}{times[0]:>10,.1f}{times[1]:>13,.1f}{times[2]:>11,.1f}", flush=True)
    finally:
        if not asked.keep:
            shutil.rmtree(folder)


if __name__ == "__main__":
    main()
