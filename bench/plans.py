#!/usr/bin/env python3
"""Times the plan of a request whose clients have version prefixes.

    bench/plans.py [--releases N] [--turns N] [--runs N] [--keep FOLDER]

It copies the crates that a plan depends on to a folder, adds a program that plans one request again and again, and
proves and builds it by `rt run`, which takes some minutes; `--keep` keeps the folder for the next time. The catalogue
has 8 apps of N releases and 32 cohorts, with a differential from each release to each of the next 32; the target of
each cohort is the highest release, and the version of each release begins with 1. Times are processor time, the
difference of two runs, of N turns and of none, divided by N; of each the least of the runs counts. The program prints
for how many apps something was chosen.

`table` is the table of one track without a pin, made from the catalogue. The others are plans: of one app without a
prefix; of one with the prefix 1; of 256 apps with the prefix 1 on one track; of 256 apps with the prefixes 1.0 to 1.255
on one track; and `all_tracks`, of 256 apps with the prefix 1 on 256 tracks, each of another app than the one before.
Those that are `kept` have a cache of 256 tables, and one more turn, the first, which isn't timed.

The aims, on a machine without other work: one pinned app in at most 1.5 times the table's time, and 256 in at most
150 ms; one whose table is kept in at most twice the time of one without a prefix.
"""

import argparse
import pathlib
import tempfile

import graphs
import publisher

LINE = "plan_times: replies omaha_json editions par_tables payload_graph cohorts catalogue values\n"
MODES = (
    ("table", "table", 1),
    ("one app without a prefix", "unpinned", 100),
    ("one app with a prefix", "one", 1),
    ("256 apps of one pin", "same", 1),
    ("256 apps of 256 pins", "different", 0.02),
    ("256 apps of 256 tracks", "all_tracks", 0.02),
    ("one app with a prefix, kept", "one_kept", 100),
    ("256 apps of 256 pins, kept", "different_kept", 0.2),
    ("256 apps of 256 tracks, kept", "all_tracks_kept", 0.2),
)
HEAD = r"""//! Plans one request again and again.

#![tactic(auto)]

use catalogue::{
    AddApp, AddCohort, AddDiff, AddRelease, Batch, Catalogue, Edit, SetFloor, SetRollback, SetShare,
    SetTarget,
};
use cohorts::{Lane, Pin};
use editions::Edition;
use omaha_json::{Request, read_request};
use par_tables::{TableCache, has_target, tables_of};
use payload_graph::TrackKey;
use replies::{Choice, plan_with};
use std::alloc::{AllocError, Global};
use std::io;
use values::Text;

"""
BODY = r"""// The app, the cohort and the prefix of an app of a request.
fn asked(mode: &str, index: u64) -> (u64, u64, &'static str, u64) {
    match mode {
        "all_tracks" => (index % 8, index / 8 % 32, "1", 0),
        "different" => (0, 0, "1.", index),
        "unpinned" => (0, 0, "", 0),
        _ => (0, 0, "1", 0),
    }
}

fn push_app(body: &mut String, mode: &str, index: u64) -> Result<(), AllocError> {
    let (app, cohort, prefix, number) = asked(mode, index);
    body.push_str(if index > 0 { "," } else { "" })?;
    write!(body, r#"{{"appid":"demo{app}","cohort":"stable{cohort}:0","updatecheck":{{"targetversionprefix":"{prefix}"#)?;
    if mode == "different" {
        write!(body, "{number}")?;
    }
    body.push_str(r#""},"version":"0"}"#)
}

// The request of a mode.
fn body_of(alloc: Global, mode: &str) -> Result<String, AllocError> {
    let count: u64 = if mode == "one" || mode == "unpinned" { 1 } else { 256 };
    let mut body = String::new(alloc);
    body.push_str("{\"request\":{\"app\":[")?;
    for index in 0..count {
        push_app(&mut body, mode, index)?;
    }
    body.push_str("],\"protocol\":\"3.1\",\"sessionid\":\"abc\"}}")?;
    Ok(body)
}

fn request_of(alloc: Global, mode: &str) -> Option<Request> {
    let body = body_of(alloc, mode).ok()?;
    read_request(alloc, body.as_str().as_bytes()).ok()
}

fn count_in(choices: &[Option<Choice>]) -> u64 {
    let mut count: u64 = 0;
    for choice in choices {
        if choice.is_some() {
            count = count.wrapping_add(1);
        }
    }
    count
}

// Plans with a cache of so many tables.
fn planned(alloc: Global, edition: &Edition, request: &Request, turns: u64, tables: usize) -> Result<u64, AllocError> {
    let mut kept = TableCache::new(tables);
    let mut count = 0;
    for _turn in 0..turns {
        let plan = plan_with(alloc, edition, request, &mut kept)?;
        count = count_in(plan.choices.as_slice());
    }
    Ok(count)
}

// The rows of the table of the first track.
fn tabled(alloc: Global, catalogue: &Catalogue, turns: u64) -> Result<u64, AllocError> {
    let key = TrackKey {
        app: 0,
        cohort: 0,
        lane: Lane::Target,
        rollback: false,
        pin: Pin::Any,
    };
    let mut count = 0;
    if has_target(catalogue, &key) {
        for _turn in 0..turns {
            count = tables_of(alloc, catalogue, &[key])?.len() as u64;
        }
    }
    Ok(count)
}

fn run(alloc: Global, mode: &str, releases: u64, turns: u64) -> Option<u64> {
    let batch = batch_of(alloc, 8, 32, releases, 32, "none").ok()?;
    let edition = Edition::empty(alloc).next(batch).ok()?;
    if mode == "table" {
        return tabled(alloc, edition.catalogue(), turns).ok();
    }
    match mode.strip_suffix("_kept") {
        Some(mode) => {
            let request = request_of(alloc, mode)?;
            planned(alloc, &edition, &request, turns.saturating_add(1), 256).ok()
        }
        None => {
            let request = request_of(alloc, mode)?;
            planned(alloc, &edition, &request, turns, 0).ok()
        }
    }
}

// Each line of the input: a mode, the releases and the turns.
fn main(rt: HostRuntime) -> io::Result<()> {
    let alloc = rt.alloc();
    for line in rt.lines(alloc) {
        let line = line?;
        let mut words = line.as_str().split(' ');
        let mode = words.next().unwrap_or("");
        let releases = words.next().unwrap_or("").parse().unwrap_or(0);
        let turns = words.next().unwrap_or("").parse().unwrap_or(0);
        match run(alloc, mode, releases, turns) {
            Some(count) => println!(rt; "{count}")?,
            None => println!(rt; "failed")?,
        }
    }
    Ok(())
}
"""

# What each turn keeps: the kept tables are those of the edition.
PROOFS = (
    (
        "planned/Invariants.antt",
        """use Rattle.editions.specs.Editions.{content_of}
use Rattle.par_tables.specs.Caches.{AreOwnTables}
use Rattle.plan_times.proofs.planned.Given as goal

abbrev pub invariant-loop-turn : goal.invariant-loop-turn
invariant-loop-turn l = AreOwnTables (content_of l.edition) l.kept.tables
""",
    ),
)


def main():
    options = argparse.ArgumentParser(description=__doc__, formatter_class=argparse.RawDescriptionHelpFormatter)
    options.add_argument("--releases", type=int, default=512, help="releases of an app [default: 512]")
    options.add_argument("--turns", type=int, default=500, help="turns of a small plan [default: 500]")
    options.add_argument("--runs", type=int, default=3, help="runs of each figure [default: 3]")
    options.add_argument("--keep", help="a folder for the program, kept for the next time")
    chosen = options.parse_args()
    with tempfile.TemporaryDirectory() as made:
        folder = pathlib.Path(chosen.keep or made)
        program = publisher.build(folder, "plan_times", "replies", LINE, HEAD + graphs.EDITS + BODY, PROOFS)
        for name, mode, part in MODES:
            turns = max(1, int(chosen.turns * part))
            each = graphs.per_turn(program, mode, chosen.releases, turns, chosen.runs)
            count = graphs.run_once(program, mode, chosen.releases, 1)[2]
            print(f"{name:<30}{each:>12,.1f} us{count:>5} chosen")


if __name__ == "__main__":
    main()
