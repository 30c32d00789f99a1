#!/usr/bin/env python3
"""Times how the graph of a track and its table are made, and how much memory they take.

    bench/graphs.py [--releases N ..] [--turns N] [--runs N] [--lists N] [--floors] [--publish] [--keep FOLDER]

It copies the crates that a table depends on to a folder, adds a program that makes the graph or the
table of one track again and again, and proves and builds it by `rt run`, which takes some minutes;
`--keep` keeps the folder for the next time. The app has N releases, all of them offered, and from each
release a differential to each of the next 32. The program prints the number of payloads of the last
graph, or of the last table's rows.

`of_track` resolves the app's differentials and makes the graph; `from resolved` only makes the graph;
`table` makes the graph from resolved differentials, finds the prices and checks them; `solve` is what
`table` takes beyond the graph. Each is the difference in processor time of two runs, of N turns and of
none, divided by N; of each the least of the runs counts.
`KiB` is by how much the peak memory grows for each graph that is kept.

At the end all tables of a catalogue are made: 64 apps of 128 releases and 32 cohorts, each cohort with
both targets. `--lists 0` leaves that out.

`--floors` counts the instructions of a table instead, by `valgrind --tool=callgrind`, for apps whose releases
have floors in a pattern: `none` has one; `one` release has; the floor of each release is the `second`
release, the one `before` it, the `8th` or the `64th` before it, or the one `half` way down; `worst` ends as
many best packages as could be found. In `down` and `above` the target is the lowest release, which only a
downgrade reaches; no release has a floor, or each has one above itself.

`--publish` counts the allocations, and their bytes, by which a batch makes the next catalogue of 64 such apps, by
`valgrind`. The batch sets a cohort's share, which changes no list of releases, differentials or package names; or it
adds a release to one app.
"""

import argparse
import os
import pathlib
import re
import shutil
import subprocess
import sys
import tempfile

TOP = pathlib.Path(__file__).resolve().parent.parent
CRATES = ["values", "worker_threads", "omaha_json", "catalogue", "cohorts", "payload_graph", "price_cert", "solver", "par_tables"]
LINE = "graph_times: par_tables solver price_cert payload_graph catalogue cohorts values\n"
PATTERNS = ("none", "one", "second", "before", "8th", "64th", "half", "worst", "down", "above")
# functions that make edits, which another benchmark uses, too
EDITS = r"""fn id_of(alloc: Global, app: u64) -> Result<Text, AllocError> {
    Ok(Text::new(format!(in alloc; "demo{app}")?))
}

fn cohort_of(alloc: Global, cohort: u64) -> Result<Text, AllocError> {
    Ok(Text::new(format!(in alloc; "stable{cohort}")?))
}

fn name_of(alloc: Global, app: u64, from: u64, to: u64) -> Result<Text, AllocError> {
    Ok(Text::new(format!(in alloc; "demo{app}-{from}-{to}.bin")?))
}

fn hash_of(alloc: Global, from: u64, to: u64) -> Result<Text, AllocError> {
    Ok(Text::new(format!(in alloc; "{from:032}{to:032}")?))
}

fn version_of(alloc: Global, index: u64) -> Result<Text, AllocError> {
    Ok(Text::new(format!(in alloc; "1.{index}")?))
}

fn added_app(alloc: Global, app: u64) -> Result<Edit, AllocError> {
    let app = id_of(alloc, app)?;
    let default = cohort_of(alloc, 0)?;
    Ok(Edit::AddApp(AddApp { app, default }))
}

fn added_cohort(alloc: Global, app: u64, cohort: u64) -> Result<Edit, AllocError> {
    let app = id_of(alloc, app)?;
    let cohort = cohort_of(alloc, cohort)?;
    Ok(Edit::AddCohort(AddCohort { app, cohort }))
}

// The index of the release that is a release's floor, by the name of the pattern.
fn floor_of(pattern: &str, index: u64, releases: u64) -> Option<u64> {
    match pattern {
        "one" if index == releases / 4 * 3 => Some(releases / 3),
        "second" if index > 1 => Some(1),
        "before" => Some(index.saturating_sub(1)),
        "8th" => Some(index.saturating_sub(8)),
        "64th" => Some(index.saturating_sub(64)),
        "half" => Some(index / 2),
        "worst" if index >= releases / 2 => Some(releases.saturating_sub(index)),
        "above" => Some(index.saturating_add(1)),
        _ => None,
    }
}

// The bytes of a full package: in the worst pattern, the fewer the higher its floor.
fn size_of(pattern: &str, index: u64, releases: u64) -> u64 {
    match pattern {
        "worst" if index < releases / 2 => 1000000000,
        "worst" => index.saturating_mul(1000),
        _ => 1000000,
    }
}

fn floor_set(alloc: Global, index: u64, floor: u64) -> Result<Edit, AllocError> {
    let app = id_of(alloc, 0)?;
    let version = version_of(alloc, index)?;
    let floor = version_of(alloc, floor)?;
    Ok(Edit::SetFloor(SetFloor { app, version, floor }))
}

fn rollback_set(alloc: Global) -> Result<Edit, AllocError> {
    let app = id_of(alloc, 0)?;
    let cohort = cohort_of(alloc, 0)?;
    let on = true;
    Ok(Edit::SetRollback(SetRollback { app, cohort, on }))
}

fn push_floors(alloc: Global, edits: &mut Vec<Edit>, pattern: &str, releases: u64) -> Result<(), AllocError> {
    for index in 0..releases {
        if let Some(floor) = floor_of(pattern, index, releases) {
            edits.push(floor_set(alloc, index, floor)?)?;
        }
    }
    if pattern == "down" || pattern == "above" {
        edits.push(rollback_set(alloc)?)?;
        edits.push(target_set(alloc, 0, 0, 0)?)?;
    }
    Ok(())
}

fn added_release(alloc: Global, app: u64, index: u64, size: u64) -> Result<Edit, AllocError> {
    let name = name_of(alloc, app, index, index)?;
    let app = id_of(alloc, app)?;
    let version = version_of(alloc, index)?;
    let sha256 = hash_of(alloc, index, index)?;
    Ok(Edit::AddRelease(AddRelease {
        app,
        version,
        name,
        size,
        sha256,
    }))
}

fn added_diff(alloc: Global, app: u64, from: u64, to: u64) -> Result<Edit, AllocError> {
    let name = name_of(alloc, app, from, to)?;
    let app = id_of(alloc, app)?;
    let start = version_of(alloc, from)?;
    let end = version_of(alloc, to)?;
    let sha256 = hash_of(alloc, from, to)?;
    Ok(Edit::AddDiff(AddDiff {
        app,
        from: start,
        to: end,
        name,
        size: 1000,
        sha256,
    }))
}

fn target_set(alloc: Global, app: u64, cohort: u64, index: u64) -> Result<Edit, AllocError> {
    let app = id_of(alloc, app)?;
    let cohort = cohort_of(alloc, cohort)?;
    let target = Some(version_of(alloc, index)?);
    let held = Some(version_of(alloc, index / 2)?);
    Ok(Edit::SetTarget(SetTarget {
        app,
        cohort,
        target,
        held,
    }))
}

// Differentials from a release to each of so many that follow.
fn push_diffs(alloc: Global, edits: &mut Vec<Edit>, app: u64, from: u64, releases: u64, next: u64) -> Result<(), AllocError> {
    for ahead in 0..next {
        let to = from.saturating_add(ahead).saturating_add(1);
        if to < releases {
            edits.push(added_diff(alloc, app, from, to)?)?;
        }
    }
    Ok(())
}

fn push_releases(alloc: Global, edits: &mut Vec<Edit>, app: u64, releases: u64, next: u64, pattern: &str) -> Result<(), AllocError> {
    for index in 0..releases {
        edits.push(added_release(alloc, app, index, size_of(pattern, index, releases))?)?;
    }
    for from in 0..releases {
        push_diffs(alloc, edits, app, from, releases, next)?;
    }
    Ok(())
}

fn push_cohorts(alloc: Global, edits: &mut Vec<Edit>, app: u64, cohorts: u64, releases: u64) -> Result<(), AllocError> {
    for cohort in 0..cohorts {
        if cohort > 0 {
            edits.push(added_cohort(alloc, app, cohort)?)?;
        }
        edits.push(target_set(alloc, app, cohort, releases.saturating_sub(1))?)?;
    }
    Ok(())
}

fn batch_of(alloc: Global, apps: u64, cohorts: u64, releases: u64, next: u64, pattern: &str) -> Result<Batch, AllocError> {
    let mut edits = Vec::new(alloc);
    for app in 0..apps {
        edits.push(added_app(alloc, app)?)?;
        push_releases(alloc, &mut edits, app, releases, next, pattern)?;
        push_cohorts(alloc, &mut edits, app, cohorts, releases)?;
    }
    push_floors(alloc, &mut edits, pattern, releases)?;
    Ok(Batch::new(edits))
}

fn share_set(alloc: Global) -> Result<Edit, AllocError> {
    let app = id_of(alloc, 0)?;
    let cohort = cohort_of(alloc, 0)?;
    Ok(Edit::SetShare(SetShare {
        app,
        cohort,
        share: 500,
    }))
}

"""
PROGRAM = r"""//! Makes the graph or the table of a track again and again.

#![tactic(auto)]

ghost use Rattle.std.specs.Prelude.{◌<◌, length};

use catalogue::{
    AddApp, AddCohort, AddDiff, AddRelease, Batch, Catalogue, Edit, Refused, SetFloor,
    SetRollback, SetShare, SetTarget,
};
use cohorts::{Lane, Pin};
use par_tables::{TrackTables, tables};
use payload_graph::{Differentials, Graph};
use payload_graph::TrackKey;
use solver::solve;
use std::alloc::{AllocError, Global};
use std::io;
use values::{ReadError, Text};

"""
PROGRAM += EDITS + r"""fn key() -> TrackKey {
    TrackKey {
        app: 0,
        cohort: 0,
        lane: Lane::Target,
        rollback: true,
        pin: Pin::Any,
    }
}

// How many payloads the track's graph has.
fn count_of(graph: &Graph) -> u64 {
    let mut count: u64 = 0;
    for from in 0..graph.doors().len() {
        for _edge in graph.edges_from(from) {
            count = count.wrapping_add(1);
        }
    }
    count
}

fn last_of(graph: Option<Graph>) -> u64 {
    match graph {
        Some(graph) => count_of(&graph),
        None => 0,
    }
}

fn whole(alloc: Global, catalogue: &Catalogue, turns: u64) -> Result<u64, AllocError> {
    let mut graph = None;
    for _turn in 0..turns {
        graph = Graph::of_track(alloc, catalogue, &key())?;
    }
    Ok(last_of(graph))
}

fn kept(alloc: Global, catalogue: &Catalogue, turns: u64) -> Result<u64, AllocError> {
    let mut graphs = Vec::new(alloc);
    for _turn in 0..turns {
        graphs.push(Graph::of_track(alloc, catalogue, &key())?)?;
    }
    Ok(graphs.len() as u64)
}

fn resolved(alloc: Global, catalogue: &Catalogue, turns: u64) -> Result<u64, AllocError> {
    let key = key();
    if key.app >= catalogue.apps().len() {
        return Ok(0);
    }
    let differentials = Differentials::of_app(alloc, catalogue, key.app)?;
    let mut graph = None;
    for _turn in 0..turns {
        graph = Graph::with_differentials(alloc, catalogue, &key, &differentials)?;
    }
    Ok(last_of(graph))
}

fn rows_of(alloc: Global, graph: Option<Graph>) -> Result<u64, AllocError> {
    match graph {
        Some(graph) => Ok(solve(alloc, &graph)?.rows().len() as u64),
        None => Ok(0),
    }
}

fn solved(alloc: Global, catalogue: &Catalogue, turns: u64) -> Result<u64, AllocError> {
    let key = key();
    if key.app >= catalogue.apps().len() {
        return Ok(0);
    }
    let differentials = Differentials::of_app(alloc, catalogue, key.app)?;
    let mut rows = 0;
    for _turn in 0..turns {
        let graph = Graph::with_differentials(alloc, catalogue, &key, &differentials)?;
        rows = rows_of(alloc, graph)?;
    }
    Ok(rows)
}

fn count_in(lists: &[TrackTables]) -> u64 {
    let mut count: u64 = 0;
    for list in lists {
        count = count.wrapping_add(list.as_slice().len() as u64);
    }
    count
}

fn listed(alloc: Global, catalogue: &Catalogue, turns: u64) -> Result<u64, AllocError> {
    let mut lists = Vec::new(alloc);
    for _turn in 0..turns {
        lists.push(tables(alloc, catalogue)?)?;
    }
    Ok(count_in(lists.as_slice()))
}

fn catalogue_of(alloc: Global, apps: u64, cohorts: u64, releases: u64, pattern: &str) -> Result<Catalogue, ReadError<Refused>> {
    let batch = batch_of(alloc, apps, cohorts, releases, 32, pattern)?;
    Catalogue::empty(alloc).applied(&batch)
}

// One edit: a share, or one more release of the first app.
fn change_of(alloc: Global, mode: &str, releases: u64) -> Result<Batch, AllocError> {
    let mut edits = Vec::new(alloc);
    match mode {
        "shared" => edits.push(share_set(alloc)?)?,
        _ => edits.push(added_release(alloc, 0, releases, 1000)?)?,
    }
    Ok(Batch::new(edits))
}

fn changed(alloc: Global, catalogue: &Catalogue, batch: &Batch, turns: u64) -> Result<u64, ReadError<Refused>> {
    let mut apps = 0;
    for _turn in 0..turns {
        apps = catalogue.applied(batch)?.apps().len();
    }
    Ok(apps as u64)
}

fn run_change(alloc: Global, mode: &str, releases: u64, turns: u64) -> Result<u64, ReadError<Refused>> {
    let catalogue = catalogue_of(alloc, 64, 1, releases, "none")?;
    let batch = change_of(alloc, mode, releases)?;
    changed(alloc, &catalogue, &batch, turns)
}

fn run_all(alloc: Global, releases: u64, turns: u64) -> Result<u64, ReadError<Refused>> {
    let catalogue = catalogue_of(alloc, 64, 32, releases, "none")?;
    Ok(listed(alloc, &catalogue, turns)?)
}

fn run_one(alloc: Global, mode: &str, releases: u64, turns: u64, pattern: &str) -> Result<u64, ReadError<Refused>> {
    let catalogue = catalogue_of(alloc, 1, 1, releases, pattern)?;
    let count = match mode {
        "whole" => whole(alloc, &catalogue, turns)?,
        "resolved" => resolved(alloc, &catalogue, turns)?,
        "solved" => solved(alloc, &catalogue, turns)?,
        _ => kept(alloc, &catalogue, turns)?,
    };
    Ok(count)
}

fn run(alloc: Global, mode: &str, releases: u64, turns: u64, pattern: &str) -> Result<u64, ReadError<Refused>> {
    match mode {
        "listed" => run_all(alloc, releases, turns),
        "shared" | "added" => run_change(alloc, mode, releases, turns),
        _ => run_one(alloc, mode, releases, turns, pattern),
    }
}

// Each line of the input: `whole`, `resolved`, `solved`, `kept`, `listed`, `shared` or `added`, the releases, the turns
// and the pattern of floors.
fn main(rt: HostRuntime) -> io::Result<()> {
    let alloc = rt.alloc();
    for line in rt.lines(alloc) {
        let line = line?;
        let mut words = line.as_str().split(' ');
        let mode = words.next().unwrap_or("");
        let releases = words.next().unwrap_or("").parse().unwrap_or(0);
        let turns = words.next().unwrap_or("").parse().unwrap_or(0);
        let pattern = words.next().unwrap_or("none");
        match run(alloc, mode, releases, turns, pattern) {
            Ok(count) => println!(rt; "{count}")?,
            Err(_) => println!(rt; "an edit is refused")?,
        }
    }
    Ok(())
}
"""


def build(folder):
    """The program, built over copies of the crates."""
    program = folder / "crates/graph_times/out/graph_times"
    if not program.exists():
        for name in CRATES:
            if not (folder / "crates" / name).exists():
                shutil.copytree(TOP / "crates" / name, folder / "crates" / name, symlinks=True)
        shutil.copy(TOP / "HANDLES", folder / "HANDLES")
        lines = (TOP / "crates.txt").read_text().splitlines(keepends=True)
        (folder / "crates.txt").write_text("".join(line for line in lines if line.split(":")[0] in CRATES) + LINE)
        (folder / "crates/graph_times/src").mkdir(parents=True, exist_ok=True)
        (folder / "crates/graph_times/specs").mkdir(parents=True, exist_ok=True)
        (folder / "crates/graph_times/specs/Lib.antt").write_text("")
        (folder / "crates/graph_times/src/main.rt").write_text(PROGRAM)
        subprocess.run(["rt", "run", "--jobs", "1"], cwd=folder / "crates/graph_times", input=b"", check=True)
    return program


def run_once(program, mode, releases, turns):
    """Runs the program once: its processor seconds, its peak memory in KiB, and what it prints."""
    read, write = os.pipe()
    os.write(write, f"{mode} {releases} {turns}\n".encode())
    os.close(write)
    with tempfile.TemporaryFile() as output:
        child = subprocess.Popen([program], stdin=read, stdout=output)
        _, status, usage = os.wait4(child.pid, 0)
        os.close(read)
        output.seek(0)
        printed = output.read().decode().strip()
    if status != 0 or not printed.isdigit():
        sys.exit(f"{program}: status {status}: {printed}")
    return usage.ru_utime + usage.ru_stime, usage.ru_maxrss, int(printed)


def per_turn(program, mode, releases, turns, runs):
    """Microseconds a turn."""
    none = min(run_once(program, mode, releases, 0)[0] for _ in range(runs))
    many = min(run_once(program, mode, releases, turns)[0] for _ in range(runs))
    return (many - none) / turns * 1e6


def measure(program, releases, turns, runs):
    """Microseconds a graph, whole and from resolved differentials, and a table; KiB a graph; its payloads."""
    whole, resolved, solved = (per_turn(program, mode, releases, turns, runs) for mode in ("whole", "resolved", "solved"))
    count = 100_000 // releases
    few, more = (run_once(program, "kept", releases, number)[1] for number in (count, 2 * count))
    return whole, resolved, solved, (more - few) / count, run_once(program, "whole", releases, 1)[2]


def count(program, releases, turns, pattern):
    """The instructions of a run that makes so many tables."""
    command = ["valgrind", "--tool=callgrind", "--callgrind-out-file=/dev/null", program]
    ran = subprocess.run(command, input=f"solved {releases} {turns} {pattern}\n".encode(), capture_output=True, check=True)
    found = re.search(rb"Collected : (\d+)", ran.stderr)
    if not ran.stdout.strip().isdigit() or not found:
        sys.exit(f"{' '.join(map(str, command))}: {ran.stdout.decode()}{ran.stderr.decode()}")
    return int(found.group(1))


def print_floors(program, releases, turns):
    """Prints the instructions of a table for each pattern of floors, and by how many times they are more."""
    print("floors  releases  instructions of a table  to none", flush=True)
    none = None
    for pattern in PATTERNS:
        each = (count(program, releases, turns, pattern) - count(program, releases, 0, pattern)) / turns
        none = none or each
        print(f"{pattern:6}  {releases:8}  {each:23,.0f}  {each / none:7.3f}", flush=True)


def allocated(program, mode, releases, turns):
    """The allocations of a run that applies so many batches, and their bytes."""
    command = ["valgrind", "--leak-check=no", program]
    ran = subprocess.run(command, input=f"{mode} {releases} {turns}\n".encode(), capture_output=True, check=True)
    found = re.search(rb"total heap usage: ([\d,]+) allocs, [\d,]+ frees, ([\d,]+) bytes", ran.stderr)
    if not ran.stdout.strip().isdigit() or not found:
        sys.exit(f"{' '.join(map(str, command))}: {ran.stdout.decode()}{ran.stderr.decode()}")
    return [int(number.replace(b",", b"")) for number in found.groups()]


def print_publish(program, releases):
    """Prints the allocations of the next catalogue, for each kind of batch."""
    print("batch   releases  allocations      bytes", flush=True)
    for mode in ("shared", "added"):
        for number in releases:
            none, some = (allocated(program, mode, number, turns) for turns in (0, 10))
            print(f"{mode:6}  {number:8}  {(some[0] - none[0]) / 10:11,.0f}  {(some[1] - none[1]) / 10:9,.0f}", flush=True)


def measure_lists(program, turns, runs):
    """Milliseconds a list of all tables, its KiB, and the number of its tables."""
    time = per_turn(program, "listed", 128, turns, runs) / 1e3
    few, more = (run_once(program, "listed", 128, number)[1] for number in (turns, 2 * turns))
    return time, (more - few) / turns, run_once(program, "listed", 128, 1)[2]


def main():
    options = argparse.ArgumentParser(description=__doc__, formatter_class=argparse.RawTextHelpFormatter)
    options.add_argument("--releases", type=int, nargs="+", default=[64, 128, 256, 512], help="releases of the app, at most 512")
    options.add_argument("--turns", type=int, default=2000, help="graphs of a run [default: 2000]")
    options.add_argument("--runs", type=int, default=5, help="runs of each [default: 5]")
    options.add_argument("--lists", type=int, default=4, help="lists of all tables of a run [default: 4]")
    options.add_argument("--floors", action="store_true", help="count the instructions of tables with floors instead")
    options.add_argument("--publish", action="store_true", help="count the allocations of a batch instead")
    options.add_argument("--keep", help="a folder that keeps the program")
    asked = options.parse_args()
    folder = pathlib.Path(asked.keep or tempfile.mkdtemp()).resolve()
    try:
        program = build(folder)
        if asked.floors:
            for releases in asked.releases:
                print_floors(program, releases, min(asked.turns, 20))
            return
        if asked.publish:
            print_publish(program, [number for number in asked.releases if number < 512])
            return
        print("releases  payloads  of_track us  from resolved us  table us  solve us  KiB", flush=True)
        for releases in asked.releases:
            whole, resolved, solved, memory, payloads = measure(program, releases, asked.turns, asked.runs)
            print(f"{releases:8}  {payloads:8}  {whole:11.1f}  {resolved:16.1f}  {solved:8.1f}  {solved - resolved:8.1f}  {memory:3.0f}", flush=True)
        if asked.lists:
            time, memory, count = measure_lists(program, asked.lists, asked.runs)
            print(f"{count} tables of 128 releases: {time:.0f} ms, {memory:.0f} KiB", flush=True)
    finally:
        if not asked.keep:
            shutil.rmtree(folder)


if __name__ == "__main__":
    main()
