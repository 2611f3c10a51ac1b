#!/bin/sh
# How many nodes per second `colour` colours, and how long `interference` takes on the graphs of bench/live.sh, in programs built as a
# release is.
#
# Usage: bench/colour.sh [FOLDER]. The folder, a temporary one by default, gets a copy of the crates and two programs. One colours graphs of
# 10,000 to 100,000 nodes with four conflicts a node, between near nodes and between any, so that one sees whether time is linear; the other
# finds which locals of the graphs of bench/live.sh conflict. Says how much memory each has had at most, where python3 is there. Nothing of
# it belongs to the repository.
set -eu
. "$(dirname "$0")/copy_crates.sh"
work=${1:-$(mktemp -d)}

# proves and runs the program of a folder, and runs it once more to see how much memory it has at most
run_program() {
    (cd "$1" && rt run)
    program=$(find "$1/out" -type f -name "$(basename "$1")" -perm -100 | head -n 1)
    if [ -n "$program" ] && command -v python3 >/dev/null; then
        python3 - "$program" <<'PYTHON'
import resource, subprocess, sys
subprocess.run([sys.argv[1]], stdin=subprocess.DEVNULL, stdout=subprocess.DEVNULL, check=True)
print(f"{resource.getrusage(resource.RUSAGE_CHILDREN).ru_maxrss / 1024:.0f} MiB at most")
PYTHON
    fi
}

copy_crates "$work/colours" colour_speed cmm_colour
cat >"$work/colours/crates/colour_speed/src/main.rt" <<'PROGRAM'
//! Colours graphs of conflicts, and prints how long that takes.
#![tactic(auto)]

use std::alloc::{AllocError, Global};
use std::io;
use std::rt::Clock;
use std::time::Instant;

use cmm_colour::{Conflicts, Hint, colour};

/// The number that comes after one in a row that looks like one of chance.
fn next_chance(chance: u64) -> u64 {
    chance.wrapping_mul(6_364_136_223_846_793_005).wrapping_add(1_442_695_040_888_963_407)
}

/// The node of this number, or of that above the last one.
fn within(number: u32, nodes: u32) -> u32 {
    if nodes == 0 { 0 } else { number % nodes }
}

/// A graph in which each node is joined to the four behind it, or to any four.
fn graph(alloc: Global, nodes: u32, near: bool) -> Result<Conflicts, AllocError> {
    let mut conflicts = Conflicts::new(alloc, nodes)?;
    let mut chance = 1u64;
    for node in 0..nodes {
        for step in 1u32..5 {
            chance = next_chance(chance);
            let far = ((chance >> 33) & 0x7fff_ffff) as u32;
            let other = within(if near { node.wrapping_add(step) } else { far }, nodes);
            if node < conflicts.count() && other < conflicts.count() && node != other {
                conflicts.add(node, other)?;
            }
        }
    }
    Ok(conflicts)
}

fn measure(rt: &(impl AllocGlobal + Clock + Print), name: &str, nodes: u32, near: bool, k: u32) -> io::Result<()> {
    let conflicts = graph(rt.alloc(), nodes, near)?;
    let hints: Vec<Hint> = Vec::new(rt.alloc());
    let start = Instant::now(rt)?;
    let colours = colour(rt.alloc(), &conflicts, k, &hints)?;
    let time = start.elapsed(rt)?.as_micros();
    let mut coloured = 0u32;
    for node in 0..conflicts.count() {
        if colours.of(node).is_some() {
            coloured = coloured.wrapping_add(1);
        }
    }
    println!(rt; "{name}: {nodes} nodes, {k} colours: {time} microseconds ({coloured} have one)")
}

fn main(rt: HostRuntime) -> io::Result<()> {
    measure(&rt, "near", 10_000, true, 8)?;
    measure(&rt, "near", 30_000, true, 8)?;
    measure(&rt, "near", 100_000, true, 8)?;
    measure(&rt, "any", 10_000, false, 8)?;
    measure(&rt, "any", 30_000, false, 8)?;
    measure(&rt, "any", 100_000, false, 8)?;
    measure(&rt, "any", 10_000, false, 4)?;
    measure(&rt, "any", 30_000, false, 4)?;
    measure(&rt, "any", 100_000, false, 4)
}
PROGRAM
run_program "$work/colours/crates/colour_speed"

copy_crates "$work/conflicts" conflict_speed cmm_colour cmm_live cmm_graph cmm_program cmm_words cmm_items
main="$work/conflicts/crates/conflict_speed/src/main.rt"
# the graphs of bench/live.sh
sed -n "/<<'PROGRAM'\$/,/^fn measure/p" "$here/bench/live.sh" | sed '1d; $d; s/^use cmm_live::liveness;/use cmm_live::{interference, liveness};/' >"$main"
cat >>"$main" <<'PROGRAM'
fn measure(rt: &(impl AllocGlobal + Clock + Print), name: &str, count: u32, loops: bool, variables: u32) -> io::Result<()>
    requires { variables < 2 ^ 31 }
{
    let graph = graph(rt.alloc(), count, loops, variables)?;
    let live = liveness(rt.alloc(), &graph)?;
    let start = Instant::now(rt)?;
    let conflicts = interference(rt.alloc(), &graph, &live)?;
    let time = start.elapsed(rt)?.as_micros();
    let mut joins = 0usize;
    for node in 0..conflicts.count() {
        joins = joins.wrapping_add(conflicts.neighbours(node).len());
    }
    println!(rt; "{name}: {count} nodes, {variables} variables: {time} microseconds ({joins} neighbours)")
}

fn main(rt: HostRuntime) -> io::Result<()> {
    measure(&rt, "straight", 5_000, false, 64)?;
    measure(&rt, "straight", 10_000, false, 64)?;
    measure(&rt, "straight", 20_000, false, 64)?;
    measure(&rt, "straight", 40_000, false, 64)?;
    measure(&rt, "straight", 21_500, false, 1_024)?;
    measure(&rt, "loops in loops", 21_500, true, 64)?;
    measure(&rt, "loops in loops", 21_500, true, 1_024)
}
PROGRAM
run_program "$work/conflicts/crates/conflict_speed"
