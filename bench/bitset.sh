#!/bin/sh
# How many joins of bit sets are done in a second, and how many members are gone over, in a program built as a release is, beside `|` on
# Python's integers of as many bits.
#
# Usage: bench/bitset.sh [FOLDER]. The folder, a temporary one by default, gets a copy of the crate and a program that joins sets of three
# sizes and goes over the members of a full, a half full and a sparse one. Nothing of it belongs to the repository.
set -eu
. "$(dirname "$0")/copy_crates.sh"
work=${1:-$(mktemp -d)}
copy_crates "$work" bitset_speed cmm_bitset
cat >"$work/crates/bitset_speed/src/main.rt" <<'PROGRAM'
//! Joins sets and goes over their members, and prints how long that takes.
#![tactic(auto)]

use std::alloc::{AllocError, Global};
use std::io;
use std::rt::Clock;
use std::time::Instant;

use cmm_bitset::BitSet;

/// How often two sets are joined.
const ROUNDS: u32 = 2_000_000;

/// The set of every so manieth number.
fn each(alloc: Global, size: u32, apart: u32) -> Result<BitSet, AllocError> {
    let mut set = BitSet::new(alloc, size)?;
    for number in 0..size {
        if number % apart.max(1) == 0 && number < set.size() {
            set.insert(number);
        }
    }
    Ok(set)
}

fn joins(rt: &(impl AllocGlobal + Clock + Print), size: u32) -> io::Result<()> {
    let mut set = each(rt.alloc(), size, 2)?;
    let other = each(rt.alloc(), size, 4)?;
    let start = Instant::now(rt)?;
    let mut grew = 0u32;
    for _ in 0..ROUNDS {
        if set.size() == other.size() && set.join(&other) {
            grew = grew.wrapping_add(1);
        }
    }
    let time = start.elapsed(rt)?.as_micros();
    println!(rt; "{ROUNDS} joins of sets of {size}: {time} microseconds ({grew} grew)")
}

fn members(rt: &(impl AllocGlobal + Clock + Print), size: u32, apart: u32) -> io::Result<()> {
    let set = each(rt.alloc(), size, apart)?;
    let start = Instant::now(rt)?;
    let mut sum = 0u64;
    let mut count = 0u32;
    for _ in 0..ROUNDS / 1000 {
        for member in set.iter() {
            sum = sum.wrapping_add(u64::from(member));
            count = count.wrapping_add(1);
        }
    }
    let time = start.elapsed(rt)?.as_micros();
    println!(rt; "{count} members, {apart} apart: {time} microseconds (sum {sum})")
}

fn main(rt: HostRuntime) -> io::Result<()> {
    joins(&rt, 64)?;
    joins(&rt, 1024)?;
    joins(&rt, 16384)?;
    members(&rt, 1024, 1)?;
    members(&rt, 1024, 2)?;
    members(&rt, 1024, 64)
}
PROGRAM
(cd "$work/crates/bitset_speed" && rt run)

command -v python3 >/dev/null || { echo "no python3: no figures beside"; exit 0; }
for size in 64 1024 16384; do
    python3 - "$size" <<'PYTHON'
import sys, time
size = int(sys.argv[1])
a = sum(1 << n for n in range(0, size, 2))
b = sum(1 << n for n in range(0, size, 4))
start = time.perf_counter()
for _ in range(2_000_000):
    grew = a | b != a
    a = a | b
print(f"python3, 2000000 joins of {size} bits: {(time.perf_counter() - start) * 1e6:.0f} microseconds")
PYTHON
done
