#!/bin/sh
# How many activations and variables a second a walk of a stopped program gives, and how fast its text is written, in a program built as a release is.
#
# Usage: bench/walk.sh [FOLDER]. The folder, a temporary one by default, gets a copy of the crates that walks stand on, two images with stacks from
# bench/walk_images.py and a program that reads each image, walks its chain five times, with every variable, and writes the walk five times into memory.
# Nothing of it belongs to the repository.
set -eu
. "$(dirname "$0")/copy_crates.sh"
work=${1:-$(mktemp -d)}
copy_crates "$work" walk_speed cmm_outside cmm_image rv_table rv_memory cmm_walk byteorder

mkdir -p "$work/crates/walk_speed/proofs/walk"
python3 -B "$here/bench/walk_images.py" "$work/crates/walk_speed"

cat >"$work/crates/walk_speed/src/main.rt" <<'PROGRAM'
//! Walks stopped programs, writes their walks, and prints how long each takes.
#![tactic(auto)]

ghost use Rattle.std.specs.Prelude.{◌≤◌, length};
ghost use Rattle.rv_memory.specs.Regions.{region_of};
ghost use Rattle.cmm_walk.specs.Activations.{Fits};

use std::alloc::{AllocError, Global};
use std::fs;
use std::io;
use std::rt::{Clock, Files};
use std::time::Instant;

use byteorder::{ByteOrder, LittleEndian};
use cmm_image::{Image, read_image};
use cmm_outside::FixedSink;
use cmm_walk::{Activation, Var, local_var, next_activation, var_count, write_walk, youngest};
use rv_memory::Memory;
use rv_table::Regs;
use rv_table::memory_map::{CODE_LENGTH_LIMIT, DATA_LENGTH_LIMIT, STACK_BASE, STACK_SIZE_LIMIT};

/// The bytes of the registers, with which the file of a stack begins.
const REGISTER_BYTES: usize = 256;

/// More bytes than the longest walk has.
const ROOM: usize = 0x400_0000;

/// How often each is done.
const ROUNDS: u32 = 5;

/// A stopped program.
#[derive(Drop)]
struct Stopped {
    image: Image,
    regs: Regs,
    memory: Memory,
}

/// What a walk came to.
#[derive(Clone, Copy)]
struct Walked {
    activations: u64,
    variables: u64,
    /// The sum of the variables' values.
    sum: u64,
}

fn number_of(bytes: &[u8]) -> u64 {
    if bytes.len() < 8 { 0 } else { LittleEndian::read_u64(bytes) }
}

fn registers_of(bytes: &[u8]) -> Regs {
    let mut regs = Regs { x: [0; 32], pc: 0 };
    for (value, word) in regs.x.iter_mut().zip(bytes.chunks(8)) {
        *value = number_of(word);
    }
    regs
}

/// The bytes of the registers, and those of the stack behind them.
fn parts_of(stack: &[u8]) -> Option<(&[u8], &[u8])> {
    if stack.len() < REGISTER_BYTES {
        return None;
    }
    Some((&stack[..REGISTER_BYTES], &stack[REGISTER_BYTES..]))
}

/// Writes a word of the stack, if the stack has one at this address.
fn put_word(memory: &mut Memory, address: u64, value: u64) {
    let top = memory.top();
    if memory.base() <= address && address <= top && 8 <= top - address {
        memory.set_word(address, value);
    }
}

/// The memory of an image with these bytes in its stack.
fn memory_of(alloc: Global, image: &Image, stack: &[u8]) -> Result<Memory, AllocError> {
    let parts = image.parts();
    let code = parts.code.as_slice();
    let initial = parts.initial.as_slice();
    let size = stack.len() as u64;
    if code.len() as u64 > CODE_LENGTH_LIMIT || initial.len() as u64 > DATA_LENGTH_LIMIT || size > STACK_SIZE_LIMIT {
        return Err(AllocError);
    }
    let mut memory = Memory::new(alloc, code, initial, size)?;
    let mut address = STACK_BASE;
    for word in stack.chunks(8) {
        put_word(&mut memory, address, number_of(word));
        address = address.wrapping_add(8);
    }
    Ok(memory)
}

/// Adds the variables of an activation.
fn add_variables(walked: &mut Walked, s: &Stopped, a: &Activation)
    requires { Fits s.now.image (region_of s.now.memory) a.now }
{
    for n in 0..var_count(a, &s.image) {
        if let Ok(Var::Live { value, .. }) = local_var(a, &s.image, &s.regs, &s.memory, n) {
            walked.variables = walked.variables.wrapping_add(1);
            walked.sum = walked.sum.wrapping_add(value);
        }
    }
}

/// Walks from the youngest activation on. There is nothing where the chain breaks.
fn walk(s: &Stopped) -> Option<Walked> {
    let mut walked = Walked {
        activations: 0,
        variables: 0,
        sum: 0,
    };
    let Ok(mut found) = youngest(&s.image, &s.regs, &s.memory) else {
        return None;
    };
    for age in 0..u64::MAX {
        let Some(a) = found else {
            return Some(walked);
        };
        walked.activations = walked.activations.wrapping_add(1);
        add_variables(&mut walked, s, &a);
        let Ok(next) = next_activation(&a, &s.image, &s.memory) else {
            return None;
        };
        found = next;
    }
    None
}

/// How many a second, if so many took so many microseconds.
fn per_second(count: u64, time: u128) -> u128 {
    if time == 0 { 0 } else { u128::from(count).wrapping_mul(1_000_000) / time }
}

fn walk_once(rt: &(impl Clock + Print), s: &Stopped) -> io::Result<()> {
    let start = Instant::now(rt)?;
    let Some(walked) = walk(s) else {
        return println!(rt; "the chain breaks");
    };
    let time = start.elapsed(rt)?.as_micros();
    let Walked {
        activations,
        variables,
        sum,
    } = walked;
    let rate = per_second(activations, time);
    let variable_rate = per_second(variables, time);
    println!(rt; "  {activations} activations, {variables} variables, sum {sum}, in {time} microseconds: {rate} and {variable_rate} a second")
}

fn write_once(rt: &(impl Clock + Print), s: &Stopped, room: &mut [u8]) -> io::Result<()> {
    let mut to = FixedSink::new(room);
    let start = Instant::now(rt)?;
    let done = write_walk(&s.image, &s.regs, &s.memory, &mut to);
    let time = start.elapsed(rt)?.as_micros();
    let count = to.taken() as u64;
    let whole = done.is_ok();
    println!(rt; "  {count} bytes written in {time} microseconds: {} a second (whole: {whole})", per_second(count, time))
}

fn measure(rt: &(impl AllocGlobal + Clock + Files + Print), image: &str, stack: &str) -> io::Result<()> {
    let bytes = fs::read(rt, image)?;
    let stack = fs::read(rt, stack)?;
    let start = Instant::now(rt)?;
    let Ok(image) = read_image(rt.alloc(), bytes.as_slice()) else {
        return println!(rt; "no image");
    };
    let time = start.elapsed(rt)?.as_micros();
    println!(rt; "an image of {} bytes, read in {time} microseconds", bytes.len())?;
    let Some((registers, region)) = parts_of(stack.as_slice()) else {
        return println!(rt; "no stack");
    };
    let memory = memory_of(rt.alloc(), &image, region)?;
    let s = Stopped {
        image,
        regs: registers_of(registers),
        memory,
    };
    for _ in 0..ROUNDS {
        walk_once(rt, &s)?;
    }
    let mut room = vec![in rt.alloc(); 0u8; ROOM]?;
    for _ in 0..ROUNDS {
        write_once(rt, &s, room.as_mut_slice())?;
    }
    Ok(())
}

fn main(rt: HostRuntime) -> io::Result<()> {
    measure(&rt, "flat.image", "flat.stack")?;
    measure(&rt, "wide.image", "wide.stack")
}
PROGRAM

cat >"$work/crates/walk_speed/proofs/walk/Invariants.antt" <<'INVARIANTS'
use Rattle.std.proofs.Common.{IfSome}
use Rattle.rv_memory.specs.Regions.{region_of}
use Rattle.cmm_walk.specs.Activations.{Fits}
use Rattle.walk_speed.proofs.walk.Given as goal

abbrev pub invariant-loop-age : goal.invariant-loop-age
invariant-loop-age l = IfSome l.found (Fits l.s.image (region_of l.s.memory))
INVARIANTS
(cd "$work/crates/walk_speed" && rt run)
