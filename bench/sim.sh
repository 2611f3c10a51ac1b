#!/bin/sh
# How many instructions per second `step` does, in a program built as a release is, beside QEMU on the same words.
#
# Usage: bench/sim.sh [FOLDER]. The folder, a temporary one by default, gets a copy of the crates that the simulator stands on and a
# program that runs two loops, and decodes alone. Where QEMU or the assembler is missing, its figures are left out.
# Nothing of it belongs to the repository.
set -eu
. "$(dirname "$0")/copy_crates.sh"
work=${1:-$(mktemp -d)}
copy_crates "$work" sim_speed rv_table rv_code rv_memory rv_sim

# Each loop counts register 10 down to 0; register 4 has the address of data that can be written.
# add x6, x6, x5; xor x7, x7, x6; srli x8, x7, 3; sub x9, x9, x8; sltu x11, x9, x6; addi x5, x5, 1; addi x10, x10, -1; bne x10, x0, .-28
NUMBERS="0x00530333 0x0063c3b3 0x0033d413 0x408484b3 0x0064b5b3 0x00128293 0xfff50513 0xfe0512e3"
# ld x5, 8(x4); addi x5, x5, 1; sd x5, 8(x4); lw x6, 16(x4); add x6, x6, x5; sw x6, 16(x4); addi x10, x10, -1; bne x10, x0, .-28
ACCESSES="0x00823283 0x00128293 0x00523423 0x01022303 0x00530333 0x00622823 0xfff50513 0xfe0512e3"

list() { echo "$1" | sed 's/ /, /g'; }

cat >"$work/crates/sim_speed/src/main.rt" <<PROGRAM
//! Runs loops in the simulator and prints how long they take.
#![tactic(auto)]

use std::alloc::AllocError;
use std::io;
use std::rt::Clock;
use std::time::Instant;

use rv_code::decode;
use rv_memory::Memory;
use rv_sim::{Event, step};
use rv_table::Regs;

/// How often each loop goes round.
const ROUNDS: u32 = 2_000_000;

static NUMBERS: [u32; 8] = [$(list "$NUMBERS")];

static ACCESSES: [u32; 8] = [$(list "$ACCESSES")];

fn memory(rt: &impl AllocGlobal, words: &[u32; 8]) -> Result<Memory, AllocError> {
    let mut code = Vec::new(rt.alloc());
    for word in words {
        code.extend_from_slice(&word.to_le_bytes())?;
    }
    if code.len() > 32 {
        return Err(AllocError);
    }
    Memory::new(rt.alloc(), &code, &[], 4096)
}

/// Runs the words until a step is not done, as the fetch behind the loop is.
fn run(rt: &(impl AllocGlobal + Clock + Print), name: &str, words: &[u32; 8]) -> io::Result<()> {
    let mut m = memory(rt, words)?;
    let mut r = Regs {
        x: [0; 32],
        pc: 0x1_0000,
    };
    r.write(4, 0x6000_0000);
    r.write(10, u64::from(ROUNDS));
    let start = Instant::now(rt)?;
    let mut steps = 0;
    for n in 0..u64::MAX {
        if step(&mut r, &mut m) != Event::Next {
            steps = n;
            break;
        }
    }
    let time = start.elapsed(rt)?.as_micros();
    println!(rt; "{name}: {steps} instructions, {time} microseconds")
}

/// Decodes the words, with another register in each round.
fn decodes(rt: &(impl Clock + Print), words: &[u32; 8]) -> io::Result<()> {
    let start = Instant::now(rt)?;
    let mut odd = false;
    for round in 0..ROUNDS {
        for word in words {
            odd ^= decode(*word ^ round % 32 * 128).is_some();
        }
    }
    let time = start.elapsed(rt)?.as_micros();
    println!(rt; "decode alone: 8 * {ROUNDS} words, {time} microseconds ({odd})")
}

fn main(rt: HostRuntime) -> io::Result<()> {
    run(&rt, "numbers", &NUMBERS)?;
    run(&rt, "accesses", &ACCESSES)?;
    decodes(&rt, &NUMBERS)
}
PROGRAM
(cd "$work/crates/sim_speed" && rt run)

for tool in riscv64-linux-gnu-as riscv64-linux-gnu-ld qemu-riscv64; do
    command -v $tool >/dev/null || { echo "no $tool: no figures of the emulator"; exit 0; }
done
rounds=200000000
emulate() {
    cat >"$work/$1.s" <<CODE
.option norelax
.globl _start
_start:
    la x4, data
    li x10, $rounds
    .word $(list "$2")
    li x17, 93
    li x10, 0
    ecall
.bss
data: .skip 4096
CODE
    riscv64-linux-gnu-as -march=rv64im -o "$work/$1.o" "$work/$1.s"
    riscv64-linux-gnu-ld -o "$work/$1" "$work/$1.o"
    start=$(date +%s%N)
    qemu-riscv64 "$work/$1"
    end=$(date +%s%N)
    echo "qemu-riscv64, $1: $((8 * rounds)) instructions, $(((end - start) / 1000)) microseconds"
}
emulate numbers "$NUMBERS"
emulate accesses "$ACCESSES"
