#!/bin/sh
# How many parts per second `Asm` takes and finishes, in a program built as a release is, beside `as` on the same as text.
#
# Usage: bench/asm.sh [FOLDER]. The folder, a temporary one by default, gets a copy of the crates that the assembler stands on and a program
# that makes a million parts: 100,000 times a label, five instructions, a branch, a jump, a call and an address of the label. Where the GNU
# assembler is missing, its figure is left out. Nothing of it belongs to the repository.
set -eu
. "$(dirname "$0")/copy_crates.sh"
work=${1:-$(mktemp -d)}
copy_crates "$work" asm_speed rv_asm rv_table cmm_words
ROUNDS=100000

cat >"$work/crates/asm_speed/src/main.rt" <<PROGRAM
//! Appends a million parts, finishes them, and prints how long each takes.
#![tactic(auto)]

ghost use Rattle.std.specs.Prelude.{◌≡◌, ◌+◌, ◌*◌, ◌<◌, ◌≤◌, ◌^◌, length, IfOk, OnOk};
ghost use Rattle.rv_asm.specs.Sizes.{all_longest};

use std::alloc::{AllocError, Global};
use std::io;
use std::rt::Clock;
use std::time::Instant;

use cmm_words::Cmp;
use rv_asm::Asm;
use rv_table::Instr;

/// How often the parts are made.
const ROUNDS: u32 = $ROUNDS;

/// Ten parts.
fn round(asm: &mut Asm) -> Result<(), AllocError>
    requires { length asm.old.labels < 2 ^ 32 }
    ensures labels { OnOk result (length asm.new.labels ≡ length asm.old.labels + 1) }
    ensures size { OnOk result (all_longest asm.new.parts ≤ all_longest asm.old.parts + 56) }
{
    let here = asm.label()?;
    asm.place(here);
    asm.emit(Instr::Add { rd: 10, rs1: 10, rs2: 11 })?;
    asm.emit(Instr::Addi { rd: 11, rs1: 11, imm: -1 })?;
    asm.emit(Instr::Xor { rd: 12, rs1: 10, rs2: 11 })?;
    asm.emit(Instr::Ld { rd: 13, rs1: 2, imm: 8 })?;
    asm.emit(Instr::Sd { rs1: 2, rs2: 12, imm: 8 })?;
    asm.branch(Cmp::Ne, 10, 11, here)?;
    asm.jump(here)?;
    asm.call(here)?;
    asm.address(14, here)?;
    Ok(())
}

/// All parts.
fn rounds(alloc: Global) -> Result<Asm, AllocError>
    ensures { IfOk result (λ asm. all_longest asm.parts ≤ 56 * ROUNDS) }
{
    let mut asm = Asm::new(alloc);
    for _ in 0..ROUNDS {
        round(&mut asm)?;
    }
    Ok(asm)
}

fn main(rt: HostRuntime) -> io::Result<()> {
    let start = Instant::now(&rt)?;
    let asm = rounds(rt.alloc())?;
    let appended = start.elapsed(&rt)?.as_micros();
    let placed = asm.finish(0x1_0000)?;
    let all = start.elapsed(&rt)?.as_micros();
    let bytes = placed.bytes.len();
    println!(rt; "{bytes} bytes: appended in {appended} microseconds, finished after {all}")
}
PROGRAM
proofs="$work/crates/asm_speed/proofs"
mkdir -p "$proofs/round" "$proofs/rounds"
cat >"$proofs/round/Answers.antt" <<'ANSWERS'
use Rattle.std.proofs.Common.{◌≡◌, ◌+◌, List, [], ◌∷◌, ◌++◌, ap, arith}
use Rattle.rv_asm.proofs.Shared.{longest-append}
use Rattle.rv_asm.specs.Sizes.{all_longest, longest}
use Rattle.rv_asm.specs.declared.part.Part.{Part}
use Rattle.asm_speed.proofs.round.Goals as goal

one_more : (old new : List Part) (p : Part) → new ≡ old ++ p ∷ [] → all_longest new ≡ all_longest old + longest p
one_more old new p is = rw (is, longest-append old (p ∷ [])) (omega arith)

pub returns-clause-size : goal.returns-clause-size
returns-clause-size c =
    omega (
      arith,
      one_more _ _ _ c.place.ensures.parts,
      one_more _ _ _ c.in_ok-emit.ensures.parts,
      one_more _ _ _ c.in_ok-emit-2.ensures.parts,
      one_more _ _ _ c.in_ok-emit-3.ensures.parts,
      one_more _ _ _ c.in_ok-emit-4.ensures.parts,
      one_more _ _ _ c.in_ok-emit-5.ensures.parts,
      one_more _ _ _ c.in_ok-branch.ensures.parts,
      one_more _ _ _ c.in_ok-jump.ensures.parts,
      one_more _ _ _ c.in_ok-call.ensures.parts,
      one_more _ _ _ c.in_ok-address.ensures.parts,
      ap all_longest c.label.ensures.parts,
    )
ANSWERS
cat >"$proofs/rounds/Invariants.antt" <<'INVARIANTS'
use Rattle.std.proofs.Common.{◌≡◌, ◌*◌, ◌≤◌, length}
use Rattle.rv_asm.specs.Sizes.{all_longest}
use Rattle.asm_speed.proofs.rounds.Given as goal

abbrev pub invariant-loop : goal.invariant-loop
invariant-loop l = (length l.asm.labels ≡ l.counter) × (all_longest l.asm.parts ≤ 56 * l.counter)
INVARIANTS
(cd "$work/crates/asm_speed" && rt run)

if command -v riscv64-linux-gnu-as >/dev/null; then
    {
        echo ".option norelax"
        piece='1: add a0, a0, a1\naddi a1, a1, -1\nxor a2, a0, a1\nld a3, 8(sp)\nsd a2, 8(sp)\nbne a0, a1, 1b\njump 1b, t1\ncall 1b\nlla a4, 1b'
        yes "$(printf "$piece")" | head -n $((9 * ROUNDS))
    } >"$work/parts.s"
    start=$(date +%s%N)
    riscv64-linux-gnu-as -o "$work/parts.o" "$work/parts.s"
    end=$(date +%s%N)
    echo "as: $(((end - start) / 1000)) microseconds"
fi
