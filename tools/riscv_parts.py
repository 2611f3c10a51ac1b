#!/usr/bin/env python3
"""Makes the rows of parts of crates/rv_asm: their words by the GNU assembler and linker, with labels near and far. Before that it has QEMU run parts far apart, and
stops where control does not come to where the label is.

    tools/riscv_parts.py            writes crates/rv_asm/proofs/PartRows.antt (run rt fmt in crates/rv_asm after)
    tools/riscv_parts.py --check    compares what it makes with that file

Where the assembler or the emulator is missing it says so and ends with status 0.
Debian and Ubuntu: apt-get install binutils-riscv64-linux-gnu qemu-user
"""
import os
import struct
import subprocess
import sys

from riscv_files import BRANCHES, TOOLS, run, write_or_compare

# The first and a late place of code, and distances at the ends of a low part, of the words' own reach, and beyond.
FIRST, LATE, MIDDLE = 0x10000, 0x3FFF_0000, 0x210000
NEAR = [0, 4, -4, 2044, 2048, -2048, -2052, 4092, -4096, 0xFFFFC, -0x100000, 0xFFFFE, 0x100000, -0x100002]
PAIRS = [(FIRST, LATE), (LATE, FIRST), (FIRST, FIRST), (LATE, LATE)]
PAIRS += [(MIDDLE + far, MIDDLE) for far in NEAR]
BRANCHED = PAIRS[:2] + [(MIDDLE + far, MIDDLE) for far in [4, -2052, 4094, 4096, -4096, -4098]]
# How many bytes back one word reaches, of a branch and of a jump; ahead it reaches two fewer.
BRANCH_REACH, JUMP_REACH = 1 << 12, 1 << 20
COMPARISONS = dict(zip(BRANCHES, ["Eq", "Ne", "Lt", "Ge", "Ltu", "Geu"]))
OPPOSITE = {"beq": "bne", "bne": "beq", "blt": "bge", "bge": "blt", "bltu": "bgeu", "bgeu": "bltu"}
TABLES = [1, 2, 64]


def linked(folder, text, place, address):
    """The words of code at an address, where the symbol `label` has a place."""
    with open(os.path.join(folder, "c.s"), "w") as f:
        f.write(f".option norvc\n.option norelax\n.globl _start\n_start:\n{text}\n")
    run(folder, TOOLS[0], "-march=rv64im", "-o", "c.o", "c.s")
    run(folder, TOOLS[1], "--no-relax", f"--defsym=label={place}", f"-Ttext={address:#x}", "-o", "c", "c.o")
    run(folder, TOOLS[2], "-O", "binary", "-j", ".text", "c", "c.bin")
    with open(os.path.join(folder, "c.bin"), "rb") as f:
        return [w for (w,) in struct.iter_unpack("<I", f.read())]


def is_near(reach, place, address):
    return -reach <= place - address <= reach - 2


def linked_pairs(folder, near, far):
    """A part in one word where that reaches its label, and else in the words that reach any."""
    return [(place, address, linked(folder, near if is_near(JUMP_REACH, place, address) else far, place, address)) for place, address in PAIRS]


def branches(folder):
    """Each branch, or the one turned round over a far jump; to a label near and far."""
    for name, comparison in COMPARISONS.items():
        for place, address in BRANCHED:
            far = f"{OPPOSITE[name]} x10, x31, .+12\ntail label"
            text = f"{name} x10, x31, .{place - address:+}" if is_near(BRANCH_REACH, place, address) else far
            yield comparison, place, address, linked(folder, text, place, address)


def tables(folder):
    """One word a label, a jump over the rest, and the far jumps."""
    for count in TABLES:
        text = [f"jal x0, far{k}" for k in range(count)] + ["jal x0, on"] + [f"far{k}: tail label" for k in range(count)] + ["on:"]
        yield count, linked(folder, "\n".join(text), LATE, FIRST)


RUN = """.option norvc
.option norelax
.section .low, "ax"
.globl _start
_start:
    li x10, 0
    li x11, 5
    bne x10, x11, .+12
    tail wrong
    bgeu x10, x11, .+12
    tail high
wrong:
    li x10, 1
    li x17, 93
    ecall
words:
    jal x0, far0
    jal x0, far1
    jal x0, on
far0: tail wrong
far1: tail high2
on: tail wrong
back: jalr x0, 0(x1)
.section .high, "ax"
high:
    call back
    la x5, words
    addi x5, x5, 4
    jalr x0, 0(x5)
high2:
    la x5, 1f
    bne x1, x5, 2f
    tail low_end
1:  nop
2:  la x5, high
    addi x5, x5, 8
    bne x1, x5, 3f
    li x10, 42
    li x17, 93
    ecall
3:  tail wrong
low_end: tail wrong
"""


def emulated(folder):
    """Parts in code at both ends of the range lead where they say, by QEMU."""
    with open(os.path.join(folder, "r.s"), "w") as f:
        f.write(RUN)
    run(folder, TOOLS[0], "-march=rv64im", "-o", "r.o", "r.s")
    run(folder, TOOLS[1], "--no-relax", f"--section-start=.low={FIRST:#x}", f"--section-start=.high={LATE:#x}", "-o", "r", "r.o")
    status = subprocess.run([TOOLS[3], "./r"], cwd=folder).returncode
    if status != 42:
        sys.exit(f"QEMU came elsewhere: status {status}")


HEAD = """-- The words of parts with labels near and far, at the edge of reach too, as the GNU assembler and linker make them: made by tools/riscv_parts.py.
use Rattle.std.proofs.Common.{◌≡◌, ℕ, refl}
use Rattle.std.specs.Prelude.{List, [], ◌∷◌, true}
use Rattle.std.specs.Int.{w32, to_le_bytes}
use Rattle.std.specs.List.{flat_map}
use Rattle.cmm_words.specs.declared.operators.Cmp.{Cmp}
use Rattle.cmm_words.specs.declared.operators.Cmp.TheVariants.{Eq, Ne, Lt, Ge, Ltu, Geu}
use Rattle.rv_table.specs.Stands.{code_of}
use Rattle.rv_asm.specs.inside.Forms.{instructions, number_of, unfilled}
use Rattle.rv_asm.specs.declared.part.Label.{Label}
use Rattle.rv_asm.specs.declared.part.Meaning.TheVariants.{Inner}
use Rattle.rv_asm.specs.declared.part.Part.{Part}
use Rattle.rv_asm.specs.declared.part.Part.TheVariants.{Branch, Jump, Call, Address, Table}

abbrev words : List ℕ → List ℕ
words ws = flat_map (to_le_bytes w32) ws

abbrev l : Label
l = record { number = 0 }

-- the bytes of a part at an address whose label has a place
abbrev made : Part → ℕ → ℕ → List ℕ
made part place from = code_of (instructions (number_of (Inner true ∷ []) (place ∷ []) unfilled) (place ∷ []) (Inner true ∷ []) from part)

abbrev branch : Cmp → Part
branch c = Branch c 10 31 l
"""


def row(name, part, place, address, found):
    told = " ∷ ".join(f"{w:#010x}" for w in found)
    return f"\n{name} : made {part} {place:#x} {address:#x} ≡ words ({told} ∷ [])\n{name} = refl\n"


def made_files(folder):
    emulated(folder)
    text = HEAD
    spelled = [("jump", "(Jump l)", "jal x0, label", "tail label"), ("call", "(Call l)", "jal x1, label", "call label")]
    spelled += [("address", "(Address 31 l)", "la x31, label", "la x31, label")]
    for name, part, near, far in spelled:
        text += f"\n-- ---- {name}\n"
        for number, (place, address, found) in enumerate(linked_pairs(folder, near, far), 1):
            text += row(f"{name}_{number}", part, place, address, found)
    text += "\n-- ---- branch\n"
    for number, (comparison, place, address, found) in enumerate(branches(folder)):
        text += row(f"branch_{comparison.lower()}_{number % len(BRANCHED) + 1}", f"(branch {comparison})", place, address, found)
    text += "\n-- ---- tables of one label\n"
    for count, found in tables(folder):
        text += row(f"table_of_{count}", f"(Table ({'l ∷ ' * count}[]))", LATE, FIRST, found)
    return {"crates/rv_asm/proofs/PartRows.antt": text}


sys.exit(write_or_compare(made_files))
