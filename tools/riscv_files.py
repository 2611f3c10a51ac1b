"""What the scripts that make RISC-V test data share: the instructions' names, the assembler and the emulator, and writing or
comparing what was made."""
import os
import re
import shutil
import struct
import subprocess
import sys
import tempfile

REGISTER = "add sll slt sltu xor srl or and sub sra mul mulh mulhsu mulhu div divu rem remu".split()
REGISTER += "addw sllw srlw subw sraw mulw divw divuw remw remuw".split()
IMMEDIATE = "addi slti sltiu xori ori andi addiw".split()
SHIFTS = {"slli": 63, "srli": 63, "srai": 63, "slliw": 31, "srliw": 31, "sraiw": 31}
BRANCHES = "beq bne blt bge bltu bgeu".split()
LOADS = "lb lh lw ld lbu lhu lwu".split()
STORES = "sb sh sw sd".split()

# Where the simulator has the code. What counts from pc is moved there from the place that it had in the emulator.
PC = 0x10000

GREATEST = 2**63 - 1
LEAST = 2**63
ONES = 2**64 - 1

TOOLS = ["riscv64-linux-gnu-as", "riscv64-linux-gnu-ld", "riscv64-linux-gnu-objcopy", "qemu-riscv64"]
TOP = os.path.join(os.path.dirname(__file__), "..")


def run(folder, *command):
    """What a command prints that is run in a folder."""
    return subprocess.run(command, cwd=folder, check=True, stdout=subprocess.PIPE).stdout


def assembled(folder, lines):
    """The words of instructions."""
    with open(os.path.join(folder, "w.s"), "w") as f:
        f.write(".option norvc\n.option norelax\n" + "\n".join(lines) + "\n")
    run(folder, TOOLS[0], "-march=rv64im", "-o", "w.o", "w.s")
    run(folder, TOOLS[2], "-O", "binary", "-j", ".text", "w.o", "w.bin")
    with open(os.path.join(folder, "w.bin"), "rb") as f:
        data = f.read()
    return [w for (w,) in struct.iter_unpack("<I", data)]


def emulated(folder, body, operands, count):
    """Runs code that stores `count` numbers by register 21, reading operands by register 20."""
    numbers = "\n".join(f".quad {n}" for n in operands)
    with open(os.path.join(folder, "e.s"), "w") as f:
        f.write(f""".option norvc
.option norelax
.text
.globl _start
_start:
    la x20, operands
    la x21, results
{body}
    li x17, 64
    li x10, 1
    la x11, results
    li x12, {8 * count}
    ecall
    li x17, 93
    li x10, 0
    ecall
.data
.balign 8
operands:
{numbers}
.bss
.balign 8
results: .skip {8 * count}
""")
    run(folder, TOOLS[0], "-march=rv64im", "-o", "e.o", "e.s")
    run(folder, TOOLS[1], "-o", "e", "e.o")
    return [n for (n,) in struct.iter_unpack("<Q", run(folder, TOOLS[3], "./e"))]


def hexes(numbers):
    return " ".join(f"{n:x}" for n in numbers)


def bare(text):
    """The text without what a formatter may change."""
    return re.sub(r"[\s_,]", "", text)


def write_or_compare(make):
    """Writes the files that `make` makes in a folder, by their paths from the repository's top, or compares them under --check."""
    missing = [t for t in TOOLS if shutil.which(t) is None]
    if missing:
        print("skipped: no " + ", ".join(missing))
        return 0
    with tempfile.TemporaryDirectory() as folder:
        made = make(folder)
    differ = []
    for name, text in made.items():
        path = os.path.join(TOP, name)
        if sys.argv[1:] == ["--check"]:
            with open(path) as f:
                differ += [name] if bare(f.read()) != bare(text) else []
        else:
            with open(path, "w") as f:
                f.write(text)
    if sys.argv[1:] == ["--check"]:
        print("differs from what was made: " + ", ".join(differ) if differ else "as made: " + ", ".join(made))
    return 1 if differ else 0
