#!/usr/bin/env python3
"""The row of crates/part_rows that runs a program: its words by the GNU assembler, the data that it leaves by QEMU. part_rows.py puts it there."""
import os
import struct

from riscv_files import TOOLS, hexes, run

# Code and data stand where the simulator has them. The end stores every register, and asks both machines to stop: the
# simulator by number 5 in register 5, Linux by a write of the data to its standard output.
BEFORE = """.option norvc
.option norelax
.text
.globl _start
_start:
    la x4, data
    addi x2, x4, 1024
    li x3, 0x0123456789abcdef
    li x1, 0
"""
BODY = """
    li x6, 16
    mv x7, x4
fill:
    li x8, 6364136223846793005
    mul x3, x3, x8
    addi x3, x3, 1013
    sd x3, 0(x7)
    sw x3, 12(x7)
    sh x3, 10(x7)
    sb x3, 9(x7)
    addi x7, x7, 16
    addi x6, x6, -1
    bne x6, x0, fill
    li x6, 15
    mv x7, x4
    li x9, 0
fold:
    lb x10, 1(x7)
    lbu x11, 9(x7)
    lh x12, 2(x7)
    lhu x13, 10(x7)
    lw x14, 4(x7)
    lwu x15, 12(x7)
    ld x16, 8(x7)
    xor x9, x9, x10
    sub x9, x9, x11
    add x9, x9, x12
    or x18, x13, x14
    and x19, x15, x16
    sll x20, x18, x11
    srl x21, x19, x13
    sra x22, x16, x13
    slt x23, x20, x22
    sltu x24, x22, x20
    mulh x25, x9, x16
    mulhu x26, x9, x16
    mulhsu x27, x16, x9
    div x28, x16, x12
    divu x29, x16, x11
    rem x30, x16, x14
    remu x31, x16, x15
    add x9, x9, x25
    xor x9, x9, x26
    sub x9, x9, x27
    add x9, x9, x28
    xor x9, x9, x29
    add x9, x9, x30
    xor x9, x9, x31
    addw x20, x9, x18
    subw x21, x9, x19
    mulw x22, x20, x21
    divw x23, x22, x12
    remw x24, x22, x13
    divuw x25, x22, x13
    remuw x26, x22, x11
    sllw x27, x22, x10
    srlw x28, x22, x10
    sraw x29, x22, x10
    add x9, x9, x23
    xor x9, x9, x24
    add x9, x9, x25
    xor x9, x9, x26
    add x9, x9, x27
    xor x9, x9, x28
    add x9, x9, x29
    sd x9, 256(x7)
    blt x9, x16, less
    sb x9, 257(x7)
less:
    bge x20, x21, more
    sh x20, 258(x7)
more:
    bltu x22, x23, under
    sw x21, 260(x7)
under:
    bgeu x25, x26, over
    sb x24, 262(x7)
over:
    addi x7, x7, 16
    addi x6, x6, -1
    beq x6, x0, folded
    jal x0, fold
folded:
    li x10, 9
    jal x1, fibonacci
    sd x10, 504(x4)
    la x11, fibonacci
    li x10, 6
    jalr x1, 0(x11)
    sd x10, 488(x4)
    xori x12, x9, -5
    andi x13, x9, 255
    ori x14, x9, 1024
    slti x15, x9, -1
    sltiu x16, x9, -1
    slli x18, x9, 33
    srli x19, x9, 33
    srai x20, x9, 33
    addiw x21, x9, 77
    slliw x22, x9, 7
    srliw x23, x9, 7
    sraiw x24, x9, 7
    lui x25, 0x80000
    auipc x26, 0
    jal x0, finish
fibonacci:
    slti x5, x10, 2
    bne x5, x0, base
    addi x2, x2, -32
    sd x1, 0(x2)
    sd x10, 8(x2)
    addi x10, x10, -1
    jal x1, fibonacci
    sd x10, 16(x2)
    ld x10, 8(x2)
    addi x10, x10, -2
    jal x1, fibonacci
    ld x5, 16(x2)
    add x10, x10, x5
    ld x1, 0(x2)
    addi x2, x2, 32
base:
    jalr x0, 0(x1)
finish:
"""
SIZE = 1280


def source():
    kept = "\n".join(f"    sd x{k}, {1024 + 8 * k}(x4)" for k in range(1, 32))
    return f"""{BEFORE}{BODY}{kept}
    li x5, 5
    li x17, 64
    li x10, 1
    mv x11, x4
    li x12, {SIZE}
    ecall
    li x17, 93
    li x10, 0
    ecall
.data
data: .skip {SIZE}
"""


def cases(folder):
    with open(os.path.join(folder, "p.s"), "w") as f:
        f.write(source())
    run(folder, TOOLS[0], "-march=rv64im", "-o", "p.o", "p.s")
    run(folder, TOOLS[1], "-Ttext=0x10000", "-Tdata=0x40000000", "-o", "p", "p.o")
    run(folder, TOOLS[2], "-O", "binary", "-j", ".text", "p", "p.bin")
    after = run(folder, TOOLS[3], "./p")
    with open(os.path.join(folder, "p.bin"), "rb") as f:
        code = f.read()
    words = struct.unpack(f"<{len(code) // 4}I", code)
    yield f"run {hexes(words)}", f"Asks(End(1)) {hexes(struct.unpack(f'<{SIZE // 8}Q', after))}"
