#!/usr/bin/env python3
"""The rows of crates/part_rows on single steps: words by the GNU assembler, what they do by QEMU. part_rows.py puts them there."""
import itertools

from riscv_files import BRANCHES, GREATEST, IMMEDIATE, LEAST, LOADS, ONES, PC, REGISTER, SHIFTS, STORES
from riscv_files import assembled, emulated, hexes

# The registers at the ends of their range are 0 and 31; register 1 is another one beside 31.
PAIRS = [(0, 1), (1, ONES), (ONES, 1), (GREATEST, LEAST), (LEAST, ONES), (ONES, GREATEST)]
VALUES = [LEAST, GREATEST, ONES, 1, 0]

# The first and the last place of data and of the region, by where they begin or end, and what stands in the eight bytes there.
PAGE = 4096
PLACES = [
    (0x40000000, False, 0x0123_4567_8000_8080),
    (0x40000000 + PAGE, True, GREATEST),
    (0x60000000, False, ONES),
    (0x60001000 + PAGE, True, LEAST),
]
SIZES = {"b": 1, "h": 2, "w": 4, "d": 8}


def with_values():
    """Each row that gives a register a value: the text, the two registers that it reads with their values, and the one it writes."""
    for name in REGISTER:
        for (a, b), (d, first, second) in zip(PAIRS, itertools.cycle([(31, 1, 31), (1, 31, 1), (31, 31, 1)])):
            yield f"{name} x{d}, x{first}, x{second}", (first, a), (second, b), d
        yield f"{name} x31, x0, x31", (0, 0), (31, ONES), 31
        yield f"{name} x31, x31, x0", (31, LEAST), (0, 0), 31
        yield f"{name} x0, x31, x1", (31, ONES), (1, 1), 0
    for name, ends in [(n, (-2048, 2047)) for n in IMMEDIATE] + [(n, (0, most)) for n, most in SHIFTS.items()]:
        for a, imm in zip(VALUES, itertools.cycle(ends)):
            yield f"{name} x31, x31, {imm}", (31, a), (0, 0), 31
        yield f"{name} x31, x0, {ends[1]}", (0, 0), (0, 0), 31
        yield f"{name} x0, x31, {ends[0]}", (31, ONES), (0, 0), 0
    for name in ["lui", "auipc"]:
        for d, imm in [(31, 0), (31, 1048575), (31, 524287), (1, 524288), (0, 1)]:
            yield f"{name} x{d}, {imm}", (0, 0), (0, 0), d


def values(folder):
    vectors = list(with_values())
    body, operands = "", []
    for k, (text, (first, a), (second, b), d) in enumerate(vectors):
        operands += [a, b]
        body += f"    ld x{first}, 0(x20)\n    ld x{second}, 8(x20)\nat{k}: {text}\n    sd x{d}, 0(x21)\n"
        body += f"    la x13, at{k}\n    sd x13, 8(x21)\n    addi x20, x20, 16\n    addi x21, x21, 16\n"
    found = emulated(folder, body, operands, 2 * len(vectors))
    words = assembled(folder, [text for text, _, _, _ in vectors])
    for k, (word, (text, first, second, d)) in enumerate(zip(words, vectors)):
        value, at = found[2 * k : 2 * k + 2]
        yield word, first, second, (d, moved(value, at) if text.startswith("auipc") else value), 4


def moved(address, at):
    """An address of the emulator's that counts from `at`, as it counts from pc here; 0, which no address is, stays 0."""
    return (address - at + PC) % 2**64 if address else 0


def with_targets():
    """Each row that moves control: the text, its distance, the two registers that it reads with their values, and its link."""
    for name in BRANCHES:
        for (a, b), imm in zip(PAIRS + [(ONES, ONES)], itertools.cycle([-4096, 4092])):
            yield f"{name} x31, x1, .+{imm}", imm, (31, a), (1, b), 0
        yield f"{name} x0, x31, .+4092", 4092, (0, 0), (31, ONES), 0
        yield f"{name} x31, x0, .+-4096", -4096, (31, 0), (0, 0), 0
    for d, imm in [(31, -1048576), (1, 1048572), (0, 64)]:
        yield f"jal x{d}, .+{imm}", imm, (0, 0), (0, 0), d
    # From pc on the register says how far, here and there; the last target is odd, and the jump goes one byte before it.
    for d, imm, to in [(31, -2048, 64), (31, 2047, 64), (0, 2047, 64), (1, 2047, 65)]:
        yield f"jalr x{d}, {imm}(x31)", 64, (31, to - imm), (0, 0), d


def targets(folder):
    """Where each goes: a call at the target and one behind the instruction, so that the call's link tells which of them was reached."""
    vectors = list(with_targets())
    body, operands = "", []
    for k, (text, distance, (first, a), (second, b), d) in enumerate(vectors):
        operands += [a, b]
        call = f"    jal x30, .+4\n    la x29, told{k}\n    jr x29\n"
        before = f"{call}    .skip {-distance - 16}\n" if distance < 0 else ""
        after = f"    .skip {distance - 20}\n{call}" if distance > 0 else ""
        from_pc = f"    add x{first}, x{first}, x13\n" if text.startswith("jalr") else ""
        body += f"    ld x{first}, 0(x20)\n    ld x{second}, 8(x20)\n    la x13, at{k}\n{from_pc}    jr x13\n"
        body += f"{before}at{k}: {text}\n{call}{after}told{k}:\n    sd x{d}, 0(x21)\n    addi x30, x30, -4\n"
        body += "    sd x30, 8(x21)\n    sd x13, 16(x21)\n    addi x20, x20, 16\n    addi x21, x21, 24\n"
    found = emulated(folder, body, operands, 3 * len(vectors))
    words = assembled(folder, [text for text, _, _, _, _ in vectors])
    for k, (word, (text, _, (first, a), second, d)) in enumerate(zip(words, vectors)):
        link, goes, at = found[3 * k : 3 * k + 3]
        a = (a + PC) % 2**64 if text.startswith("jalr") else a
        yield word, (first, a), second, (d, moved(link, at)), (goes - at) % 2**64


def with_addresses():
    """Each load and store at both ends of data and region: the text, the registers that it reads with their values, the eight bytes
    there with what they hold, and the register that it writes."""
    turn = itertools.cycle([-2048, 2047, 0, -1])
    for name in LOADS + STORES:
        for (place, is_end, holds), b in zip(PLACES, [ONES, 0x0123_4567_89AB_CDEF, 0, LEAST]):
            size = SIZES[name[1]]
            imm = next(turn)
            base = (place - (size if is_end else 0) - imm) % 2**64
            cell = (place - 8 if is_end else place, holds)
            if name in LOADS:
                yield f"{name} x31, {imm}(x31)", (31, base), (0, 0), cell, 31
            else:
                second = 31 if b else 0
                yield f"{name} x{second}, {imm}(x1)", (1, base), (second, b), cell, 0
        next(turn)


def accesses(folder):
    vectors = list(with_addresses())
    body, operands = "", []
    for start, size in [(0x40000000, PAGE), (0x60000000, 2 * PAGE)]:
        body += f"    li x10, {start}\n    li x11, {size}\n    li x12, 3\n    li x13, 50\n    li x14, -1\n    li x15, 0\n    li x17, 222\n    ecall\n"
    for text, (first, a), (second, b), (cell, holds), d in vectors:
        operands += [a, b, cell, holds]
        body += "    ld x29, 16(x20)\n    ld x28, 24(x20)\n    sd x28, 0(x29)\n"
        body += f"    ld x{first}, 0(x20)\n    ld x{second}, 8(x20)\n    {text}\n    sd x{d}, 0(x21)\n"
        body += "    ld x28, 0(x29)\n    sd x28, 8(x21)\n    addi x20, x20, 32\n    addi x21, x21, 16\n"
    found = emulated(folder, body, operands, 2 * len(vectors))
    words = assembled(folder, [text for text, _, _, _, _ in vectors])
    for k, (word, (_, first, second, (cell, holds), d)) in enumerate(zip(words, vectors)):
        value, after = found[2 * k : 2 * k + 2]
        yield word, first, second, (d, value), (cell, holds, after)


def cases(folder):
    for word, first, second, (written, value), distance in [*values(folder), *targets(folder)]:
        yield f"step {hexes((word, *first, *second, written))}", hexes((value, distance))
    for word, first, second, (written, value), (at, before, after) in accesses(folder):
        yield f"access {hexes((word, *first, *second, written, at, before))}", hexes((value, after))
