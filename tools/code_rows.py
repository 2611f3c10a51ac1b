#!/usr/bin/env python3
"""The rows of crates/part_rows on the code of nodes, from formulas over Python's integers. part_rows.py puts them there.

    tools/code_rows.py --qemu PROGRAM
                                    has the built program print the code of each operator, runs that in QEMU on the same operands, and compares the results with
                                    the formulas'. `rt ci` leaves the program in crates/part_rows/out/part_rows.
    tools/code_rows.py --table      prints the table of instructions a node of docs/PERFORMANCE.md

The formulas of the operators are those of corner_rows.py. Where the assembler or the emulator is missing, --qemu says so and ends with status 0.
"""
import os
import shutil
import subprocess
import sys
import tempfile

from corner_rows import WIDTHS, comparisons, division_values, operands, plain_values, signed
from riscv_files import TOOLS, TOP, emulated

BINARY = "Add Sub Mul And Or Xor Shl Shrl Shra Rotl Rotr Divu Modu Div Mod Quot Rem".split()
COMPARISONS = "Eq Ne Lt Le Gt Ge Ltu Leu Gtu Geu".split()
UNARY = "Com Neg".split()

DATA, DATA_END = 0x40000000, 0x40000040
REGION, STACK = 0x60000000, 0x60001000
STACK_END = STACK + 8192


# ---- operators

def binary(width, a, b):
    """What each operator gives, and None where it has no value."""
    return dict(zip(BINARY, plain_values(width, a, b) + (division_values(width, a, b) or [None] * 6)))


def unary(width, a):
    return {"Com": (1 << width) - 1 - a, "Neg": -a % (1 << width)}


def at_width(width, to, word):
    """A word with its sign at another width, or its low bits."""
    return (signed(width, word) if width <= to else word) % (1 << to)


def hexes(numbers):
    return " ".join("none" if n is None else f"{n:x}" for n in numbers)


def operator_cases():
    for width in WIDTHS:
        for a, b in operands(width):
            yield f"binary {width:x} {a:x} {b:x}", " ".join(f"{name} {hexes([v])}" for name, v in binary(width, a, b).items())
        for a, b in operands(width):
            told = zip(COMPARISONS, comparisons(width, a, b))
            yield f"compare {width:x} {a:x} {b:x}", " ".join(f"{name} {int(holds)} {int(holds)}" for name, holds in told)
        for a in sorted({a for pair in operands(width) for a in pair}):
            widths = [f"W{to} {at_width(width, to, a):x}" for to in WIDTHS]
            yield f"unary {width:x} {a:x}", " ".join([f"{name} {v:x}" for name, v in unary(width, a).items()] + widths)


def number_cases():
    """Numbers at the ends of what each form of code loads."""
    ends = [0, 2**11, 2**12, 2**31 - 2**11, 2**31, 2**32, 2**40, 2**43, 2**52, 2**63, 2**64]
    near = {n + d for n in ends for d in (-2049, -2048, -1, 0, 1, 2047, 2048)}
    for number in sorted(n for n in near if 0 <= n < 2**64):
        yield f"copy 40 {number:x}", f"{number:x}"


# ---- memory

def pattern(address):
    """The byte at an address at the beginning."""
    for first, end in ((DATA, DATA_END), (REGION, REGION + 16), (STACK_END - 16, STACK_END)):
        if first <= address < end:
            return (37 * address + 11) % 256
    return 0


def loaded(address, size):
    return int.from_bytes(bytes(pattern(address + k) for k in range(size)), "little")


def access_cases():
    """Words at the first and the last places of data and of the region, at multiples of their size and of less."""
    for width in WIDTHS:
        size = width // 8
        for aligned in (1, 2, 4, 8):
            step = min(size, aligned)
            places = [DATA, DATA + step, DATA_END - size, REGION, STACK_END - size, STACK_END - size - step]
            for address in places:
                if address % step:
                    continue
                yield f"load {width:x} {aligned:x} {address:x}", f"{loaded(address, size):x}"
                word = 0x0123456789ABCDEF
                put = dict(zip(range(address, address + size), word.to_bytes(8, "little")))
                shown = [put.get(a, pattern(a)) for a in range(address - 4, address + 12)]
                yield f"store {width:x} {aligned:x} {address:x} {word:x}", " ".join(f"{b:02x}" for b in shown)


# ---- calls

# How large a frame is, and where its words and its stackdata begin.
LAYOUTS = [(112, 0, 112), (2096, 1984, 0), (65648, 0, 112), (65648, 65536, 0), (2097136, 2097024, 0)]
CALLER = 144
MARKS = {0: 2, 1: 1}


# The largest frame whose entry moves register 2 before it checks the room: so register 2 has moved at the limit.
MOVED_FIRST = 2048


def moved_at_limit(size):
    return size if size <= MOVED_FIRST else 0


def register(n):
    """What a register has at the beginning."""
    return n * 0x0101010101010101


def call_cases():
    for layout, (size, words, data) in enumerate(LAYOUTS):
        for exit in (0, 1):
            for spare in (-16, 0, 4096):
                stack = CALLER + size + spare
                top = STACK + stack
                frame = top - CALLER
                passed = [2**64 - 2, register(9), register(31), register(13), frame + 96, 5, 6, 7, 8, register(27), 10, 11]
                back = [0, passed[3], 11, 10, passed[9], 8, 7, 6, 5, passed[4], passed[2], passed[1], passed[0], frame - size + data, frame]
                enough = spare >= 0
                kept = [register(9), register(27)]
                below = CALLER if enough else CALLER + moved_at_limit(size)
                found = [MARKS[exit] if enough else 3, below] + kept + (back if enough else [0] * 15)
                yield f"call {layout:x} {exit:x} {stack:x}", hexes(found)
    # not even the caller has room
    yield f"call 0 0 {CALLER - 16:x}", hexes([3, moved_at_limit(CALLER), register(9), register(27)] + [0] * 15)


# ---- switches

def arm_of(value, count):
    """The arm with a number is for two values from three times the number on, and for two far behind."""
    for k in range(count):
        if value in (3 * k, 3 * k + 1) or 0 <= value - (2**31 + k * 2**40) <= 1:
            return k
    return count


def switch_cases():
    for count in (1, 2, 1000):
        last = count - 1
        values = [0, 1, 2, 3, 3 * last, 3 * last + 1, 3 * last + 2, 3 * count, 2**31 - 1, 2**31, 2**31 + 1, 2**31 + 2]
        values += [2**31 + last * 2**40 + d for d in (-1, 0, 1, 2)] + [2**63, 2**64 - 1]
        if count == 1000:
            values += [3 * k + d for k in (1, 500, 511, 512, 682, 683) for d in (0, 1, 2)]
        yield f"switch {count:x} {hexes(values)}", hexes(arm_of(v, count) for v in values)


# ---- how many instructions

# to cut what a register has to a width, and to give a word its sign: a mask holds 8 bits, and an addition of 32 bits gives the sign
CUT = {8: 1, 16: 2, 32: 2, 64: 0}
SIGN = {8: 2, 16: 2, 32: 1, 64: 0}
# beside operands and destination: the operator at 64 bits, how many words get their sign, and how often a result is cut that may be past the width
OWN = {
    **{name: (1, 0, 1) for name in "Add Sub Mul Com Neg".split()},
    **{name: (1, 0, 0) for name in "And Or Xor Divu Modu".split()},
    "Shl": (3, 0, 1),
    "Shrl": (3, 0, 0),
    "Shra": (4, 1, 1),
    **{name: (6, 0, 1) for name in "Rotl Rotr".split()},
    **{name: (1, 2, 1) for name in "Quot Rem".split()},
    **{name: (5, 2, 1) for name in "Div Mod".split()},
}
# done on operands where they are
IN_PLACE = set("Add Sub Mul And Or Xor Divu Modu".split())
TOLD = {"Eq": 2, "Ne": 3, "Lt": 1, "Gt": 1, "Le": 2, "Ge": 2, "Ltu": 1, "Gtu": 1, "Leu": 2, "Geu": 2}
BRANCH = 3


def accesses(width, aligned):
    size = width // 8
    return size // min(size, aligned)


def own(name, width):
    """The instructions of an operator on words in registers."""
    wide, signs, cuts = OWN[name]
    return wide + signs * SIGN[width] + cuts * CUT[width]


def counts(width, place):
    """Each node with its instructions, where so many read the place of an operand or write that of the destination: none at a register, which
    is used where it is, but by nodes that change their operands."""
    narrow = width < 64
    moved = max(place, 1)
    copy = 2 * place or 1
    yield "copy", copy
    for name in BINARY:
        yield name, 3 * (place if name in IN_PLACE else moved) + own(name, width)
    for name in COMPARISONS:
        signed = narrow and name in ("Lt", "Le", "Gt", "Ge")
        read = 2 * moved + 2 * SIGN[width] if signed else 2 * place
        yield name, read + TOLD[name] + place, read + BRANCH
    for name in UNARY:
        yield name, 2 * place + own(name, width)
    yield "extended", 2 * place + SIGN[width] if narrow else copy
    yield "low", 2 * place + CUT[width] if narrow else copy
    yield "load", *(2 * (place if n == 1 else moved) + 3 * n - 2 for n in (accesses(width, 8), accesses(width, 1)))
    yield "store", *(2 * (place if n == 1 else moved) + 2 * n - 1 for n in (accesses(width, 8), accesses(width, 1)))


def count_cases():
    for width in WIDTHS:
        rows = [list(counts(width, place)) for place in (0, 1, 3)]
        yield f"count {width:x}", " ".join(
            " ".join([each[0][0]] + [str(row[k]) for k in range(1, len(each[0])) for row in each]) for each in zip(*rows)
        )


def cases():
    for make in (operator_cases, number_cases, access_cases, call_cases, switch_cases, count_cases):
        yield from make()


# ---- the code in QEMU

def codes(program, width):
    """The words of the code of each operator at a width, with operands in registers 12 and 31 and the result in 15."""
    told = subprocess.run([program], input=f"code {width:x}\n", check=True, stdout=subprocess.PIPE, text=True).stdout
    found = {}
    for part in told.split(":", 1)[1].split():
        if part in BINARY + COMPARISONS + UNARY:
            words = found[part] = []
        else:
            words.append(int(part, 16))
    return found


def tried_in_qemu(program):
    """The code of each operator on each pair of operands, with the value that it has to give."""
    for width in WIDTHS:
        code = codes(program, width)
        for a, b in operands(width):
            told = dict(zip(COMPARISONS, map(int, comparisons(width, a, b))))
            for name, value in {**binary(width, a, b), **told, **unary(width, a)}.items():
                if value is not None:
                    yield code[name], a, b, value, f"{name} {width} {a:x} {b:x}"


def compare_with_qemu(program):
    missing = [t for t in TOOLS if shutil.which(t) is None]
    if missing:
        print("skipped: no " + ", ".join(missing))
        return 0
    tried = list(tried_in_qemu(program))
    body = ""
    for words, *_ in tried:
        body += "    ld x12, 0(x20)\n    ld x31, 8(x20)\n    .word " + ", ".join(map(hex, words)) + "\n"
        body += "    sd x15, 0(x21)\n    addi x20, x20, 16\n    addi x21, x21, 8\n"
    with tempfile.TemporaryDirectory() as folder:
        found = emulated(folder, body, [n for _, a, b, *_ in tried for n in (a, b)], len(tried))
    wrong = [f"{case}: {got:x}, not {value:x}" for (_, _, _, value, case), got in zip(tried, found) if got != value]
    print("\n".join(wrong) if wrong else f"{len(tried)} results as made")
    return 1 if wrong else 0


# ---- the tables of docs/PERFORMANCE.md

def table_rows(width):
    """Each node with its instructions on registers, on near slots, and on far slots."""
    for (name, *held), (_, *near), (_, *far) in zip(counts(width, 0), counts(width, 1), counts(width, 3)):
        labels = {"load": ["load, aligned", "load, by bytes"], "store": ["store, aligned", "store, by bytes"]}
        kinds = labels.get(name) or ([name] if len(near) == 1 else [f"{name} told", f"{name} branch"])
        yield from zip(kinds, zip(held, near, far))


def print_table():
    rows = {}
    for width in WIDTHS:
        for name, count in table_rows(width):
            rows.setdefault(name, []).append(count)
    groups = {}
    for name, found in rows.items():
        groups.setdefault(tuple(found), []).append(name)
    print("| node | " + " | ".join(f"{w} bits" for w in WIDTHS) + " |")
    print("|---|" + "---|" * len(WIDTHS))
    for found, names in groups.items():
        print("| " + ", ".join(names) + " | " + " | ".join(", ".join(map(str, count)) for count in found) + " |")
    return 0


# ---- what is done with them

def main(arguments):
    if arguments[:1] == ["--qemu"]:
        return compare_with_qemu(arguments[1])
    if arguments == ["--table"]:
        return print_table()
    sys.exit(__doc__)


if __name__ == "__main__":
    sys.exit(main(sys.argv[1:]))
