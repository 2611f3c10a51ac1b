#!/usr/bin/env python3
"""How many of the instructions that the loops of bench/loops.py execute make constants and addresses anew.

Usage: bench/constants.py [PROGRAM], at the top of the repository; PROGRAM is the built `cmm`, crates/cmm/out/cmm by default, which `rt ci` leaves there.

Each loop is built and run by the plain machine of tools/, which counts how often it comes to each instruction. An instruction makes a constant where it reads
no register, or an immediate goes to one that has a constant: of these count those that are executed more than once and whose register is none that keeps
a local, so that an assignment of a number to a variable is left out.
"""
import collections
import os
import subprocess
import sys
import tempfile

from counted import written
from loops import HASH, HISTOGRAM, MATRIX, SEARCH, SORT

sys.path.append(os.path.join(os.path.dirname(os.path.abspath(__file__)), "..", "tools"))

from image_reading import CODE_BASE, read_image
from plain_machine import Machine, Over, decoded

# The registers that keep locals (docs/ABI.md): t3 to t6, a2 to a5 and the callee-saves.
OF_LOCALS = {8, 9, *range(12, 16), *range(18, 32)}
STACK = 1_048_576


def instructions_of(image):
    """Each instruction of the code with its address."""
    for at in range(0, len(image.code), 4):
        yield CODE_BASE + at, decoded(int.from_bytes(image.code[at : at + 4], "little"))


def times_of(image):
    """How often a run comes to each instruction, by its address."""
    machine, times = Machine(image, STACK), collections.Counter()
    try:
        while True:
            times[machine.pc] += 1
            machine.step()
    except Over:
        return times


def written_by(found):
    """The register that an instruction writes, if it is one that goes on to the next."""
    place = {"upper": 1, "load": 1, "immediate": 2, "registers": 2}
    return found[place[found[0]]] if found and found[0] in place else None


def constants(image):
    """The addresses of the instructions that make constants in registers of no local."""
    led_to = {address + found[-1] for address, found in instructions_of(image) if found and found[0] in ("branch", "jal")}
    known = set()
    for address, found in instructions_of(image):
        register = written_by(found)
        if address in led_to or found is None or found[0] in ("jal", "jalr", "ecall"):
            known = set()
        if register is None:
            continue
        if found[0] == "upper" or found[0] == "immediate" and (found[3] == 0 or found[3] in known):
            known.add(register)
            if register not in OF_LOCALS:
                yield address
        else:
            known.discard(register)


def main(program="crates/cmm/out/cmm"):
    print("| loop | executed | make constants anew | of 100 |\n|---|---|---|---|")
    with tempfile.TemporaryDirectory() as folder:
        for loop in (MATRIX, SEARCH, HASH, SORT, HISTOGRAM):
            path = os.path.join(folder, "a.img")
            subprocess.run([program, "build", written(folder, "a.cmm", loop[1]), "-o", path], check=True, stderr=subprocess.DEVNULL)
            with open(path, "rb") as file:
                image = read_image(file.read())
            times = times_of(image)
            made = sum(times[address] for address in constants(image) if times[address] > 1)
            print(f"| {loop[0]} | {times.total():,} | {made:,} | {100 * made / times.total():.0f} |", flush=True)


if __name__ == "__main__":
    main(*sys.argv[1:])
