#!/usr/bin/env python3
"""How many bytes of code the loops and calls of bench/loops.py and bench/calls.py have as units, and as the same algorithms in C.

Usage: bench/size.py [PROGRAM], at the top of the repository; PROGRAM is the built `cmm`, crates/cmm/out/cmm by default, which `rt ci` leaves there.

Of a unit it is the code of its image (the u64 at offset 8 is its length) less that of a unit whose `main` does nothing: what begins a run, and what a unit
has for its yields and for the stack's limit, is the same in both. Of C it is the size of the section of code that gcc makes for RV64IM at -Os and at -O0.
"""
import subprocess
import sys
import tempfile

from calls import ACKERMANN, FIBONACCI, MUTUAL
from counted import COMPILER, FLAGS, written
from loops import HASH, HISTOGRAM, MATRIX, SEARCH, SORT

EMPTY = "export main; main() { return (0); }\n"


def code_of(program, folder, unit):
    """The length of the code of a unit's image."""
    image = f"{folder}/a.img"
    subprocess.run([program, "build", written(folder, "a.cmm", unit), "-o", image], check=True, stderr=subprocess.DEVNULL)
    with open(image, "rb") as file:
        return int.from_bytes(file.read()[8:16], "little")


def text_of(folder, source, level):
    """The length of the code of a C source."""
    built = f"{folder}/a.o"
    subprocess.run([COMPILER, level, *FLAGS, "-c", "-o", built, written(folder, "a.c", source)], check=True)
    sizes = subprocess.run([COMPILER.replace("gcc", "size"), "-A", built], check=True, stdout=subprocess.PIPE).stdout.decode()
    return sum(int(line.split()[1]) for line in sizes.splitlines() if line.startswith(".text"))


def main(program="crates/cmm/out/cmm"):
    loops = [(what, unit, f"{data}\nu64 run(void)\n{{\n  {body}\n}}") for what, unit, data, body in (MATRIX, SEARCH, HASH, SORT, HISTOGRAM)]
    print("| | `cmm` | gcc -Os | gcc -O0 |\n|---|---|---|---|")
    with tempfile.TemporaryDirectory() as folder:
        least = code_of(program, folder, EMPTY)
        for what, unit, source in [*loops, FIBONACCI, ACKERMANN, MUTUAL]:
            text = f"typedef unsigned long u64;\n{source}\n"
            print(f"| {what} | {code_of(program, folder, unit) - least:,} | {text_of(folder, text, '-Os'):,} | {text_of(folder, text, '-O0'):,} |", flush=True)


if __name__ == "__main__":
    main(*sys.argv[1:])
