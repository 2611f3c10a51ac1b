#!/usr/bin/env python3
"""How many tokens per second the program reads, and how many it tests against the static rules.

Usage: bench/static.py [PROGRAM], at the top of the repository; PROGRAM is the built `cmm`, crates/cmm/out/cmm by default, which `rt ci` leaves there.

It makes units of nearly 1 MiB, and of each another that lacks its last token, so that it ends with the fault of the syntax there: with that one the
program lexes and parses, with the whole unit it tests the static rules as well, and the difference is their time. Each takes the least of seven runs,
less the time for a small unit, which is that of a process. The tokens are counted here.

Then it makes units of 15,000, 30,000 and 60,000 constants, each of the next, of which only the last depends on itself: that one is named, and twice as many
take twice as long.
"""
import os
import re
import subprocess
import sys
import tempfile
import time

SIZE = 1_048_000
# (main is not exported: so a unit that keeps all other rules is refused behind them, and nothing is compiled)
MAIN = "main() { return (1); }\n"
# tokens of a procedure are limited
STATEMENTS = 21_000


def name(number):
    return "n" + "".join("abcdefghijklmnop"[number >> shift & 15] for shift in (12, 8, 4, 0))


def filled(line):
    """A unit of such lines, each made of its number."""
    lines, size = [], len(MAIN)
    while size < SIZE - 64 and len(lines) < 65_000:
        lines.append(line(len(lines)))
        size += len(lines[-1])
    return lines


def called(number):
    """A short procedure, with a call of itself, a condition and an annotation."""
    own = name(number)
    body = f"bits64 z; z = {own}(x, y + {number}) also aborts; if z > y {{ return (z * 2); }} k: x = x - 1; goto k;"
    return f"{own}(bits64 x, bits64 y) {{ {body} }}\n"


def units():
    """Each unit with its sort. The first declaration of one that refers to the next has to end somewhere."""
    chain = filled(lambda n: f"typedef {name(n + 1)} {name(n)};\n")
    labels = filled(lambda n: f"{name(n)}: bits64[] {{ {n} }};\n")
    statements = "    x = y + x;\n" * STATEMENTS
    yield "typedefs, each of a width", MAIN + "".join(filled(lambda n: f"typedef bits64 {name(n)};\n"))
    yield "typedefs, each of the next", MAIN + "".join(chain) + f"typedef bits64 {name(len(chain))};\n"
    yield "constants", MAIN + "".join(filled(lambda n: f"const bits64 {name(n)} = {n};\n"))
    yield "data with labels", MAIN + 'section "data" {\n' + "".join(labels) + "}\n"
    yield "long procedures", MAIN + "".join(f"{f}(bits64 x, bits64 y) {{\n{statements}}}\n" for f in "fgh")
    yield "procedures with a call", MAIN + "".join(filled(called))


def leading_to_cycle(count):
    """Constants of which each is the next, and the last is itself."""
    return subprocess.run([sys.executable, "tools/generated_unit.py", "--cycle", str(count)], stdout=subprocess.PIPE, check=True, text=True).stdout


def tokens(unit):
    return len(re.findall(r'"[^"]*"|\w+|[^\w\s]', unit))


def seconds(program, unit):
    """The least time of some runs on a unit, and the program's line."""
    with tempfile.TemporaryDirectory() as folder:
        path = os.path.join(folder, "a.cmm")
        with open(path, "w", encoding="ascii") as file:
            file.write(unit)
        best, line = None, b""
        for _ in range(7):
            start = time.perf_counter()
            line = subprocess.run([program, "exec", path], stderr=subprocess.PIPE, check=False).stderr
            took = time.perf_counter() - start
            best = took if best is None else min(best, took)
    return best, line.decode().strip().rsplit("a.cmm:", 1)[-1]


def main(program="crates/cmm/out/cmm"):
    process, _ = seconds(program, MAIN)
    print("| unit | tokens | lexed and parsed, per second | tested, per second |\n|---|---|---|---|")
    for sort, unit in units():
        count = tokens(unit)
        read, fault = seconds(program, unit.rstrip()[:-1])
        assert ": 10 " in fault, fault
        whole, answer = seconds(program, unit)
        assert ": 36 " in answer, answer
        test = whole - read
        tested = f"{count / test / 1e6:.1f} million" if test > 1e-3 else "no time to see"
        print(f"| {sort} | {count:,} | {count / (read - process) / 1e6:.1f} million | {tested} |")
    print("\n| constants that lead to a cycle | ms |\n|---|---|")
    for count in (15_000, 30_000, 60_000):
        took, fault = seconds(program, leading_to_cycle(count))
        assert ": 39 " in fault, fault
        print(f"| {count:,} | {(took - process) * 1000:.0f} |")


if __name__ == "__main__":
    main(*sys.argv[1:])
