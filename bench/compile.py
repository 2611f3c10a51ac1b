#!/usr/bin/env python3
"""How long the program takes to compile units, and how much memory, beside two compilers of C on code of the same shape.

Usage: bench/compile.py [PROGRAM], at the top of the repository; PROGRAM is the built `cmm`, crates/cmm/out/cmm by default, which `rt ci` leaves there.

One unit of nearly 1 MiB has many procedures; a thousand small ones are compiled one by one. `exec --steps 0` compiles a unit, makes its image, and
executes nothing. `tcc -c` and `gcc -O0 -c` compile the same procedures in C to an object. One that is not there is left out.
"""
import shutil
import sys
import tempfile

from counted import seconds, written

SIZE = 1_048_000
SMALL = 1_000
COMPILERS = [["tcc", "-c", "-o", "/dev/null"], ["gcc", "-O0", "-c", "-o", "/dev/null"]]


def procedure(number):
    """A procedure with a loop, a condition and a call of the one before it."""
    before = max(number - 1, 0)
    return (
        f"p{number}(bits64 x, bits64 y) {{ bits64 i, z; z = y + {number}; "
        f"next: z = (z ^ x) * 3 + i; i = i + 1; if i < y {{ goto next; }} "
        f"if x > 0 {{ z = p{before}(x - 1, z & 7); }} return (z + x); }}\n"
    )


def function(number):
    """The same in C."""
    before = max(number - 1, 0)
    return (
        f"u64 p{number}(u64 x, u64 y) {{ u64 i = 0, z; z = y + {number}; "
        f"next: z = (z ^ x) * 3 + i; i = i + 1; if (i < y) {{ goto next; }} "
        f"if (x > 0) {{ z = p{before}(x - 1, z & 7); }} return z + x; }}\n"
    )


def unit_of(count):
    main = f"export main; main() {{ bits64 r; r = p{count - 1}(3, 4); return (r); }}\n"
    return main + "".join(procedure(number) for number in range(count))


def source_of(count):
    end = f"u64 cmm_main(void) {{ u64 r; r = p{count - 1}(3, 4); return r; }}\n"
    return "typedef unsigned long u64;\n" + "".join(function(number) for number in range(count)) + end


def largest():
    """How many procedures a unit of nearly 1 MiB has."""
    count = size = 0
    while size < SIZE - 300:
        size += len(procedure(count))
        count += 1
    return count


def row(what, command, count, runs):
    took, memory = seconds(command, runs)
    print(f"| {what} | `{command[0].rsplit('/', 1)[-1]}` | {took * 1000:.0f} ms | {count / took:,.0f} | {memory / 2**20:.0f} MiB |", flush=True)


def many(what, commands, count):
    """The time of commands one after another, and the most memory of one."""
    all_ = [seconds(command, 1) for command in commands]
    took, memory = sum(one for one, _ in all_), max(memory for _, memory in all_)
    print(f"| {what} | `{commands[0][0].rsplit('/', 1)[-1]}` | {took * 1000:.0f} ms | {count / took:,.0f} | {memory / 2**20:.0f} MiB |", flush=True)


def main(program="crates/cmm/out/cmm"):
    count = largest()
    there = [compiler for compiler in COMPILERS if shutil.which(compiler[0])]
    print("| what | by | time | procedures per second | memory |\n|---|---|---|---|---|")
    with tempfile.TemporaryDirectory() as folder:
        unit, source = written(folder, "a.cmm", unit_of(count)), written(folder, "a.c", source_of(count))
        what = f"a unit of {count:,} procedures"
        row(what, [program, "exec", unit, "--steps", "0"], count, 5)
        for compiler in there:
            row(what, [*compiler, source], count, 5)
        units = [written(folder, f"u{number}.cmm", unit_of(1 + number % 7)) for number in range(SMALL)]
        sources = [written(folder, f"u{number}.c", source_of(1 + number % 7)) for number in range(SMALL)]
        small = sum(1 + number % 7 for number in range(SMALL))
        what = f"{SMALL:,} units of 1 to 7 procedures"
        many(what, [[program, "exec", path, "--steps", "0"] for path in units], small)
        for compiler in there:
            many(what, [[*compiler, path] for path in sources], small)


if __name__ == "__main__":
    main(*sys.argv[1:])
