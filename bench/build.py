#!/usr/bin/env python3
"""How long the program takes to build an image and to run one, and how much memory, beside compilers of C and QEMU.

Usage: bench/build.py [PROGRAM], at the top of the repository; PROGRAM is the built `cmm`, crates/cmm/out/cmm by default, which `rt ci` leaves there.

`build` of the unit that `gen 1` makes, of 2,003 procedures, beside `tcc -c` and `gcc -O0 -c` on C of the same shape. `run` of the images of the five loops of
bench/loops.py: how many instructions a second, beside QEMU on the same algorithms in C, at -O0, which are run often enough that the start of the
process does not count. And `run` of an image of 50 MiB that ends at once.
"""
import os
import shutil
import subprocess
import sys
import tempfile

from counted import executed_per_second, instructions, seconds, written
from loops import HASH, HISTOGRAM, MATRIX, SEARCH, SORT

COMPILERS = [["tcc", "-c", "-o", "/dev/null"], ["gcc", "-O0", "-c", "-o", "/dev/null"]]

# The bodies of the generated unit, in C: a call, a tail call, a call with another exit, and one that may be left by a cut.
BODIES = [
    "u64 r; r = p{j}(x + t[{i}]); return r;",
    "return p{j}(x + t[{i}]);",
    "u64 r; other = 0; r = p{j}(x + t[{i}]); if (other) {{ return r; }} return r;",
    "u64 r; jmp_buf k; if (setjmp(k)) {{ r = p{j}(value); other = 0; return r; }} r = w(x + t[{i}], k); other = 1; return r;",
]

SMALL = "export main; main() { return (2 + 3); }\n"
LARGE = 'export main; section "data" { cells: bits64[6553600]; } main() { return (2 + 3); }\n'


def generated(number):
    """The text of the unit that `gen` runs."""
    tool = os.path.join(os.path.dirname(os.path.abspath(__file__)), "..", "tools", "generated_unit.py")
    return subprocess.run([sys.executable, tool, str(number)], stdout=subprocess.PIPE, check=True).stdout.decode("ascii")


def same_shape(number):
    """C of the same shape."""
    cells = ", ".join(str((number + i) % 1000) for i in range(2000))
    lines = [
        "#include <setjmp.h>\ntypedef unsigned long u64;\nstatic int other;\nstatic u64 value;",
        f"static const u64 t[2000] = {{ {cells} }};",
        "static u64 w(u64 x, jmp_buf k) { value = x; longjmp(k, 1); }",
        *(f"u64 p{i}(u64 x);" for i in range(2001)),
        f"u64 cmm_main(void) {{ u64 r; r = p0({number}); return r; }}",
        *(f"u64 p{i}(u64 x) {{ {BODIES[i % 4].format(j=i + 1, i=i)} }}" for i in range(2000)),
        "u64 p2000(u64 x) { return x; }",
    ]
    return "".join(line + "\n" for line in lines)


def row(what, command):
    took, memory = seconds(command)
    print(f"| {what} | `{command[0].rsplit('/', 1)[-1]}` | {took * 1000:.0f} ms | {memory / 2**20:.0f} MiB |", flush=True)


def built(program, folder, text):
    """The path of the image of a unit."""
    image = os.path.join(folder, "a.img")
    subprocess.run([program, "build", written(folder, "a.cmm", text), "-o", image], check=True, stderr=subprocess.DEVNULL)
    return image


def main(program="crates/cmm/out/cmm"):
    with tempfile.TemporaryDirectory() as folder:
        print("| what | by | time | memory |\n|---|---|---|---|")
        unit, source = written(folder, "g.cmm", generated(1)), written(folder, "g.c", same_shape(1))
        row("the generated unit", [program, "build", unit, "-o", os.path.join(folder, "g.img")])
        for compiler in COMPILERS:
            if shutil.which(compiler[0]):
                row("the generated unit", [*compiler, source])
        row("start of a small image", [program, "run", built(program, folder, SMALL)])
        image = built(program, folder, LARGE)
        row(f"start of an image of {os.path.getsize(image):,} bytes", [program, "run", image])
        print("\n| loop | `run`, executed per second | memory | QEMU, executed per second |\n|---|---|---|---|")
        process, _ = seconds([program, "run", built(program, folder, SMALL)])
        for what, text, data, body in (MATRIX, SEARCH, HASH, SORT, HISTOGRAM):
            count, _ = instructions(program, written(folder, "a.cmm", text))
            took, memory = seconds([program, "run", built(program, folder, text)])
            emulated = executed_per_second(folder, f"typedef unsigned long u64;\n{data}\nu64 run(void)\n{{\n  {body}\n}}\n", "-O0")
            print(f"| {what} | {count / (took - process) / 1e6:.0f} million | {memory / 2**20:.0f} MiB | {emulated / 1e6:,.0f} million |", flush=True)


if __name__ == "__main__":
    main(*sys.argv[1:])
