#!/usr/bin/env python3
"""How long five loops take as ELF files under QEMU, by the loader of tools/start/, beside the program's own run and C under QEMU.

Usage: bench/loaded.py [PROGRAM], at the top of the repository; PROGRAM is the built `cmm`, crates/cmm/out/cmm by default, which `rt ci` leaves there.

The loops are those of bench/loops.py. Under QEMU each is done 200 times, and the time of a program that does nothing is taken off, so that neither its start nor the
translation of its code counts. PROGRAM runs each once. The results of the loop and of C have to be the same.
"""
import os
import subprocess
import sys
import tempfile

TOP = os.path.dirname(os.path.dirname(os.path.abspath(__file__)))
sys.path.insert(0, f"{TOP}/tools")

from counted import EMULATOR, compiled, seconds, written
from elf import built_loader
from loops import HASH, HISTOGRAM, MATRIX, SEARCH, SORT, SUM

TIMES = 200

# Does the loop so often, and has its last result.
AGAIN = f"""main() {{
  bits64 i, r;
again:
  r = once();
  i = i + 1;
  if i < {TIMES} {{ goto again; }}
  return (r);
}}
"""


def loaded(folder, program, unit):
    """The path of the ELF file of a unit."""
    image, path = f"{folder}/a.image", f"{folder}/a.elf"
    subprocess.run([program, "build", written(folder, "a.cmm", unit), "-o", image], check=True)
    subprocess.run([program, "elf", image, "-o", path], check=True)
    return path


def result_of(command):
    """The result that a run of the loader ends with."""
    line = subprocess.run(command, stdout=subprocess.DEVNULL, stderr=subprocess.PIPE, check=True).stderr.decode()
    assert line.startswith("result "), line
    return int(line.split()[1])


def main(program="crates/cmm/out/cmm"):
    print("| loop | `cmm run` | loaded, in QEMU | gcc -O0, in QEMU | gcc -O1, in QEMU |\n|---|---|---|---|---|")
    with tempfile.TemporaryDirectory() as folder:
        loader = built_loader(folder)
        nothing, _ = seconds([program, "exec", written(folder, "a.cmm", SUM)])
        start, _ = seconds([EMULATOR, loader, loaded(folder, program, SUM)])
        for what, unit, data, body in (MATRIX, SEARCH, HASH, SORT, HISTOGRAM):
            source = f"typedef unsigned long u64;\n{data}\nu64 run(void)\n{{\n  {body}\n}}\n"
            run, _ = seconds([program, "exec", written(folder, "a.cmm", unit)])
            often = [EMULATOR, loader, loaded(folder, program, unit.replace("main() {", "once() {") + AGAIN)]
            took, _ = seconds(often)
            times = [run - nothing, (took - start) / TIMES]
            for level in ("-O0", "-O1"):
                built = [EMULATOR, compiled(folder, source, level, TIMES)]
                in_c = subprocess.run(built, stdout=subprocess.PIPE, check=True).stdout
                assert int.from_bytes(in_c, "little") == result_of(often), (what, level)
                took, _ = seconds(built)
                times.append((took - start) / TIMES)
            print(f"| {what} | {' | '.join(f'{time * 1e3:.3f} ms' for time in times)} |", flush=True)


if __name__ == "__main__":
    main(*sys.argv[1:])
