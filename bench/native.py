#!/usr/bin/env python3
"""What a yield with a walk of 100 frames costs natively under QEMU, by the run-time interface in C, beside `run`; and how many frames the walker goes over in a second, over a
snapshot on this machine, beside glibc's `backtrace`.

Usage: bench/native.py [PROGRAM], at the top of the repository; PROGRAM is the built `cmm`, crates/cmm/out/cmm by default, which `rt ci` leaves there.

The program and the script are those of bench/yields.py. The log goes to a file. The time of a run that yields once is taken off.
"""
import os
import subprocess
import sys
import tempfile
import time

TOP = os.path.dirname(os.path.dirname(os.path.abspath(__file__)))
sys.path.insert(0, f"{TOP}/tools")

from native import EMULATOR, PLAIN, built_client
from yields import DEEP, FLAT, SCRIPT


def seconds(folder, command):
    """How long a command takes."""
    with open(f"{folder}/log", "wb") as log:
        begun = time.monotonic()
        subprocess.run(command, stdin=subprocess.DEVNULL, stdout=subprocess.DEVNULL, stderr=log, check=True)
        return time.monotonic() - begun


def built(program, folder, unit):
    """The image of a unit."""
    with open(f"{folder}/a.cmm", "w", encoding="utf-8") as file:
        file.write(unit)
    subprocess.run([program, "build", f"{folder}/a.cmm", "-o", f"{folder}/i"], check=True)
    return f"{folder}/i"


def main(program="crates/cmm/out/cmm"):
    with tempfile.TemporaryDirectory() as folder:
        client = built_client(folder)
        with open(f"{folder}/s", "w", encoding="utf-8") as file:
            file.write(SCRIPT)
        ways = {"`run`": ([program, "run"], ["--steps", "1000000000000"]), "natively, in QEMU": ([EMULATOR, client], [])}
        for name, unit, count in (("return", FLAT, 100_000), ("list of 100 frames, and return", DEEP, 2_000)):
            for way, (front, end) in ways.items():
                times = [seconds(folder, [*front, built(program, folder, unit.format(count=n)), "--client", f"{folder}/s", *end]) for n in (1, count)]
                print(f"{name}, {way}: {(times[1] - times[0]) / count * 1e6:,.2f} us a yield", flush=True)
        image = built(program, folder, DEEP.format(count=1))
        subprocess.run([program, "run", image, "--save", f"{folder}/snapshot"], stderr=subprocess.DEVNULL, check=False)
        subprocess.run(["cc", "-O2", "-fno-omit-frame-pointer", "-o", f"{folder}/walked", f"{TOP}/bench/walked_frames.c", *PLAIN], check=True)
        subprocess.run([f"{folder}/walked", image, f"{folder}/snapshot"], check=True)


if __name__ == "__main__":
    main(*sys.argv[1:])
