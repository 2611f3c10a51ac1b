#!/usr/bin/env python3
"""Programs of examples/ as ELF files, by the real tools of RISC-V, and native runs by the run-time interface in C: elf.py [PROGRAM].

PROGRAM builds the image of each program, crates/cmm/out/cmm where it is not given, which `rt ci` leaves there, and writes the ELF file of it by `elf`. Then

- its bytes must be those that are written here by the table of docs/FORMATS.md;
- `readelf -hl` must read of it the entry and the two segments of the image, and `PROGRAM segments` must tell the same;
- `objdump` must read each word of its code as an instruction of RV64IM;
- the loader of tools/start/, built here, must do with it under `qemu-riscv64` what `PROGRAM run` does with the image: the same output, line and exit status.

Where one of the tools is not installed the script says so, and no ELF file is tried. Then all of tools/native.py is done. The last line is `N passed, M failed`.
"""
import os
import re
import shutil
import struct
import subprocess
import sys
import tempfile

from riscv_files import BRANCHES, IMMEDIATE, LOADS, REGISTER, SHIFTS, STORES

TOP = os.path.dirname(os.path.dirname(os.path.abspath(__file__)))
COMPILER, READELF, OBJDUMP, EMULATOR = "riscv64-linux-gnu-gcc", "riscv64-linux-gnu-readelf", "riscv64-linux-gnu-objdump", "qemu-riscv64"
FLAGS = "-march=rv64imzifencei -mabi=lp64 -mno-relax -mcmodel=medany -O2 -static -nostdlib -ffreestanding -fno-builtin -fno-pic -no-pie -Wall -Wextra".split()
# (the loader stands above all that it maps)
FLAGS += ["-Wl,-Ttext-segment=0x200000000"]

CODE_BASE, DATA_BASE, PAGE = 0x10000, 0x40000000, 4096
NAMES = set(REGISTER + IMMEDIATE + list(SHIFTS) + BRANCHES + LOADS + STORES + "lui auipc jal jalr ecall ebreak".split())

# Programs that end by themselves, with their input.
EXAMPLES = {
    "alternate": b"",
    "bytes": b"hello world\n12 34\n",
    "coroutine": b"",
    "cut": b"",
    "difference": b"",
    "generator": b"",
    "interpreter": b"",
    "loop": b"",
    "recursion": b"",
    "stackdata": b"",
}


def upward(n):
    """The least multiple of a page that is not below n."""
    return (n + PAGE - 1) // PAGE * PAGE


def parts(image):
    """The code, the data and the start of an image."""
    code, data, start = struct.unpack("<QQQ", image[8:32])
    return image[64 : 64 + code], image[64 + code : 64 + code + data], start


def elf_file(code, data, start):
    """The bytes of the ELF file, by the table of docs/FORMATS.md."""
    at = upward(PAGE + len(code))
    header = b"\x7fELF\x02\x01\x01" + bytes(9) + struct.pack("<HHIQQQIHHHHHH", 2, 243, 1, start, 64, 0, 0, 64, 56, 2, 0, 0, 0)
    segments = [(5, PAGE, CODE_BASE, len(code)), (6, at, DATA_BASE, len(data))]
    for flags, offset, address, length in segments:
        header += struct.pack("<IIQQQQQQ", 1, flags, offset, address, address, length, length, PAGE)
    return (header.ljust(PAGE, b"\0") + code).ljust(at, b"\0") + data


def run(*command, given=b""):
    return subprocess.run(command, input=given, stdout=subprocess.PIPE, stderr=subprocess.PIPE, timeout=120)


def built_loader(folder):
    """The loader, built into this folder."""
    start = f"{TOP}/tools/start"
    subprocess.run([COMPILER, *FLAGS, "-o", f"{folder}/start", f"{start}/start.c", f"{start}/enter.S"], check=True)
    return f"{folder}/start"


def file_fault(path, code, data, start):
    """Where `elf` has not written the bytes of the table, if anywhere."""
    with open(path, "rb") as file:
        found = file.read()
    wanted = elf_file(code, data, start)
    if found == wanted:
        return None
    apart = [at for at, (a, b) in enumerate(zip(found, wanted)) if a != b] or [min(len(found), len(wanted))]
    return f"elf writes {len(found)} bytes, by the table there are {len(wanted)}, and the first that differs is at {apart[0]}"


def headers_fault(program, path, code, data, start):
    """What `readelf` or `segments` reads other than the image has, if anything."""
    told = run(program, "segments", path)
    line = f"code {len(code)} data {len(data)} start {start:016x}\n".encode()
    if (told.returncode, told.stdout, told.stderr) != (0, b"", line):
        return f"segments answers {told.returncode}, {told.stdout} and {told.stderr}, and not {line}"
    text = run(READELF, "-hlW", path).stdout.decode()
    found = [
        *re.findall(r"^ +(?:Class|Type|Machine): +(\S+)", text, re.M),
        *re.findall(r"Entry point address: +(\S+)", text),
        *re.findall(r"^ +LOAD +(\S+) (\S+) (\S+) (\S+) (\S+) (R E|RW ) (\S+)", text, re.M),
    ]
    wanted = ["ELF64", "EXEC", "RISC-V", hex(start)]
    for flags, offset, address, length in [("R E", PAGE, CODE_BASE, len(code)), ("RW ", upward(PAGE + len(code)), DATA_BASE, len(data))]:
        wanted.append((f"0x{offset:06x}", f"0x{address:016x}", f"0x{address:016x}", f"0x{length:06x}", f"0x{length:06x}", flags, "0x1000"))
    return None if found == wanted else f"readelf has {found}, and not {wanted}"


def code_fault(folder, path, code):
    """The first word of the code that `objdump` reads as no instruction of RV64IM, if there is one. (It takes sections, and the file has none.)"""
    with open(path, "rb") as file:
        file.seek(PAGE)
        loaded = file.read(len(code))
    with open(f"{folder}/code", "wb") as file:
        file.write(loaded)
    text = run(OBJDUMP, "-D", "-z", "-b", "binary", "-m", "riscv:rv64", "-M", "no-aliases", f"--adjust-vma={CODE_BASE:#x}", f"{folder}/code").stdout.decode()
    lines = re.findall(r"^ +([0-9a-f]+):\t([0-9a-f]+) +\t(\S+)", text, re.M)
    words = struct.unpack(f"<{len(code) // 4}I", code)
    if [int(word, 16) for _, word, _ in lines] != list(words):
        return "objdump reads other words"
    strange = [line for line in lines if line[2] not in NAMES]
    return f"objdump reads {strange[0]}" if strange else None


def run_fault(program, image, loader, path, given):
    """How the run under QEMU differs from that of the image, if it does."""
    wanted, found = run(program, "run", image, given=given), run(EMULATOR, loader, path, given=given)
    if (wanted.returncode, wanted.stdout, wanted.stderr) == (found.returncode, found.stdout, found.stderr):
        return None
    return f"under QEMU {found.returncode}, {found.stdout} and {found.stderr}; the image gives {wanted.returncode}, {wanted.stdout} and {wanted.stderr}"


def faults(folder, program, loader, name, given):
    """What is wrong with one example, if anything is."""
    image, path = f"{folder}/{name}.image", f"{folder}/{name}.elf"
    built = run(program, "build", f"{TOP}/examples/{name}.cmm", "-o", image)
    if built.returncode:
        return [f"not built: {built.stderr}"]
    with open(image, "rb") as file:
        code, data, start = parts(file.read())
    written = run(program, "elf", image, "-o", path)
    if (written.returncode, written.stdout, written.stderr) != (0, b"", b""):
        return [f"elf answers {written.returncode}, {written.stdout} and {written.stderr}"]
    found = [
        file_fault(path, code, data, start),
        headers_fault(program, path, code, data, start),
        code_fault(folder, path, code),
        run_fault(program, image, loader, path, given),
    ]
    return [fault for fault in found if fault]


def elf_files(program):
    """How many examples passed as ELF files, and how many did not."""
    missing = [tool for tool in (COMPILER, READELF, OBJDUMP, EMULATOR) if not shutil.which(tool)]
    if missing:
        print(f"elf: {missing[0]} is not installed, so no ELF file is run")
        return 0, 0
    failed = 0
    with tempfile.TemporaryDirectory() as folder:
        loader = built_loader(folder)
        for name, given in EXAMPLES.items():
            found = faults(folder, program, loader, name, given)
            failed += bool(found)
            for fault in found:
                print(f"elf: {name}: {fault}")
    return len(EXAMPLES) - failed, failed


def main(program=f"{TOP}/crates/cmm/out/cmm"):
    # (that module takes the table above by way of rows.py)
    import native

    parts = [elf_files(program), native.all_done(program)]
    failed = sum(failed for _, failed in parts)
    print(f"{sum(passed for passed, _ in parts)} passed, {failed} failed")
    return 1 if failed else 0


if __name__ == "__main__":
    sys.exit(main(*sys.argv[1:]))
