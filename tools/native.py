#!/usr/bin/env python3
"""The run-time interface in C (runtime/) beside what is proved: native.py PROGRAM [PART ..], or native.py PROGRAM PART FIRST LAST [PROCESSES [MINUTES]]

The parts, of which the last two have seeds:

    rows        each case of rows/ with a client, and each example with a script: tools/native_client.c, by the interface alone, has to do under `qemu-riscv64` what `PROGRAM run`
                does with the same image, script and input: the same output, log and exit status
    examples    examples/native/, by its Makefile, has to print what stands there
    random      the same as `rows` of programs and scripts that chance has changed, as tools/fuzz.py does: a case for each seed
    tables      images and snapshots that chance has changed, their tables above all: tools/snapshot_client.c, which a sanitizer watches, has to write the walk that `PROGRAM walk`
                writes, and to answer the yield as tools/second_reading.py does, the state afterwards included: a case for each seed

Without a part all are done, with a few seeds, as tools/elf.py does. Runs that come to a trap or to the limit on instructions are not compared: natively there is no such limit, and what traps ends by
a signal or goes on. Where a tool is not installed, a line says so and its parts are left out. The last line is `N passed, M failed`.
"""
import collections
import glob
import os
import random
import shutil
import struct
import subprocess
import sys
import tempfile

import fuzz
import rows
from image_reading import CALLEE_SAVES, read_image, read_snapshot, snapshot_bytes
from migrating import image_bytes
from plain_client import BadScript, Client, read_script
from plain_machine import Break, Machine, Over
from second_reading import walk_answer

TOP = os.path.dirname(os.path.dirname(os.path.abspath(__file__)))
RUNTIME, TOOLS = f"{TOP}/runtime", f"{TOP}/tools"
COMPILER, EMULATOR = "riscv64-linux-gnu-gcc", "qemu-riscv64"
FLAGS = "-std=c11 -march=rv64imzifencei -mabi=lp64 -mno-relax -mcmodel=medany -O2 -static -nostdlib -ffreestanding -fno-builtin -fno-pic -no-pie -Wall -Wextra -Werror".split()
# (the client stands above all that it maps)
FLAGS += ["-Wl,-Ttext-segment=0x200000000,-z,separate-code"]
WATCHED = "-std=c11 -g -O1 -Wall -Wextra -Werror -fsanitize=address,undefined -fno-sanitize-recover=all".split()
PLAIN = [f"{RUNTIME}/cmm_runtime.c", f"{RUNTIME}/cmm_tables.c"]
NATIVE = [*PLAIN, f"{RUNTIME}/cmm_native.c", f"{RUNTIME}/cmm_enter.S", f"{RUNTIME}/cmm_start.S"]
STEP_LIMIT, TRAP, BAD_SCRIPT, TORN = 7, 8, 14, 15
# How many seeds are done where none are given, for at most how many minutes.
RANDOM, TABLES, MINUTES = 400, 1000, 0.4


def run(*command, given=b""):
    return subprocess.run(command, input=given, stdout=subprocess.PIPE, stderr=subprocess.PIPE, timeout=300)


def built_client(folder):
    """The client that reads scripts, built into this folder."""
    path = f"{folder}/native_client"
    subprocess.run([COMPILER, *FLAGS, "-o", path, f"{TOOLS}/native_client.c", f"{TOOLS}/client_script.c", *NATIVE], check=True)
    return path


def built_watched(folder):
    """The client over snapshots, with a sanitizer; None where the compiler has none."""
    path = f"{folder}/snapshot_client"
    built = run("cc", *WATCHED, "-o", path, f"{TOOLS}/snapshot_client.c", f"{TOOLS}/client_script.c", *PLAIN)
    if built.returncode and b"san" not in built.stderr:
        sys.exit(built.stderr.decode())
    return None if built.returncode else path


# ---- runs


def fault_of_run(program, client, words, given, limit=()):
    """How a native run differs from that of the program with the same words, and a limit on instructions, if it does, and the exit status of the program's."""
    wanted = run(program, "run", *words, *limit, given=given)
    if wanted.returncode in (STEP_LIMIT, TRAP):
        return None, wanted.returncode
    found = run(EMULATOR, client, *words, given=given)
    if (found.returncode, found.stdout, found.stderr) == (wanted.returncode, wanted.stdout, wanted.stderr):
        return None, wanted.returncode
    return f"natively {fuzz.short((found.returncode, found.stdout, found.stderr))}; `run` gives {fuzz.short((wanted.returncode, wanted.stdout, wanted.stderr))}", wanted.returncode


def put(files):
    """Makes these files the only ones of the folder in which this runs."""
    for name in os.listdir("."):
        os.remove(name)
    for name, content in files.items():
        with open(name, "wb") as file:
            file.write(content)


def second_version(program, image):
    """Whether an image in a file has version 2, or has been migrated to it; one of version 1 that is none, or cannot be migrated, is not run natively."""
    with open(image, "rb") as file:
        return file.read(8) != b"CMMI\x01\0\0\0" or run(program, "migrate", image, "-o", image).returncode == 0


def options_of(words, names):
    """Those options of a call that have these names."""
    found = []
    for option in names:
        found += [option, words[words.index(option) + 1]] if option in words[:-1] else []
    return found


def with_clients():
    """The cases of rows/ whose client answers a run that nothing from outside makes fail."""
    for path in sorted(glob.glob(f"{rows.ROWS}/*.txt")):
        for case in rows.cases_of(path):
            words = case.words.split()
            if words[:1] in (["exec"], ["run"]) and "--client" in words and not (case.failing or case.calls or case.room or case.longest or "/dev/stdin" in words):
                yield case


def faults_of_row(program, client, runner, case):
    """What is wrong with the native runs of a case, a line each, None where nothing is."""
    words, given = case.words.split(), runner.contents(case, case.input)[0]
    names, _ = rows.parts_of(words[1:])
    for files, _, _ in runner.runs(case):
        put(files)
        image = names[0]
        if words[0] == "exec":
            image = "built image"
            if run(program, "build", *names, "-o", image).returncode:
                continue
        elif image in files and not second_version(program, image):
            continue
        yield fault_of_run(program, client, [image, *options_of(words, ("--client", "--stack"))], given, options_of(words, ("--steps",)))[0]


def rows_faults(program, client):
    """What is wrong with the runs of rows and of examples with scripts."""
    runner = rows.Runner(program)
    for case in with_clients():
        for fault in faults_of_row(program, client, runner, case):
            yield fault and f"{case.place}: {case.title}: {fault}"
    for unit, script in SCRIPTED.items():
        put({})
        run(program, "build", f"{TOP}/examples/{unit}.cmm", "-o", "i")
        fault, _ = fault_of_run(program, client, ["i", "--client", f"{TOP}/examples/{script}.script"], b"")
        yield fault and f"examples/{unit}.cmm: {fault}"


# The examples that have a client, and its script.
SCRIPTED = {"exception": "handler", "stack": "walk", "change": "change", "squares": "squares", "search": "search"}


def examples_faults(program, _):
    """What is wrong with examples/native/, if anything is."""
    made = run("make", "-s", "-C", f"{TOP}/examples/native", f"CMM={program}", f"OUT={os.getcwd()}/out", "check")
    yield made.returncode and f"examples/native: {made.stdout.decode()}{made.stderr.decode()}"


def is_script(content):
    try:
        read_script(content)
    except BadScript:
        return False
    return True


class RandomRuns(fuzz.Cases):
    """Programs and scripts that chance has changed. `client` is the one that was built."""

    client = None

    def drawn(self, chance):
        """Units and a script that chance has changed, of which the first may be built and the second is a script."""
        while True:
            change = chance.choice((fuzz.with_changed_unit, fuzz.with_changed_script, fuzz.with_changed_script))
            units, script = change(chance, self.scripted)
            put({**dict(units), "c": script})
            if is_script(script) and run(self.folder.program, "build", *(name for name, _ in units), "-o", "i").returncode == 0:
                return

    def run(self, seed):
        """Runs the case of a seed, and answers its sort and status."""
        chance = random.Random(seed)
        self.drawn(chance)
        stack, given = chance.choice((64, 512, 4096, 16384)), bytes(chance.randrange(256) for _ in range(chance.choice((0, 1, 3, 8))))
        fault, status = fault_of_run(self.folder.program, self.client, ["i", "--client", "c", "--stack", str(stack)], given, ("--steps", "10000"))
        if fault:
            raise fuzz.Fault(fault)
        return "random", status


# ---- snapshots


def hostile_tables(chance, image):
    """An image of version 2 in which a few numbers of its tables have others in their place, most of them such as they may have."""
    read = read_image(image)
    for _ in range(chance.choice((1, 1, 2, 3, 6))):
        site = chance.choice(list(read.sites.values()))
        procedure = chance.choice((site.procedure, site.procedure, chance.choice(read.procedures)))
        offset = chance.randrange(max(1, procedure.frame // 8)) * 8 + chance.choice((0, 0, 0, 4, 1))
        sort = chance.randrange(10)
        if sort == 0:
            procedure.frame = chance.choice((16, procedure.frame + 16, procedure.frame * 2, max(16, procedure.frame - 16), 1024, 2**28))
        elif sort == 1:
            procedure.return_at = offset
        elif sort == 2:
            procedure.saved = [(register, chance.choice((offset, chance.randrange(procedure.frame + 1)))) for register in CALLEE_SAVES if chance.randrange(2)]
        elif sort == 3 and procedure.variables:
            at, place = chance.randrange(len(procedure.variables)), chance.choice((("register", chance.choice(CALLEE_SAVES)), ("frame", offset)))
            for one in read.sites.values():
                if one.procedure is procedure:
                    one.locations[at] = place
        elif sort == 4 and procedure.continuations:
            chance.choice(procedure.continuations).pair = offset
        elif sort == 5 and site.procedure.continuations:
            others = site.procedure.continuations
            site.cuts, site.unwinds = [chance.choice(others)], [(chance.choice(others), read.start)]
        elif sort == 6:
            site.yielded, site.never_returns = chance.choice((0, 1, 3, 64, 255)), bool(chance.randrange(2))
        elif sort == 7:
            site.results = [chance.choice((8, 16, 32, 64)) for _ in range(chance.choice((0, 1, 2)))]
        elif sort == 8:
            site.spans = sorted({chance.randrange(9): chance.randrange(9) for _ in range(3)}.items())
        else:
            site.procedure = chance.choice(read.procedures)
            site.locations = [None] * len(site.procedure.variables)
            site.alternates, site.unwinds, site.cuts = [], [], []
    return image_bytes(read, 2)


def answered(image, saved, script):
    """What has to come of the walk and of the yield: two statuses, with a text each, and the snapshot afterwards."""
    walked = walk_answer(image, saved)
    if walked.status not in (0, TORN):
        return walked.status, walked.output + walked.log, 0, b"", b""
    read = read_image(image)
    machine = Machine.of_snapshot(read, read_snapshot(read, saved))
    status, end = 0, b""
    try:
        Client(read_script(script))(machine)
    except BadScript as bad:
        status, end = BAD_SCRIPT, b"bad script %d line %d\n" % (bad.rule, bad.line)
    except Over as over:
        status = over.status
    except Break as broken:
        status, end = TORN, b"torn %016x %016x\n" % (broken.frame, broken.address)
    return walked.status, walked.output + walked.log, status, bytes(machine.log) + end, snapshot_bytes(read, machine.snapshot())


class Snapshots(fuzz.Cases):
    """Images and snapshots that chance has changed, in one process of the watched client, which `client` is."""

    client = None

    def __init__(self, program):
        super().__init__(program)
        self.said = tempfile.TemporaryFile()
        self.process = None

    def started(self):
        """The process of the client, which is begun anew where a fault has ended it."""
        if self.process is None or self.process.poll() is not None:
            self.process = subprocess.Popen([self.client], stdin=subprocess.PIPE, stdout=subprocess.PIPE, stderr=self.said)
        return self.process

    def found(self, image, saved, script):
        """What comes of the client, in the form of `answered`."""
        process = self.started()
        try:
            process.stdin.write(struct.pack("<III", len(image), len(saved), len(script)) + image + saved + script)
            process.stdin.flush()
            walk_status, walk_length, status, log_length, length = struct.unpack("<5I", process.stdout.read(20))
        except (BrokenPipeError, struct.error):
            process.wait()
            self.said.seek(0)
            told = self.said.read()[-1500:].decode(errors="replace")
            raise fuzz.Fault(f"the client ended: {told}") from None
        return walk_status, process.stdout.read(walk_length), status, process.stdout.read(log_length), process.stdout.read(length)

    def run(self, seed):
        """Runs the case of a seed, and answers its sort and status."""
        chance = random.Random(seed)
        (_, image), saved = self.one_of(chance, self.stopped_of)
        sort = chance.choice(("tables", "tables", "bytes", "snapshot"))
        if sort == "tables":
            image = hostile_tables(chance, image)
        elif sort == "bytes":
            front = 64 + sum(struct.unpack("<QQ", image[8:24]))
            image = image[:front] + fuzz.changed_bytes(chance, image[front:])
        saved = image[:64].join((saved[:8], saved[72:]))
        if sort == "snapshot" or chance.randrange(4) == 0:
            saved = fuzz.changed_bytes(chance, saved, chance.choice((120, 344, len(saved))))
            saved = saved[:-1024] + fuzz.changed_bytes(chance, saved[-1024:])
        script = chance.choice(self.scripted)[1]
        script = chance.choice((script, fuzz.changed_script(chance, script), b"other\n" + b"\n".join(chance.choices(fuzz.COMMANDS[:-3], k=8))))
        fuzz.same("the interface in C, and the second reading", self.found(image, saved, script), answered(image, saved, script))
        self.folder.put({"i": image, "s": saved})
        walked = self.folder.call(["walk", "i", "s"])
        fuzz.same("walk, and the second reading", (walked[0], walked[1] + walked[2]), answered(image, saved, script)[:2])
        return sort, walked[0]


# ---- all of it


def seeds_done(name, cases_of, program, first, last, processes=2, minutes=float("inf")):
    """Runs the cases of seeds, and answers how many passed and how many did not."""
    counts, faults = fuzz.shared(cases_of, program, first, last, processes, minutes)
    by_status = collections.Counter()
    for (_, status), n in counts.items():
        by_status[fuzz.TOLD[status]] += n
    print(f"{name}: {sum(counts.values())} cases", *(f"{status} {n}" for status, n in sorted(by_status.items())), sep=", ", flush=True)
    return sum(counts.values()), len(faults)


def list_done(program, folder, client, faults_of):
    """Runs the cases of a list, and answers how many passed and how many did not."""
    os.makedirs(f"{folder}/files", exist_ok=True)
    os.chdir(f"{folder}/files")
    passed = failed = 0
    for fault in faults_of(program, client):
        if fault:
            print(f"native: {fault}", flush=True)
        failed, passed = failed + bool(fault), passed + (not fault)
    os.chdir("/")
    return passed, failed


def all_done(program, parts=("rows", "examples", "random", "tables"), seeds=()):
    """Runs these parts, where their tools are installed, and answers how many cases passed and how many did not."""
    found, program = [], os.path.abspath(program)
    missing = [tool for tool in (COMPILER, EMULATOR, "make") if not shutil.which(tool)]
    with tempfile.TemporaryDirectory(prefix="native-") as folder:
        if missing:
            print(f"native: {missing[0]} is not installed, so no program is run natively")
            parts = [part for part in parts if part == "tables"]
        client = RandomRuns.client = None if missing else built_client(folder)
        Snapshots.client = built_watched(folder) if "tables" in parts else None
        lists = {"rows": rows_faults, "examples": examples_faults}
        found += [list_done(program, folder, client, lists[part]) for part in parts if part in lists]
        if "random" in parts:
            found.append(seeds_done("random", RandomRuns, program, *(seeds or (1, RANDOM, 2, MINUTES))))
        if Snapshots.client:
            found.append(seeds_done("tables", Snapshots, program, *(seeds or (1, TABLES, 2, MINUTES))))
        elif "tables" in parts:
            print("native: cc has no sanitizer, so no broken tables are tried")
    return sum(passed for passed, _ in found), sum(failed for _, failed in found)


def main(program, *words):
    if words[:1] in (("random",), ("tables",)) and len(words) > 1:
        seeds = [int(word) for word in words[1:4]] + [float(word) for word in words[4:5]]
        passed, failed = all_done(program, words[:1], seeds)
    else:
        passed, failed = all_done(program, *([words] if words else []))
    print(f"{passed} passed, {failed} failed")
    return 1 if failed else 0


if __name__ == "__main__":
    sys.exit(main(*sys.argv[1:]) if len(sys.argv) > 1 else __doc__)
