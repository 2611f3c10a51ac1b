#!/usr/bin/env python3
"""Runs a built program on tables of cases, most of them images, snapshots and scripts that are cut or changed: tables.py PROGRAM [EVERY]

    images      each proper front of the image of DIVISION, and that image with a byte more; the same of an image of version 1 that is kept in rows/version_1/
    snapshots   each proper front of the snapshot that the client of the former leaves, and that snapshot with a byte more; a snapshot of version 1 in both versions
    bytes       the image of SUM with each single byte set to 0 and to 255, run for at most 10,000 instructions; the same of one of version 1 that is kept, and of the one
                that tools/image_bytes.py writes in version 2
    migration   `migrate` of an image of version 1 that is kept, and of the one that tools/image_bytes.py writes: each proper front, a byte more, and each single byte set
                to 0 and to 255
    scripts     each front of five scripts, with the unit that each of them is for
    steps       CALLS and a script for it, `exec` and `build` with `run`, with each limit on instructions from 0 to 400
    registers   the image of ELEVEN: its eleven variables that are live over a call are in eleven registers

With EVERY only one in so many of the runs is done. A front must be refused as one that ends inside a field; all else must come to what the second reading says, by
status, output, log and files. The last line is `N runs, M failed`.
"""

import concurrent.futures
import os
import sys

import rows
from image_bytes import twin
from image_reading import CALLEE_SAVES, Broken, read_image, read_snapshot
from second_reading import migrate_answer, run_answer, walk_answer

STEPS = 10_000
# The least stack that the frame of DIVISION's main leaves room for, so that its snapshot has few bytes.
STACK = 256

SUM = b"export main; main() { return (2 + 3); }"
DIVISION = b"export main; main() { bits64 a, q; a = 10; q = %%divu(a, 0); return (q + a); }"
SPANS = b"export main; main() { bits64 r; span 1 10 { span 1 11 { span 2 20 { r = q(); } } } r = q(); return (r); } q() { yield(0); return (0); }"
CALLS = b"""export main; main() { bits64 y, z; y = 5; z = mid(y); return (z + y); }
mid("count" bits64 n) { bits64 w, u, d; d = n; u = n + 2; n = leaf(d) also unwinds to k; return (n + w); continuation k(d): return (u + d); }
leaf(bits64 a) { yield(7); return (a); }"""
CUTS = b"""export main; export kept; section "data" { align 8; kept: bits64[2]; }
main() { bits64 n; n = ask(k) also cuts to k; return (n + bits64[kept + 8]); continuation k(n): return (n + bits64[kept + 8] + 100); }
ask(bits64 k) { bits8 b; b = 1::bits8; span 3 30 { yield(5, k) also aborts; } yield(16, k) also aborts; return (%zx64(b)); }"""

ELEVEN = b"""export main; main() { bits64 r; r = d(7); return (r); }
d(bits64 j) { bits64 a1, a2, a3, a4, a5, a6, a7, a8, a9, b1, b2, r; a1, a2, a3, a4, a5, a6, a7, a8, a9, b1, b2 = j, j, j, j, j, j, j, j, j, j, j; r = e(j) also aborts;
return (a1 + a2 + a3 + a4 + a5 + a6 + a7 + a8 + a9 + b1 + b2 + r); }
e(bits64 j) { return (j); }"""

SCRIPTS = [
    (SPANS, b"other\nnext\ndesc 1\ndesc 2\ndesc 3\nreturn 0\n"),
    (CALLS, b"# the walk\nother\nlist\nnext\n\nunwind 0 4\n"),
    (CALLS, b"at 0x7\nnext\nnext\nnext\nvar 2\nset 0 $1\ncut 5\npoke d 0 1\nset 0 0x64\nreturn 0"),
    (CALLS, b"other\n\tnext\nunwind 1 4\nunwind 0\nset 0 1\nunwind  0  4\nat 8\nstop\nat 08\n"),
    (CUTS, b"at 5\nseek 3 30\nvar 1\nset 1 256\nset 1 0xff\npoke kept 8 $0\npoke kept 16 1\nreturn 0\nother\nyoungest\nvar 0\ncut 8 1\ncut $1 300\n"),
]


def difference(found, wanted, files):
    """How what came differs from what must come, with the files that must be there, or None."""
    if (found.status, found.output, found.log) != (wanted.status, wanted.output, wanted.log):
        return f"answered {found.status} {found.output[-200:]!r} {found.log[-200:]!r}, and not {wanted.status} {wanted.output[-200:]!r} {wanted.log[-200:]!r}"
    if found.files != files:
        return f"left the files {sorted(found.files)}, or what is in them, otherwise"
    return None


class Table:
    """Runs of a program, some at once."""

    def __init__(self, program, every, pool):
        self.program, self.every, self.pool = program, every, pool
        self.count, self.waiting = 0, []

    def build(self, unit):
        made = rows.call(self.program, ["build", "a.cmm", "-o", "i"], {"a.cmm": unit})
        if made.status:
            sys.exit(f"no image is built: {made.log.decode(errors='replace')}")
        return made.files["i"]

    def add(self, title, words, files, answer, *inputs):
        self.count += 1
        if self.count % self.every:
            return
        self.waiting.append((title, self.pool.submit(self.fault_of, words, files, answer, *inputs)))

    def fault_of(self, words, files, answer, *inputs):
        wanted = answer(*inputs)
        made = {"j": wanted.saved} if answer == migrate_answer and wanted.saved else {}
        return difference(rows.call(self.program, words, files), wanted, {**files, **made})

    def faults(self):
        """What is wrong with the runs, each with its title."""
        return [f"{title}: {fault}" for title, run in self.waiting if (fault := run.result())]


def cut_inside(read, content, rule):
    """Stops where a front of a file does not end inside a field, by the second reading."""
    try:
        read(content)
    except Broken as broken:
        if broken.rule == rule:
            return
    sys.exit(f"the first {len(content)} bytes do not break rule {rule} by the second reading")


def kept(name):
    """An image of version 1."""
    return rows.of_digits(f"version_1/{name}.hex")


def images_and_snapshots(table):
    image, first = table.build(DIVISION), kept("places")
    cut_image(table, "image", ["run", "i"], image, run_answer)
    cut_image(table, "image of version 1", ["run", "i"], first, run_answer)
    cut_snapshot(table, image, snapshot_of(table, image))
    saved = snapshot_of(table, first)
    for told, content in (("version 1", first), ("version 2 and a snapshot of version 1", image)):
        table.add(f"walk of {told}", ["walk", "i", "s"], {"i": content, "s": saved}, walk_answer, content, saved)


def snapshot_of(table, image):
    """The snapshot that a run of an image leaves."""
    whole = run_answer(image, stack=STACK)
    made = rows.call(table.program, ["run", "i", "--save", "s", "--stack", str(STACK)], {"i": image})
    if fault := difference(made, whole, {"i": image, "s": whole.saved}):
        sys.exit(f"the snapshot: {fault}")
    return whole.saved


def cut_image(table, told, words, image, answer):
    """Each front of an image, and a byte more."""
    for end in range(len(image)):
        cut_inside(read_image, image[:end], 52)
        table.add(f"{told} cut at {end}", words, {"i": image[:end]}, answer, image[:end])
    table.add(f"{told} and a byte", words, {"i": image + b"\0"}, answer, image + b"\0")


def cut_snapshot(table, image, saved):
    """Each front of a snapshot, all of it, and a byte more."""
    read = read_image(image)
    for end in range(len(saved) + 1):
        if end < len(saved):
            cut_inside(lambda content: read_snapshot(read, content), saved[:end], 70)
        table.add(f"snapshot cut at {end}", ["walk", "i", "s"], {"i": image, "s": saved[:end]}, walk_answer, image, saved[:end])
    table.add("snapshot and a byte", ["walk", "i", "s"], {"i": image, "s": saved + b"\0"}, walk_answer, image, saved + b"\0")


def changed_bytes(table):
    for told, image in (("image", table.build(SUM)), ("image of version 1", kept("sum")), ("image of sites", bytes(twin(2).out))):
        for at, value, changed in each_byte(image):
            table.add(f"{told}, byte {at} is {value}", ["run", "i", "--steps", str(STEPS)], {"i": changed}, run_answer, changed, b"", b"", STEPS)


def each_byte(image):
    """The images with one byte set to 0 or to 255, and which byte that is."""
    for at in range(len(image)):
        for value in (0, 255):
            yield at, value, image[:at] + bytes([value]) + image[at + 1 :]


def migrations(table):
    words = ["migrate", "i", "-o", "j"]
    for told, image in (("migration", kept("places")), ("migration of sites", bytes(twin(1).out))):
        table.add(told, words, {"i": image}, migrate_answer, image)
        cut_image(table, told, words, image, migrate_answer)
        for at, value, changed in each_byte(image):
            table.add(f"{told}, byte {at} is {value}", words, {"i": changed}, migrate_answer, changed)


def cut_scripts(table):
    for number, (unit, script) in enumerate(SCRIPTS, 1):
        image = table.build(unit)
        for end in range(len(script) + 1):
            files = {"i": image, "c": script[:end]}
            table.add(f"script {number} cut at {end}", ["run", "i", "--client", "c"], files, run_answer, image, script[:end])


def limits_on_steps(table):
    image, script = table.build(CALLS), SCRIPTS[1][1]
    for steps in range(401):
        limits, inputs = ["--client", "c", "--steps", str(steps)], (image, script, b"", steps)
        table.add(f"exec, {steps} steps", ["exec", "a.cmm", *limits], {"a.cmm": CALLS, "c": script}, run_answer, *inputs)
        table.add(f"run, {steps} steps", ["run", "i", *limits], {"i": image, "c": script}, run_answer, *inputs)


def live_registers(table):
    """The registers in which the site of ELEVEN has variables, by its row."""
    sites = read_image(table.build(ELEVEN)).sites.values()
    places = [place for site in sites if site.procedure.name == b"d" for place in site.locations if place is not None]
    if sorted(places) != [("register", register) for register in CALLEE_SAVES]:
        sys.exit(f"the site of ELEVEN has its live variables in {places}")


def main(program, every="1"):
    """Runs all, and says which come to something else."""
    with concurrent.futures.ThreadPoolExecutor(min(4, os.cpu_count() or 1)) as pool:
        table = Table(os.path.abspath(program), int(every), pool)
        live_registers(table)
        for part in (images_and_snapshots, changed_bytes, migrations, cut_scripts, limits_on_steps):
            part(table)
        faults = table.faults()
    print("\n".join([*faults, f"tables: {len(table.waiting)} runs, {len(faults)} failed"]))
    return 1 if faults else 0


if __name__ == "__main__":
    sys.exit(main(*sys.argv[1:]) if len(sys.argv) in (2, 3) else __doc__)
