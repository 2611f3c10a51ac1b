#!/usr/bin/env python3
"""Runs a built program where the world outside fails, and compares what comes: faults.py PROGRAM [PART..]

    devices    a full device, closed streams, pipes that nobody reads, a limit on the size of files
    names      folders in place of files, names of 4,095 bytes and of one more, files that are pipes
    input      standard input that ends in mid-run
    deep       the deepest units that there are, with a stack of 1 MiB, by `exec` and by `build`, and with one that is too small for most
    calls      each of the first 40 calls on files, streams and their bytes fails in turn (failing_calls.c), in `build`, `run`, `exec`, `walk` and `migrate`
    pieces     the same commands where a call moves only a few bytes of a file or a stream, and where a write takes nothing
    memory     each request for memory is refused in turn, in `exec` of two units with a client, in `run` with `--save` and in `migrate`; only where this part is named

Of each it tests the status and the line, that no file changed but the one that the words name, and that this has a front of what was to be written. The last line is
`N runs, M failed`.
"""

import dataclasses
import os
import resource
import signal
import subprocess
import sys
import tempfile
import threading

import rows
from image_reading import read_image
from migrating import image_bytes, migrated
from second_reading import run_answer

DONE, USAGE, REFUSED, BAD_IMAGE, STOPPED, FILE_FAULT, INPUT_FAULT, OUTPUT_FAULT, MEMORY = 0, 2, 3, 4, 5, 9, 10, 11, 12
SECONDS = 300
MIB = 1 << 20
# An eighth of what systems usually give, which is enough for each unit (docs/PERFORMANCE.md), and what is too little for most of the deepest.
STACK, LITTLE_STACK = MIB, MIB // 4
ALIKE = 40
CALLS = 40
PIECES = (1, 2, 3, 7, 100)

SUM = b"export main; main() { return (2 + 3); }"
PUT = b'export main; main() { foreign "C" cmm_putbyte(65); foreign "C" cmm_putbyte(10); return (7); }'
COPY = b"""export main; main() { bits64 b, n; next: b = foreign "C" cmm_getbyte(); if b == -1 { return (n); } foreign "C" cmm_putbyte(b); n = n + 1; goto next; }"""
YIELDS = b"""export main; import f; main() { bits64 b, r; b = foreign "C" cmm_getbyte(); foreign "C" cmm_putbyte(b); r = f(b); b = foreign "C" cmm_getbyte();
foreign "C" cmm_putbyte(b + 1); r = f(r + b); return (r); }"""
ASKS = b'export f; f(bits64 n) { bits64 m; m = n + 1; yield(7, n); foreign "C" cmm_putbyte(n); return (m); }'
SCRIPT = b"other\nlist\nnext\nvar 0\nyoungest\nset 1 9\nreturn 0\n"
STOPS = b"at 7\nlist\nat 8\n"


@dataclasses.dataclass
class World:
    """What a run has outside: files, pipes under a name, its streams, and limits on its resources."""

    files: dict = dataclasses.field(default_factory=dict)
    folders: tuple = ()
    pipes: dict = dataclasses.field(default_factory=dict)
    given: bytes = b""
    output: str = "pipe"
    log: str = "pipe"
    input: str = "pipe"
    limits: dict = dataclasses.field(default_factory=dict)
    ignored: tuple = ()


def ends_of(world, folder):
    """The ends of standard output and standard error, and those to close behind the run."""
    found, opened = {}, []
    for name, told in (("stdout", world.output), ("stderr", world.log)):
        if told == "pipe":
            found[name] = subprocess.PIPE
        elif told == "unread":
            read, write = os.pipe()
            os.close(read)
            found[name] = write
            opened.append(write)
        elif told != "closed":
            found[name] = os.open(told if told.startswith("/") else os.path.join(folder, told), os.O_WRONLY | os.O_CREAT, 0o600)
            opened.append(found[name])
    return found, opened


def before(world):
    """What a process does before it is the program."""
    for kind, size in world.limits.items():
        resource.setrlimit(kind, (size, size))
    for number in world.ignored:
        signal.signal(number, signal.SIG_IGN)
    for stream, told in ((0, world.input), (1, world.output), (2, world.log)):
        if told == "closed":
            os.close(stream)


def write_pipe(path, content):
    try:
        with open(path, "wb") as file:
            file.write(content)
    except BrokenPipeError:
        pass


def call(program, words, world):
    """What comes of the program with these words."""
    with tempfile.TemporaryDirectory(prefix="faults-") as folder:
        for name, content in world.files.items():
            with open(os.path.join(folder, name), "wb") as file:
                file.write(content)
        for name in world.folders:
            os.mkdir(os.path.join(folder, name))
        for name, content in world.pipes.items():
            os.mkfifo(os.path.join(folder, name))
            threading.Thread(target=write_pipe, args=(os.path.join(folder, name), content), daemon=True).start()
        ends, opened = ends_of(world, folder)
        try:
            ran = subprocess.run([program, *words], cwd=folder, input=world.given, timeout=SECONDS, preexec_fn=lambda: before(world), **ends)
        finally:
            for end in opened:
                os.close(end)
        for name in world.pipes:
            os.remove(os.path.join(folder, name))
        return rows.Answer(ran.returncode, ran.stdout or b"", ran.stderr or b"", rows.held(folder))


class Cases:
    """Runs of a program, each compared with what must come."""

    def __init__(self, program):
        self.program = program
        self.count, self.faults = 0, []

    def image(self, *units):
        names = [f"{k}.cmm" for k in range(len(units))]
        made = call(self.program, ["build", *names, "-o", "i"], World(dict(zip(names, units))))
        if made.status:
            sys.exit(f"no image is built: {made.log!r}")
        return made.files["i"]

    def first_image(self, *units):
        """An image of version 1."""
        return image_bytes(read_image(self.image(*units)), 1)

    def must(self, title, words, world, status, output=b"", log=b"", then=None):
        """Runs the program, and compares; `then` are files that must be there beside those of the world, or as others."""
        self.count += 1
        found = call(self.program, words, world)
        wanted = (status, output, log, {**world.files, **(then or {})})
        if (found.status, found.output, found.log, found.files) != wanted:
            self.fault(title, f"answered {found.status} {found.output[-99:]!r} {found.log[-99:]!r} {shown(found.files)}, and not {status} {output[-99:]!r} {log[-99:]!r} {shown(wanted[3])}")

    def fault(self, title, what):
        self.faults.append(f"{title}: {what}")


def shown(files):
    return {name: content if len(content) < 40 else f"{len(content)} bytes" for name, content in files.items()}


# ---- devices


def devices(cases):
    """Streams and files that take nothing, or not all."""
    put, stops = World({"a.cmm": PUT}), cases.image(YIELDS, ASKS)
    saved = run_answer(stops, b"", b"xy")
    run = ["run", "i", "--save", "s"]
    cases.must("output to a full device", ["exec", "a.cmm"], dataclasses.replace(put, output="/dev/full"), OUTPUT_FAULT)
    cases.must("output that is closed", ["exec", "a.cmm"], dataclasses.replace(put, output="closed"), OUTPUT_FAULT)
    cases.must("log that is closed", ["exec", "a.cmm"], dataclasses.replace(put, log="closed"), OUTPUT_FAULT, b"A\n")
    cases.must("input that is closed", ["exec", "a.cmm"], World({"a.cmm": COPY}, input="closed"), INPUT_FAULT, log=b"input fault\n")
    closed = dataclasses.replace(put, input="closed", output="closed", log="closed")
    cases.must("build, and all streams are closed", ["build", "a.cmm", "-o", "i"], closed, DONE, then={"i": cases.image(PUT)})
    cases.must("log to a full device", ["exec", "a.cmm"], dataclasses.replace(put, log="/dev/full"), OUTPUT_FAULT, b"A\n")
    cases.must("usage, and a log to a full device", ["exec"], World(log="/dev/full"), OUTPUT_FAULT)
    cases.must("image to a full device", ["build", "a.cmm", "-o", "/dev/full"], put, FILE_FAULT, log=b"file fault /dev/full\n")
    closing = saved.log.removesuffix(b"stopped\n") + b"file fault /dev/full\n"
    cases.must("snapshot to a full device", ["run", "i", "--save", "/dev/full"], World({"i": stops}, given=b"xy"), FILE_FAULT, saved.output, closing)
    walk = World({"i": stops, "s": saved.saved}, output="/dev/full")
    cases.must("walk to a full device", ["walk", "i", "s"], walk, OUTPUT_FAULT)
    cases.must("output to a pipe that nobody reads", ["exec", "a.cmm"], dataclasses.replace(put, output="unread"), OUTPUT_FAULT)
    cases.must("log to a pipe that nobody reads", ["exec", "a.cmm"], dataclasses.replace(put, log="unread"), OUTPUT_FAULT, b"A\n")
    cases.must("walk to a pipe that nobody reads", ["walk", "i", "s"], dataclasses.replace(walk, output="unread"), OUTPUT_FAULT)
    cases.must("build, and streams that nobody reads", ["build", "a.cmm", "-o", "i"], dataclasses.replace(put, output="unread", log="unread"), DONE, then={"i": cases.image(PUT)})
    migrations(cases)
    limits_on_files(cases, stops, saved, run)


def migrations(cases):
    """The same of `migrate`, which writes a file, and a line only where it is not done."""
    first, words = cases.first_image(YIELDS, ASKS), ["migrate", "i", "-o", "j"]
    world, then = World({"i": first, "j": b"old"}), {"j": migrated(first)}
    bad = World({"i": b"no image", "j": b"old"})
    cases.must("migrated image to a full device", ["migrate", "i", "-o", "/dev/full"], world, FILE_FAULT, log=b"file fault /dev/full\n")
    cases.must("migrate, and all streams are closed", words, dataclasses.replace(world, input="closed", output="closed", log="closed"), DONE, then=then)
    cases.must("migrate, and streams that nobody reads", words, dataclasses.replace(world, output="unread", log="unread"), DONE, then=then)
    cases.must("migrate, and streams that are full", words, dataclasses.replace(world, output="/dev/full", log="/dev/full"), DONE, then=then)
    for told in ("/dev/full", "closed", "unread"):
        cases.must(f"migrate of no image, and a log that is {told}", words, dataclasses.replace(bad, log=told), OUTPUT_FAULT)
    cases.must("migrate of no image, and an output that is full", words, dataclasses.replace(bad, output="/dev/full"), BAD_IMAGE, log=b"bad image 50 at 0\n")
    for room in (0, 1, 64, len(then["j"]) - 1, len(then["j"])):
        limited = dataclasses.replace(world, limits={resource.RLIMIT_FSIZE: room})
        if room == len(then["j"]):
            cases.must("migrated image where files have just its bytes", words, limited, DONE, then=then)
            continue
        left = {"j": then["j"][:room]}
        cases.must(f"migrated image where files have {room} bytes", words, dataclasses.replace(limited, ignored=(signal.SIGXFSZ,)), FILE_FAULT, log=b"file fault j\n", then=left)
        cases.must(f"migrated image where files have {room} bytes, by the signal", words, limited, -signal.SIGXFSZ, then=left)


def limits_on_files(cases, stops, saved, run):
    """A limit on the size of files: each has just the bytes that it may have. The system has a signal for it, which ends a program that does not ignore it."""
    image, build = cases.image(PUT), ["build", "a.cmm", "-o", "i"]
    closing = saved.log.removesuffix(b"stopped\n") + b"file fault s\n"
    ignored = (signal.SIGXFSZ,)
    for room in (0, 1, 64, len(image) - 1):
        limits = {resource.RLIMIT_FSIZE: room}
        world, then = World({"a.cmm": PUT, "i": b"old"}, limits=limits), {"i": image[:room]}
        cases.must(f"image where files have {room} bytes", build, dataclasses.replace(world, ignored=ignored), FILE_FAULT, log=b"file fault i\n", then=then)
        cases.must(f"image where files have {room} bytes, by the signal", build, world, -signal.SIGXFSZ, then=then)
        world = World({"i": stops}, given=b"xy", limits=limits, ignored=ignored)
        cases.must(f"snapshot where files have {room} bytes", run, world, FILE_FAULT, saved.output, closing, {"s": saved.saved[:room]})
    exact = {resource.RLIMIT_FSIZE: len(image)}
    cases.must("image where files have just its bytes", build, World({"a.cmm": PUT}, limits=exact), DONE, then={"i": image})
    one = World({"a.cmm": PUT}, limits={resource.RLIMIT_FSIZE: 1}, ignored=ignored)
    cases.must("output to a file of one byte", ["exec", "a.cmm"], dataclasses.replace(one, output="o"), OUTPUT_FAULT, then={"o": b"A"})
    cases.must("log to a file of one byte", ["exec", "a.cmm"], dataclasses.replace(one, log="l"), OUTPUT_FAULT, b"A\n", then={"l": b"r"})


# ---- names


def names(cases):
    """Folders, long names and pipes."""
    image, stops = cases.image(SUM), cases.image(YIELDS, ASKS)
    saved = run_answer(stops, b"", b"xy")
    first = cases.first_image(YIELDS, ASKS)
    files = {"a.cmm": SUM, "i": image, "t": stops, "f": first, "s": saved.saved}
    world = World(files, ("d",), given=b"xy")
    log = b"file fault d\n"
    for words in (["exec", "d"], ["exec", "a.cmm", "d"], ["build", "d", "-o", "n"], ["build", "a.cmm", "-o", "d"], ["run", "d"], ["run", "i", "--client", "d"], ["walk", "d", "s"], ["walk", "i", "d"]):
        cases.must(f"a folder: {' '.join(words)}", words, world, FILE_FAULT, log=log)
    for words in (["migrate", "d", "-o", "n"], ["migrate", "f", "-o", "d"], ["migrate", "d", "-o", "d"]):
        cases.must(f"a folder: {' '.join(words)}", words, world, FILE_FAULT, log=log)
    closing = saved.log.removesuffix(b"stopped\n") + log
    cases.must("a folder: --save", ["run", "t", "--save", "d"], world, FILE_FAULT, saved.output, closing)
    long_names(cases, files)
    pipes = World(pipes={"p": image})
    cases.must("an image that is a pipe", ["run", "p"], pipes, DONE, log=b"result 5\n")
    cases.must("an image that is a pipe without bytes", ["run", "p"], World(pipes={"p": b""}), BAD_IMAGE, log=b"bad image 52 at 0\n")
    cases.must("an image to be migrated that is a pipe", ["migrate", "p", "-o", "j"], World(pipes={"p": first}), DONE, then={"j": migrated(first)})
    walk = "".join(line + "\n" for line in ("activation 0 f site 0", 'var 0 bits64 "" 120', 'var 1 bits64 "" 121', "activation 1 main site 0", 'var 0 bits64 "" dead', 'var 1 bits64 "" dead', "end"))
    cases.must("an image and a snapshot that are pipes", ["walk", "p", "q"], World(pipes={"p": stops, "q": saved.saved}), DONE, walk.encode())
    cases.must("units that are pipes", ["exec", "p", "q"], World(pipes={"p": YIELDS, "q": ASKS}, given=b"xy"), STOPPED, b"x", b"yield 7 120\nstopped\n")


def long_names(cases, files):
    """Names as long as they may be, and one byte longer."""
    world = World(files)

    def name(end, size):
        return "./" * ((size - len(end)) // 2) + "/" * ((size - len(end)) % 2) + end

    for size, status, log in ((4095, DONE, b"result 5\n"), (4096, USAGE, b"usage\n")):
        then = {"n": files["i"]} if status == DONE else {}
        cases.must(f"a unit's name of {size} bytes", ["exec", name("a.cmm", size)], world, status, log=log)
        cases.must(f"an image's name of {size} bytes", ["run", name("i", size)], world, status, log=log)
        cases.must(f"a name of {size} bytes to write to", ["build", "a.cmm", "-o", name("n", size)], world, status, log=b"" if then else log, then=then)
        then = {"n": migrated(files["f"])} if status == DONE else {}
        cases.must(f"a name of {size} bytes to migrate to", ["migrate", "f", "-o", name("n", size)], world, status, log=b"" if then else log, then=then)
        cases.must(f"a name of {size} bytes to migrate", ["migrate", name("f", size), "-o", "n"], world, status, log=b"" if then else log, then=then)
    missing = name("none", 4095)
    cases.must("a name of 4095 bytes without a file", ["run", missing], world, FILE_FAULT, log=f"file fault {missing}\n".encode())
    cases.must("one part of a name with 4095 bytes", ["run", "n" * 4095], world, FILE_FAULT, log=b"file fault " + b"n" * 4095 + b"\n")


# ---- input


def inputs(cases):
    """Standard input that ends before the program does, or is no stream that can be read."""
    world = World({"a.cmm": COPY}, given=b"ab\0\xff")
    cases.must("an input that ends in mid-run", ["exec", "a.cmm"], world, DONE, b"ab\0\xff", b"result 4\n")
    cases.must("an input without bytes", ["exec", "a.cmm"], World({"a.cmm": COPY}), DONE, b"", b"result 0\n")
    cases.must("more input than is asked for", ["exec", "a.cmm"], World({"a.cmm": PUT}, given=b"x" * 200_000), DONE, b"A\n", b"result 7\n")


# ---- stack


def nested(opening, depth, inner, closing="}"):
    """What stands inside of so many brackets."""
    return opening * depth + inner + closing * depth


def ladder(brackets, operators):
    """An expression of 7 with so many operators, each to the right of the one before, and brackets where no operator binds more tightly."""
    signs = [f"{'7' if k == 0 else '0'} {'|^&<+*'[k % 6].replace('<', '<<')} " for k in range(operators)]
    rungs = ["".join(signs[k : k + 6]) for k in range(0, operators, 6)]
    if len(rungs) > brackets:
        raise ValueError("more operators than these brackets can nest")
    rungs += [""] * (brackets - len(rungs))
    return "".join(rung + "(" for rung in rungs) + "0" + ")" * brackets


def deepest_units():
    """Units that nest as deep as the rules allow, each with its result: 200 brackets, in which those of a body and of a `return` count, and 500 operators."""
    head, signs = "export main; main() { ", "- " * 500
    if_, else_, arm, span = "if 1 == 1 { ", "if 1 == 0 { } else { ", "switch 1 { case 1: { ", "span 1 2 { "
    yield "brackets in an expression", f"{head}return ({nested('(', 198, '7', ')')}); }}", 7
    yield "blocks", f"{head}{nested(if_, 198, 'return (7); ')} return (8); }}", 7
    yield "operators", f"{head}return (1{' + 1' * 500}); }}", 501
    yield "signs", f"{head}return ({signs}7); }}", 7
    yield "signs in brackets", f"{head}return ({nested('- - (', 198, signs[: 2 * 104] + '7', ')')}); }}", 7
    yield "blocks round signs", f"{head}{nested(if_, 198, f'return ({signs}7); ')} return (8); }}", 7
    sums = "1" + " + 1" * 500
    yield "blocks round operators", f"{head}{nested(if_, 198, f'return ({sums}); ')} return (8); }}", 501
    yield "blocks round operators to the right", f"{head}{nested(if_, 114, f'return ({ladder(84, 500)}); ')} return (8); }}", 7
    yield "operators to the right", f"{head}return ({ladder(198, 500)}); }}", 7
    brackets = nested("- - (", 100, signs[: 2 * 300] + "7", ")")
    yield "blocks round brackets and signs", f"{head}{nested(if_, 98, f'return ({brackets}); ')} return (8); }}", 7
    yield "blocks after else", f"{head}{nested(else_, 198, 'return (7); ')} return (8); }}", 7
    yield "blocks after else round signs", f"{head}{nested(else_, 198, f'return ({signs}7); ')} return (8); }}", 7
    chain = " else ".join(f"if n == {k} {{ n = {k + 1}; }}" for k in range(199))
    yield "a chain of else", f"{head}bits64 n; n = 198; {chain} return (n); }}", 199
    short = " else ".join(f"if n == {k} {{ n = {k + 1}; }}" for k in range(115))
    yield "a chain of else, and operators to the right", f"{head}bits64 n; n = 200; {short} else {{ n = {ladder(83, 498)}; }} return (n); }}", 7
    yield "spans", f"{head}{nested(span, 198, 'return (7); ')} return (8); }}", 7
    yield "spans round signs", f"{head}{nested(span, 198, f'return ({signs}7); ')} return (8); }}", 7
    items = "span 1 2 { " * 197
    yield "spans around a procedure", f"export main; section \"text\" {{ {items} main() {{ return (7); }} {'}' * 197} }}", 7
    yield "switches", f"{head}{nested(arm, 99, 'return (7); ', '} }')} return (8); }}", 7
    yield "switches round signs", f"{head}{nested(arm, 99, f'return ({signs}7); ', '} }')} return (8); }}", 7
    yield "words in memory", f"{head}bits64 n; {if_.replace('1 {', '0 {')}n = {nested('- - bits64[', 197, signs[: 2 * 106] + '7', ']')}; }} return (7); }}", 7
    yield "operators by name", f"{head}return ({nested('%neg(', 198, signs[: 2 * 302] + '7', ')')}); }}", 7
    yield "signs in a call", f"{head}bits64 n; {nested(if_, 197, f'n = f({signs}7); ')} return (n); }} f(bits64 n) {{ return (n); }}", 7
    yield "signs in a jump", f"{head}{nested(if_, 198, f'jump f({signs}7); ')} return (8); }} f(bits64 n) {{ return (n); }}", 7
    yield "signs in a constant", f"const c = {nested('- - (', 200, signs[: 2 * 100] + '7', ')')}; {head}return (c); }}", 7
    constants = "".join(f"const c{k} = c{k + 1}; " for k in range(20_000))
    yield "constants, each by the next", f"export main; {constants}const c20000 = 7; main() {{ return (c0); }}", 7
    types = "".join(f"typedef t{k + 1} t{k}; " for k in range(20_000))
    yield "types, each by the next", f"export main; {types}typedef bits64 t20000; main() {{ t0 n; return (n); }}", 0
    calls = "".join(f"f{k}() {{ jump f{k + 1}(); }} " for k in range(5_000))
    yield "procedures, each jumping to the next", f"export main; main() {{ jump f0(); }} {calls}f5000() {{ return (7); }}", 7


def deep(cases):
    """The deepest units with little stack."""
    limits = {resource.RLIMIT_STACK: STACK}
    for title, unit, result in deepest_units():
        cases.count += 1
        world = World({"a.cmm": unit.encode()}, limits=limits)
        found = call(cases.program, ["exec", "a.cmm"], world)
        if (found.status, found.log) != (DONE, b"result %d\n" % result):
            cases.fault(f"deep, {title}", f"answered {found.status} {found.log[-99:]!r}, and not {result}")
        build_with(cases, title, unit, STACK, False)
        build_with(cases, title, unit, LITTLE_STACK, True)
    longest = b"export main; main() { bits64 n; " + b"if n == 1 { } else " * 55_000
    cases.must("deep, a chain of else that fills a unit", ["exec", "a.cmm"], World({"a.cmm": longest}, limits=limits), REFUSED, log=b"a.cmm:1:3824: 11 too deep\n")
    opened = b"export main; main() { return (" + b"(" * MIB
    cases.must("deep, a unit of brackets alone", ["exec", "a.cmm"], World({"a.cmm": opened[:MIB]}, limits=limits), REFUSED, log=b"a.cmm:1:229: 11 too deep\n")


def build_with(cases, title, unit, stack, may_end):
    """With enough stack a unit is built. With too little the system may end the program by its signal, before anything is written."""
    cases.count += 1
    files = {"a.cmm": unit.encode(), "i": b"old"}
    found = call(cases.program, ["build", "a.cmm", "-o", "i"], World(files, limits={resource.RLIMIT_STACK: stack}))
    ended = may_end and (found.status, found.output, found.log, found.files) == (-signal.SIGSEGV, b"", b"", files)
    if not ended and (found.status, found.output, found.log, found.files["a.cmm"]) != (DONE, b"", b"", files["a.cmm"]):
        cases.fault(f"deep, {title}, built with {stack} bytes of stack", f"answered {found.status} {found.log[-99:]!r} {shown(found.files)}")


# ---- calls that fail


def commands_of(cases):
    """A call of each command: its words, the files that it has, and the file that it writes."""
    units, image = {"a.cmm": YIELDS, "b.cmm": ASKS}, cases.image(YIELDS, ASKS)
    saved = run_answer(image, STOPS, b"xy").saved
    return [
        (["build", "a.cmm", "b.cmm", "-o", "i"], {**units, "i": b"old"}, "i"),
        (["exec", "a.cmm", "b.cmm", "--client", "c"], {**units, "c": SCRIPT}, None),
        (["run", "i", "--client", "c"], {"i": image, "c": SCRIPT}, None),
        (["run", "i", "--client", "c", "--save", "s"], {"i": image, "c": STOPS, "s": b"old"}, "s"),
        (["walk", "i", "s"], {"i": image, "s": saved}, None),
        (["migrate", "i", "-o", "j"], {"i": cases.first_image(YIELDS, ASKS), "j": b"old"}, "j"),
    ]


def failing_calls(cases):
    """Each of the first 40 calls on a device fails in turn."""
    for words, files, written in commands_of(cases):
        for device in ("files", "reads", "writes", "input", "output", "log"):
            failing_device(cases, words, files, written, device)


def failing_device(cases, words, files, written, device):
    """One device: what comes where each of its calls fails, until one is never made."""
    whole = rows.call(cases.program, words, files, b"xy")
    made = True
    for number in range(CALLS):
        cases.count += 1
        found = rows.call(cases.program, words, files, b"xy", rows.Limits(device=device, call=number))
        title = f"{' '.join(words)}, {device} {number}"
        if made and found != whole:
            what_failed(cases, title, found, whole, files, written, device)
        elif found != whole:
            cases.fault(title, "differs, where a call that comes before is never made")
        made = made and found != whole


def what_failed(cases, title, found, whole, files, written, device):
    """What must be so where a call has failed."""
    status = {"input": INPUT_FAULT, "output": OUTPUT_FAULT, "log": OUTPUT_FAULT}.get(device, FILE_FAULT)
    closing = found.log.splitlines(True)[-1:] if status != OUTPUT_FAULT else []
    log = found.log.removesuffix(b"".join(closing))
    if found.status != status:
        cases.fault(title, f"answered {found.status} {found.log[-99:]!r}, and not {status}")
    if closing and not (closing == [b"input fault\n"] if status == INPUT_FAULT else closing[0].startswith(b"file fault ")):
        cases.fault(title, f"closes with {closing[0]!r}")
    if not whole.output.startswith(found.output) or not whole.log.startswith(log):
        cases.fault(title, f"wrote {found.output!r} {log[-99:]!r}, which is no front of {whole.output!r} {whole.log[-99:]!r}")
    for name in {*found.files, *files}:
        kept, held = files.get(name), found.files.get(name)
        if held != kept and (name != written or not whole.files[name].startswith(held)):
            cases.fault(title, f"left {name} otherwise")


# ---- calls that move a few bytes


def pieces(cases):
    """Reads and writes of a few bytes change nothing; where a write takes nothing, that is an output fault."""
    for words, files, written in commands_of(cases):
        whole = rows.call(cases.program, words, files, b"xy")
        for longest in PIECES:
            cases.count += 1
            found = rows.call(cases.program, words, files, b"xy", rows.Limits(longest=longest))
            if found != whole:
                cases.fault(f"{' '.join(words)}, {longest} bytes a call", f"answered {found.status} {found.output!r} {found.log[-99:]!r} {shown(found.files)}, and not as in whole calls")
        cases.count += 1
        found = rows.call(cases.program, words, files, b"xy", rows.Limits(longest=0))
        # (the line that says so is not taken either)
        left = {**files, written: b""} if words[0] in ("build", "migrate") else files
        if (found.status, found.output, found.log, found.files) != (OUTPUT_FAULT, b"", b"", left):
            cases.fault(f"{' '.join(words)}, where a write takes nothing", f"answered {found.status} {found.output!r} {found.log[-99:]!r} {shown(found.files)}")


# ---- memory


def refused_memory(cases):
    """Each request for memory is refused in turn, until none is left that is made."""
    title = "two units, a span with an address, and an unwinding out of one into the other"
    case = next(it for it in rows.cases_of(os.path.join(rows.ROWS, "clients.txt")) if it.title == title)
    files = {name: rows.plain(told) for name, told in case.files.items()}
    refused_requests(cases, case.words.split(), files)
    refused_requests(cases, ["run", "i", "--client", "c", "--save", "s"], {"i": cases.image(YIELDS, ASKS), "c": STOPS, "s": b"old"})
    refused_requests(cases, ["migrate", "i", "-o", "j"], {"i": cases.first_image(YIELDS, ASKS), "j": b"old"})


def refused_requests(cases, words, files):
    """The requests of one call: each that is refused leads to Memory, with nothing done, or after a run that was stopped with all of that but its snapshot."""
    whole = rows.call(cases.program, words, files, b"xy")
    behind = b"".join(whole.log.splitlines(True)[:-1])
    told = {(b"", b""), (b"", b"out of memory\n"), (whole.output, behind + b"out of memory\n")}
    number = refused = alike = 0
    # (a request may be refused without harm; where so many one after another do none, there are no more)
    while alike < ALIKE:
        found = rows.call(cases.program, words, files, b"xy", rows.Limits(device="memory", call=number))
        number, alike = number + 1, alike + 1 if found == whole else 0
        if found != whole:
            cases.count, refused = cases.count + 1, refused + 1
            if found.status != MEMORY or (found.output, found.log) not in told or found.files != files:
                cases.fault(f"{' '.join(words)}, memory {number - 1}", f"answered {found.status} {found.output!r} {found.log[-99:]!r}, or left files otherwise")
    if refused == 0:
        cases.fault(" ".join(words), "asks for no memory")


PARTS = {"devices": devices, "names": names, "input": inputs, "deep": deep, "calls": failing_calls, "pieces": pieces, "memory": refused_memory}
USUAL_PARTS = ("devices", "names", "input", "deep", "calls", "pieces")


def main(program, *parts):
    """Runs these parts, or the usual ones, and says what fails."""
    cases = Cases(os.path.abspath(program))
    for part in parts or USUAL_PARTS:
        PARTS[part](cases)
    print("\n".join([*cases.faults, f"faults: {cases.count} runs, {len(cases.faults)} failed"]))
    return 1 if cases.faults else 0


if __name__ == "__main__":
    sys.exit(main(*sys.argv[1:]) if len(sys.argv) > 1 else __doc__)
