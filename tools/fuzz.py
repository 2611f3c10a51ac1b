#!/usr/bin/env python3
"""Runs a built program on units, scripts, images and snapshots that chance has changed: fuzz.py PROGRAM FIRST LAST [PROCESSES [MINUTES]]

Each number from FIRST to LAST is the seed of one case, so a case that is reported runs again by `fuzz.py PROGRAM SEED SEED`; with
MINUTES no case begins later. A case begins with files of examples/ and
rows/, and changes one of them in a few places:

    unit        `exec` of the units, and `build` with `run`, which must come to the same; what is built, to what tools/second_reading.py says of it too
    script      the same with the script of a client
    image       `run` of an image of either version, which must come to what the second reading says
    snapshot    `walk` of an image of either version, which must come to what the second reading says
    migration   `migrate`, which must come to what the second reading says, and where it is done, `run` of both images, which must come to the same

Reported are also a signal, a status that is none of those in TOLD (no device fails here, and memory is ample), an answer that takes too long, and a file that was made or
changed though it is not the one that the words name. The last line has the counts of cases by sort and status, and how many failed.
"""

import collections
import glob
import multiprocessing
import os
import random
import re
import struct
import subprocess
import sys
import tempfile
import time

import rows
from image_reading import CALLEE_SAVES, read_image
from migrating import image_bytes
from second_reading import migrate_answer, run_answer, walk_answer

EXAMPLES = os.path.join(os.path.dirname(rows.ROWS), "examples")
SORTS = ("unit", "script", "image", "snapshot", "migration")
TOLD = {0: "done", 3: "refused", 4: "bad image", 5: "stopped", 6: "stack limit", 7: "step limit", 8: "trap", 13: "bad snapshot", 14: "bad script", 15: "torn"}
REFUSED, STOPPED = 3, 5
SECONDS = 300
LONGEST_FILE = 8_000
PIECES = re.compile(rb"\s+|%*[A-Za-z_.$@][\w.$@]*|\d\w*|\"[^\"\n]*\"|::|[<>=!]=|<<|>>|.", re.S)
NUMBERS = [b"0", b"1", b"2", b"7", b"8", b"63", b"64", b"65", b"255", b"256", b"65535", b"4294967296", b"9223372036854775808", b"18446744073709551615", b"0xff"]
OPERATORS = b"+ - * / % & | ^ << >> == != < <= > >=".split()
COMMANDS = [
    *(b"list", b"youngest", b"next", b"next", b"stop", b"desc 1", b"desc 7", b"seek 7 $1", b"seek 1 2", b"var 0", b"var 1", b"var 2", b"var 9", b"set 0 $0", b"set 1 300", b"set 2 0"),
    *(b"poke kept 8 $1", b"poke d 0 1", b"return 0", b"return 0 $0", b"return 0 5", b"return 1 5", b"return 2", b"unwind 0", b"unwind 0 4", b"unwind 1 4 5", b"cut $1 1", b"cut $1", b"cut $2 1"),
    *(b"cut 5", b"at 1", b"at 5", b"other"),
]
WORDS = b"""bits8 bits16 bits32 bits64 if else switch case default goto return jump cut to continuation also cuts unwinds returns aborts never span yield
stackdata align aligned invariant register import export const typedef section foreign "C" cmm_putbyte cmm_getbyte x n k r f main ( ) { } [ ] , ; : :: = == != < <= > >=
+ - * / % & | ^ ~ << >> .. %add %divu %%divu %zx64 %sx64 %lobits8 %rotl %quot""".split()
FIELDS = [0, 1, 2, 3, 4, 8, 16, 0xFFFF, 0xFFFFFFFF, 0x10000, 0x10004, 0x40000000, 0x60000000, 0x60001000, 2**63, 2**64 - 1]


class Fault(Exception):
    """What is wrong with a case."""


# ---- what cases begin with


def programs():
    """Units of rows/ and examples/ that `exec` is run of, each with the script that a client of it has, if any: lists of names and texts, and the script."""
    found = []
    for path in sorted(glob.glob(os.path.join(rows.ROWS, "*.txt"))):
        for case in rows.cases_of(path):
            words = case.words.split()
            plain = {name: plain_text(case, told) for name, told in case.files.items() if plain_text(case, told) is not None}
            units = [word for word in words[1:] if word in plain and word.endswith(".cmm")]
            if words[:1] == ["exec"] and units and sum(len(plain[unit]) for unit in units) < LONGEST_FILE:
                script = words[words.index("--client") + 1] if "--client" in words[:-1] else None
                found.append(([(unit, plain[unit]) for unit in dict.fromkeys(units)], plain.get(script, b"")))
    for path in sorted(glob.glob(os.path.join(EXAMPLES, "*.cmm"))):
        with open(path, "rb") as file:
            found.append(([("a.cmm", file.read())], b"other\nlist\nnext\nreturn 0\n"))
    return found


def plain_text(case, told):
    """The bytes of a file that a case spells, or None."""
    if told.startswith("is "):
        # (where changes follow, it is no text of a unit)
        return case.units.get(told[3:])
    return rows.plain(told) if told.startswith((": ", "= ")) else None


# ---- changes


def changed_text(chance, text):
    """A text with a few of its pieces taken out, copied, changed or put elsewhere."""
    pieces = PIECES.findall(text)
    for _ in range(chance.choice((1, 1, 1, 2, 3, 5))):
        if not pieces:
            break
        at = chance.randrange(len(pieces))
        sort = chance.randrange(9)
        if sort == 0:
            del pieces[at]
        elif sort == 1:
            pieces.insert(at, pieces[chance.randrange(len(pieces))])
        elif sort == 2:
            pieces[at] = pieces[chance.randrange(len(pieces))]
        elif sort == 3:
            pieces[at] = b" " + chance.choice(WORDS) + b" "
        elif sort == 4:
            numbers = [k for k, piece in enumerate(pieces) if piece[:1].isdigit()] or [at]
            pieces[chance.choice(numbers)] = chance.choice(NUMBERS)
        elif sort == 5:
            pieces[at] = bytes([chance.randrange(256)])
        elif sort == 6:
            del pieces[at : at + chance.randrange(1, 12)]
        elif sort == 7:
            begin = chance.randrange(len(pieces))
            pieces[at:at] = pieces[begin : begin + chance.randrange(1, 20)]
        else:
            other = chance.randrange(len(pieces))
            pieces[at], pieces[other] = pieces[other], pieces[at]
    return b"".join(pieces)


def slightly_changed_text(chance, text):
    """A text with a few numbers, names and operators in the place of others of their kind, or with a statement twice or not at all."""
    pieces = PIECES.findall(text)
    kinds = [
        (lambda piece: piece[:1].isdigit(), lambda piece: chance.choice(NUMBERS)),
        (lambda piece: piece in OPERATORS, lambda piece: chance.choice(OPERATORS)),
        (lambda piece: len(piece) <= 2 and piece.isalpha(), lambda piece: chance.choice([it for it in pieces if len(it) <= 2 and it.isalpha()])),
    ]
    for _ in range(chance.choice((1, 1, 2))):
        is_kind, other = chance.choice(kinds)
        if places := [k for k, piece in enumerate(pieces) if is_kind(piece)]:
            at = chance.choice(places)
            pieces[at] = other(pieces[at])
    text = b"".join(pieces)
    if chance.randrange(3) == 0:
        statements = text.split(b";")
        at = chance.randrange(len(statements))
        statements[at : at + 1] = [statements[at]] * chance.choice((0, 2))
        text = b";".join(statements)
    return text


def changed_script(chance, script):
    """A script with other commands, or with other pieces."""
    if chance.randrange(3) == 0:
        return changed_text(chance, script)
    lines = script.split(b"\n")
    for _ in range(chance.choice((1, 2, 4))):
        at = chance.randrange(len(lines))
        lines[at : at + chance.randrange(2)] = [chance.choice(COMMANDS)] * chance.choice((1, 1, 0))
        if not lines:
            lines = [b"other"]
    return b"\n".join(lines)


def with_changed_unit(chance, programs):
    """The units of one of these programs, of which one has changed, and the script."""
    units, script = chance.choice(programs)
    at = chance.randrange(len(units))
    change = chance.choice((changed_text, slightly_changed_text, slightly_changed_text))
    return [(name, change(chance, text) if k == at else text) for k, (name, text) in enumerate(units)], script


def with_changed_script(chance, programs):
    """The units of one of these programs, and its script, changed."""
    units, script = chance.choice(programs)
    return units, changed_script(chance, script)


def changed_image(chance, image):
    """An image with other words in its code, or with other bytes in its tables or somewhere."""
    sort, length = chance.randrange(3), int.from_bytes(image[8:16], "little")
    if sort == 0:
        return changed_bytes(chance, image)
    if sort == 1:
        tables = 64 + length + int.from_bytes(image[16:24], "little")
        return image[:tables] + changed_bytes(chance, image[tables:])
    code = bytearray(image[64 : 64 + length])
    for _ in range(chance.choice((1, 1, 2, 3))):
        at, other = chance.randrange(length // 4) * 4, chance.randrange(length // 4) * 4
        word = int.from_bytes(code[at : at + 4], "little") ^ 1 << chance.choice((*range(32), *range(20, 32)))
        code[at : at + 4] = chance.choice((bytes(code[other : other + 4]), word.to_bytes(4, "little"), word.to_bytes(4, "little")))
    return image[:64] + bytes(code) + image[64 + length :]


def changed_places(chance, image):
    """An image of version 1 in which a few variables are elsewhere, each at one site."""
    read = read_image(image)
    live = [(site, n) for site in read.sites.values() for n, location in enumerate(site.locations) if location is not None]
    for site, n in chance.sample(live, min(len(live), chance.choice((1, 1, 2, 5)))):
        offset = chance.randrange(site.procedure.frame - 7)
        site.locations[n] = chance.choice((None, ("register", chance.choice(CALLEE_SAVES)), ("frame", offset), ("frame", offset // 8 * 8)))
    return image_bytes(read, 1)


def changed_bytes(chance, content, most=None):
    """Bytes, changed in a few places below `most`."""
    found = bytearray(content)
    for _ in range(chance.choice((1, 1, 1, 2, 4))):
        end = min(len(found), most or len(found))
        at = chance.randrange(max(1, end))
        sort = chance.randrange(8)
        if sort == 0:
            found[at : at + 1] = bytes([chance.choice((0, 255, chance.randrange(256)))])
        elif sort == 1 and at < len(found):
            found[at] ^= 1 << chance.randrange(8)
        elif sort in (2, 3):
            size = chance.choice((1, 2, 4, 8))
            value = chance.choice(FIELDS) + chance.choice((0, 0, -1, 4))
            found[at : at + size] = (value % 2 ** (8 * size)).to_bytes(size, "little")
        elif sort == 4:
            begin, size = chance.randrange(max(1, end)), chance.choice((1, 4, 8, 16))
            found[at : at + size] = found[begin : begin + size]
        elif sort == 5:
            begin, at = chance.randrange(max(1, end)) // 4 * 4, at // 4 * 4
            found[at : at + 4] = found[begin : begin + 4]
        elif sort == 6 and at % 4 == 0 and at + 4 <= len(found):
            found[at : at + 4] = struct.pack("<I", struct.unpack("<I", found[at : at + 4])[0] ^ 1 << chance.randrange(7, 32))
        elif chance.randrange(4) == 0:
            found[at : at + chance.randrange(2)] = bytes(chance.randrange(2))
    if chance.randrange(30) == 0:
        del found[chance.randrange(len(found) + 1) :]
    return bytes(found)


# ---- cases


class Folder:
    """The folder in which a process runs the program; its files are removed after each case."""

    def __init__(self, program):
        self.program = program
        self.output, self.log = tempfile.TemporaryFile(), tempfile.TemporaryFile()

    def put(self, files):
        for name in os.listdir("."):
            os.remove(name)
        for name, content in files.items():
            with open(name, "wb") as file:
                file.write(content)

    def call(self, words, given=b""):
        """What comes of the program: status, output and log."""
        with tempfile.TemporaryFile() as input_file:
            input_file.write(given)
            input_file.seek(0)
            for stream in (self.output, self.log):
                stream.seek(0)
                stream.truncate()
            try:
                status = subprocess.run([self.program, *words], stdin=input_file, stdout=self.output, stderr=self.log, timeout=SECONDS, close_fds=False).returncode
            except subprocess.TimeoutExpired:
                raise Fault(f"no answer within {SECONDS} seconds") from None
        self.output.seek(0)
        self.log.seek(0)
        if status not in TOLD:
            raise Fault(f"{words[0]} ended with {status}: {self.log.read()[-200:]!r}")
        return status, self.output.read(), self.log.read()


def held():
    found = {}
    for name in os.listdir("."):
        with open(name, "rb") as file:
            found[name] = file.read()
    return found


def same(what, found, wanted):
    if found != wanted:
        raise Fault(f"{what}: {short(found)}, and not {short(wanted)}")


def short(found):
    return tuple(it[-200:] if isinstance(it, bytes) else it for it in found) if isinstance(found, tuple) else str(found)[-300:]


class Cases:
    """The cases of one process: what they begin with, and the folder in which they run."""

    def __init__(self, program):
        self.folder = Folder(program)
        self.programs = programs()
        self.scripted = [(units, script) for units, script in self.programs if script]
        self.images, self.firsts, self.stopped = {}, {}, {}

    def image_of(self, number):
        """The image of a program, None where it is refused."""
        if number not in self.images:
            units, _ = self.programs[number]
            self.folder.put(dict(units))
            status, _, _ = self.folder.call(["build", *(name for name, _ in units), "-o", "i"])
            self.images[number] = None if status else held()["i"]
        return self.images[number]

    def first_of(self, number):
        """The image of a program in version 1, None where it is refused."""
        if number not in self.firsts:
            image = self.image_of(number)
            self.firsts[number] = image and image_bytes(read_image(image), 1)
        return self.firsts[number]

    def stopped_of(self, number):
        """The image of a program in both versions, and a snapshot of its run, None where it is refused or its client does not stop it."""
        if number not in self.stopped:
            image = self.image_of(number)
            saved = image and run_answer(image, b"", b"", 10_000, 1024).saved
            self.stopped[number] = ((self.first_of(number), image), saved) if saved else None
        return self.stopped[number]

    def one_of(self, chance, found):
        """What is found of a program, of the first that has it from a place that chance gives."""
        begin = chance.randrange(len(self.programs))
        order = (*range(begin, len(self.programs)), *range(begin))
        return next(it for number in order if (it := found(number)) is not None)

    def run(self, seed):
        """Runs the case of a seed, and answers its sort and status."""
        chance = random.Random(seed)
        sort = chance.choice(SORTS)
        return sort, getattr(self, sort)(chance)

    def unit(self, chance):
        return self.both_ways(chance, *with_changed_unit(chance, self.programs))

    def script(self, chance):
        return self.both_ways(chance, *with_changed_script(chance, self.scripted))

    @staticmethod
    def limits(chance):
        steps, stack = chance.choice((0, 30, 300, 3000, 3000, 3000)), chance.choice((0, 64, 512, 4096, 4096, 65536))
        return steps, stack, ["--steps", str(steps), "--stack", str(stack)]

    def both_ways(self, chance, units, script):
        """Units that are built and run, at once and one after the other."""
        steps, stack, limits = self.limits(chance)
        given = bytes(chance.randrange(256) for _ in range(chance.choice((0, 0, 1, 3, 8))))
        names, files = [name for name, _ in units], {**dict(units), "c": script}
        self.folder.put(files)
        at_once = self.folder.call(["exec", *names, "--client", "c", *limits], given)
        same("files after exec", held(), files)
        status, output, log = self.folder.call(["build", *names, "-o", "i"])
        made = held()
        if status:
            if status == REFUSED:
                same("build and exec", (status, output, log), at_once)
            elif status != at_once[0]:
                raise Fault(f"build ended with {status}")
            same("files after a build that is refused", made, files)
            return status
        same("files after build", {**made, "i": b""}, {**files, "i": b""})
        same("what build writes", (output, log), (b"", b""))
        wanted = run_answer(made["i"], script, given, steps, stack)
        apart = self.folder.call(["run", "i", "--client", "c", "--save", "s", *limits], given)
        same("exec, and build with run", at_once, apart)
        same("run, and the second reading", apart, (wanted.status, wanted.output, wanted.log))
        same("files after run", held(), {**made, **({"s": wanted.saved} if wanted.saved else {})})
        return apart[0]

    def image(self, chance):
        image = changed_image(chance, self.one_of(chance, chance.choice((self.first_of, self.image_of))))
        steps, stack, limits = self.limits(chance)
        script = chance.choice((b"", b"", chance.choice(self.scripted)[1]))
        files = {"i": image, "c": script}
        self.folder.put(files)
        found = self.folder.call(["run", "i", "--client", "c", "--save", "s", *limits], b"ab")
        wanted = run_answer(image, script, b"ab", steps, stack)
        same("run, and the second reading", found, (wanted.status, wanted.output, wanted.log))
        same("files after run", held(), {**files, **({"s": wanted.saved} if wanted.saved else {})})
        return found[0]

    def snapshot(self, chance):
        images, saved = self.one_of(chance, self.stopped_of)
        image = chance.choice(images)
        if chance.randrange(4) == 0:
            image = changed_bytes(chance, image)
        saved = changed_bytes(chance, image[:64].join((saved[:8], saved[72:])), chance.choice((120, 344, len(saved))))
        if chance.randrange(2) == 0:
            saved = saved[:-1024] + changed_bytes(chance, saved[-1024:])
        files = {"i": image, "s": saved}
        self.folder.put(files)
        found, wanted = self.folder.call(["walk", "i", "s"]), walk_answer(image, saved)
        same("walk, and the second reading", found, (wanted.status, wanted.output, wanted.log))
        same("files after walk", held(), files)
        return found[0]


    def migration(self, chance):
        number = self.one_of(chance, lambda it: None if self.image_of(it) is None else it)
        image = self.first_of(number)
        sort = chance.randrange(6)
        if sort == 0:
            same("migration, and what is built", migrate_answer(image).saved, self.image_of(number))
        elif sort == 1:
            image = changed_image(chance, self.image_of(number))
        else:
            image = (changed_places if sort < 4 else changed_image)(chance, image)
        to, files = chance.choice(("i", "j", "j")), {"i": image, **chance.choice(({}, {"j": b"old"}))}
        self.folder.put(files)
        found, wanted = self.folder.call(["migrate", "i", "-o", to]), migrate_answer(image)
        same("migrate, and the second reading", found, (wanted.status, wanted.output, wanted.log))
        same("files after migrate", held(), {**files, **({to: wanted.saved} if wanted.saved else {})})
        if wanted.saved:
            self.both_versions(chance, image, to)
        return found[0]

    def both_versions(self, chance, image, to):
        """What has been migrated runs as the image of version 1 does."""
        steps, stack, limits = self.limits(chance)
        script = chance.choice(self.scripted)[1]
        with open("c", "wb") as file:
            file.write(script)
        wanted = run_answer(image, script, b"ab", steps, stack)
        found = self.folder.call(["run", to, "--client", "c", *limits], b"ab")
        same("run of version 2, and the second reading of version 1", found, (wanted.status, wanted.output, wanted.log))


# ---- a process with its part of the seeds


def work(cases_of, program, seeds, until, told):
    """Runs the cases of seeds in a folder of its own, and tells the counts and the faults."""
    counts, faults = collections.Counter(), []
    with tempfile.TemporaryDirectory(prefix="fuzz-") as folder:
        os.chdir(folder)
        cases = cases_of(program)
        for seed in seeds:
            if time.monotonic() > until:
                break
            try:
                counts[cases.run(seed)] += 1
            except Fault as fault:
                faults.append(seed)
                print(f"seed {seed}: {fault}", flush=True)
        os.chdir("/")
    told.put((counts, faults))


def shared(cases_of, program, first, last, count, minutes):
    """Runs the cases of the seeds in so many processes, each with cases of its own, and answers the counts and the seeds of the faults."""
    told, until = multiprocessing.Queue(), time.monotonic() + 60 * minutes
    parts = [range(first + k, last + 1, count) for k in range(count)]
    workers = [multiprocessing.Process(target=work, args=(cases_of, os.path.abspath(program), part, until, told)) for part in parts]
    for worker in workers:
        worker.start()
    found = [told.get() for _ in workers]
    return sum((it for it, _ in found), collections.Counter()), [seed for _, seeds in found for seed in seeds]


def main(program, first, last, processes="2", minutes="inf"):
    counts, faults = shared(Cases, program, int(first), int(last), int(processes), float(minutes))
    for sort in SORTS:
        of_sort = {TOLD[status]: n for (it, status), n in sorted(counts.items()) if it == sort}
        print(f"{sort}: {sum(of_sort.values())} cases", *(f"{name} {n}" for name, n in of_sort.items()), sep=", ")
    print(f"fuzz: {sum(counts.values())} passed, {len(faults)} failed")
    return 1 if faults else 0


if __name__ == "__main__":
    sys.exit(main(*sys.argv[1:]) if len(sys.argv) in (4, 5, 6) else __doc__)
