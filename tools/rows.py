#!/usr/bin/env python3
"""Runs the cases of rows/*.txt with a built program, and compares what comes of each: rows.py PROGRAM [FILE..]

A case is a paragraph: lines up to an empty one. It runs in a folder of its own, which has the files that it names and no others.

    case: a sum                 what it shows, which may be left out
    file a.cmm: export main;    a file; each line that begins with four spaces is a further line of it, without these
        main() { return (2 + 3); }
    input = "ab\\x00"            what is on standard input, a pipe; without this line nothing. It may be told as a file is, below
    $ exec a.cmm --steps 1000   the words of the command line
    status: 0                   the exit status; without this line 0
    output = "A\\n" * 3          what must be on standard output; without this line nothing
    log: result 5               a line that must be on standard error, where `*` stands for any text; without such lines nothing
    then i image of a.cmm       a file that must be there afterwards. All others must be as they were

A file has one of these after its name, and so has `then`; the paths of `from` begin at rows/:

    : TEXT                      this text, without an end of its last line
    = "TEXT" * N + "TEXT"       these bytes, by the escapes \\n \\t \\r \\0 \\\\ \\" and \\xHH
    is NAME                     the text of a line `unit NAME` with `: TEXT` or `= ..`, of this paragraph or of an earlier one without words; CHANGES may follow, each
                                behind a comma
    from PATH
    by SCRIPT WORDS             what this script of tools/ prints; CHANGES may follow too
    image of a.cmm b.cmm        what the program builds of these files of the case; CHANGES may follow too:
                                `first 0 .. 3 bytes` (a run for each length), `each byte xor ff` or `each byte is 00` (a run for each byte), `at 64 00 00`, `24 has 00 01`
                                (which those bytes must be already), `and 00` (at the end)
    elf of a.cmm b.cmm          the ELF file of that image, as tools/elf.py writes it by the table of docs/FORMATS.md
    hex PATH                    the bytes that a file, whose path begins at rows/ too, has in hexadecimal digits, but for lines that begin with `#`; CHANGES may follow
    migration of i              what `migrate` must make of the file `i` of the case, as tools/migrating.py writes it; CHANGES may follow
    snapshot of i               what a run of the image in the file `i` leaves where its first yield stops it, by tools/second_reading.py; CHANGES may follow

`longest: 2` is how many bytes a read of a file or a write moves at most (`1 .. 3`: a run for each number); with 0 a write takes nothing.
`input fails`, `output fails` and `log fails` make that stream one that cannot be read or written. `fails: log 2` makes one call on a device fail, counted from
0 (`files 0 .. 37`: a run for each); tools/failing_calls.c, which is compiled for that and preloaded, has the devices. `room: files 0 .. 9` is how many bytes a file
may get, a run for each number, and then just so many first bytes of each file of a `then` must be there; `room: log 3` is that of the log. `front = "abc"` is an output of which
as many first bytes must be there as the number of the call that fails, and `log = "abc"` is a log that ends without its line's end.
`site d 0 of a.cmm: dead, 11 registers, frame` is where, by the image of these files, each variable of the procedure `d` is at its site 0, in their order. A
variable that is alive has a place of its own.
`any: 8 trap *` says one of more answers: with such lines the status and the log are those of one of them, and are the same when it runs again. In words and in the log `$NAME` is the text of a line `text NAME = ..`,
or the sum of a line `number NAME: end - 28 of a.cmm`, where `end` is the length of the image of these files and `frame.NAME` the frame size of a procedure
in it. A paragraph without a line of words holds for all later cases of its file. Lines that begin with `#` are comments.

An `exec` is run a second way by itself: `build`, and `run` of the image, with the same options. What comes must be the same, where `build` answers units that
are refused, and where it is done says nothing. The last line is `N passed, M failed`, of cases.
"""

import atexit
import concurrent.futures
import dataclasses
import functools
import os
import re
import shlex
import subprocess
import sys
import tempfile

from elf import elf_file, parts
from image_reading import Broken, read_image
from migrating import migrated
from second_reading import run_answer

TOOLS = os.path.dirname(os.path.abspath(__file__))
ROWS = os.path.join(os.path.dirname(TOOLS), "rows")
QUOTED = r'"(?:[^"\\]|\\.)*"'
ESCAPES = {"n": 10, "t": 9, "r": 13, "0": 0, "\\": 92, '"': 34}
USAGE, REFUSED, FILE_FAULT = 2, 3, 9
# (how a content begins that is made, and may be changed then)
MADE = ("is ", "by ", "hex ", "image of ", "elf of ", "migration of ", "snapshot of ")
SECONDS = 120


class BadRow(Exception):
    """A case that cannot be read."""


@dataclasses.dataclass
class Case:
    """A paragraph: its place, its lines by their keys, and the files, units and numbers that it names."""

    place: str
    title: str = ""
    words: str | None = None
    status: int = 0
    output: bytes = b""
    input: str = '= ""'
    log: list = dataclasses.field(default_factory=list)
    answers: list = dataclasses.field(default_factory=list)
    failing: set = dataclasses.field(default_factory=set)
    calls: str = ""
    room: str = ""
    longest: str = ""
    front: bytes | None = None
    cut_log: bytes | None = None
    files: dict = dataclasses.field(default_factory=dict)
    wanted: dict = dataclasses.field(default_factory=dict)
    units: dict = dataclasses.field(default_factory=dict)
    texts: dict = dataclasses.field(default_factory=dict)
    numbers: dict = dataclasses.field(default_factory=dict)
    sites: list = dataclasses.field(default_factory=list)


def bytes_of(text):
    """The bytes of quoted texts that are repeated and joined."""
    found = b""
    for piece in re.findall(rf"(?:{QUOTED}|[^+\"])+", text):
        match = re.fullmatch(rf"\s*({QUOTED})(?:\s*\*\s*(\d+))?\s*", piece)
        if not match:
            raise BadRow(f"no quoted text: {piece[:60]}")
        one = re.sub(rb"\\(x..|.)", lambda it: bytes([int(it[1][1:], 16) if len(it[1]) == 3 else ESCAPES[it[1].decode()]]), match[1][1:-1].encode())
        found += one * int(match[2] or 1)
    return found


def plain(rest):
    """The bytes behind `:` or `=`."""
    if rest.startswith(": "):
        return rest[2:].encode()
    if rest.startswith("= "):
        return bytes_of(rest[2:])
    raise BadRow(f"neither `: TEXT` nor `= ..`: {rest[:60]}")


def take(case, line):
    """Notes a line of a paragraph, with the lines of its text, in the case."""
    key, _, rest = re.match(r"(\$|[a-z]+)(\b| |$)(.*)", line, re.S).groups() if re.match(r"\$|[a-z]", line) else ("", "", line)
    rest = rest.removeprefix(" ")
    if key == "$":
        case.words = rest
    elif key == "case":
        case.title = plain(rest).decode()
    elif key in ("input", "output", "log") and rest == "fails":
        case.failing.add(key)
    elif key == "input":
        case.input = rest
    elif key == "output":
        case.output = plain(rest)
    elif key == "status":
        case.status = int(plain(rest))
    elif key in ("fails", "room", "longest"):
        setattr(case, "calls" if key == "fails" else key, plain(rest).decode())
    elif key == "front":
        case.front = plain(rest)
    elif key == "log" and rest.startswith("= "):
        case.cut_log = plain(rest)
    elif key in ("log", "any"):
        (case.log if key == "log" else case.answers).append(plain(rest).decode())
    elif key == "site":
        case.sites.append(rest)
    else:
        take_named(case, key, *re.match(r"([^\s:]*)\s*(.*)", rest, re.S).groups())


def take_named(case, key, name, rest):
    """Notes a line that names a file, a unit, a text or a number."""
    if key in ("file", "then"):
        (case.files if key == "file" else case.wanted)[name] = rest
    elif key in ("unit", "text"):
        (case.units if key == "unit" else case.texts)[name] = plain(rest)
    elif key == "number":
        case.numbers[name] = plain(rest).decode()
    else:
        raise BadRow(f"no line of a case begins so: {key} {name}"[:80])


def paragraphs(text):
    """The paragraphs of a file, each with the number of its first line and its lines, with further lines joined to those that they belong to."""
    found, lines = [], []
    for number, line in enumerate([*text.split("\n"), ""], 1):
        if line.startswith("    ") and lines:
            lines[-1][1] += "\n" + line[4:]
        elif line.strip() == "":
            found += [lines] if lines else []
            lines = []
        elif not line.startswith("#"):
            lines.append([number, line])
    return found


def cases_of(path):
    """The cases of a file of rows."""
    with open(path, encoding="utf-8") as file:
        text = file.read()
    shared, found = Case(""), []
    for lines in paragraphs(text):
        number = lines[0][0]
        case = Case(f"{os.path.relpath(path, os.path.dirname(ROWS))}:{number}", files=dict(shared.files), units=dict(shared.units), texts=dict(shared.texts))
        for number, line in lines:
            try:
                take(case, line)
            except (BadRow, ValueError, KeyError) as why:
                sys.exit(f"{path}:{number}: {why}")
        if case.words is None:
            shared = case
        else:
            found.append(case)
    return found


def sum_of(text, names):
    """What a sum comes to: `10 * frame.g + frame.main - 16`."""
    found = 0
    for sign, times, word in re.findall(r"([+-]?)\s*(?:(\d+)\s*\*\s*)?([\w.]+)", text):
        value = int(word) if word.isdigit() else names[word]
        found += (-1 if sign == "-" else 1) * int(times or 1) * value
    return found


def frames_of(image):
    """The frame size of each procedure of an image, by its name."""
    return {f"frame.{procedure.name.decode()}": procedure.frame for procedure in read_image(image).procedures}


def fault_of_places(told, places):
    """What is wrong with the places of the variables at a site, if anything is: `11 registers` stands for as many."""
    wanted = []
    for times, kind in re.findall(r"(?:(\d+) )?(dead|register|frame)s?(?:, |$)", told):
        wanted += [kind] * int(times or 1)
    found = [place[0] if place else "dead" for place in places]
    alive = [place for place in places if place]
    if found != wanted:
        return f"the variables are {', '.join(found)}, and not {told}"
    return None if len(set(alive)) == len(alive) else f"two variables have one place: {alive}"


@dataclasses.dataclass(frozen=True)
class Limits:
    """What the world outside refuses in a run: calls on devices, which cannot be used at all, the one call on a device that fails, bytes of a file beyond so many, and more
    bytes than so many in one call."""

    failing: frozenset = frozenset()
    device: str = ""
    call: int = 0
    room: int | None = None
    longest: int | None = None
    log_is_file: bool = False

    def any(self):
        return self != Limits()

    def told(self):
        """Which of a case's runs this is, in words; none where it has one run."""
        if self.device:
            return f"where call {self.call} on {self.device} fails: "
        if self.room is not None:
            return f"with room for {self.room} bytes: "
        return "" if self.longest is None else f"with {self.longest} bytes a call: "

    def environment(self):
        """The variables that tell the preloaded library what to refuse."""
        told = {"FAILING_CALL": f"{self.device} {self.call}"} if self.device else {}
        told.update({} if self.room is None else {"FILE_ROOM": str(self.room)})
        told.update({} if self.longest is None else {"LONGEST_CALL": str(self.longest)})
        return {**os.environ, "LD_PRELOAD": failing_calls(), **told} if told else None


@functools.lru_cache(maxsize=None)
def failing_calls():
    """The library that makes calls fail, compiled."""
    folder = tempfile.TemporaryDirectory(prefix="rows-")
    atexit.register(folder.cleanup)
    made = os.path.join(folder.name, "failing_calls.so")
    subprocess.run(["cc", "-O1", "-shared", "-fPIC", "-o", made, os.path.join(TOOLS, "failing_calls.c")], check=True)
    return made


@dataclasses.dataclass
class Answer:
    status: int
    output: bytes
    log: bytes
    files: dict


def held(folder):
    """The files in a folder, with what is in them."""
    found = {}
    for at, _, names in os.walk(folder):
        for name in names:
            with open(os.path.join(at, name), "rb") as file:
                found[os.path.relpath(os.path.join(at, name), folder)] = file.read()
    return found


def call(program, words, files, given=b"", limits=Limits()):
    """What comes of the program with these words, in a folder that has these files."""
    with tempfile.TemporaryDirectory(prefix="rows-") as folder, open("/dev/full", "wb") as full, tempfile.TemporaryFile() as log:
        for name, content in files.items():
            with open(os.path.join(folder, name), "wb") as file:
                file.write(content)
        ends = {"stdout": full if "output" in limits.failing else subprocess.PIPE, "stderr": full if "log" in limits.failing else log if limits.log_is_file else subprocess.PIPE}
        if "input" in limits.failing:
            ends["stdin"] = os.open(folder, os.O_RDONLY)
        else:
            ends["input"] = given
        try:
            ran = subprocess.run([program, *words], cwd=folder, timeout=SECONDS, env=limits.environment(), **ends)
        finally:
            if "input" in limits.failing:
                os.close(ends["stdin"])
        log.seek(0)
        return Answer(ran.returncode, ran.stdout or b"", ran.stderr or log.read(), held(folder))


class Runner:
    """Runs cases with a program."""

    def __init__(self, program):
        self.program = program
        self.image = functools.lru_cache(maxsize=None)(self.build)
        self.printed = functools.lru_cache(maxsize=None)(printed)

    def build(self, *files):
        """The image of units in files of these names and texts."""
        names = [name for name, _ in files]
        made = call(self.program, ["build", "-o", "image", "--", *names], dict(files))
        if made.status or "image" not in made.files:
            raise BadRow(f"no image is built of {names}: {made.log.decode(errors='replace')}")
        return made.files["image"]

    def image_of(self, case, names):
        return self.image(*((name, self.contents(case, case.files[name])[0]) for name in names))

    def fault_of_site(self, case, told):
        """What is wrong with the row of a site, if anything is."""
        match = re.fullmatch(r"(\S+) (\d+) of ([^:]+): (.+)", told)
        if not match:
            raise BadRow(f"no row of a site: {told}")
        name, number, files, places = match.groups()
        image = read_image(self.image_of(case, files.split()))
        for site in image.sites.values():
            if (site.procedure.name.decode(), site.number) == (name, int(number)):
                fault = fault_of_places(places, site.locations)
                return fault and f"at site {number} of {name} {fault}"
        return f"{name} has no site {number}"

    def contents(self, case, told):
        """What a file may have in it: one content, or several where a change says `each` or `first`."""
        if told.startswith("from "):
            with open(os.path.join(ROWS, told[5:]), "rb") as file:
                return [file.read()]
        if not told.startswith(MADE):
            return [plain(told)]
        made, *changes = re.split(r",\s+", told)
        found = [self.made(case, made)]
        for change in changes:
            found = [it for image in found for it in changed(image, change)]
        return found

    def made(self, case, told):
        """What a file has before any change."""
        if told.startswith("is "):
            return case.units[told[3:]]
        if told.startswith("by "):
            return self.printed(told[3:])
        if told.startswith("hex "):
            return of_digits(told[4:])
        what, _, names = told.partition(" of ")
        if what in ("migration", "snapshot"):
            content = self.contents(case, case.files[names])[0]
            return migrated(content) if what == "migration" else stopped(content)
        image = self.image_of(case, names.split())
        return elf_file(*parts(image)) if what == "elf" else image

    def texts_of(self, case):
        """What stands for `$NAME` in a case."""
        found = {name: text.decode() for name, text in case.texts.items()}
        for name, told in case.numbers.items():
            formula, names = told.rsplit(" of ", 1)
            image = self.image_of(case, names.split())
            found[name] = str(sum_of(formula, {"end": len(image), **frames_of(image)}))
        return found

    def limits_of(self, case):
        """What the world outside refuses in each run of a case."""
        device, _, told = (case.calls or case.room or (case.longest and f"all {case.longest}")).partition(" ")
        told, _, names = told.partition(" of ")
        ends = {"end": len(self.image_of(case, names.split()))} if names else {}
        least, most = (told.split(" .. ") * 2)[:2] if told else ("0", "0")
        numbers = range(sum_of(least, ends), sum_of(most, ends) + 1)
        failing = frozenset(case.failing)
        if case.room:
            return [Limits(failing, room=number, log_is_file=device == "log") for number in numbers]
        if case.longest:
            return [Limits(failing, longest=number) for number in numbers]
        return [Limits(failing, device, number) for number in numbers]

    def runs(self, case):
        """The runs of a case: files, the files that must be there afterwards, and what is refused."""
        limits = self.limits_of(case)
        fronts = [{name: content[: it.room] for name, content in self.then_of(case).items()} for it in limits]
        found = self.ways(case)
        return [(files, {**left, **then}, it) for files, left in found for it, then in zip(limits, fronts)]

    def then_of(self, case):
        """The files that must be there afterwards beside what was there."""
        return {name: self.contents(case, told)[0] for name, told in case.wanted.items()}

    def ways(self, case):
        """The files that a case may begin with, twice: as they are then, and as they must be left."""
        ways = {name: self.contents(case, told) for name, told in case.files.items()}
        several = [name for name, contents in ways.items() if len(contents) != 1]
        files = {name: contents[0] for name, contents in ways.items() if len(contents) == 1}
        if not several:
            return [(files, files)]
        return [({**files, several[0]: content},) * 2 for content in ways[several[0]]]

    def fault_of(self, case, texts, files, then, limits):
        """What is wrong with a run of a case, if anything is."""
        words, given = [filled(word, texts) for word in shlex.split(case.words)], self.contents(case, case.input)[0]
        answer = call(self.program, words, files, given, limits)
        fault = fault_of_answer(case, texts, answer, limits)
        if fault:
            fault = limits.told() + fault
        if fault is None and answer.files != then:
            fault = f"the files {told_apart(answer.files, then)} are not as they must be"
        if fault is None and case.answers:
            fault = None if call(self.program, words, files, given) == answer else "another run answers otherwise"
        if fault is None and words[:1] == ["exec"] and answer.status != USAGE and not limits.any():
            fault = self.fault_of_second_way(words, files, given, answer)
        return fault

    def fault_of_second_way(self, words, files, given, answer):
        """What is wrong where the units are built to a file and that is run, if anything is."""
        names, options = parts_of(words[1:])
        # (where a unit is standard input, `build` takes that)
        rest, given = (given, b"") if "/dev/stdin" in names else (b"", given)
        built = call(self.program, ["build", "-o", "image", "--", *names], files, rest)
        made = built.files.pop("image", None)
        unread = answer.status == FILE_FAULT and answer.log.decode().removeprefix("file fault ").rstrip("\n")
        if answer.status == REFUSED or unread in names:
            same = (built.status, built.log, made) == (answer.status, answer.log, None)
            return None if same and built.files == files else f"`build` answers {built.status} {built.log}"
        # (`exec` reads the file of the client before it looks at the units, so `build` may refuse these)
        if unread and built.status == REFUSED:
            return None
        if (built.status, built.log, built.output) != (0, b"", b"") or made is None or built.files != files:
            return f"`build` answers {built.status} {built.log}"
        beside = {"image": made, **{name: content for name, content in files.items() if name not in names}}
        again = call(self.program, ["run", *options, "--", "image"], beside, given)
        same = (again.status, again.log, again.output, again.files) == (answer.status, answer.log, answer.output, beside)
        return None if same else f"`run` of the image answers {again.status} {again.log} {again.output}"


def of_digits(path):
    """The bytes that a file has in hexadecimal digits."""
    with open(os.path.join(ROWS, path), encoding="utf-8") as file:
        return bytes.fromhex("".join(line for line in file if not line.startswith("#")))


def stopped(image):
    """The snapshot of a run that its first yield stops."""
    saved = run_answer(image).saved
    if saved is None:
        raise BadRow("the run of the image is not stopped")
    return saved


def printed(words):
    """What a script of tools/ prints."""
    script, *words = shlex.split(words)
    return subprocess.run([sys.executable, os.path.join(TOOLS, script), *words], stdout=subprocess.PIPE, check=True).stdout


def parts_of(words):
    """The names and the options of an `exec`."""
    names, options, at = [], [], 0
    while at < len(words):
        if words[at] == "--":
            return names + words[at + 1 :], options
        value = words[at] in ("--client", "--steps", "--stack")
        (options if words[at].startswith("-") else names).extend(words[at : at + 1 + value])
        at += 1 + value
    return names, options


def changed(image, change):
    """The bytes that an image becomes by a change."""
    if match := re.fullmatch(r"first (.*) \.\. (.*) bytes", change):
        least, most = (sum_of(it, {"end": len(image)}) for it in match.groups())
        return [image[:length] for length in range(least, most + 1)]
    if match := re.fullmatch(r"each byte xor (\w\w)", change):
        bits = int(match[1], 16)
        return [image[:at] + bytes([byte ^ bits]) + image[at + 1 :] for at, byte in enumerate(image)]
    if match := re.fullmatch(r"each byte is (\w\w)", change):
        return [image[:at] + bytes.fromhex(match[1]) + image[at + 1 :] for at in range(len(image))]
    if match := re.fullmatch(r"at (\d+) ([\w ]+)", change):
        at, others = int(match[1]), bytes.fromhex(match[2])
        return [image[:at] + others + image[at + len(others) :]]
    if match := re.fullmatch(r"(\d+) has ([\w ]+)", change):
        if not image[int(match[1]) :].startswith(bytes.fromhex(match[2])):
            raise BadRow(f"the image has other bytes at {match[1]}")
        return [image]
    if match := re.fullmatch(r"and ([\w ]+)", change):
        return [image + bytes.fromhex(match[1])]
    raise BadRow(f"no change of an image: {change}")


def filled(text, texts):
    return re.sub(r"\$(\w+)", lambda it: texts[it[1]], text)


def is_told(text, pattern):
    """Whether a text is that of a pattern, in which `*` stands for any text."""
    return re.fullmatch(".*".join(map(re.escape, pattern.split("*"))), text, re.S) is not None


def told_apart(found, wanted):
    return sorted(name for name in found.keys() | wanted.keys() if found.get(name) != wanted.get(name))


def fault_of_answer(case, texts, answer, limits):
    """What is wrong with a status, an output and a log, if anything is."""
    output = case.output if case.front is None else case.front[: limits.call]
    log = answer.log.decode(errors="replace")
    if case.answers:
        told = [it.split(" ", 1) for it in case.answers]
        good = any(answer.status == int(status) and is_told(log, filled(line, texts) + "\n") for status, line in told)
        return None if good else f"answered {answer.status} {log!r}, which is none of the answers"
    wanted = "".join(filled(line, texts) + "\n" for line in case.log)
    told = is_told(log, wanted) if case.cut_log is None else answer.log == case.cut_log
    if (answer.status, answer.output) != (case.status, output) or not told:
        wanted = wanted if case.cut_log is None else case.cut_log.decode(errors="replace")
        return f"answered {answer.status} {log[-200:]!r} {answer.output!r}, and not {case.status} {wanted[-200:]!r} {output!r}"
    return None


def main(program, *paths):
    """Runs the cases of these files, or of all, a few at once, and says which fail."""
    paths = paths or sorted(os.path.join(ROWS, name) for name in os.listdir(ROWS) if name.endswith(".txt"))
    runner = Runner(os.path.abspath(program))
    cases = [case for path in paths for case in cases_of(path)]
    faults, runs = {}, {}
    with concurrent.futures.ThreadPoolExecutor(min(4, os.cpu_count() or 1)) as pool:
        for case in cases:
            try:
                texts = runner.texts_of(case)
                for fault in filter(None, (runner.fault_of_site(case, told) for told in case.sites)):
                    faults.setdefault(case.place, f"{case.title}: {fault}")
                for files, then, limits in runner.runs(case):
                    runs[pool.submit(runner.fault_of, case, texts, files, then, limits)] = case
            except (BadRow, Broken, KeyError, subprocess.TimeoutExpired) as why:
                faults.setdefault(case.place, f"{case.title}: {why}")
        for run, case in runs.items():
            try:
                fault = run.result()
            except subprocess.TimeoutExpired:
                fault = f"no answer within {SECONDS} seconds"
            if fault:
                faults.setdefault(case.place, f"{case.title}: {fault}" if case.title else fault)
    for place, fault in faults.items():
        print(f"{place}: {fault}")
    print(f"rows: {len(runs)} runs")
    print(f"{len(cases) - len(faults)} passed, {len(faults)} failed")
    return 1 if faults or not cases else 0


if __name__ == "__main__":
    sys.exit(main(*sys.argv[1:]) if len(sys.argv) > 1 else __doc__)
