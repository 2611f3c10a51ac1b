"""Scripts, the chain of frames, walks and the client at a yield, as docs/FORMATS.md and docs/RUNTIME.md have them: a second reading, written from these pages, by which
other scripts judge what the program does."""

import dataclasses
import re

from image_reading import CALLEE_SAVES, DATA_BASE, NO_YIELD
from plain_machine import REGION_BASE, STACK_OFFSET, Break, Over

LONGEST_SCRIPT = 65_536
MOST_VALUES = 64


class BadScript(Exception):
    """A rule that a script breaks, and the line."""

    def __init__(self, rule, line):
        super().__init__(rule, line)
        self.rule, self.line = rule, line


class Refused(Exception):
    """The number of the rule by which a command is refused."""


# ---- scripts


def number_of(word, limit=2**64):
    """The number below a limit that a word spells, or None."""
    if re.fullmatch(rb"[0-9]+", word):
        found = int(word.lstrip(b"0")[:21] or b"0")
    elif re.fullmatch(rb"0x[0-9a-fA-F]+", word):
        found = int(word, 16)
    else:
        return None
    return found if found < limit else None


def value_of(word):
    """A value: a number, or which value of the yield, in a list of one; None where the word is neither."""
    if word[:1] != b"$":
        return number_of(word)
    found = number_of(word[1:], MOST_VALUES) if re.fullmatch(rb"[0-9]+", word[1:]) else None
    return None if found is None else [found]


def small_number_of(word):
    return number_of(word, 2**32)


OPERANDS = {
    b"list": [],
    b"youngest": [],
    b"next": [],
    b"stop": [],
    b"desc": [number_of],
    b"var": [small_number_of],
    b"seek": [number_of, value_of],
    b"set": [small_number_of, value_of],
    b"poke": [lambda word: word, number_of, value_of],
    b"return": [small_number_of],
    b"unwind": [small_number_of],
    b"cut": [value_of],
}
WITH_VALUES = (b"return", b"unwind", b"cut")


def command_of(words):
    """The command of a line, with its operands, or None."""
    kinds = OPERANDS.get(words[0])
    if kinds is None:
        return None
    given = words[1:]
    most = len(kinds) + (MOST_VALUES if words[0] in WITH_VALUES else 0)
    if not len(kinds) <= len(given) <= most:
        return None
    found = [kind(word) for kind, word in zip(kinds, given)]
    values = [value_of(word) for word in given[len(kinds) :]]
    if None in found or None in values:
        return None
    return words[0].decode(), found + ([values] if words[0] in WITH_VALUES else [])


def read_script(content):
    """The commands of each block, by its code, None for `other`."""
    if len(content) > LONGEST_SCRIPT:
        raise BadScript(82, 1)
    blocks, block = {}, None
    for line, text in enumerate(content.split(b"\n"), 1):
        words = re.findall(rb"[^ \t]+", text)
        if not words or words[0].startswith(b"#"):
            continue
        if words == [b"other"] or (len(words) == 2 and words[0] == b"at" and number_of(words[1]) is not None):
            code = None if len(words) == 1 else number_of(words[1])
            if code in blocks:
                raise BadScript(81, line)
            block = blocks[code] = []
            continue
        command = command_of(words)
        if command is None or block is None:
            raise BadScript(80, line)
        block.append(command)
    return blocks


# ---- the chain


@dataclasses.dataclass
class Element:
    """An activation: its site, its frame, and for each callee-saves register the address where its value is, or None where it is in the register."""

    site: object
    frame: int
    saved: dict


def found_at(machine, address, frame, saved):
    """The activation of a return address and a frame; None at the end of the chain."""
    if address == machine.image.last and frame == machine.top:
        return None
    site = machine.image.sites.get(address)
    if site is None or frame % 16 or frame < REGION_BASE + STACK_OFFSET or frame + site.procedure.frame > machine.top:
        raise Break(frame, address)
    return Element(site, frame, saved)


def youngest(machine):
    return found_at(machine, machine.registers[1], machine.registers[2], {register: None for register in CALLEE_SAVES})


def older(machine, element):
    """The next older activation."""
    procedure = element.site.procedure
    saved = {**element.saved, **{register: element.frame + offset for register, offset in procedure.saved}}
    return found_at(machine, machine.word_at(element.frame + procedure.return_at), element.frame + procedure.frame, saved)


def chain(machine):
    """The activations, youngest first."""
    element = youngest(machine)
    while element is not None:
        yield element
        element = older(machine, element)


def held_at(element, location):
    """Where the variable of a location is: an address, or the number of a register, and None for the other."""
    kind, number = location
    if kind == "frame":
        return element.frame + number, None
    address = element.saved[number]
    return (address, None) if address is not None else (None, number)


def variable(machine, element, number):
    """The value of a variable, None where it is dead."""
    location = element.site.locations[number]
    if location is None:
        return None
    address, register = held_at(element, location)
    value = machine.registers[register] if address is None else machine.word_at(address)
    return value % 2 ** element.site.procedure.variables[number][0]


def shown_kind(kind):
    return b"".join(bytes([byte]) if 32 <= byte <= 126 and byte not in b'"\\' else b"\\x%02x" % byte for byte in kind)


def write_walk(machine, to):
    """Writes the walk, or the lines before the chain breaks."""
    for index, element in enumerate(chain(machine)):
        procedure = element.site.procedure
        to += b"activation %d %s site %d\n" % (index, procedure.name, element.site.number)
        for token, value in element.site.spans:
            to += b"span %d %d\n" % (token, value)
        for number, (width, _, kind) in enumerate(procedure.variables):
            value = variable(machine, element, number)
            to += b'var %d bits%d "%s" %s\n' % (number, width, shown_kind(kind), b"dead" if value is None else b"%d" % value)
    to += b"end\n"


# ---- the client


class Client:
    """What answers the yields of a run by the blocks of a script."""

    def __init__(self, blocks):
        self.blocks = blocks
        self.machine = self.cursor = self.values = None

    def __call__(self, machine):
        """Runs the block that answers a yield; it ends by a command that resumes, or the run is over."""
        self.machine = machine
        self.cursor = youngest(machine)
        count = 0 if self.cursor is None or self.cursor.site.yielded == NO_YIELD else self.cursor.site.yielded
        self.values = [self.travelling(k) for k in range(count)]
        machine.log += b" ".join([b"yield", *(b"%d" % value for value in self.values)]) + b"\n"
        has_block = bool(self.values) and self.values[0] in self.blocks
        for name, operands in self.blocks.get(self.values[0] if has_block else None, []):
            if name == "stop":
                break
            try:
                line = getattr(self, "do_" + name)(*operands)
            except Refused as refused:
                line = b"refused %d" % refused.args[0]
            machine.log += line + b"\n" if line else b""
            if line == b"resume":
                return
        raise Over(5, "stopped")

    def travelling(self, k):
        return self.machine.registers[10 + k] if k < 8 else self.machine.word_at(REGION_BASE + 8 * (k - 8))

    def given(self, value):
        """The number that a value of a script is."""
        if not isinstance(value, list):
            return value
        if value[0] >= len(self.values):
            raise Refused(69)
        return self.values[value[0]]

    def at_cursor(self):
        if self.cursor is None:
            raise Refused(60)
        return self.cursor

    def at_line(self):
        element = self.at_cursor()
        return b"at %s site %d" % (element.site.procedure.name, element.site.number)

    def do_list(self):
        write_walk(self.machine, self.machine.log)

    def do_youngest(self):
        found = youngest(self.machine)
        if found is None:
            raise Refused(60)
        self.cursor = found
        return self.at_line()

    def do_next(self):
        found = older(self.machine, self.at_cursor())
        if found is None:
            raise Refused(60)
        self.cursor = found
        return self.at_line()

    def do_desc(self, token):
        return b"desc %d" % dict(self.at_cursor().site.spans).get(token, 0)

    def do_seek(self, token, value):
        value = self.given(value)
        element = self.cursor
        while element is not None and dict(element.site.spans).get(token, 0) != value:
            element = older(self.machine, element)
        if element is None:
            raise Refused(60)
        self.cursor = element
        return self.at_line()

    def do_var(self, number):
        element = self.at_cursor()
        if number >= len(element.site.locations):
            raise Refused(61)
        value = variable(self.machine, element, number)
        return b"var %d %s" % (number, b"dead" if value is None else b"%d" % value)

    def do_set(self, number, value):
        value, element = self.given(value), self.at_cursor()
        if number >= len(element.site.locations):
            raise Refused(61)
        width, is_invariant, _ = element.site.procedure.variables[number]
        if is_invariant:
            raise Refused(66)
        if element.site.locations[number] is None:
            raise Refused(62)
        if value >= 2**width:
            raise Refused(63)
        address, register = held_at(element, element.site.locations[number])
        if address is None:
            self.machine.registers[register] = value
        else:
            self.machine.put_word(address, value)
        return b"ok"

    def do_poke(self, label, offset, value):
        value, at = self.given(value), self.machine.image.labels.get(label)
        if at is None or at + offset + 8 > DATA_BASE + len(self.machine.data) or (at + offset) % 8:
            raise Refused(68)
        self.machine.put_word(at + offset, value)
        return b"ok"

    def put_values(self, widths, values):
        """Puts values where they travel."""
        if len(widths) != len(values):
            raise Refused(65)
        if any(value >= 2**width for width, value in zip(widths, values)):
            raise Refused(63)
        for k, value in enumerate(values):
            if k < 8:
                self.machine.registers[10 + k] = value
            else:
                self.machine.put_word(REGION_BASE + 8 * (k - 8), value)

    @staticmethod
    def widths(element, continuation):
        return [element.site.procedure.variables[number][0] for number in continuation.parameters]

    def do_return(self, exit, values):
        values, element = [self.given(value) for value in values], youngest(self.machine)
        if element is None:
            raise Refused(60)
        alternates = element.site.alternates
        if exit > len(alternates) or (exit == len(alternates) and element.site.never_returns):
            raise Refused(64)
        self.put_values(element.site.results if exit == len(alternates) else self.widths(element, alternates[exit]), values)
        self.machine.pc = self.machine.registers[1] + 4 * exit
        return b"resume"

    def do_unwind(self, exit, values):
        values, element = [self.given(value) for value in values], self.at_cursor()
        if exit >= len(element.site.unwinds):
            raise Refused(64)
        continuation, landing = element.site.unwinds[exit]
        self.put_values(self.widths(element, continuation), values)
        for register, address in element.saved.items():
            if address is not None:
                self.machine.registers[register] = self.machine.word_at(address)
        self.machine.registers[2], self.machine.pc = element.frame, landing
        return b"resume"

    def do_cut(self, to, values):
        to, values = self.given(to), [self.given(value) for value in values]
        for element in chain(self.machine):
            for continuation in element.site.cuts:
                if element.frame + continuation.pair == to:
                    self.put_values(self.widths(element, continuation), values)
                    self.machine.registers[2], self.machine.pc = element.frame, continuation.code
                    return b"resume"
        raise Refused(67)
