"""Images and snapshots as docs/FORMATS.md has them: a second reading, written from that page, by which other scripts judge what the program does with bytes."""

import dataclasses
import struct

CODE_BASE, DATA_BASE, STACK_OFFSET = 0x10000, 0x40000000, 4096
LONGEST_FILE = 536_870_912
NO_RETURN_ADDRESS = 0xFFFFFFFF
NO_YIELD = 255
CALLEE_SAVES = (9, *range(18, 28))
WIDTHS = (8, 16, 32, 64)


class Broken(Exception):
    """A rule that bytes break, and the offset of the field that breaks it."""

    def __init__(self, rule, offset):
        super().__init__(rule, offset)
        self.rule, self.offset = rule, offset


@dataclasses.dataclass
class Continuation:
    pair: int
    code: int
    parameters: list


@dataclasses.dataclass
class Procedure:
    code: int
    name: bytes
    frame: int
    return_at: int
    saved: list
    variables: list
    stack_labels: list
    continuations: list

    def may_have_sites(self):
        return self.frame >= 16 and self.return_at != NO_RETURN_ADDRESS


@dataclasses.dataclass
class Site:
    """A call site; `fields` are the offsets at which the bytes of version 1 have its locations."""

    procedure: Procedure
    number: int
    never_returns: bool
    aborts: bool
    yielded: int
    results: list
    alternates: list
    unwinds: list
    cuts: list
    locations: list
    spans: list
    fields: list = dataclasses.field(default_factory=list, compare=False)


@dataclasses.dataclass
class Image:
    header: bytes
    code: bytes
    data: bytes
    start: int
    last: int
    procedures: list
    sites: dict
    labels: dict
    registers: dict

    def version(self):
        return int.from_bytes(self.header[4:8], "little")


class Fields:
    """The fields of a file, one after another; `cut` is the rule that is broken where the bytes end inside one."""

    def __init__(self, content, cut):
        self.content, self.cut = content, cut
        self.begin = self.end = 0

    def more(self, size):
        """The next bytes of the field that has begun."""
        if len(self.content) - self.end < size:
            raise Broken(self.cut, self.begin)
        self.end += size
        return self.content[self.end - size : self.end]

    def field(self, size):
        """The next field."""
        self.begin = self.end
        return self.more(size)

    def number(self, size, rule=53, good=lambda value: True):
        """The next field, a number, which breaks the rule where it is not a good one."""
        value = int.from_bytes(self.field(size), "little")
        self.need(good(value), rule)
        return value

    def text(self):
        self.begin = self.end
        return self.more(self.more(1)[0])

    def need(self, holds, rule):
        """The rule is broken by the last field unless this holds."""
        if not holds:
            raise Broken(rule, self.begin)

    def end_of_file(self, rule):
        if self.end < len(self.content):
            raise Broken(rule, self.end)


class ImageFields(Fields):
    """The fields of an image."""

    def __init__(self, content):
        super().__init__(content, 52)
        self.version = self.code_length = 0

    def in_code(self, address):
        return CODE_BASE <= address < CODE_BASE + self.code_length and address % 4 == 0

    def in_frame(self, offset, size, frame):
        """An offset that leaves so many bytes of a frame."""
        self.need(offset + size <= frame, 54)
        return offset

    def count(self, size, most=None):
        """A count, and as many turns."""
        return range(self.number(size, 53, lambda n: most is None or n <= most))

    def width(self):
        return self.number(1, 53, lambda width: width in WIDTHS)

    def address_above(self, before, others=()):
        """An address in code, above that of the record before and none of these others."""
        address = self.number(8)
        self.need((before is None or address > before) and address not in others, 53)
        self.need(self.in_code(address), 54)
        return address

    def variable(self, frame):
        """A variable, and in version 2 where it is in the whole procedure."""
        told = self.width(), self.number(1, 53, lambda it: it <= 1) == 1, self.text()
        return told, self.location(frame) if self.version == 2 else None

    def procedure(self, before):
        """A procedure, and in version 2 where its variables are."""
        code = self.address_above(before and before.code)
        name = self.text()
        frame = self.number(4)
        self.need(frame % 16 == 0, 53)
        self.need(frame <= 2**28, 54)
        return_at = self.number(4, 54, lambda at: at == NO_RETURN_ADDRESS or (at % 8 == 0 and at + 8 <= frame))
        saved, variables, places, continuations = [], [], [], []
        for _ in self.count(1):
            register = self.number(1, 53, lambda r: r in CALLEE_SAVES and (not saved or r > saved[-1][0]))
            saved.append((register, self.in_frame(self.number(4), 8, frame)))
        for _ in self.count(2, 1024):
            variable, place = self.variable(frame)
            variables.append(variable)
            places.append(place)
        stack_labels = [self.number(4, 54, lambda at: at <= frame) for _ in self.count(2)]
        for _ in self.count(2):
            pair = self.number(4, 54, lambda at: at % 8 == 0 and at + 16 <= frame)
            cut_code = self.number(8, 54, self.in_code)
            parameters = [self.number(2, 53, lambda n: n < len(variables)) for _ in self.count(1, 64)]
            continuations.append(Continuation(pair, cut_code, parameters))
        return Procedure(code, name, frame, return_at, saved, variables, stack_labels, continuations), places

    def location(self, frame):
        """Where a variable is, as one field: None where it is dead, or the name of what follows and that."""
        kind = self.field(1)[0]
        self.need(kind <= 2, 53)
        if kind == 0:
            return None
        if kind == 1:
            return "frame", self.in_frame(int.from_bytes(self.more(4), "little"), 8, frame)
        register = self.more(1)[0]
        self.need(register in CALLEE_SAVES, 53)
        return "register", register

    def locations(self, of):
        """Where the variables of a procedure are at a site of version 1, and where these fields begin."""
        found = [(self.location(of.frame), self.begin) for _ in of.variables]
        return [location for location, _ in found], [at for _, at in found]

    def live_places(self, places):
        """Where the variables with these places are at a site of version 2: at their places, where the bits have them live."""
        found = []
        for first in range(0, len(places), 8):
            eight = places[first : first + 8]
            may_be_live = sum(1 << bit for bit, place in enumerate(eight) if place is not None)
            bits = self.number(1, 53, lambda it: it & ~may_be_live == 0)
            found += [place if bits >> bit & 1 else None for bit, place in enumerate(eight)]
        return found, []

    def site(self, address, of, locations):
        """A site of a procedure, from its number on; `locations` reads where the variables are."""

        def continuation():
            return of.continuations[self.number(2, 53, lambda n: n < len(of.continuations))]

        number = self.number(4)
        flags = self.number(1, 53, lambda it: it < 4)
        yielded = self.number(1, 53, lambda n: n <= 64 or n == NO_YIELD)
        results = [self.width() for _ in self.count(1, 64)]
        alternates = self.count(1, 64)
        self.need(self.in_code(address + 4 * len(alternates)), 54)
        alternates = [continuation() for _ in alternates]
        unwinds = [(continuation(), self.number(8, 54, self.in_code)) for _ in self.count(2)]
        cuts = [continuation() for _ in self.count(2)]
        places, fields = locations()
        spans = []
        for _ in self.count(2):
            token = self.number(8, 53, lambda it: not spans or it > spans[-1][0])
            spans.append((token, self.number(8)))
        return Site(of, number, flags % 2 == 1, flags >= 2, yielded, results, alternates, unwinds, cuts, places, spans, fields)

    def first_tables(self, procedure_count, site_count):
        """The procedures, and behind them the sites, of version 1."""
        procedures, sites, address = [], {}, None
        for _ in range(procedure_count):
            procedures.append(self.procedure(procedures[-1] if procedures else None)[0])
        for _ in range(site_count):
            address = self.address_above(address)
            of = procedures[self.number(4, 53, lambda n: n < len(procedures) and procedures[n].may_have_sites())]
            sites[address] = self.site(address, of, lambda: self.locations(of))
        return procedures, sites

    def second_tables(self, procedure_count, site_count):
        """The procedures of version 2, in which their sites are."""
        procedures, sites = [], {}
        for left in reversed(range(procedure_count)):
            procedure, places = self.procedure(procedures[-1] if procedures else None)
            procedures.append(procedure)
            within = self.sites_within(procedure, places, sites)
            sites.update(within)
            unused = [place for n, place in enumerate(places) if place is not None and all(site.locations[n] is None for site in within.values())]
            self.number(1, 53, lambda it: it == 0 and not unused and (left > 0 or len(sites) == site_count))
        return procedures, dict(sorted(sites.items()))

    def sites_within(self, procedure, places, earlier):
        """The sites in the record of a procedure of version 2, whose addresses are none of those of earlier ones."""
        found, address = {}, None
        for _ in range(self.number(4, 53, lambda n: n == 0 or procedure.may_have_sites())):
            address = self.address_above(address, earlier)
            found[address] = self.site(address, procedure, lambda: self.live_places(places))
        return found

    def text_above(self, before):
        name = self.text()
        self.need(before is None or name > before, 53)
        return name


def read_image(content):
    """The image that bytes spell, or the first rule that they break."""
    if len(content) > LONGEST_FILE:
        raise Broken(56, LONGEST_FILE)
    it = ImageFields(content)
    it.need(it.field(4) == b"CMMI", 50)
    it.version = it.number(4, 51, lambda version: version in (1, 2))
    it.code_length = it.number(8, 54, lambda n: 4 <= n <= 0x3FFF0000 and n % 4 == 0)
    data_length = it.number(8, 54, lambda n: n <= 67_108_864)
    start, last = it.number(8, 54, it.in_code), it.number(8, 54, it.in_code)
    procedure_count = it.number(4, 53, lambda n: 1 <= n <= 65_535)
    site_count, label_count = it.number(4), it.number(4)
    global_count = it.number(4, 53, lambda n: n <= 256)
    it.number(4, 53, lambda n: n < procedure_count)
    it.number(4, 53, lambda n: n == 0)
    code, data = it.field(it.code_length), it.field(data_length)
    procedures, sites = (it.first_tables if it.version == 1 else it.second_tables)(procedure_count, site_count)
    labels, registers = {}, {}
    name = None
    for _ in range(label_count):
        name = it.text_above(name)
        labels[name] = it.number(8, 54, lambda at: DATA_BASE <= at <= DATA_BASE + data_length)
    name = None
    for _ in range(global_count):
        width = it.width()
        name = it.text_above(name)
        registers[name] = width
    it.end_of_file(55)
    return Image(content[:64], code, data, start, last, procedures, sites, labels, registers)


@dataclasses.dataclass
class Snapshot:
    registers: list
    pc: int
    data: bytearray
    region: bytearray


def read_snapshot(image, content):
    """The snapshot of a run of the image that bytes spell, or the first rule that they break."""
    if len(content) > LONGEST_FILE:
        raise Broken(73, LONGEST_FILE)
    it = Fields(content, 70)
    it.need(it.field(4) == b"CMMS", 75)
    it.number(4, 75, lambda version: version == 1)
    it.need(it.field(64) == image.header, 71)
    size = it.number(8, 72, lambda n: n % 16 == 0 and n <= 268_435_456)
    registers = [it.number(8, 72, lambda value: value == 0)] + [it.number(8) for _ in range(31)]
    pc = it.number(8)
    data, region = it.field(len(image.data)), it.field(STACK_OFFSET + size)
    it.end_of_file(74)
    return Snapshot(registers, pc, bytearray(data), bytearray(region))


def snapshot_bytes(image, snapshot):
    """The bytes that spell a snapshot of a run of the image."""
    size = len(snapshot.region) - STACK_OFFSET
    numbers = struct.pack("<34Q", size, *snapshot.registers, snapshot.pc)
    return b"CMMS" + struct.pack("<I", 1) + image.header + numbers + bytes(snapshot.data) + bytes(snapshot.region)
