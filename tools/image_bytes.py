#!/usr/bin/env python3
"""The bytes of two images, written from the format's tables with `struct`, and what is wrong with others like them.

    tools/image_bytes.py            prints an image of version 1 with a field of every kind
    tools/image_bytes.py --rows     prints rows/fields.txt
    tools/image_bytes.py 1          prints another of version 1, of five sites in three procedures
    tools/image_bytes.py 2          prints the same image in version 2
    tools/image_bytes.py 2 --rows   prints rows/second_fields.txt
"""
import struct
import sys

CODE_BASE, DATA_BASE = 0x10000, 0x40000000
DATA = b"\x00\x01\xfe\xff\x10\x20\x30\x40\x50"
NONE = 0xFFFFFFFF


class Fields:
    """Fields, one after another, with where they begin; some have names."""

    def __init__(self):
        self.fields, self.out, self.names = [], bytearray(), {}

    def field(self, data, name=None):
        """One field: it begins here."""
        self.fields.append(len(self.out))
        if name:
            self.names[name] = len(self.out)
        self.out.extend(data)

    def number(self, width, *values, name=None):
        for value in values:
            self.field(struct.pack({1: "<B", 2: "<H", 4: "<I", 8: "<Q"}[width], value), name)

    def text(self, name):
        self.field(bytes([len(name)]) + name)


def image():
    """An image of version 1 with a field of every kind."""
    it = Fields()
    code = bytes(range(24))

    # the header
    it.number(4, 0x494D4D43, 1)
    it.number(8, len(code), len(DATA), CODE_BASE, CODE_BASE + 4)
    it.number(4, 2, 2, 2, 2, 1, 0)
    it.field(code)
    it.field(DATA)

    # a procedure without sites
    it.number(8, CODE_BASE + 8)
    it.text(b"leaf")
    it.number(4, 0, NONE)
    it.number(1, 0)
    it.number(2, 0, 0, 0)

    # a procedure with everything
    it.number(8, CODE_BASE + 12)
    it.text(b"main")
    it.number(4, 64, 56)
    it.number(1, 2)
    it.number(1, 9)
    it.number(4, 48)
    it.number(1, 27)
    it.number(4, 40)
    it.number(2, 4)
    for width, invariant, kind in [(8, 0, b""), (16, 1, b"a b"), (32, 0, b"\xff"), (64, 0, b"")]:
        it.number(1, width, invariant)
        it.text(kind)
    it.number(2, 2)
    it.number(4, 0, 64)
    it.number(2, 1)
    it.number(4, 24)
    it.number(8, CODE_BASE + 20)
    it.number(1, 2)
    it.number(2, 3, 0)

    # a site with everything: it aborts, and is a yield
    it.number(8, CODE_BASE + 8)
    it.number(4, 1, 7)
    it.number(1, 2, 64)
    it.number(1, 2)
    it.number(1, 64, 8)
    it.number(1, 1)
    it.number(2, 0)
    it.number(2, 1)
    it.number(2, 0)
    it.number(8, CODE_BASE + 16)
    it.number(2, 1)
    it.number(2, 0)
    it.field(b"\x00")
    it.field(b"\x01" + struct.pack("<I", 56))
    it.field(b"\x02\x12")
    it.field(b"\x02\x09")
    it.number(2, 2)
    it.number(8, 1, 5, 2**64 - 1, 2**64 - 1)

    # a site with nothing: it never returns
    it.number(8, CODE_BASE + 16)
    it.number(4, 1, 2**32 - 1)
    it.number(1, 1, 255)
    it.number(1, 0)
    it.number(1, 0)
    it.number(2, 0, 0)
    it.field(b"\x00")
    it.field(b"\x00")
    it.field(b"\x00")
    it.field(b"\x00")
    it.number(2, 0)
    labels_and_registers(it)
    return it


def labels_and_registers(it):
    it.text(b"")
    it.number(8, DATA_BASE)
    it.text(b"d")
    it.number(8, DATA_BASE + len(DATA))
    it.number(1, 8)
    it.text(b"a")
    it.number(1, 64)
    it.text(b"ab")


# ---- the image of both versions

# A run of it asks the client with a frame of `main` at its first site, whose address the word at 32 puts into register 1; behind that are no instructions.
WORDS = [
    0x00500493,  # addi x9, x0, 5
    0x00700913,  # addi x18, x0, 7
    0x00B00D93,  # addi x27, x0, 11
    0xFC010113,  # addi x2, x2, -64
    0x00000097,  # auipc x1, 0
    0x02113C23,  # sd x1, 56(x2)
    0x01213823,  # sd x18, 16(x2)
    0x00913C23,  # sd x9, 24(x2)
    0x02008093,  # addi x1, x1, 32
    0x00300293,  # addi x5, x0, 3
    0x00000073,  # ecall
    *[0] * 9,
]
DEAD = b"\x00"


def in_frame(offset):
    return b"\x01" + struct.pack("<I", offset)


def in_register(register):
    return bytes([2, register])


# The variables of two procedures: a width, whether it is invariant, a kind, and a place.
EIGHT = [
    (64, 0, b"", in_register(9)),
    *[(width, 0, b"", DEAD) for width in (8, 16, 32, 64, 8, 16)],
    (64, 0, b"", in_frame(0)),
]
MAIN = [
    (8, 0, b"", DEAD),
    (16, 1, b"a b", in_frame(56)),
    (32, 0, b"\xff", in_register(18)),
    (64, 0, b"", in_register(9)),
    (8, 0, b"", in_frame(0)),
    (16, 0, b"", in_register(27)),
    (32, 0, b"", DEAD),
    (64, 0, b"", in_frame(16)),
    (64, 0, b"", in_frame(24)),
]


def twin(version):
    """The image of five sites in three procedures."""
    it = Fields()
    code = struct.pack(f"<{len(WORDS)}I", *WORDS)
    it.number(4, 0x494D4D43, version)
    it.number(8, len(code), len(DATA), CODE_BASE, CODE_BASE + 16)
    it.number(4, 4, 5, 2, 2, 1, 0)
    it.field(code)
    it.field(DATA)
    if version == 1:
        for procedure in (eight, main, none, leaf):
            procedure(it, False)
        # (in the order of their addresses)
        first_site(it, 1)
        site_of_eight(it, 0)
        site_of_none(it, 2)
        second_site(it, 1)
        third_site(it, 1)
    else:
        with_sites(it, "eight", eight, site_of_eight)
        with_sites(it, "main", main, first_site, second_site, third_site)
        with_sites(it, "none", none, site_of_none)
        with_sites(it, "leaf", leaf)
    labels_and_registers(it)
    return it


def with_sites(it, name, procedure, *sites):
    """A procedure of version 2."""
    procedure(it, True)
    it.number(4, len(sites), name=f"{name}: sites")
    for site in sites:
        site(it, None)
    it.number(1, 0, name=f"{name}: end")


def put_variables(it, name, variables, has_places):
    it.number(2, len(variables), name=f"{name}: variables")
    for n, (width, invariant, kind, place) in enumerate(variables):
        it.number(1, width, invariant)
        it.text(kind)
        if has_places:
            it.field(place, f"{name}: place {n}")


def eight(it, has_places):
    """A procedure of eight variables."""
    it.number(8, CODE_BASE + 8)
    it.text(b"eight")
    it.number(4, 16)
    it.number(4, 8, name="eight: return address")
    it.number(1, 0)
    put_variables(it, "eight", EIGHT, has_places)
    it.number(2, 0, 0)


def main(it, has_places):
    """A procedure of nine variables, with everything else that there is."""
    it.number(8, CODE_BASE + 12)
    it.text(b"main")
    it.number(4, 64)
    it.number(4, 56, name="main: return address")
    it.number(1, 2)
    it.number(1, 9)
    it.number(4, 48)
    it.number(1, 27)
    it.number(4, 40)
    put_variables(it, "main", MAIN, has_places)
    it.number(2, 2)
    it.number(4, 0, 64, name="main: room")
    it.number(2, 1)
    it.number(4, 24, name="main: pair")
    it.number(8, CODE_BASE + 44)
    it.number(1, 2)
    it.number(2, 3, 0, name="main: parameter")


def none(it, _):
    """A procedure of no variables, whose name has no bytes."""
    it.number(8, CODE_BASE + 16)
    it.text(b"")
    it.number(4, 16, 0)
    it.number(1, 0)
    it.number(2, 0, 0, 0)


def leaf(it, _):
    """A procedure without a frame."""
    it.number(8, CODE_BASE + 20)
    it.text(b"leaf")
    it.number(4, 0, NONE)
    it.number(1, 0)
    it.number(2, 0, 0, 0)


def begin_site(it, name, address, procedure, number):
    """The address of a site, its procedure where it stands in no record of one, and its number there."""
    it.number(8, CODE_BASE + address, name=f"{name}: address")
    if procedure is not None:
        it.number(4, procedure, name=f"{name}: procedure")
    it.number(4, number)


def put_live(it, name, procedure, variables, live, bits):
    """Where the variables are: a place for each in version 1, and in version 2 the bits that say which are live."""
    if procedure is None:
        for n, byte in enumerate(bits):
            it.number(1, byte, name=f"{name}: bits {n}")
    else:
        for n, variable in enumerate(variables):
            it.field(variable[3] if n in live else DEAD, f"{name}: place {n}")


def first_site(it, procedure):
    """A site of `main` with everything: it aborts, and is a yield."""
    begin_site(it, "first", 48, procedure, 7)
    it.number(1, 2, name="first: flags")
    it.number(1, 2, name="first: values")
    it.number(1, 2, name="first: results")
    it.number(1, 64, 8, name="first: result")
    it.number(1, 1, name="first: alternates")
    it.number(2, 0, name="first: alternate")
    it.number(2, 1)
    it.number(2, 0, name="first: unwind")
    it.number(8, CODE_BASE + 68, name="first: landing")
    it.number(2, 1)
    it.number(2, 0, name="first: cut")
    put_live(it, "first", procedure, MAIN, (1, 2, 3, 7, 8), b"\x8e\x01")
    it.number(2, 2)
    it.number(8, 1, 5)
    it.number(8, 2**64 - 1, name="first: token")
    it.number(8, 2**64 - 1)


def site_of_eight(it, procedure):
    """The site of `eight`, with as little as a site may have; it stands between those of `main`."""
    begin_site(it, "eight", 52, procedure, 3)
    it.number(1, 0, 0, 0, 0)
    it.number(2, 0, 0)
    put_live(it, "eight", procedure, EIGHT, (0, 7), b"\x81")
    it.number(2, 0)


def site_of_none(it, procedure):
    """The site of `none`; it stands between those of `main` too."""
    begin_site(it, "none", 56, procedure, 0)
    it.number(1, 0, 255, 0, 0)
    it.number(2, 0, 0)
    it.number(2, 0)


def second_site(it, procedure):
    """A site of `main` that never returns."""
    begin_site(it, "second", 60, procedure, 2**32 - 1)
    it.number(1, 1, 255, 0)
    it.number(1, 0, name="second: alternates")
    it.number(2, 0, 0)
    put_live(it, "second", procedure, MAIN, (2, 4, 5, 8), b"\x34\x01")
    it.number(2, 0)


def third_site(it, procedure):
    """A site of `main` that never returns and aborts, and has the number of another."""
    begin_site(it, "third", 64, procedure, 7)
    it.number(1, 3, 1, 1, 32, 0)
    it.number(2, 0, 0)
    put_live(it, "third", procedure, MAIN, (2, 3, 8), b"\x0c\x01")
    it.number(2, 1)
    it.number(8, 5, 0)


# ---- what is wrong with others

# One byte of the image and what it is set to, with the rule that is then broken and where the field begins that breaks it.
CHANGES = [
    # the header
    (0, 68, 50, 0),
    (4, 3, 51, 4),
    (8, 23, 54, 8),
    (19, 5, 54, 16),
    (24, 2, 54, 24),
    (32, 24, 54, 32),
    (40, 0, 53, 40),
    (53, 2, 53, 52),
    (56, 2, 53, 56),
    (60, 1, 53, 60),
    (51, 255, 52, 337),
    # procedures
    (99, 0, 54, 97),
    (125, 8, 53, 125),
    (138, 72, 53, 138),
    (141, 32, 54, 138),
    (142, 60, 54, 142),
    (142, 64, 54, 142),
    (147, 10, 53, 147),
    (148, 57, 54, 148),
    (152, 9, 53, 152),
    (158, 4, 53, 157),
    (159, 9, 53, 159),
    (160, 2, 53, 160),
    (181, 65, 54, 181),
    (187, 28, 54, 187),
    (191, 24, 54, 191),
    (200, 4, 53, 200),
    # sites, labels and global registers
    (199, 65, 53, 199),
    (212, 0, 53, 212),
    (220, 4, 53, 220),
    (221, 65, 53, 221),
    (223, 7, 53, 223),
    (225, 4, 54, 225),
    (225, 65, 53, 225),
    (226, 1, 53, 226),
    (244, 3, 53, 244),
    (246, 57, 54, 245),
    (251, 10, 53, 250),
    (322, 63, 54, 319),
    (327, 0, 53, 327),
    (329, 10, 54, 329),
    (337, 7, 53, 337),
    (341, 1, 53, 341),
]

# The same of version 2, by the names of fields: why the image is none then, the bytes that are changed and what they are set to, and the rule and the field.
SECOND_CHANGES = [
    ("neither version", [(4, "03")], 51, 4),
    ("neither version", [(4, "00")], 51, 4),
    ("neither version", [(7, "02")], 51, 4),
    # places
    ("a place of no kind", [("main: place 1", "03")], 53, "main: place 1"),
    ("a place of no kind", [("main: place 0", "ff")], 53, "main: place 0"),
    ("a place that leaves 7 bytes of the frame", [("main: place 1", "01 39")], 54, "main: place 1"),
    ("a place far outside of the frame", [("main: place 1", "01 38 00 00 80")], 54, "main: place 1"),
    ("a place that leaves 7 bytes of another frame", [("eight: place 7", "01 09")], 54, "eight: place 7"),
    ("a register that is not callee-saves", [("main: place 3", "02 08")], 53, "main: place 3"),
    ("a register that is not callee-saves", [("main: place 2", "02 11")], 53, "main: place 2"),
    ("a register that is not callee-saves", [("main: place 5", "02 1c")], 53, "main: place 5"),
    ("a place in the frame as a register", [("main: place 7", "02")], 53, "main: place 7"),
    ("more variables than there may be", [("main: variables", "01 04")], 53, "main: variables"),
    ("a label outside of the frame, behind variables with places", [("main: room", "41")], 54, "main: room"),
    ("a pair that is not aligned", [("main: pair", "1c")], 54, "main: pair"),
    ("a parameter that is no variable", [("main: parameter", "09")], 53, "main: parameter"),
    # the count of sites, and the byte behind them
    ("a site in a procedure without a frame", [("leaf: sites", "01")], 53, "leaf: sites"),
    ("so many sites in it that only the last byte of the count tells", [("leaf: sites", "00 00 00 80")], 53, "leaf: sites"),
    ("sites in a procedure without a saved return address", [("main: return address", "ff ff ff ff")], 53, "main: sites"),
    ("a site in a procedure without a saved return address", [("eight: return address", "ff ff ff ff")], 53, "eight: sites"),
    ("a site less in the count, so that the third one begins where a 0 must be", [("main: sites", "02")], 53, "third: address"),
    ("no site in the count", [("none: sites", "00")], 53, "none: address"),
    ("a site more in the count, whose address would be 0x1001000", [("main: sites", "04")], 54, "main: end"),
    ("no 0 behind the sites", [("eight: end", "01")], 53, "eight: end"),
    ("no 0 behind the sites", [("main: end", "80")], 53, "main: end"),
    ("no 0 behind the sites of the last procedure", [("leaf: end", "01")], 53, "leaf: end"),
    ("a site less in the header, which the last procedure tells", [(44, "04")], 53, "leaf: end"),
    ("a site more in the header", [(44, "06")], 53, "leaf: end"),
    ("no site in the header", [(44, "00")], 53, "leaf: end"),
    ("more sites in the header than there may be", [(47, "80")], 53, "leaf: end"),
    # addresses
    ("the address of the site before", [("second: address", "30")], 53, "second: address"),
    ("an address below that of the site before", [("second: address", "2c")], 53, "second: address"),
    ("an address below that of the site before, which is not aligned", [("second: address", "2e")], 53, "second: address"),
    ("the address of a site of an earlier procedure, above the one before", [("second: address", "34")], 53, "second: address"),
    ("the address of a site of an earlier procedure, at the first site", [("first: address", "34")], 53, "first: address"),
    ("the address of a site of the procedure before", [("none: address", "3c")], 53, "none: address"),
    ("the address of a site of a procedure further before", [("none: address", "34")], 53, "none: address"),
    ("the address of a site of a later procedure, which tells it", [("eight: address", "3c")], 53, "second: address"),
    ("an address that is not aligned", [("second: address", "3e")], 54, "second: address"),
    ("an address behind the code", [("third: address", "50")], 54, "third: address"),
    ("an address before the code", [("eight: address", "fc ff 00")], 54, "eight: address"),
    # the rest of a site
    ("flags that there are not", [("first: flags", "04")], 53, "first: flags"),
    ("more values than a yield may have", [("first: values", "41")], 53, "first: values"),
    ("more results than there may be", [("first: results", "41")], 53, "first: results"),
    ("a width that there is not", [("first: result", "09")], 53, "first: result"),
    ("more alternate exits than there may be", [("first: alternates", "41")], 53, "first: alternates"),
    ("alternate exits up to the end of the code", [("first: alternates", "08")], 54, "first: alternates"),
    ("alternate exits up to the end of the code", [("second: alternates", "05")], 54, "second: alternates"),
    ("a continuation that there is not", [("first: alternate", "01")], 53, "first: alternate"),
    ("a continuation that there is not", [("first: unwind", "01")], 53, "first: unwind"),
    ("a landing outside of the code", [("first: landing", "50")], 54, "first: landing"),
    ("a continuation that there is not", [("first: cut", "00 01")], 53, "first: cut"),
    ("a token twice", [("first: token", "01 00 00 00 00 00 00 00")], 53, "first: token"),
    # which variables are live
    ("a live variable without a place, the first", [("first: bits 0", "8f")], 53, "first: bits 0"),
    ("a live variable without a place, the seventh", [("first: bits 0", "ce")], 53, "first: bits 0"),
    ("a live variable without a place", [("eight: bits 0", "83")], 53, "eight: bits 0"),
    ("a bit of a tenth variable", [("first: bits 1", "03")], 53, "first: bits 1"),
    ("a bit of a sixteenth variable", [("third: bits 1", "81")], 53, "third: bits 1"),
    ("both bytes: the first is named", [("second: bits 0", "35 02")], 53, "second: bits 0"),
    ("a variable with a place that is live nowhere", [("first: bits 0", "0e")], 53, "main: end"),
    ("a variable with a place that is live nowhere", [("second: bits 0", "14")], 53, "main: end"),
    ("a variable with a place that is live nowhere, the last", [("first: bits 1", "00"), ("second: bits 1", "00"), ("third: bits 1", "00")], 53, "main: end"),
    ("a variable with a place that is live nowhere, the first", [("eight: bits 0", "80")], 53, "eight: end"),
]

# The image begins with a word that is no instruction.
ROWS = """# An image with a field of every kind, as tools/image_bytes.py writes it: as it is, with each byte changed, cut inside each of its fields, with a byte or a count
# too many, and with one byte that breaks a rule of its field. `tools/image_bytes.py --rows` prints this file.

case: the image as it is
file i by image_bytes.py
$ run i
status: 8
log: trap 1 at 0000000000010000*

"""
SECOND_ROWS = """# An image of five sites in three procedures, as tools/image_bytes.py writes it in version 1 and in version 2: as it is, and in version 2 with each byte changed, cut
# inside each of its fields, with a byte too many, and with bytes that break a rule of their field. `tools/image_bytes.py 2 --rows` prints this file.

# Its run asks the client at the address that the word at 96 puts into register 1: a site of `main` with the frame below the top of the stack, whose return address, the
# 0x10010 that leaves 16 of 16 bits, is the image's last.

"""
LIST = "file s: other\n    list\n$ run i --client s\n"
# The word that puts the address into register 1, what is listed at it, and how the run ends.
LISTS = [
    (
        "the first site of `main`",
        "93 80 00 02",
        ["yield 0 0", "activation 0 main site 7", "span 1 5", "span 18446744073709551615 18446744073709551615", 'var 0 bits8 "" dead', 'var 1 bits16 "a b" 16']
        + ['var 2 bits32 "\\xff" 7', 'var 3 bits64 "" 5', 'var 4 bits8 "" dead', 'var 5 bits16 "" dead', 'var 6 bits32 "" dead', 'var 7 bits64 "" 7', 'var 8 bits64 "" 5'],
        5,
        ["end", "stopped"],
    ),
    (
        "the site of `eight`, with a frame of 16 bytes below other words",
        "93 80 40 02",
        ["yield", "activation 0 eight site 3", 'var 0 bits64 "" 5', 'var 1 bits8 "" dead', 'var 2 bits16 "" dead', 'var 3 bits32 "" dead', 'var 4 bits64 "" dead']
        + ['var 5 bits8 "" dead', 'var 6 bits16 "" dead', 'var 7 bits64 "" 0'],
        15,
        ["torn 0000000060100fd0 0000000000000000"],
    ),
    (
        "the site of a procedure without variables",
        "93 80 80 02",
        ["yield", "activation 0  site 0"],
        15,
        ["torn 0000000060100fd0 0000000000000000"],
    ),
    (
        "the second site of `main`",
        "93 80 c0 02",
        ["yield", "activation 0 main site 4294967295", 'var 0 bits8 "" dead', 'var 1 bits16 "a b" dead', 'var 2 bits32 "\\xff" 7', 'var 3 bits64 "" dead', 'var 4 bits8 "" 0']
        + ['var 5 bits16 "" 11', 'var 6 bits32 "" dead', 'var 7 bits64 "" dead', 'var 8 bits64 "" 5'],
        5,
        ["end", "stopped"],
    ),
    (
        "the third site of `main`",
        "93 80 00 03",
        ["yield 0", "activation 0 main site 7", "span 5 0", 'var 0 bits8 "" dead', 'var 1 bits16 "a b" dead', 'var 2 bits32 "\\xff" 7', 'var 3 bits64 "" 5', 'var 4 bits8 "" dead']
        + ['var 5 bits16 "" dead', 'var 6 bits32 "" dead', 'var 7 bits64 "" dead', 'var 8 bits64 "" 5'],
        5,
        ["end", "stopped"],
    ),
]
ANY = "any: 0 result *\nany: 4 bad image 5*\nany: 5 yield*\nany: 6 stack limit\nany: 7 step limit\nany: 8 trap *\nany: 15 torn *\n\n"


def paragraph(made, change, rule, at):
    return f"file i by {made}, {change}\n$ run i\nstatus: 4\nlog: bad image {rule} at {at}\n\n"


def rows_of_bytes(made):
    """Each byte is changed."""
    text = ""
    for change in ("is 00", "is ff", "xor 01", "xor 80"):
        text += f"file i by {made}, each byte {change}\n$ run i --steps 10000 --stack 4096\n" + ANY
    return text


def rows_of_cuts(made, it):
    """The image is cut inside each of its fields, or is a byte too long."""
    text = "".join(paragraph(made, f"first {start} .. {end - 1} bytes", 52, start) for start, end in zip(it.fields, it.fields[1:] + [len(it.out)]))
    return text + paragraph(made, "and 00", 55, len(it.out))


def rows():
    it = image()
    text = ROWS + rows_of_bytes("image_bytes.py") + rows_of_cuts("image_bytes.py", it)
    text += paragraph("image_bytes.py", "first 318 .. 318 bytes, at 44 ff ff ff ff", 52, 318)
    for at, value, rule, field_start in CHANGES:
        text += paragraph("image_bytes.py", f"at {at} {value:02x}", rule, field_start)
    return text


def listed(version, word, lines, status, ending):
    """What the client lists where the run asks it."""
    log = "".join(f"log: {line}\n" for line in lines + ending)
    return f"file i by image_bytes.py {version}, at 96 {word}\n{LIST}status: {status}\n{log}\n"


def second_rows():
    it, made = twin(2), "image_bytes.py 2"

    def place(name):
        return it.names[name] if isinstance(name, str) else name

    text = SECOND_ROWS
    for title, *told in LISTS:
        text += "".join(f"case: version {version}, {title}\n" + listed(version, *told) for version in (1, 2))
    text += rows_of_live(it)
    text += rows_of_bytes(made) + rows_of_cuts(made, it)
    for title, changes, rule, field in SECOND_CHANGES:
        changes = ", ".join(f"at {place(at)} {values}" for at, values in changes)
        text += f"case: {title}\n" + paragraph(made, changes, rule, place(field))
    return text


def rows_of_live(it):
    """Bits and an address that are others, and good ones."""
    _, word, lines, status, ending = LISTS[0]
    bits, address = it.names["first: bits 0"], it.names["none: address"]
    fewer = [line.replace('var 3 bits64 "" 5', 'var 3 bits64 "" dead') for line in lines]
    more = [line.replace('var 4 bits8 "" dead', 'var 4 bits8 "" 0').replace('var 5 bits16 "" dead', 'var 5 bits16 "" 11') for line in lines]
    text = "case: a variable that is dead here, and live at another site\n" + listed(2, f"{word}, at {bits} 86", fewer, status, ending)
    text += "case: two more that are live here\n" + listed(2, f"{word}, at {bits} be", more, status, ending)
    text += "case: a site of a later procedure behind all others\n" + listed(2, f"93 80 40 03, at {address} 44", ["yield", "activation 0  site 0"], 15, LISTS[2][4])
    text += "case: a site of a later procedure before all others\n" + listed(2, f"93 80 c0 01, at {address} 2c", ["yield", "activation 0  site 0"], 15, LISTS[2][4])
    return text


if __name__ == "__main__":
    version = [int(it) for it in sys.argv[1:] if it in ("1", "2")]
    if "--rows" in sys.argv[1:]:
        print((second_rows() if version else rows()).rstrip("\n"))
    else:
        sys.stdout.buffer.write((twin(*version) if version else image()).out)
