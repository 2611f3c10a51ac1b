#!/usr/bin/env python3
"""Makes the input of crates/part_rows and what has to come of it.

    tools/part_rows.py              writes crates/part_rows/stdin and crates/part_rows/stdout
    tools/part_rows.py --check      compares what it makes with these files

The rows on the code of nodes are those of code_rows.py, and those on stopped programs of walk_rows.py. Tokens are found by the table of docs/FORMATS.md ("Tokens"),
scripts by that page's "A script", sums of units by generated_unit.py, and lists, sets, files and streams are Python's. What is read by eye alone, as orders in which
graphs are peeled, stands beside its case. Words of instructions are the GNU assembler's, and what they do is QEMU's (riscv_vectors.py, riscv_steps.py,
riscv_program.py); where these are missing, the lines on instructions stay as they stand.
Debian and Ubuntu: apt-get install binutils-riscv64-linux-gnu qemu-user
"""
import os
import re
import shutil
import sys
import tempfile

import code_rows
import generated_unit
import riscv_program
import riscv_steps
import riscv_vectors
import walk_rows
from riscv_files import TOOLS

TOP = os.path.join(os.path.dirname(os.path.abspath(__file__)), "..")


# ---- how a case spells bytes, and how the program shows them

def bytes_of(text):
    """The bytes of a case's text."""
    plain, *pieces = text.split("\\")
    found = plain.encode()
    for piece in pieces:
        if piece[0] in "nt":
            found += {"n": b"\n", "t": b"\t"}[piece[0]] + piece[1:].encode()
        elif piece[0] == "x":
            found += bytes([int(piece[1:3], 16)]) + piece[3:].encode()
        elif piece[0] == "+":
            found += b"\n" * int(piece[1:6], 16) + piece[6:].encode()
        else:
            found += piece[6].encode() * int(piece[1:6], 16) + piece[7:].encode()
    return found


def spelled(content):
    """A case's text for bytes."""
    found = ""
    for byte in content:
        plain = 32 <= byte < 127 and byte != 92
        found += chr(byte) if plain else {10: "\\n", 9: "\\t"}.get(byte, f"\\x{byte:02x}")
    return found


def quoted(content):
    return '"' + "".join(("\\" if b in b'"\\' else "") + chr(b) if 32 <= b < 127 else f"\\x{b:02x}" for b in content) + '"'


def option(value):
    return "None" if value is None else f"Some({value})"


def result(value):
    return "Err(Failed)" if value is None else f"Ok({value})"


# ---- lists, sets, moves and graphs

def list_case(words):
    items, told = [], []
    for word in words.split(" "):
        what, _, rest = word.partition(":")
        if what in ("push", "append"):
            items += map(int, rest.split(","))
        elif what == "first":
            items[0] = int(rest)
        elif what == "truncate":
            del items[int(rest) :]
        elif what == "get":
            told.append(option(items[int(rest)] if int(rest) < len(items) else None))
        elif what == "pop":
            told.append(option(items.pop() if items else None))
        elif what == "empty":
            told.append(str(not items).lower())
        else:
            told.append(option((items[-1] if what == "last" else max(items)) if items else None))
    return " ".join(told + [f"[{', '.join(map(str, items))}]", str(len(items))])


def set_case(words):
    size, *words = words.split(" ")
    members, told = set(), []
    for word in words:
        what, _, rest = word.partition(":")
        numbers = {int(n) for n in rest.split(",") if n and int(n) < int(size)}
        if what == "join":
            told.append(str(not numbers <= members).lower())
        if what in ("join", "insert"):
            members |= numbers
        elif what == "remove":
            members -= numbers
        elif what == "has":
            told.append(str(numbers <= members).lower())
        elif what == "clear":
            members.clear()
    return " ".join(told + ["{" + ", ".join(map(str, sorted(members))) + "}"])


def moves_case(words):
    moves = [tuple(map(int, word.split("="))) for word in words.split(" ") if word]
    targets = [to for to, _ in moves]
    if len(set(targets)) < len(targets) or any(5 in move for move in moves):
        return "none"
    places = [0, 10, 20, 30, 40]
    for to, of in moves:
        places[to] = 10 * of
    return str(places)


def node_lists_case(words):
    nodes, count, *words = words.split(" ")
    lists, told = [[] for _ in range(int(count))], []
    for word in words:
        what, _, rest = word.partition(":")
        *to, node = map(int, rest.split(","))
        home = next((at for at, it in enumerate(lists) if node in it), None)
        if what == "push" and home is None and to[0] < len(lists) and node < int(nodes):
            lists[to[0]].append(node)
        elif what == "unlink" and home is not None:
            lists[home].remove(node)
        elif what == "after":
            behind = lists[home][lists[home].index(node) + 1 :] if home is not None else []
            told.append(option(behind[0] if behind else None))
        elif what == "of" and node < int(nodes):
            told.append(option(home))
    return " ".join(told + [" ".join(["[", *map(str, it), "]"]) for it in lists])


def removal_order(near, colours, uses):
    """Nodes as they leave a graph: one with few neighbours left, the longest waiting first; where there is none, that with the most of them for its uses, as they
    stood when there was none for the first time."""
    left = {node: len(it) for node, it in enumerate(near)}
    low, order, stuck = [node for node in left if left[node] < colours], [], None
    while left:
        if not low and stuck is None:
            stuck = sorted(left, key=lambda node: (left[node] * 2**32 // (uses.get(node, 0) + 1), node))
        while not low and stuck[-1] not in left:
            stuck.pop()
        node = low.pop(0) if low else stuck.pop()
        order.append(node)
        del left[node]
        for other in near[node]:
            if other in left:
                left[other] -= 1
                low += [other] if left[other] == colours - 1 else []
    return order


def colour_case(words):
    colours, count, *words = words.split(" ")
    joined, told = [[] for _ in range(int(count))], {"uses": {}, "suits": {}}
    for word in words:
        if "-" in word:
            a, b = map(int, word.split("-"))
            joined[a].append(b)
            joined[b].append(a)
        elif word:
            what, _, rest = word.partition(":")
            node, number = map(int, rest.split(","))
            told[what][node] = number
    near, found = [list(dict.fromkeys(it)) for it in joined], {}
    for node in reversed(removal_order(near, int(colours), told["uses"])):
        free = [it for it in range(int(colours)) if it not in [found.get(other) for other in near[node]]]
        suits = told["suits"].get(node)
        found[node] = suits if suits in free else free[0] if free else None
    return " ".join(f"{it}={option(found[node])}" for node, it in enumerate(joined))


LISTS = ["push:10 push:20 push:30 push:40 first:11 append:50,60 pop get:1 get:5 last truncate:2 empty most", "empty pop last most get:0", "append:7,7 pop pop empty"]

SETS = ["0", "1 insert:0", "64 insert:63 insert:0 insert:63", "65 insert:64 insert:1", "200 insert:199 insert:128 insert:127 insert:64"]
SETS += ["130 insert:0 insert:129 join: join:129 join:0,64 join:63,64,128", "70 insert:5 insert:65 insert:69 remove:65 remove:66 has:5 has:65 has:69"]
SETS += ["70 insert:5 insert:65 insert:69 clear", "70 insert:5 join:5,69 remove:5 has:5 has:69 clear has:69 join:64"]

NODE_LISTS = ["1 1", "0 2", "2 1 push:0,0 push:0,1 push:0,0 push:1,1 push:0,2 after:0 after:1 of:0 of:2", "3 2 push:1,2 push:1,0 push:1,1 unlink:0 after:2 of:0 of:1"]
NODE_LISTS += ["3 1 push:0,0 push:0,1 push:0,2 unlink:0 unlink:0 after:0 after:1 after:2", "3 1 push:0,0 push:0,1 push:0,2 unlink:2 push:0,2 unlink:1 push:0,1 after:2"]
NODE_LISTS += ["4 3 push:0,3 push:1,2 push:0,1 unlink:3 push:1,3 unlink:2 push:2,2 of:3 of:2 after:3", "2 2 push:0,1 unlink:1 push:1,1 unlink:1 push:0,1 push:0,0 after:1"]

TRIANGLE = "0-1 1-2 0-2"
CHORDS = " ".join(f"{a}-{(a * 7 + step) % 23}" for a in range(1, 23) for step in (1, 5) if a * 7 % 23 + step != a and (a * 7 + step) % 23 != a)
COLOURS = ["1 3", "0 2 0-1", "1 2 0-1", "2 2 0-1 0-1 1-0", f"3 4 {TRIANGLE} 2-3", f"2 4 {TRIANGLE} 2-3", f"3 4 {TRIANGLE} 2-3 suits:0,2 suits:3,2 suits:1,7 suits:2,1"]
COLOURS += [f"2 3 {TRIANGLE} uses:0,5 uses:1,1 uses:2,9", f"2 3 {TRIANGLE} uses:0,5 uses:1,7 uses:2,3", "2 5 0-1 1-2 2-3 3-4 4-0 suits:2,1 suits:4,1", "2 4 0-1 1-2 2-3 3-0"]
COLOURS += [f"{k} 23 {CHORDS} uses:3,2 uses:9,4 suits:5,1 suits:17,0" for k in (1, 2, 3, 4)]

MOVES = ["", "1=1", "1=2 2=1", "1=2 2=3 3=4", "3=2 2=1 1=0", "1=2 2=3 3=1 0=2", "1=0 0=1 3=2 2=3 4=0", "1=2 1=3", "1=5"]

# The words of a case have the nodes that each node mentions; behind it the nodes in the order in which they are peeled off, those first that mention none, and those
# that are on a cycle or lead to one.
PEELED = [
    ("", "[] []"),
    ("1 2 - 2,0", "[2, 1, 0, 3] []"),
    ("1,1 - 0,1,0", "[1, 0, 2] []"),
    ("0 2 -", "[2, 1] [0]"),
    ("1 2 1 -", "[3] [0, 1, 2]"),
    ("1 2 0 0 5 -", "[5, 4] [0, 1, 2, 3]"),
    ("1", "none"),
]


# ---- tokens

RESERVED = (
    "aborts align aligned also as big bits8 bits16 bits32 bits64 bool byteorder case const continuation cut cuts default else export float foreign goto if import in "
    "invariant jump little memsize never pointersize pragma reads register return returns section span stackdata string16 switch target to typedef unicode unwinds "
    "wordsize writes"
).split()
SYMBOLS = "{ } ( ) [ ] , ; : :: = == != < <= > >= + - * / % & | ^ ~ << >> ..".split()

CHARACTER = rb'(?:[^\n\\%b]|\\[ntr0\\"\']|\\x[0-9a-fA-F]{2})'
ESCAPES = {b"n": 10, b"t": 9, b"r": 13, b"0": 0}
SKIPPED = re.compile(rb"[ \t\n\f\r]+|//[^\n]*|/\*.*?\*/", re.S)
SPELLINGS = [
    ("Name", rb"(?:[A-Za-z_$@]|\.(?!\.))(?:[A-Za-z0-9_$@]|\.(?!\.))*"),
    ("Int", rb"0[xX][0-9a-fA-F]+|[0-9]+"),
    ("Char", b"'" + CHARACTER % b"'" + b"'"),
    ("Text", b'"' + CHARACTER % b'"' + b'*"'),
    ("Checked", rb"%%[A-Za-z_][A-Za-z0-9_]*"),
    ("Op", rb"%[A-Za-z_][A-Za-z0-9_]*"),
    ("Symbol", b"|".join(re.escape(s.encode()) for s in sorted(SYMBOLS, key=len, reverse=True))),
]


def unescaped(spelling):
    return re.sub(rb"\\(x..|.)", lambda it: bytes([int(it[1][1:], 16) if len(it[1]) == 3 else ESCAPES.get(it[1], it[1][0])]), spelling, flags=re.S)


def integer(spelling):
    return int(spelling, 16 if spelling[1:2] in b"xX" and len(spelling) > 1 else 8 if spelling[:1] == b"0" else 10)


def token_at(unit, place):
    """The sort and the spelling of the longest token at a place."""
    found = [(match.end(), sort) for sort, pattern in SPELLINGS if (match := re.compile(pattern).match(unit, place))]
    end, sort = max(found, key=lambda it: it[0])
    return sort, unit[place:end]


def skipped_to(unit, place):
    """The place of the next token: behind white space, comments, and lines whose first byte is `#`."""
    while place < len(unit):
        match = SKIPPED.match(unit, place)
        if match:
            place = match.end()
        elif unit[place : place + 1] == b"#" and (place == 0 or unit[place - 1 : place] == b"\n"):
            place = unit.find(b"\n", place) if b"\n" in unit[place:] else len(unit)
        else:
            break
    return place


def place_of(unit, place):
    line, start = unit.count(b"\n", 0, place) + 1, unit.rfind(b"\n", 0, place) + 1
    return f"{line}:{place - start + 1}"


def shown_token(sort, spelling, numbers):
    """A token as the program shows it; a spelling has the number that its first use gave it."""
    if sort == "Name" and spelling.decode() in RESERVED:
        return f"Word({RESERVED.index(spelling.decode())})"
    if sort == "Symbol":
        return f"Symbol({SYMBOLS.index(spelling.decode())})"
    if sort == "Int":
        return f"Int({integer(spelling)})"
    if sort == "Char":
        return f"Char({unescaped(spelling[1:-1])[0]})"
    word = {"Name": spelling, "Text": unescaped(spelling[1:-1]), "Op": spelling[1:], "Checked": spelling[2:]}[sort]
    return f"{sort}({numbers.setdefault(word, len(numbers))}) {quoted(word)}"


def tokens_case(text):
    unit, told, numbers = bytes_of(text), [], {}
    place = skipped_to(unit, 0)
    while place < len(unit):
        sort, spelling = token_at(unit, place)
        end = place + len(spelling)
        told += [f"{place_of(unit, place)}:{place}-{end} {shown_token(sort, spelling, numbers)}"]
        place = skipped_to(unit, end)
    return " ".join(told + [place_of(unit, len(unit))])


UNITS = [
    b"", b" \t\n\x0c\r", b"0", b"7 10", b"07", b"0x1F", b"0Xab", b"18446744073709551615", b"01777777777777777777777", b"0xffffffffffffffff", b"0x00000000000000001",
    b"1.a", b"1..2", b"a..b", b"a.b", b"a.", b".", b"...", b"....", b"$a@1_.", b"a a b a", b"bits8", b"bits8s bits", b"Export", b"'a'", b"'\"'", b"'\xff'",
    rb"'\n''\t''\r''\0'", rb"""'\\''\"''\''""", rb"'\x4f''\xFf'", b'""', rb'aA "a\x41"', rb'''"'" "\""''', b"%add", b"%%add", b"add %add %%add", b"%a.b", b"%", b"%%", b"%%%a",
    b"%1", b"%%1", b":::", b"<<=", b"<=>>=", b"===!=", b"//!", b"// \x00\xff\na", b"a//b", b"/**/a", b"/* /* \x00\xff */ a", b"/***/", b"/*/*/", b"/ *", b"#!\na", b'a\n#"',
    b"/*\n# */ a", b"a /*\n*/ b", " ".join(RESERVED).encode(), " ".join(SYMBOLS).encode(), b'a\n bc%%d "e\\n"\n ', b"a\n#b\n\n  c", b"'\\0'0 0777",
]


# ---- scripts

KEYWORDS = {"list": "", "youngest": "", "next": "", "stop": "", "desc": "T", "var": "N", "seek": "TV", "set": "NV", "poke": "LOV", "return": "N*", "unwind": "N*", "cut": "V*"}


def number_in(word, limit=2**64):
    match = re.fullmatch(rb"0x([0-9a-fA-F]+)|([0-9]+)", word)
    value = None if match is None else int(match[1], 16) if match[1] else int(match[2])
    return value if value is not None and value < limit else None


def value_in(word):
    if re.fullmatch(rb"\$[0-9]+", word) and int(word[1:]) < 64:
        return f"${int(word[1:])}"
    number = number_in(word)
    return None if number is None else str(number)


def operand_in(sort, word):
    if sort == "L":
        return str(list(word))
    if sort == "V":
        return value_in(word)
    number = number_in(word, 2**32 if sort == "N" else 2**64)
    return None if number is None else str(number)


def command_in(words):
    """A command as the program shows it, or none."""
    keyword = words[0].decode("latin-1")
    sorts = KEYWORDS.get(keyword)
    if sorts is None:
        return None
    plain = sorts.rstrip("*")
    rest = words[1 + len(plain) :]
    if len(words) <= len(plain) or len(rest) > (64 if "*" in sorts else 0):
        return None
    operands = [operand_in(sort, word) for sort, word in zip(plain, words[1:])]
    values = [value_in(word) for word in rest]
    if None in operands + values:
        return None
    return " ".join([keyword, *operands, *values])


def head_in(words):
    """The code of the block that a line begins, or `other`; none where it begins none."""
    if words == [b"other"]:
        return "other"
    return number_in(words[1]) if words[0] == b"at" and len(words) == 2 else None


def script_case(text):
    script, blocks = bytes_of(text), []
    if len(script) > 65536:
        return "rule 82 script too long line 1"
    for line, content in enumerate(script.split(b"\n"), 1):
        words = [word for word in re.split(rb"[ \t]+", content) if word]
        if not words or words[0][:1] == b"#":
            continue
        code = head_in(words)
        if code is not None:
            if any(code == other for other, _ in blocks):
                return f"rule 81 repeated block line {line}"
            blocks.append((code, []))
            continue
        command = command_in(words)
        if command is None or not blocks:
            return f"rule 80 unknown line line {line}"
        blocks[-1][1].append(f"{line}:{command}")
    return " ".join(word for code, commands in blocks for word in ["other" if code == "other" else f"at {code}", *commands]) or "no block"


COMMANDS = [
    b"list", b"youngest", b"next", b"stop", b" \tstop\t \t", b"desc 0", b"desc\t00", b"desc 18446744073709551615", b"desc 018446744073709551615", b"desc 0x0",
    b"desc 0xffffffffffffffff", b"desc 0x0FFFFFFFFFFFFFFFF", b"desc 0xaBcDeF", b"desc 10", b"desc 0x10", b"desc 010", b"seek 1 2", b"seek 0x1 $2", b"var 0", b"var 4294967295",
    b"var 0xffffffff", b"set 1 $0", b"set 4294967295 $63", b"set 1 $0063", b"set 1 18446744073709551615", b"poke label 8 9", b"poke 0 0 $0", b"poke #l 0 0", b"poke $\xff\r 0 0",
    b"return 0", b"return 4294967295 1 $1", b"return 2 3 3 3", b"unwind 0", b"unwind 1 $0 7", b"cut 1", b"cut $0", b"cut $63 1 $62", b"cut 0x8000000000000000 0",
]
NO_LINES = [
    b"jump 1", b"List", b"lis", b"lists", b"list list", b"list #", b"list\r", b"\r", b"youngest 0", b"next 1", b"stop 0", b"desc", b"desc 1 2", b"desc 18446744073709551616",
    b"desc 99999999999999999999", b"desc 0x10000000000000000", b"desc 0x", b"desc 0X1", b"desc 0x0x1", b"desc 1f", b"desc 0xg", b"desc -1", b"desc +1", b"desc 1.", b"desc $0",
    b"seek 1", b"seek $1 1", b"seek 1 2 3", b"var", b"var 4294967296", b"var 0x100000000", b"var $1", b"set 1", b"set 1 $", b"set 1 $64", b"set 1 $0x1",
    b"set 1 $18446744073709551616", b"set 1 $$1", b"set 1 1 1", b"set 4294967296 1", b"poke a 1", b"poke a b 1", b"poke a $1 1", b"poke a 1 2 3", b"return", b"return $0",
    b"return 4294967296", b"return 0 a", b"unwind", b"cut", b"cut a", b"cut 1 $64",
]
SCRIPTS = [
    b"at 1\nlist\njump 1", b"at 1\nlist\njump 1\njump 2\nat 1\n", b"list", b"# a comment\n\n \t\nstop\nat 1\n", b"at", b"at 1 2", b"at x", b"at $0", b"at 18446744073709551616",
    b"other 1", b"other\nat", b"at 1\nat 1", b"at 1\nat 0x1", b"at 0x00\nat 1\nlist\nat 000\njump", b"other\nother", b"other\nat 0\nother\n", b"at 2\nat 1\nat 2\n",
    b"at 1\njump\nat 1\n", b"at 1\nat 1\njump\n", b"at 1\r\nlist\r\n", b"at 1\x0blist", b"at 1\n\xff\n",
    b"# first\nat 0x10\n list\n\n\tnext \n#\nother\nat 18446744073709551615\nstop", b"", b"\n", b" \t", b"#", b"\n\n  # at 1\n\t#",
]
SCRIPTS += [b"other\n" + line for line in COMMANDS + NO_LINES]
SCRIPTS += [b"other\n" + keyword + b" 0" * count for keyword in (b"return 1", b"unwind 1", b"cut 1") for count in (64, 65)]
LONG_SCRIPTS = [r"\*10000#", r"\*10001#", r"\+0fffcjump", r"\+0fffcjump\n"]


# ---- rules, names, numbers and kinds

RULES = [("1", "1 bad byte, Lexical"), ("90", "none"), ("38", "38 bad host call, Static"), ("39", "39 cycle, Static"), ("41", "none"), ("0", "none")]
WIDTHS = [(8, "0 255 256"), (16, "65535 65536"), (32, "4294967295 4294967296"), (64, "18446744073709551615"), (33, "0"), (0, "0")]
NAMES = [b"main", b"", b'a "b\\\n\x7f\xff~']
NUMBERS = [0, 10, 65536, 1311768467463790320, 2**64 - 1]
KINDS = [b"", b"float", b" ~!#[]", b'"\\', b"\x00\x1f\x7f\xff"]


def width_case(bits, words):
    fit = " ".join(str(int(word) < 2**bits).lower() for word in words.split(" "))
    return f"{bits} {bits // 8} {fit}" if bits in (8, 16, 32, 64) else "none"


def kind_text(kind):
    return b"".join(bytes([b]) if 32 <= b < 127 and b not in b'"\\' else b"\\x%02x" % b for b in kind)


GENERATED = [0, 7, 999, 1000, 123456, 999999999]

# Lines of the unit for 7, counted from 1 and written by hand: the second generator has to make them too.
LINES = {
    1: "export main;",
    3: "main() { bits64 r; r = p0(7); return (r); }",
    4: "w(bits64 x, bits64 k) { cut to k(x); }",
    5: "p0(bits64 x) { bits64 r; r = p1(x + bits64[t + 0]); return (r); }",
    6: "p1(bits64 x) { jump p2(x + bits64[t + 8]); }",
    7: "p2(bits64 x) { bits64 r; r = p3(x + bits64[t + 16]) also returns to k; return (r); continuation k(r): return (r); }",
    8: "p3(bits64 x) { bits64 r; r = w(x + bits64[t + 24], k) also cuts to k; return <1/1> (r); continuation k(r): r = p4(r); return <0/1> (r); }",
    1006: "p1001(bits64 x) { jump p1002(x + bits64[t + 8008]); }",
    2004: "p1999(bits64 x) { bits64 r; r = w(x + bits64[t + 15992], k) also cuts to k; return <1/1> (r); continuation k(r): r = p2000(r); return <0/1> (r); }",
    2005: "p2000(bits64 x) { return (x); }",
}
TABLE = ('section "data" { t: bits64 { 7, 8, 9, 10, 11, 12, ', "998, 999, 0, 1, 2", ", 998, 999, 0, 1, 2, 3, 4, 5, 6 }; }")


def check_lines():
    lines = generated_unit.unit(7).decode().split("\n")
    front, inside, end = TABLE
    is_table = lines[1].startswith(front) and inside in lines[1] and lines[1].endswith(end)
    wrong = [number for number, line in LINES.items() if lines[number - 1] != line]
    if wrong or not is_table or lines[2005:] != [""]:
        sys.exit(f"generated_unit.py makes other lines: {wrong}")


def generated_case(number):
    unit = generated_unit.unit(number)
    return f"{len(unit)} {generated_unit.total(unit)}"


# ---- streams and files

class Calls:
    """Counts calls, of which those that are listed fail."""

    def __init__(self, failing):
        self.failing, self.made = {int(n) for n in failing.split(",") if n.isdigit()}, 0

    def fails(self, possible=True):
        self.made += 1
        return self.made - 1 in self.failing or not possible


def source_case(words):
    left, failing, *reads = words.split(" ")
    left, calls, told = bytes_of(left), Calls(failing), []
    for word in reads:
        count = min(8, int(word.partition(":")[2]))
        taken = left[:count]
        if count and calls.fails():
            told.append(f"{result(None)} {quoted(b'-' * count)}")
            continue
        left = left[len(taken) :]
        told.append(f"{result(len(taken))} {quoted(taken + b'-' * (count - len(taken)))}")
    return " ".join(told + [quoted(left)])


def sink_case(room, failing, words):
    """What writes answer, and the bytes that are taken: a write takes what there is room for, and fails where that is nothing."""
    taken, calls, told = b"", Calls(failing), []

    def write(piece):
        nonlocal taken
        count = min(len(piece), room - len(taken))
        if piece and calls.fails(count > 0):
            return None
        taken += piece[:count]
        return count

    for word in words:
        what, _, piece = word.partition(":")
        piece = piece.encode()
        if what == "write":
            told.append(result(write(piece)))
            continue
        while piece and (count := write(piece)) is not None:
            piece = piece[count:]
        told.append(result(None if piece else "()"))
    return told, taken


def memory_sink_case(words):
    room, failing, *words = words.split(" ")
    told, taken = sink_case(int(room), failing, words)
    return " ".join(told + [quoted(taken)])


def lent_case(pieces):
    told, taken = sink_case(5, "", [f"write:{piece}" for piece in pieces.split(" ")])
    return " ".join(told + [str(len(taken)), quoted(taken.ljust(5, b"-"))])


def lent_whole_case(piece):
    told, taken = sink_case(5, "", [f"all:{piece}"])
    return " ".join(told + [str(len(taken)), quoted(taken.ljust(5, b"-"))])


class Memory:
    """Files by their names, and how much room each name has."""

    def __init__(self, failing):
        self.files, self.rooms, self.calls = {}, {}, Calls(failing)

    def put(self, name, text):
        self.files[name] = bytes_of(text)
        self.rooms[name] = len(self.files[name])

    def room(self, name, text):
        self.rooms[name] = max(self.rooms.get(name, 0), int(text))

    def get(self, name, _):
        return option(quoted(self.files[name]) if name in self.files else None)

    def create(self, name, _):
        if self.calls.fails(name in self.rooms):
            return result(None)
        self.files[name] = b""
        return result("()")

    def added(self, name, piece):
        """How many bytes of a piece a file takes, or none."""
        held = self.files.get(name, b"")
        count = min(len(piece), self.rooms.get(name, 0) - len(held))
        if piece and self.calls.fails(count > 0):
            return None
        if piece:
            self.files[name] = held + piece[:count]
        return count if piece else 0

    def append(self, name, text):
        return result(self.added(name, bytes_of(text)))

    def write(self, name, text):
        if self.create(name, "") == result(None):
            return result(None)
        piece = bytes_of(text)
        while piece and (count := self.added(name, piece)) is not None:
            piece = piece[count:]
        return result(None if piece else "()")

    def read(self, name, start):
        if not start:
            return f'{result(0)} ""'
        if self.calls.fails(name in self.files):
            return f'{result(None)} "--"'
        taken = self.files[name][int(start) :][:2]
        return f"{result(len(taken))} {quoted(taken + b'-' * (2 - len(taken)))}"

    def whole(self, name, limit):
        if self.calls.fails(name in self.files):
            return "Err(Failed)"
        return f"Ok({len(self.files[name])})" if len(self.files[name]) <= int(limit) else "Err(TooLong)"


def files_case(words):
    failing, *words = words.split(" ")
    memory, told = Memory(failing), []
    for word in words:
        what, _, rest = word.partition(":")
        name, _, rest = rest.partition(":")
        told.append(getattr(memory, what)(name, rest))
    return " ".join(it for it in told if it)


# Which of the calls of the same kind fail.
LISTED = ["-", "0", "1", "2", "0,2", "3,4,5"]
SOURCES = [f"abc {failing} read:1 read:0 read:1 read:1" for failing in LISTED] + ["abcde - read:3 read:3 read:3"]
SINKS = [f"3 {failing} write:a write: write:b write:c" for failing in LISTED]
SINKS += ["3 - write:abcde write:de"] + [f"{room} - all:abcde" for room in (5, 6, 4)]
LENT = [" abc  defg h "]
LENT_WHOLE = ["ab", "abcde", "abcdef", ""]
SMALL = "put:full:abc room:new:5"
FILES = [f"{failing} {SMALL} create:new append:new: read:full: append:new:xyz read:full:0" for failing in LISTED]
FILES += [f"- {SMALL} append:full:d get:full append:none:d get:none append:new: get:new append:new:xyz get:new append:new:uvw get:new append:new:w get:new"]
FILES += [f"- {SMALL} create:none get:none create:new get:new create:full get:full"]
FILES += [f"- {SMALL} read:full:0 read:full:2 read:full:3 read:full:18446744073709551615 read:new:0"]
FILES += [
    r"- put:short:abcde put:empty: put:long:\*01388a whole:short:5 whole:short:4 whole:short:0 whole:empty:0 whole:long:5000 whole:long:4999 "
    "whole:long:18446744073709551615 whole:none:5"
]
WRITES = [("-", "old", "de"), ("-", "old", "defgh"), ("-", "old", ""), ("-", "old", "123456789"), ("-", "new", "vwxyz"), ("-", "new", "uvwxyz"), ("-", "none", "")]
WRITES += [("0", "old", "de"), ("0", "new", "de"), ("1", "old", "de"), ("1", "new", "de"), ("2", "new", "de")]
FILES += [f"{failing} put:old:abc room:old:8 room:new:5 write:{name}:{text} get:old get:new get:none" for failing, name, text in WRITES]


# ---- placements of `main() {}` and `f() { stackdata { l: bits8[32]; } continuation j: continuation k: }`

RIGHT = ["65536 65540 96 0,80 32", "65536 1073741820 96 0,80 32", "65540 65544 384 0,368 336", "65536 65540 64 32,48 0", "65536 65540 64 16,0 32", "65536 65540 80 64,8 32"]
RIGHT += ["65536 65540 96 0,80 32 2"]
WRONG = [
    ("code at no multiple of 4", "65536 65542 96 0,80 32"),
    ("code that does not ascend", "65536 65536 96 0,80 32"),
    ("code past its range", "65536 1073741824 96 0,80 32"),
    ("code below its range", "65532 65540 96 0,80 32"),
    ("a frame of 104 bytes", "65536 65540 104 0,80 32"),
    ("a frame past its bound", "65536 65540 400 0,80 32"),
    ("a pair outside the frame", "65536 65540 96 0,88 32"),
    ("a pair at 4", "65536 65540 96 4,80 32"),
    ("pairs that overlap", "65536 65540 96 0,8 32"),
    ("a pair too few", "65536 65540 96 0 32"),
    ("a pair too many", "65536 65540 96 0,64,80 32"),
    ("stackdata at 40", "65536 65540 96 0,80 40"),
    ("stackdata over a pair", "65536 65540 96 0,80 64"),
    ("stackdata past the frame", "65536 65540 96 0,16 80"),
    ("a label too few", "65536 65540 96 0,80 -"),
    ("a label too many", "65536 65540 96 0,80 32,64"),
    ("a row too many", "65536 65540 96 0,80 32 3"),
    ("a row too few", "65536 65540 96 0,80 32 1"),
]


# ---- the machine

EVENTS = [
    ("100513", 0, "0 4", "addi x10, x0, 1; the register that is shown is x0"),
    ("6f", 0, "0 0", "jal x0, ."),
    ("73", 1, "Asks(PutByte(42)) 0", "ecall"),
    ("73", 2, "Asks(GetByte) 0", "ecall"),
    ("73", 3, "Asks(Yield) 0", "ecall"),
    ("73", 4, "Asks(StackLimit) 0", "ecall"),
    ("73", 5, "Asks(End(298)) 0", "ecall"),
    ("f", 0, "NoInstruction", "fence"),
    ("20006f", 0, "BadTarget", "jal x0, .+2"),
    ("163", 0, "BadTarget", "beq x0, x0, .+2"),
    ("1163", 0, "0 4", "bne x0, x0, .+2"),
    ("83", 0, "BadLoad", "lb x1, 0(x0)"),
    ("103083", 0, "BadLoad", "ld x1, 1(x0)"),
    ("23", 0, "BadStore", "sb x0, 0(x0)"),
    ("100073", 0, "Breakpoint", "ebreak"),
    ("73", 0, "NoRequest", "ecall"),
    ("73", 0x100000005, "NoRequest", "ecall"),
]
FETCHES = [(0x10004, False), (0x10002, False), (0xFFFC, False), (0x40000000, False), (0, False), (0x10000, True)]


def trap(kind, pc):
    return f"Trap(Trap {{ kind: {kind}, pc: {pc} }})"


def event_cases():
    """Single steps that end in each event, with 0x12a in register 10."""
    for word, number, found, _ in EVENTS:
        shown = f"{trap(found, 0x10000)} 0" if found.isalpha() else found
        yield f"step {word} 5 {number:x} a 12a 0", shown
    for pc, is_code in FETCHES:
        yield f"fetch {pc:x}", "Next" if is_code else trap("BadTarget", pc)


class Regions:
    """The memory of a run: code that is fetched, data, and the region of the stack and of 4,096 bytes below it."""

    def __init__(self, code, data, stack):
        self.code = code
        self.held = {0x40000000: bytearray(data), 0x60000000: bytearray(4096 + stack)}

    def cell(self, address, size):
        for start, content in self.held.items():
            if address % size == 0 and start <= address and address + size <= start + len(content):
                return content, address - start
        return None, 0

    def load(self, address, size):
        content, at = self.cell(address, size)
        return "Err(BadLoad)" if content is None else f"Ok({int.from_bytes(content[at : at + size], 'little')})"

    def store(self, address, size, value):
        content, at = self.cell(address, size)
        if content is None:
            return "Err(BadStore)"
        content[at : at + size] = (value % 256**size).to_bytes(size, "little")
        return "Ok(())"

    def fetch(self, address):
        at = address - 0x10000
        is_there = address % 4 == 0 and 0 <= at and at + 4 <= len(self.code)
        return f"Ok({int.from_bytes(self.code[at : at + 4], 'little')})" if is_there else "Err(BadTarget)"


def memory_case(words):
    code, data, stack, *words = words.split(" ")
    regions, told = Regions(bytes_of(code), bytes_of(data), int(stack, 16)), []
    for word in words:
        what, *numbers = word.split(":")
        told.append(getattr(regions, what)(*(int(n, 16) for n in numbers)))
    return " ".join(told + [f"60001000 {0x60001000 + int(stack, 16):x}"])


LOADED = "40000000:8 40000008:2 4000000a:1 40000008:4 4000000b:1 40000001:2 10000:4 5fffffff:1 60000000:8 60001008:8 60001010:1 60001004:8 0:1 fffffffffffffff8:8".split()
FETCHED = "10000 10004 10001 fffc 40000000".split()
STORED = "60001008:8:1122334455667788 6000100a:2:abcdef01 40000003:1:1ff 40000004:4:0 60001002:4:0 60001010:1:0".split()
CODE = r"\x73\x00\x00\x00\x13"
MEMORIES = [
    " ".join([CODE, spelled(bytes(range(1, 12))), "10"] + [f"load:{it}" for it in LOADED] + [f"fetch:{it}" for it in FETCHED]),
    " ".join(["", spelled(bytes(range(1, 6))), "10"] + [f"store:{it}" for it in STORED] + [f"load:{it}" for it in ("60001008:8", "60001000:8", "40000000:4", "40000004:1")]),
    "  0 load:40000000:1 load:60000ff8:8 load:60001000:1 fetch:10000",
    "  10000000 load:70000ff8:8 load:70001000:1",
]

# What QEMU tells.
EMULATED = ("word", "step", "access", "run")


def emulated_cases():
    """Words and steps by the assembler and the emulator, or those that stand, where one of these is missing."""
    if all(map(shutil.which, TOOLS)):
        with tempfile.TemporaryDirectory() as folder:
            for made in (riscv_vectors, riscv_steps, riscv_program):
                yield from made.cases(folder)
        return
    print("the lines on instructions stay: no " + ", ".join(it for it in TOOLS if not shutil.which(it)))
    events = {case for case, _ in event_cases()}
    with open(os.path.join(TOP, "crates", "part_rows", "stdout"), encoding="utf-8") as file:
        standing = [line.rstrip("\n").split(": ", 1) for line in file if line.split(" ")[0] in EMULATED]
    yield from ((case, found) for case, found in standing if case not in events)


# ---- what is done with them

def cases():
    by_words = [("items", list_case, LISTS), ("set", set_case, SETS), ("moves", moves_case, MOVES), ("ilist", node_lists_case, NODE_LISTS), ("colour", colour_case, COLOURS)]
    by_words += [("source", source_case, SOURCES), ("sink", memory_sink_case, SINKS)]
    for what, answer, words in by_words + [("lent", lent_case, LENT), ("lent_whole", lent_whole_case, LENT_WHOLE), ("files", files_case, FILES)]:
        yield from ((f"{what} {it}", answer(it)) for it in words)
    for what, told in (("peel", PEELED), ("rule", RULES)):
        yield from ((f"{what} {it}", answer) for it, answer in told)
    yield from ((f"width {bits} {words}", width_case(bits, words)) for bits, words in WIDTHS)
    yield from ((f"name {spelled(it)}", quoted(it)) for it in NAMES)
    yield from ((f"number {it}", f"true {quoted(b'%d%016x' % (it, it))}") for it in NUMBERS)
    yield from ((f"kind {spelled(it)}", f"true {quoted(kind_text(it))}") for it in KINDS)
    yield from ((f"tokens {spelled(it)}", tokens_case(spelled(it))) for it in UNITS)
    yield from ((f"script {it}", script_case(it)) for it in [spelled(it) for it in SCRIPTS] + LONG_SCRIPTS)
    yield from ((f"generated {it}", generated_case(it)) for it in GENERATED)
    yield from event_cases()
    yield from ((f"memory {it}", memory_case(it)) for it in MEMORIES)
    yield from emulated_cases()
    yield from ((f"placed {it}", "true") for it in RIGHT)
    yield from ((f"placed {it}", "false") for _, it in WRONG)
    yield from code_rows.cases()


def files():
    made = list(cases())
    asked, told = walk_rows.lines()
    folder = os.path.join(TOP, "crates", "part_rows")
    yield os.path.join(folder, "stdin"), "".join(f"{line}\n" for line in [case for case, _ in made] + asked)
    yield os.path.join(folder, "stdout"), "".join(f"{line}\n" for line in [f"{case}: {found}" for case, found in made] + told)


def main(words):
    check_lines()
    differ = []
    for path, text in files():
        if words == ["--check"]:
            with open(path, encoding="utf-8") as file:
                differ += [os.path.relpath(path, TOP)] if file.read() != text else []
        else:
            with open(path, "w", encoding="utf-8") as file:
                file.write(text)
    if words == ["--check"]:
        print("differs from what was made: " + ", ".join(differ) if differ else "as made")
    return 1 if differ else 0


if __name__ == "__main__":
    sys.exit(main(sys.argv[1:]))
