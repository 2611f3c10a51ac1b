#!/usr/bin/env python3
"""The rows of crates/part_rows on stopped programs of images that are laid out here, and what walks and changes of them come to. part_rows.py puts them there.

The images are written with `struct` from the tables below. What each call comes to is found over the same bytes, by the rules of docs/RUNTIME.md and
docs/ABI.md: a chain is a list, and places are pairs of a word and a number.
"""

import struct

CODE_BASE, DATA_BASE, REGION = 0x10000, 0x40000000, 0x60000000
BOTTOM = REGION + 0x1000
SAVES = [9] + list(range(18, 28))
NONE = 0xFFFFFFFF


class Proc:
    def __init__(self, name, code, frame, ret, saved=(), variables=(), labels=(), continuations=()):
        self.name, self.code, self.frame, self.ret = name, code, frame, ret
        self.saved, self.variables, self.labels, self.continuations = list(saved), list(variables), list(labels), list(continuations)


class Site:
    def __init__(self, address, proc, number, places, never=False, yields=None, results=(), returns=(), unwinds=(), cuts=(), spans=()):
        self.address, self.proc, self.number, self.places, self.never, self.yields = address, proc, number, list(places), never, yields
        self.results, self.returns, self.unwinds, self.cuts, self.spans = list(results), list(returns), list(unwinds), list(cuts), list(spans)


class Image:
    def __init__(self, last, procs, sites, data=bytes(40), labels=()):
        self.code, self.data, self.last, self.procs, self.sites, self.labels = bytes(0x400), data, last, procs, sites, list(labels)

    def bytes(self):
        out = bytearray()

        def put(form, *values):
            for value in values:
                out.extend(struct.pack("<" + form, value))

        def text(name):
            put("B", len(name))
            out.extend(name)

        put("I", 0x494D4D43, 1)
        put("Q", len(self.code), len(self.data), CODE_BASE, self.last)
        put("I", len(self.procs), len(self.sites), len(self.labels), 0, 0, 0)
        out.extend(self.code)
        out.extend(self.data)
        for p in self.procs:
            put("Q", p.code)
            text(p.name)
            put("I", p.frame, NONE if p.ret is None else p.ret)
            put("B", len(p.saved))
            for register, offset in p.saved:
                put("B", register)
                put("I", offset)
            put("H", len(p.variables))
            for width, invariant, kind in p.variables:
                put("B", width, invariant)
                text(kind)
            put("H", len(p.labels))
            put("I", *p.labels)
            put("H", len(p.continuations))
            for pair, code, parameters in p.continuations:
                put("I", pair)
                put("Q", code)
                put("B", len(parameters))
                put("H", *parameters)
        for s in self.sites:
            put("Q", s.address)
            put("I", s.proc, s.number)
            put("B", 1 if s.never else 0, 255 if s.yields is None else s.yields)
            put("B", len(s.results), *s.results)
            put("B", len(s.returns))
            put("H", *s.returns)
            put("H", len(s.unwinds))
            for continuation, landing in s.unwinds:
                put("H", continuation)
                put("Q", landing)
            put("H", len(s.cuts), *s.cuts)
            for place in s.places:
                if place is None:
                    put("B", 0)
                elif place[0] == "slot":
                    put("B", 1)
                    put("I", place[1])
                else:
                    put("B", 2, place[1])
            put("H", len(s.spans))
            for token, value in s.spans:
                put("Q", token, value)
        for name, address in self.labels:
            text(name)
            put("Q", address)
        return bytes(out)


class Tears(Exception):
    pass


class Refused(Exception):
    pass


class Stopped:
    """A stopped program: registers, and the byte at each address of data and region."""

    def __init__(self, image, stack):
        self.image, self.stack, self.x, self.pc = image, stack, [0] * 32, 0
        self.memory = {DATA_BASE + k: byte for k, byte in enumerate(image.data)}
        self.memory.update({REGION + k: 0 for k in range(0x1000 + stack)})

    def word(self, address):
        return sum(self.memory[address + k] << 8 * k for k in range(8))

    def put(self, address, value):
        for k in range(8):
            self.memory[address + k] = value >> 8 * k & 255

    def at(self, place):
        return self.x[place[1]] if place[0] == "register" else self.word(place[1])

    def give(self, place, value):
        if place[0] == "register":
            self.x[place[1]] = value
        else:
            self.put(place[1], value)

    def chain(self):
        """The activations one after the other; at a break it raises where that is."""
        address, frame, places = self.x[1], self.x[2], {r: ("register", r) for r in SAVES}
        top = BOTTOM + self.stack
        while not (address == self.image.last and frame == top):
            site = next((s for s in self.image.sites if s.address == address), None)
            if site is None:
                raise Tears(frame, address)
            proc = self.image.procs[site.proc]
            if frame % 16 or frame < BOTTOM or frame + proc.frame > top:
                raise Tears(frame, address)
            yield site, proc, frame, places
            places = {**places, **{r: ("word", frame + offset) for r, offset in proc.saved}}
            address = self.word(frame + proc.ret)
            frame += proc.frame

    def nth(self, younger):
        try:
            for k, activation in enumerate(self.chain()):
                if k == younger:
                    return activation
        except Tears:
            pass
        return None


def fit(values, widths):
    if len(values) != len(widths):
        raise Refused(65)
    if any(v >> w for v, w in zip(values, widths)):
        raise Refused(63)


def parameters(proc, k):
    return [proc.variables[n][0] for n in proc.continuations[k][2]]


def variable_place(activation, n):
    site, _, frame, places = activation
    place = site.places[n]
    if place is None:
        return None
    return ("word", frame + place[1]) if place[0] == "slot" else places[place[1]]


def bring(s, values, pc):
    for k, value in enumerate(values):
        s.give(("register", 10 + k) if k < 8 else ("word", REGION + 8 * (k - 8)), value)
    s.pc = pc


def do_return(s, exit_number, values):
    activation = next(s.chain(), None)
    if activation is None:
        raise Refused(60)
    site, proc, _, _ = activation
    if exit_number < len(site.returns):
        fit(values, parameters(proc, site.returns[exit_number]))
    elif exit_number == len(site.returns) and not site.never:
        fit(values, site.results)
    else:
        raise Refused(64)
    bring(s, values, s.x[1] + 4 * exit_number)


def unwind_exit(activation, exit_number, values):
    site, proc, _, _ = activation
    if exit_number >= len(site.unwinds):
        raise Refused(64)
    continuation, landing = site.unwinds[exit_number]
    fit(values, parameters(proc, continuation))
    return landing


def do_unwind(s, activation, exit_number, values):
    landing = unwind_exit(activation, exit_number, values)
    had = {r: s.at(place) for r, place in activation[3].items()}
    for r, value in had.items():
        s.x[r] = value
    s.x[2] = activation[2]
    bring(s, values, landing)


def do_cut(s, to, values):
    for site, proc, frame, _ in s.chain():
        for k in site.cuts:
            pair, code, _ = proc.continuations[k]
            if frame + pair == to:
                fit(values, parameters(proc, k))
                s.x[2] = frame
                bring(s, values, code)
                return
    raise Refused(67)


def do_set(s, activation, n, value):
    _, proc, _, _ = activation
    if n >= len(proc.variables):
        raise Refused(61)
    width, invariant, _ = proc.variables[n]
    if invariant:
        raise Refused(66)
    place = variable_place(activation, n)
    if place is None:
        raise Refused(62)
    if value >> width:
        raise Refused(63)
    s.give(place, value)


def do_poke(s, name, offset, value):
    address = next((a + offset for n, a in s.image.labels if n == name), None)
    if address is None or address % 8 or not DATA_BASE <= address <= DATA_BASE + len(s.image.data) - 8:
        raise Refused(68)
    s.put(address, value)


def answer(change, *words):
    try:
        change(*words)
        return "ok"
    except Refused as why:
        return f"refused {why.args[0]}"
    except Tears as why:
        return f"torn {why.args[0]:x} {why.args[1]:x}"


def kind_text(kind):
    return "".join(chr(b) if 32 <= b <= 126 and chr(b) not in '"\\' else f"\\x{b:02x}" for b in kind)


def walk(s):
    lines = []
    try:
        for k, activation in enumerate(s.chain()):
            site, proc, _, _ = activation
            lines.append(f"activation {k} {proc.name.decode()} site {site.number}")
            lines += [f"span {token} {value}" for token, value in site.spans]
            for n, (width, _, kind) in enumerate(proc.variables):
                place = variable_place(activation, n)
                shown = "dead" if place is None else str(s.at(place) % 2**width)
                lines.append(f'var {n} bits{width} "{kind_text(kind)}" {shown}')
        lines.append("end")
    except Tears as why:
        lines.append(f"torn {why.args[0]:x} {why.args[1]:x}")
    return lines


class Rows:
    """Lines of the input, and what is printed of each."""

    def __init__(self):
        self.asked, self.told, self.s = [], [], None

    def image(self, image):
        self.asked.append("image " + image.bytes().hex())
        self.s = Stopped(image, 4096)

    def say(self, what, *numbers, name=None):
        words = ["stopped", what] + ([name] if name else []) + [f"{n:x}" for n in numbers]
        self.asked.append(" ".join(words))
        self.told.append(self.asked[-1])
        self.told += self.answers(what, numbers, name)

    def answers(self, what, numbers, name):
        s, n = self.s, list(numbers)
        if what == "stack":
            self.s = Stopped(s.image, n[0])
        elif what == "x":
            s.x[n[0]] = n[1] if n[0] else 0
        elif what == "word":
            s.put(n[0], n[1])
        elif what == "read":
            return [f"{s.word(n[0]):x}"]
        elif what == "regs":
            return [" ".join([f"pc {s.pc:x}"] + [f"x{k} {v:x}" for k, v in enumerate(s.x) if v])]
        elif what == "walk":
            return walk(s)
        elif what == "poke":
            return [answer(do_poke, s, name.encode(), *n)]
        elif what == "return":
            return [answer(do_return, s, n[0], n[1:])]
        elif what == "cut":
            return [answer(do_cut, s, n[0], n[1:])]
        else:
            return self.of_activation(what, n)
        return []

    def of_activation(self, what, n):
        activation = self.s.nth(n[0])
        if activation is None:
            return ["none"]
        site, proc, frame, _ = activation
        if what == "desc":
            return [f"{next((value for token, value in site.spans if token == n[1]), 0):x}"]
        if what == "label":
            return [f"{frame + proc.labels[n[1]]:x}" if n[1] < len(proc.labels) else "none"]
        if what == "count":
            return [str(len(proc.variables))]
        if what == "set":
            return [answer(do_set, self.s, activation, n[1], n[2])]
        if what == "unwind":
            return [answer(do_unwind, self.s, activation, n[1], n[2:])]
        try:
            return [f"{unwind_exit(activation, n[1], n[2:]):x}"]
        except Refused as why:
            return [f"refused {why.args[0]}"]


LAST = 0x10010
IN_MAIN, IN_MIDDLE, IN_LEAF = 0x10040, 0x10100, 0x10200
WORD = (64, 0, b"")

# main calls middle, which calls leaf, which yields; slots and saved registers are not aligned
main = Proc(b"main", 0x10020, 48, 40, [(9, 31)], [WORD, (32, 0, b"f\"\x01"), (64, 1, b""), (8, 0, b""), WORD], [0, 48],
            [(16, 0x10080, [1]), (8, 0x10090, [0, 1])])
middle = Proc(b"middle", 0x100c0, 64, 0, [(9, 51), (18, 13)], [WORD, WORD], [], [(32, 0x10140, [])])
leaf = Proc(b"leaf", 0x101c0, 32, 24, [(9, 3), (27, 11)], [(16, 0, b"x")] + [WORD] * 9, [1], [(8, 0x10240, list(range(1, 10)))])
in_main = Site(IN_MAIN, 0, 3, [("register", 9), ("slot", 21), None, ("register", 18), None], results=[64, 8], returns=[0, 1],
               unwinds=[(1, 0x100a0), (0, 0x100a8)], cuts=[0, 1], spans=[(1, 10), (7, 70)])
in_middle = Site(IN_MIDDLE, 1, 0, [("register", 9), ("slot", 40)], never=True, unwinds=[(0, 0x10148)], spans=[(7, 2**64 - 1)])
in_leaf = Site(IN_LEAF, 2, 1, [("register", 9)] + [("register", r) for r in range(18, 27)], yields=1, unwinds=[(0, 0x10250)], cuts=[0])
IMAGE = Image(LAST, [main, middle, leaf], [in_main, in_middle, in_leaf], bytes(range(40)), [(b"d", DATA_BASE), (b"tail", DATA_BASE + 33)])


def start(rows, stack=4096):
    """Three frames up to the stack's top, with a word of its own in each register and slot."""
    top = BOTTOM + stack
    oldest, between, youngest = top - 48, top - 112, top - 144
    rows.say("stack", stack)
    rows.say("x", 1, IN_LEAF)
    rows.say("x", 2, youngest)
    for r in SAVES:
        rows.say("x", r, 0x0909090909000000 + r)
    for address, value in [(youngest + 24, IN_MIDDLE), (youngest + 3, 0x11223344), (youngest + 11, 0x27272727), (between, IN_MAIN),
                           (between + 51, 0x5566778899), (between + 13, 0x1818), (between + 40, 77), (oldest + 40, LAST), (oldest + 21, 0xABCDEF0123)]:
        rows.say("word", address, value)
    return oldest, between, youngest


def asks(rows):
    start(rows)
    rows.say("walk")
    for younger in range(4):
        rows.say("count", younger)
        rows.say("desc", younger, 7)
        rows.say("desc", younger, 2)
        rows.say("label", younger, 0)
        rows.say("label", younger, 1)


def breaks(rows):
    """The chain broken at each of its points, and each test of a frame at its border."""
    for broken in [("x", 1, IN_LEAF + 4), ("x", 1, LAST), ("x", 2, BOTTOM + 4096)]:
        start(rows)
        rows.say(*broken)
        rows.say("walk")
    oldest, between, youngest = BOTTOM + 4048, BOTTOM + 3984, BOTTOM + 3952
    for address in [youngest + 24, between, oldest + 40]:
        for value in [0, 2**64 - 1, IN_LEAF, IN_MAIN, LAST]:
            start(rows)
            rows.say("word", address, value)
            rows.say("walk")
    for frame in [youngest + 8, BOTTOM - 16, 0, 2**64 - 16, BOTTOM, BOTTOM + 4096 - 32, BOTTOM + 4096 - 16]:
        start(rows)
        rows.say("x", 2, frame)
        rows.say("walk")
    # a frame that is the whole stack, and a stack without one
    rows.say("stack", 48)
    rows.say("x", 1, IN_MAIN)
    rows.say("x", 2, BOTTOM)
    rows.say("word", BOTTOM + 40, LAST)
    rows.say("walk")
    rows.say("set", 0, 1, 5)
    rows.say("walk")
    rows.say("stack", 0)
    rows.say("x", 1, LAST)
    rows.say("x", 2, BOTTOM)
    rows.say("walk")
    rows.say("return", 0)
    rows.say("cut", BOTTOM)
    rows.say("set", 0, 0, 0)


def sets(rows):
    start(rows)
    # main's first variable is in register 9, which middle has saved; its fourth in register 18, which middle has saved too
    for n, value in [(0, 2**64 - 1), (1, 2**32 - 1), (1, 2**32), (2, 0), (3, 255), (3, 256), (4, 0), (5, 0), (2**32 - 1, 0), (2**40, 0)]:
        rows.say("set", 2, n, value)
    for n in range(3):
        rows.say("set", 1, n, 0xFEDCBA9876543210)
        rows.say("set", 0, n, 0x1234)
    rows.say("set", 0, 0, 0x10000)
    rows.say("set", 3, 0, 0)
    rows.say("walk")
    rows.say("regs")


def pokes(rows):
    start(rows)
    for name, offset, value in [("d", 0, 2**64 - 1), ("d", 32, 0x0102030405060708), ("d", 40, 0), ("d", 33, 0), ("d", 4, 0), ("tail", 7, 1), ("tail", 2**64 - 1 - 32, 2),
                                ("d", 2**64 - 8, 0), ("e", 0, 0), ("tail", 2**64 - 33, 9)]:
        rows.say("poke", offset, value, name=name)
    for k in range(5):
        rows.say("read", DATA_BASE + 8 * k)


def returns(rows):
    # leaf's site has no alternate exit, and no results; middle's never returns; main's has two alternate exits
    for values in [[0], [0, 0], [0, 1], [1, 5]]:
        start(rows)
        rows.say("return", *values)
        rows.say("regs")
    for words in [[0, 2**32 - 1], [0, 2**32], [0], [1, 2**64 - 1, 9], [1, 1], [2, 3, 255], [2, 3, 256], [2, 3], [2, 3, 4, 5], [3], [2**32 - 1], [2**33]]:
        rows.say("stack", 4096)
        rows.say("x", 1, IN_MAIN)
        rows.say("x", 2, BOTTOM + 16)
        rows.say("return", *words)
        rows.say("regs")
    for address in [IN_MIDDLE, IN_MAIN + 4]:
        rows.say("stack", 4096)
        rows.say("x", 1, address)
        rows.say("x", 2, BOTTOM + 16)
        rows.say("return", 0)


def unwinds(rows):
    nine = list(range(0x100, 0x109))
    for words in [[2, 0, 5, 6], [2, 1, 7], [1, 0], [0, 0] + nine]:
        start(rows)
        rows.say("would", *words)
        rows.say("unwind", *words)
        rows.say("regs")
        rows.say("read", REGION)
    start(rows)
    for words in [[2, 2], [2, 0, 5], [2, 0, 5, 2**32], [2, 1, 2**32], [1, 1], [0, 0], [0, 2**32], [3, 0]]:
        rows.say("would", *words)
        rows.say("unwind", *words)
    rows.say("regs")
    rows.say("walk")


def cuts(rows):
    oldest, between, youngest = start(rows)
    nine = list(range(0x200, 0x209))
    for words in [[oldest + 16, 2**32 - 1], [oldest + 8, 1, 2], [youngest + 8] + nine]:
        start(rows)
        rows.say("cut", *words)
        rows.say("regs")
        rows.say("read", REGION)
    start(rows)
    for words in [[between + 32], [oldest + 15], [0], [oldest + 16], [oldest + 16, 2**32], [oldest + 8, 1], [youngest + 8], [2**64 - 1, 3]]:
        rows.say("cut", *words)
    rows.say("regs")
    # the chain breaks behind leaf: a cut to leaf goes on, and one past it comes to the break
    start(rows)
    rows.say("word", youngest + 24, 12)
    rows.say("cut", oldest + 16, 1)
    rows.say("cut", youngest + 8)
    rows.say("cut", *([youngest + 8] + nine))
    rows.say("regs")


def lines():
    """The lines of the input, and those that are printed."""
    rows = Rows()
    rows.image(IMAGE)
    for group in [asks, breaks, sets, pokes, returns, unwinds, cuts]:
        group(rows)
    return rows.asked, rows.told
