#!/usr/bin/env python3
"""A compiler of a small language to C--, to be read from top to bottom: lang.py SOURCE [-o FOLDER] [--cuts], or with --exec PROGRAM or --trace UNIT

It writes FOLDER/NAME.cmm, the unit, and FOLDER/NAME.script, the client that its exceptions need; FOLDER is out. The unit runs together with
runtime.cmm, which stands beside this file. There are two ways to raise an exception: the client looks for the handler on the stack, or, with --cuts,
a global register holds the innermost handler, and control is cut to it. A program prints the same with both.

--exec runs the source with the built `cmm` PROGRAM, and tells what went wrong in words of the source. --trace does only the latter, for a log
on standard input: a line on which `cmm` refuses the unit UNIT gets its place in the source, and a walk becomes a trace of calls. mistakes.py does both.

The language has the types int, string, T[], gen T and those of its records. examples/lang/*.lang are programs, docs/TUTORIAL.md tells the story.
"""
import argparse
import collections
import pathlib
import re
import sys

import mistakes


class Fault(Exception):
    """What is wrong in a source: a line and what is said of it."""


# ---- Tokens ----------------------------------------------------------------------------------------------------------------------------------------

TOKEN = re.compile(r"""(?P<space>\s+|//[^\n]*)|(?P<number>0|[1-9][0-9]*)|(?P<text>"(?:[^"\\\n]|\\[ntr0\\"'])*")|(?P<char>'(?:[^'\\\n]|\\[ntr0\\"'])')
    |(?P<name>[A-Za-z_]\w*)|(?P<sign>==|!=|<=|>=|[-+*/%<>=()\[\]{},;:.])|(?P<other>.)""", re.VERBOSE)
WORDS = set("record fun gen var table if else while for in return yield print write raise try catch finally new nil and or not int string".split())
Token = collections.namedtuple("Token", "sort text line")


def tokens_of(text):
    """The tokens of a source, the end of it the last. A word of the language and a sign are sorts of their own."""
    line, found = 1, []
    for match in TOKEN.finditer(text):
        sort, spelt = match.lastgroup, match[0]
        if sort == "other":
            raise Fault(line, f"no token begins with {spelt!r}")
        if sort != "space":
            found.append(Token(spelt if sort == "sign" or spelt in WORDS else sort, spelt, line))
        line += spelt.count("\n")
    return found + [Token("end", "the end", line)]


# ---- Trees: each construct is a node of some form, with its line and its parts ---------------------------------------------------------------------
#
# The shape of a form is what stands there: names and numbers, forms that have a method of the parser, and signs and words, which are no parts of it.
# `form,end` is any number of a form with commas between them, up to a sign; `sign?form` may be left out.

SHAPES = {
    "record": "name { typed,}", "fun": "name ( typed,) :?type block", "gen": "name ( typed,) : type block", "typed": "name : type",
    "if": "expression block else?otherwise", "while": "expression block", "for": "name in expression block", "try": "block catches finally?block",
    "catch": "kind name block", "var": "name = expression ;", "table": "name [ number ] ;", "return": "answer ;", "yield": "expression ;",
    "print": "expression,;", "write": "expression,;", "raise": "kind ( expression ) ;", "assign": "expression =?expression ;",
    "(": "expression )", ".": "name", "[": "expression ]", "new": "[ expression ] brackets"}
STATEMENTS = "if while for try var table return yield print write raise".split()
COMPARISONS = {"==": "!=", "!=": "==", "<": ">=", ">=": "<", ">": "<=", "<=": ">"}  # each with its opposite
ORDERS = {"<": "lt", "<=": "le", ">": "gt", ">=": "ge"}
LEVELS = [("logic", "or"), ("logic", "and"), ("compare", *COMPARISONS), ("binary", "+", "-"), ("binary", "*", "/", "%")]  # the last binds most
Node = collections.namedtuple("Node", "form line parts")
Function = collections.namedtuple("Function", "word name line formals result body")  # the word is fun or gen


class Parser:
    """A parser by recursive descent, which takes its tokens from the end of a list. Kinds of exceptions are numbered from 2 on, as they are named."""

    def __init__(self, text):
        self.tokens, self.records, self.functions, self.kinds = tokens_of(text)[::-1], {}, {}, {kind: n for n, kind in enumerate(MESSAGES, 2)}
        while self.ahead.sort != "end":
            line, word = self.ahead.line, self.want("record", "fun", "gen")
            name, formals, *rest = self.parts(word)
            if word == "record":
                self.records[name] = dict(formals)
            else:
                self.functions[name] = Function(word, name, line, formals, *rest)

    @property
    def ahead(self):
        return self.tokens[-1]

    def take(self, *sorts):
        """The text of the next token, which is taken if it is of one of these sorts."""
        return self.tokens.pop().text if self.ahead.sort in sorts else None

    def want(self, *sorts):
        if self.ahead.sort not in sorts:
            raise Fault(self.ahead.line, f"{' or '.join(sorts)} wanted, and not {self.ahead.text}")
        return self.take(*sorts)

    def parts(self, form):
        """The parts of what has the shape of this form."""
        found = []
        for item in SHAPES[form].split():
            sign, optional, item = item.rpartition("?")
            item, listed, end = item.partition(",")
            method = getattr(self, item, None)
            if optional and not self.take(sign):
                found.append(None)
            elif item in ("name", "number"):
                found.append(self.want(item))
            elif method:
                found.append(self.list(method, end, ",") if listed else method())
            else:
                self.want(item)
        return found

    def list(self, item, end, between):
        found = []
        while not self.take(end):
            if found and between:
                self.want(between)
            found.append(item())
        return found

    def typed(self):
        return self.parts("typed")

    def type(self):
        return "gen " + self.type() if self.take("gen") else self.want("int", "string", "name") + self.brackets()

    def brackets(self):
        return "[" + self.want("]") + self.brackets() if self.take("[") else ""

    def block(self):
        self.want("{")
        return self.list(self.statement, "}", None)

    def statement(self):
        line, word = self.ahead.line, self.take(*STATEMENTS) or "assign"
        return Node(word, line, self.parts(word))

    def otherwise(self):
        return [self.statement()] if self.ahead.sort == "if" else self.block()

    def answer(self):
        return None if self.ahead.sort == ";" else self.expression()

    def catches(self):
        found = []
        while self.take("catch"):
            found.append(self.parts("catch"))
        return found

    def kind(self):
        name = self.want("name")
        self.kinds.setdefault(name, len(self.kinds) + 2)
        return name

    def expression(self, level=0):
        """Operands with signs of a level between them, grouped to the left; before a comparison may be `not`."""
        if level == len(LEVELS):
            return self.unary()
        line, (form, *signs) = self.ahead.line, LEVELS[level]
        if form == "compare" and self.take("not"):
            return Node("not", line, [self.expression(level)])
        found = self.expression(level + 1)
        while (line := self.ahead.line) and (sign := self.take(*signs)):
            found = Node(form, line, [sign, found, self.expression(level + 1)])
        return found

    def unary(self):
        line = self.ahead.line
        if self.take("-"):
            return Node("negative", line, [self.unary()])
        found = self.primary()
        while sign := self.take(".", "["):
            found = Node("place", line, [sign, found, *self.parts(sign)])
        return found

    def primary(self):
        line, sort = self.ahead.line, self.ahead.sort
        if self.take("("):
            return self.parts("(")[0]
        if self.take("new"):  # `new int[n][]` has n elements, each an int[]
            return Node("new", line, [self.want("int", "string", "name"), *self.parts("new")])
        text = self.want("number", "text", "char", "nil", "name")
        if sort != "name":
            return Node("literal", line, [sort, text])
        return Node("call", line, [text, self.list(self.expression, ")", ",")]) if self.take("(") else Node("name", line, [text])


# ---- A unit ----------------------------------------------------------------------------------------------------------------------------------------
#
# Names of the source get a dot, `v.x`, `f.main`, and so do those made here, `l.1`, `t.2`: neither meets a reserved word or the other. A text of the
# source is its length and its bytes in data, `nil` the length 0, so that it is an empty array and an empty string too. Each kind of exception is a
# constant from 2 on: the code 1 is that of a checked operator, and token 1 holds lines.

MESSAGES = {"Index": "no such element", "Zero": "division by zero", "Nil": "nil has no fields", "Memory": "out of memory", "Format": "not a number"}
# what is called like a function and is none of the source: what it stands for, types of actuals and result, and by which kinds of exceptions it fails
BUILTINS = {"str": ("rt.str({})", ["int"], "string", ["Memory"]), "num": ("rt.num({})", ["string"], "int", ["Format"]),
            "chr": ("rt.chr({})", ["int"], "string", ["Memory"]), "len": ("bits64[{}]", ["[]"], "int", []),
            "sub": ("rt.sub({}, {}, {})", ["string", "int", "int"], "string", ["Memory", "Index"]),
            "read": ('foreign "C" cmm_getbyte()', [], "int", [])}
# a global register belongs to all units that name it: the heap grows here and in the runtime
HEAD = """import rt.alloc, rt.array, rt.fill, rt.join, rt.same, rt.sub, rt.str, rt.num, rt.chr, rt.print, rt.number, nil;
export f.main as "start";
register bits64 heap.next, heap.end, handler;"""


class Unit:
    """The unit of a source: texts and procedures, as they are made."""

    def __init__(self, path, cuts):
        source = pathlib.Path(path).read_text(encoding="utf-8")
        self.path, self.cuts, self.count, self.texts, self.lines, self.program = path, cuts, 0, {}, source.splitlines(), Parser(source)

    def fresh(self, name):
        self.count += 1
        return f"{name}.{self.count}"

    def text(self, literal):
        """The label of a text, a literal with its quotes: what an escape is in the source it is in C--."""
        return self.texts.setdefault(literal, f"s.{len(self.texts) + 1}") if literal != '""' else "nil"

    def unit(self):
        main = self.program.functions.get("main")
        if not main or main.formals or main.result:
            raise Fault(1, "there is no function main without formals and result")
        procedures = [text for function in self.program.functions.values() for text in Procedure(self, function).texts()]
        kinds = [f"const kind.{kind} = {number};" for kind, number in self.program.kinds.items()]
        sizes = {text: len(re.sub(r"\\.", "1", text[1:-1]).encode()) for text in self.texts}
        data = [f"  align 8; {label}: bits64 {{ {sizes[text]} }}; bits8[] {text};" for text, label in self.texts.items()]
        return "\n".join([f"// from {self.path}", HEAD, *kinds, 'section "data" {', *data, "}", *procedures, ""])

    def script(self):
        """The client. It has a block for each kind: a command names its token, and no variable holds one. Where no activation handles the kind, or
        with cuts, it lists the stack and stops, and the run ends so."""
        if self.cuts:
            return "other\nlist\nstop\n"
        return "at 1\nunwind 0\n" + "".join(f"at {n}\nseek {n} 1\nunwind 0 $0 $1\nlist\nstop\n" for n in self.program.kinds.values())


# ---- Procedures: what all constructs share ---------------------------------------------------------------------------------------------------------
#     var x = 1;                      // 3: var x = 1;
#                                     v.x = 1;
#
# A statement leaves a comment with its line and its text: by it a fault of the unit finds its place. A variable's kind is its name and type, which
# walks show; temporaries have none, and are used again from statement to statement.

Try = collections.namedtuple("Try", "landing last")  # an enclosing `try`: its continuation, and the block of its `finally`


class Procedure:
    """A procedure, as it is made: a method `do_` for each form of a statement, and `value_` for each of an expression."""

    def __init__(self, unit, function):
        self.unit, self.fresh, self.function, self.line, self.noted = unit, unit.fresh, function, function.line, None
        self.out, self.failures, self.tries, self.variables, self.tables = [], {}, [], {}, {}
        self.used, self.most, self.yields = 0, 0, 0
        self.scope = {name: self.variable(name, type) for name, type in function.formals}
        self.formals = list(self.variables.items())

    def emit(self, *lines):
        self.out += lines

    def temporary(self):
        self.used += 1
        self.most = max(self.most, self.used)
        return f"t.{self.used}"

    def into(self, text):
        """A temporary that has this value."""
        place = self.temporary()
        self.emit(f"{place} = {text};")
        return place

    def kept(self, text):
        """A text that costs nothing to read twice."""
        return text if re.fullmatch(r"[\w.]+(::bits64)?", text) else self.into(text)

    def hidden(self, name):
        """A variable that the source does not name, and that lives on between statements."""
        name = self.fresh(name)
        self.variables[name] = None
        return name

    def variable(self, name, type):
        """A new variable of the source, and its type. Another of its name is another variable."""
        made = f"v.{name}"
        while made in self.variables:
            made += ".again"
        self.variables[made] = f"{name}: {type}"
        return made, type

    def need(self, type, wanted):
        """That a value has the type that is wanted; `[]` is any with elements. `nil` has each but int."""
        alike = type == wanted or "nil" in (type, wanted) and "int" not in (type, wanted)
        if not alike and not (wanted == "[]" and str(type).endswith(("string", "[]"))):
            raise Fault(self.line, f"{wanted or 'nothing'} wanted, and not {type or 'nothing'}")

    def block(self, statements, names=()):
        """A block, with these variables besides those around it."""
        around, self.scope = self.scope, {**self.scope, **dict(names)}
        for node in statements or []:
            self.statement(node)
        self.scope = around

    def statement(self, node):
        self.line, self.used = node.line, 0
        if node.line != self.noted:
            self.noted = node.line
            self.emit(f"// {node.line}: {self.unit.lines[node.line - 1].strip()}")
        getattr(self, f"do_{node.form}")(*node.parts)

    def value(self, node):
        """The text of an expression and its type. The text has no effect: calls, loads and tests are statements before it."""
        self.line = node.line
        return self.told(node) if node.form in ("not", "logic", "compare") else getattr(self, f"value_{node.form}")(*node.parts)

    def typed(self, node, wanted):
        text, type = self.value(node)
        self.need(type, wanted)
        return text

    # ---- Expressions -------------------------------------------------------------------------------------------------------------------------------
    #     x = a + f(b * 2);               t.1 = f.f((v.b * 2));
    #                                     v.x = (v.a + t.1);
    #
    # A call is a statement, so it is taken out of its expression, to a temporary. Memory, which a later call may change, is read to one at once.
    # Signs of C-- are unsigned: signed operators have names.

    def value_literal(self, sort, text):
        if sort == "text":
            return self.unit.text(text), "string"
        return {"number": (text, "int"), "char": (f"{text}::bits64", "int"), "nil": ("nil", "nil")}[sort]

    def value_name(self, name):
        if name not in self.scope:
            raise Fault(self.line, f"there is no variable {name}")
        return self.scope[name]

    def value_negative(self, operand):
        return f"(-{self.typed(operand, 'int')})", "int"

    def value_binary(self, sign, left, right):
        a, type = self.value(left)
        if sign == "+" and type == "string":
            return self.runtime(f"rt.join({a}, {self.typed(right, 'string')})", "Memory"), "string"
        self.need(type, "int")
        b = self.typed(right, "int")
        return f"({a} {sign} {b})" if sign in "+-*" else self.divided("div" if sign == "/" else "mod", a, b), "int"

    def told(self, node):
        """A condition as a number. C-- has none: control goes by conditions."""
        place, past = self.into("1"), self.fresh("l")
        self.branch(node, past, True)
        self.emit(f"{place} = 0;", f"{past}:")
        return place, "int"

    def branch(self, node, label, sense):
        """Goes to a label where a condition is this. `and` and `or` look at the second operand only where the first does not decide."""
        self.line = node.line
        if node.form == "not":
            self.branch(node.parts[0], label, not sense)
        elif node.form == "logic":
            sign, left, right = node.parts
            past = label if (sign == "or") == sense else self.fresh("l")
            self.branch(left, past, sign == "or")
            self.branch(right, label, sense)
            self.emit(*[f"{past}:"] * (past != label))
        else:
            sign, left, right = node.parts if node.form == "compare" else ("!=", node, Node("literal", node.line, ["number", "0"]))
            self.emit(f"if {self.comparison(sign if sense else COMPARISONS[sign], left, right)} {{ goto {label}; }}")

    def comparison(self, sign, left, right):
        (a, type), (b, other) = self.value(left), self.value(right)
        self.need(other, type)
        if sign in ORDERS:
            self.need(type, "int")
            return f"%{ORDERS[sign]}({a}, {b})"
        if "string" in (type, other):
            a, b, sign = self.runtime(f"rt.same({a}, {b})"), "0", COMPARISONS[sign]
        return f"{a} {sign} {b}"

    # ---- Checks ------------------------------------------------------------------------------------------------------------------------------------
    #     q = a / b;                      v.q = %%div(v.a, v.b) also unwinds to fail.3;          the client goes there:   at 1
    #                                     ..                                                                              unwind 0
    #                                   continuation fail.3():
    #                                     span 1 12 { yield(kind.Zero, s.2) never returns; }
    #
    # A checked operator yields with the code 1 where its divisor is 0. The client can't know why, so it sends control to the procedure's own
    # continuation, which raises the exception. An index is a divisor too: i - n has its highest bit, and i has not, where i is at least 0 and
    # below n. With --cuts no client answers, so an `if` tests.

    def failure(self, kind, sort="continuation"):
        """The place at the end where this line fails so: a continuation for the client or for another exit of a call, a label for a `goto`."""
        key = self.line, kind, sort, tuple(it.landing for it in self.tries)
        if key not in self.failures:
            self.failures[key] = self.fresh("fail"), list(self.tries)
        return self.failures[key][0]

    def fail_if(self, kind, condition):
        self.emit(f"if {condition} {{ goto {self.failure(kind, 'label')}; }}")

    def check(self, kind, divisor, condition):
        """Goes on where the divisor is not 0, which is where the condition does not hold."""
        if self.unit.cuts:
            self.fail_if(kind, condition)
        else:
            self.divided("divu", "1", divisor, kind)

    def divided(self, operator, a, b, kind="Zero"):
        if not self.unit.cuts:
            return self.into(f"%%{operator}({a}, {b}) also unwinds to {self.failure(kind)}")
        b = self.kept(b)
        self.fail_if(kind, f"{b} == 0")
        return self.into(f"%{operator}({a}, {b})")

    # ---- Strings, records and arrays on a heap -----------------------------------------------------------------------------------------------------
    #     p = Point(1, 2);                t.1 = heap.next;                                       the heap is a datum of the runtime, and
    #                                     if t.1 + 16 > heap.end { goto fail.4; }                how far it is used is in a global register
    #                                     heap.next = t.1 + 16;
    #                                     bits64[t.1 + 0] = 1; bits64[t.1 + 8] = 2;
    #     s = s + "!";                    t.2 = rt.join(v.s, s.1) also returns to fail.5;        the runtime knows no exceptions: it fails
    #                                                                                            by another exit, and its caller raises
    #     table a[8];                     stackdata { align 8; v.a: bits64[8]; }                 in the frame, for as long as this call lasts:
    #                                     rt.fill(v.a, 8, 0);                                    so its type is that of no variable elsewhere

    def runtime(self, call, *fails):
        """The result of what the runtime does, which fails by these kinds."""
        return self.into(f"{call} also returns to {', '.join(map(self.failure, fails))}" if fails else call)

    def record(self, words):
        """The address of these words in new memory."""
        place = self.into("heap.next")
        self.fail_if("Memory", f"{place} + {8 * len(words)} > heap.end")
        self.emit(f"heap.next = {place} + {8 * len(words)};", *(f"bits64[{place} + {8 * n}] = {word};" for n, word in enumerate(words)))
        return place

    def value_new(self, element, size, brackets):
        fill = "nil" if brackets or element != "int" else "0"
        return self.runtime(f"rt.array({self.typed(size, 'int')}, {fill})", "Memory"), f"{element}{brackets}[]"

    def value_place(self, *parts):
        place, type = self.place(*parts)
        return self.into(place), type

    def place(self, sign, node, part):
        """The memory of a field or an element, and its type. Before the elements of an array stands how many there are."""
        base, type = self.value(node)
        if sign == ".":
            names = self.unit.program.records.get(type, {})
            if part not in names:
                raise Fault(self.line, f"{type} has no field {part}")
            self.check("Nil", f"{base} - nil", f"{base} == nil")
            return f"bits64[{base} + {8 * list(names).index(part)}]", names[part]
        i, table = self.kept(self.typed(part, "int")), base in self.tables
        self.need("[]" if table else type, "[]")
        size = self.tables.get(base) or f"bits64[{base}]"
        self.check("Index", f"({i} - {size} & ~{i}) >> 63", f"{i} >= {size}")
        if type == "string":
            return f"%zx64(bits8[{base} + 8 + {i}])", "int"
        return (f"bits64[{base} + {i} * 8]", "int") if table else (f"bits64[{base} + 8 + {i} * 8]", type[:-2])

    def do_table(self, name, size):
        if self.function.word == "gen":
            raise Fault(self.line, "the frame of a generator does not last, so it has no tables")
        place, _ = self.scope[name] = self.variable(name, "table")
        self.tables[place] = size
        self.emit(f"rt.fill({place}, {size}, 0);")

    # ---- Calls -------------------------------------------------------------------------------------------------------------------------------------
    #     x = f(1);                       span 1 20 { t.1 = f.f(1) also unwinds to try.2; }      outside of a `try` without the exit
    #     return f(x);                    jump f.f(v.x);                                         a tail call keeps no frame, if no `try` is around it
    #
    # The span tells whoever walks the stack the line of each call that waits. In a `try` a call has one more exit, for the client, or with --cuts for
    # whoever cuts: `also cuts to try.2`.

    def emit_call(self, text):
        flow = f" also {'cuts' if self.unit.cuts else 'unwinds'} to {self.tries[-1].landing}" if self.tries else ""
        self.emit(f"span 1 {self.line} {{ {text}{flow}; }}")

    def actuals(self, name, nodes, types):
        if len(nodes) != len(types):
            raise Fault(self.line, f"{name} takes {len(types)} values")
        return [self.typed(node, type) for node, type in zip(nodes, types)]

    def call(self, function, nodes):
        return f"f.{function.name}({', '.join(self.actuals(function.name, nodes, [type for _, type in function.formals]))})"

    def value_call(self, name, nodes):
        program, line = self.unit.program, self.line
        if name in program.records:
            return self.record(self.actuals(name, nodes, program.records[name].values())), name
        if name in BUILTINS:
            shape, types, result, fails = BUILTINS[name]
            return self.runtime(shape.format(*self.actuals(name, nodes, types)), *fails), result
        if name not in program.functions:
            raise Fault(line, f"there is no function {name}")
        function, call = program.functions[name], self.call(program.functions[name], nodes)
        result = f"gen {function.result}" if function.word == "gen" else function.result
        place, self.line = self.temporary() if result else "", line
        self.emit_call(f"{place} = {call}" if result else call)
        return place, result

    def do_return(self, value):
        result, end = (self.function.result, "return ();") if self.function.word == "fun" else (None, "return <0/1> ();")
        if value is None:
            self.need(None, result)
            return self.leave(end)
        callee = self.unit.program.functions.get(value.parts[0]) if value.form == "call" else None
        if callee and callee.word == self.function.word == "fun" and callee.result == result and not self.tries:
            return self.emit(f"jump {self.call(callee, value.parts[1])};")
        text = self.typed(value, result)
        if result and any(it.last for it in self.tries):
            place = self.hidden("result")
            self.emit(f"{place} = {text};")
            text = place
        return self.leave(f"return ({text});")

    # ---- Statements --------------------------------------------------------------------------------------------------------------------------------
    #     while i < n { .. }            l.1:
    #                                     if %ge(v.i, v.n) { goto l.2; }
    #                                     ..
    #                                     goto l.1;
    #                                   l.2:

    def do_var(self, name, value):
        text, type = self.value(value)
        if type in (None, "nil", "table"):
            raise Fault(self.line, f"{name} has no type")
        place, _ = self.scope[name] = self.variable(name, type)
        self.emit(f"{place} = {text};")

    def do_assign(self, left, right):
        text, type = self.value(right or left)
        if right:
            place, wanted = self.place(*left.parts) if left.form == "place" else self.value(left)
            self.need(type, wanted)
            if not place.startswith(("v.", "bits64[")):
                raise Fault(self.line, "only a variable, a field or an element of an array can be set")
            self.emit(f"{place} = {text};")

    def do_if(self, condition, then, otherwise):
        past, end = self.fresh("l"), self.fresh("l")
        self.branch(condition, past, False)
        self.block(then)
        self.emit(*[f"goto {end};"] * bool(otherwise), f"{past}:")
        self.block(otherwise)
        self.emit(*[f"{end}:"] * bool(otherwise))

    def do_while(self, condition, body):
        again, past = self.fresh("l"), self.fresh("l")
        self.emit(f"{again}:")
        self.branch(condition, past, False)
        self.block(body)
        self.emit(f"goto {again};", f"{past}:")

    def do_write(self, values):
        for text, type in map(self.value, values):
            self.need(type, "int" if type == "int" else "string")
            self.emit(f"{'rt.number' if type == 'int' else 'rt.print'}({text});")

    def do_print(self, values):
        self.do_write(values)
        self.emit('foreign "C" cmm_putbyte(10);')

    # ---- Generators --------------------------------------------------------------------------------------------------------------------------------
    #     gen up(n: int): int {           next.up(bits64 self) {                                 a record on the heap has the procedure, where it
    #       yield n;                        v.n = bits64[self + 16];                             goes on, and the variables
    #     }                                 switch bits64[self + 8] { case 1: { goto start; } case 2: { goto resume.2; } default: { .. } }
    #                                     start:
    #                                       bits64[self + 8] = 2; bits64[self + 16] = v.n; return <1/1> (v.n);
    #                                     resume.2:
    #                                       return <0/1> ();
    #     for x in up(3) { .. }           l.4:  v.x = bits64[for.3](for.3) also returns to done.5; .. goto l.4;
    #                                     continuation done.5():
    #
    # An alternate return says that there is no further value. A generator that an exception has left, or that is at work, has none: its place is 0.

    def do_for(self, name, generator, body):
        text, type = self.value(generator)
        if not str(type).startswith("gen "):
            raise Fault(self.line, f"a generator wanted, and not {type}")
        state, again, done, item = self.hidden("for"), self.fresh("l"), self.fresh("done"), self.variable(name, type[4:])
        self.emit(f"{state} = {text};", f"{again}:")
        self.emit_call(f"{item[0]} = bits64[{state}]({state}) also returns to {done}")
        self.block(body, {name: item})
        self.emit(f"goto {again};", f"continuation {done}():")

    def do_yield(self, value):
        if self.function.word != "gen":
            raise Fault(self.line, "only a generator yields")
        text = self.typed(value, self.function.result)
        self.yields += 1
        self.restore(self.tries[:1])
        self.emit(f"bits64[self + 8] = {self.yields + 1};", "save", f"return <1/1> ({text});", f"resume.{self.yields + 1}:")
        for it in self.tries:
            self.handle(it.landing)

    # ---- Exceptions --------------------------------------------------------------------------------------------------------------------------------
    #     try {                           span kind.Zero 1 {                                     or, with --cuts:
    #       x = f(1);                       span 1 5 { t.1 = f.f(1) also unwinds to try.1; }       outer.4 = handler; handler = try.1;
    #     }                               }                                                        span 1 5 { t.1 = f.f(1) also cuts to try.1; }
    #     catch Zero e { print e; }       goto l.2;                                                handler = outer.4; goto l.2;
    #                                   continuation try.1(kind.3, value.3):                     continuation try.1(kind.3, value.3):
    #                                                                                              handler = outer.4;
    #                                     if kind.3 != kind.Zero { goto l.5; }
    #                                     v.e = value.3; ..
    #     raise Zero("none");             yield(kind.Zero, s.1) never returns;                     cut to handler(kind.Zero, s.1);
    #
    # The client looks for the nearest activation whose span of the kind has 1 (`seek 3 1`) and goes on at its exit for unwinding with what was
    # yielded (`unwind 0 $0 $1`). So a `try` that does not catch the kind is passed by. With --cuts each `try` on the way is tried, and raises again.
    # Where a `try` of the same procedure is around a `raise`, the handler is known: `cut to try.1(kind.Zero, s.1) also cuts to try.1;` with both.
    # A `finally` is a `try` for all kinds, that does its block and raises again; it stands also where the `try` ends well, and before a `return`.

    def do_raise(self, kind, message):
        self.raise_(f"kind.{kind}", self.typed(message, "string"))

    def raise_(self, kind, message):
        stop = f"span 1 {self.line} {{ yield({kind}, {message}) never returns; }}"
        if self.tries:
            landing = self.tries[-1].landing
            self.emit(f"cut to {landing}({kind}, {message}) also cuts to {landing};")
        elif self.unit.cuts:
            self.emit(f"if handler == 0 {{ {stop} }}", f"cut to handler({kind}, {message});")
        else:
            self.emit(stop)

    def handle(self, landing):
        """With cuts: the handler is this one from here on."""
        if self.unit.cuts:
            self.variables[f"outer.{landing}"] = None
            self.emit(f"outer.{landing} = handler;", f"handler = {landing};")

    def restore(self, tries):
        """With cuts: the handler is again the one around these."""
        if self.unit.cuts:
            self.emit(*(f"handler = outer.{it.landing};" for it in tries))

    def leave(self, how):
        """Out of the procedure, past each `try` around, whose `finally` is done."""
        tries = self.tries
        while self.tries:
            *self.tries, inner = self.tries
            self.restore([inner])
            self.block(inner.last)
        self.tries = tries
        self.emit(how)

    def do_try(self, body, catches, last):
        if last is not None and catches:  # the `finally` is around the whole
            body, catches = [Node("try", self.line, [body, catches, None])], []
        line, landing, end, kind, message = self.line, self.fresh("try"), self.fresh("l"), self.hidden("kind"), self.hidden("value")
        kinds = self.unit.program.kinds if last is not None else [name for name, _, _ in catches]
        spans = [] if self.unit.cuts else [f"span kind.{it} 1 {{" for it in kinds]
        self.handle(landing)
        self.tries.append(Try(landing, last))
        self.emit(*spans)
        self.block(body)
        self.emit(*["}"] * len(spans))
        past = [self.tries.pop()]
        self.restore(past)
        self.block(last)
        self.emit(f"goto {end};", f"continuation {landing}({kind}, {message}):")
        self.restore(past)
        for name, variable, block in catches:
            other, place = self.fresh("l"), self.variable(variable, "string")
            self.emit(f"if {kind} != kind.{name} {{ goto {other}; }}", f"{place[0]} = {message};")
            self.block(block, {variable: place})
            self.emit(f"goto {end};", f"{other}:")
        self.block(last)
        self.line = line
        self.raise_(kind, message)
        self.emit(f"{end}:")

    # ---- A whole procedure: only at its end is it known which variables it has, and where it fails ------------------------------------------------

    def texts(self):
        """The texts of the function's procedures: of a generator's the one that makes its record is the second."""
        name, result = self.function.name, self.function.result
        self.block(self.function.body)
        if self.function.word == "gen":
            return self.generator(name)
        if not self.out or not self.out[-1].startswith(("return", "jump")):
            self.emit("return ();" if not result else f"return ({'0' if result == 'int' else 'nil'});")
        return [self.text(f"f.{name}", self.formals)]

    def generator(self, name):
        self.emit("return <0/1> ();")
        words, places = ", ".join(f"bits64[self + {16 + 8 * n}]" for n in range(len(self.variables))), ", ".join(self.variables)
        state = self.temporary()
        save, load = (f"{words} = {places};", f"{places} = {words};") if places else (";", ";")
        arms = " ".join(f"case {n}: {{ goto resume.{n}; }}" for n in range(2, self.yields + 2))
        self.out = [f"{state} = bits64[self + 8];", "bits64[self + 8] = 0;", load,
                    f"switch {state} {{ case 1: {{ goto start; }} {arms} default: {{ return <0/1> (); }} }}", "start:",
                    *(save if line == "save" else line for line in self.out)]
        maker = Procedure(self.unit, self.function)
        made = maker.record([f"next.{name}", "1", *(it if it in dict(self.formals) else "0" for it in self.variables)])
        maker.emit(f"return ({made});")
        return [self.text(f"next.{name}", [("self", "")]), maker.text(f"f.{name}", self.formals)]

    def text(self, name, formals):
        for (self.line, kind, sort, _), (place, self.tries) in list(self.failures.items()):
            self.emit(f"{place}:" if sort == "label" else f"continuation {place}():")
            self.raise_(f"kind.{kind}", self.unit.text(f'"{MESSAGES[kind]}"'))
        variables = {**self.variables, **{f"t.{n}": None for n in range(1, self.most + 1)}}
        lines = [f"{declared(it, kind)};" for it, kind in variables.items() if it not in {**dict(formals), **self.tables}]
        tables = [f"{it}: bits64[{size}];" for it, size in self.tables.items()]
        lines += [f"stackdata {{ align 8; {' '.join(tables)} }}"] if tables else []
        lines = [line if re.match(r"[^/]*:$", line) else "  " + line for line in [*lines, *self.out]]
        return "\n".join([f"\n{name}({', '.join(declared(*it) for it in formals)}) {{", *lines, "}"])


def declared(variable, kind):
    return f"bits64 {variable}" if kind is None else f'"{kind}" bits64 {variable}'


# ---- The command -----------------------------------------------------------------------------------------------------------------------------------

def main():
    parser = argparse.ArgumentParser(description=__doc__, formatter_class=argparse.RawDescriptionHelpFormatter)
    parser.add_argument("source", nargs="?")
    parser.add_argument("-o", dest="folder", default="out")
    parser.add_argument("--cuts", action="store_true")
    parser.add_argument("--exec", dest="program")
    parser.add_argument("--trace", metavar="UNIT")
    words = parser.parse_args()
    if words.trace:
        return mistakes.tell(sys.stdin.read(), words.trace, sys.stdout)
    if not words.source:
        parser.error("a source is wanted")
    try:
        unit = Unit(words.source, words.cuts)
        made = {"cmm": unit.unit(), "script": unit.script()}
    except Fault as fault:
        print(f"{words.source}:{fault.args[0]}: {fault.args[1]}", file=sys.stderr)
        return 3
    base = pathlib.Path(words.folder, pathlib.Path(words.source).stem)
    base.parent.mkdir(parents=True, exist_ok=True)
    for ending, text in made.items():
        pathlib.Path(f"{base}.{ending}").write_text(text, encoding="utf-8")
    return mistakes.execute(words.program, base) if words.program else 0


if __name__ == "__main__":
    sys.exit(main())
