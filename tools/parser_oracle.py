#!/usr/bin/env python3
r"""An independent recognizer of the grammar: it tries every alternative at every place, and knows neither the parser nor its readers.

Reads texts from standard input, one a line, each a whole unit, and prints for each the tree as the parser's types print it, or the token at
which rule 10 is broken, or that the text has more trees than one. An argument names another part of the grammar to start from, as `part`.
crates/front_rows/stdout has what it prints for those of crates/front_rows/stdin that follow the word `tree` and a tab:

    sed -n 's/^tree\t//p' crates/front_rows/stdin | tools/parser_oracle.py
"""

import re
import sys

sys.setrecursionlimit(100_000)

# ---- tokens: a sort and a value each

RESERVED = set(
    "aborts align aligned also as big bits8 bits16 bits32 bits64 bool byteorder case const continuation cut cuts default else export "
    "float foreign goto if import in invariant jump little memsize never pointersize pragma reads register return returns section span "
    "stackdata string16 switch target to typedef unicode unwinds wordsize writes".split()
)
SYMBOLS = sorted("{ } ( ) [ ] , ; : :: = == != < <= > >= + - * / % & | ^ ~ << >> ..".split(), key=len, reverse=True)

# What has a value of its own, tried in this order. Texts and characters are those without escapes, numbers those in base 10.
SPELLINGS = [
    ("CHECKED", r"%%([A-Za-z_][A-Za-z0-9_]*)", str),
    ("OPERATOR", r"%([A-Za-z_][A-Za-z0-9_]*)", str),
    ("NAME", r"([A-Za-z_$@][A-Za-z0-9_$@]*)", str),
    ("INTEGER", r"([0-9]+)", int),
    ("TEXT", r'"([^"]*)"', str),
    ("CHARACTER", r"'(.)'", ord),
]


def token_at(text, place):
    """The sort, the value and the end of the token at a place."""
    for sort, pattern, value in SPELLINGS:
        match = re.compile(pattern).match(text, place)
        if match:
            word = match.group(1)
            if sort == "NAME" and word in RESERVED:
                sort = word
            return sort, value(word), match.end()
    for symbol in SYMBOLS:
        if text.startswith(symbol, place):
            return symbol, symbol, place + len(symbol)
    raise ValueError("no token begins at " + text[place:])


def tokens_of(text):
    tokens, place = [], 0
    while place < len(text):
        if text[place] in " \n\t":
            place += 1
        else:
            sort, value, place = token_at(text, place)
            tokens.append((sort, value))
    return tokens


# ---- trees, as `Debug` of the parser's types prints them


def items(values):
    return "[" + ", ".join(values) + "]"


def option(value):
    return "None" if value is None else f"Some({value})"


def struct(name, /, **fields):
    # a field whose name is a word of Python has an underscore behind it
    return name + " { " + ", ".join(f"{field.rstrip('_')}: {value}" for field, value in fields.items()) + " }"


def quoted(text):
    def shown(letter):
        if letter in '"\\':
            return "\\" + letter
        return letter if " " <= letter <= "~" else f"\\x{ord(letter):02x}"

    return '"' + "".join(map(shown, text)) + '"'


# ---- the grammar: for each part its alternatives, and what each makes
#
# An alternative is a row of parts and sorts of tokens, which have no name in common. What it makes is a function of the values of those (`v`),
# of the number of its first token (`at`) and of the number of the token after it (`past`).

GRAMMAR = {}


def rule(part, row, make):
    GRAMMAR.setdefault(part, []).append((tuple(row.split()), make))


def first(v, at, past):
    return v[0]


def of_values(make):
    return lambda v, at, past: make(v)


def part_of_parts(sort, part, alternatives):
    """A part that is one of several, each alternative with its rows, made once."""
    name = f"{sort}<{part}>"
    if name not in GRAMMAR:
        for row, make in alternatives(name):
            rule(name, row, make)
    return name


def many(part):
    return part_of_parts("many", part, lambda name: [("", of_values(lambda v: [])), (f"{part} {name}", of_values(lambda v: [v[0]] + v[1]))])


def optional(part):
    return part_of_parts("optional", part, lambda name: [("", of_values(lambda v: None)), (part, first)])


def commas(part):
    """One or more, with a comma between two."""
    return part_of_parts("commas", part, lambda name: [(part, of_values(lambda v: [v[0]])), (f"{part} , {name}", of_values(lambda v: [v[0]] + v[2]))])


def listed(part):
    """One or more, with one more comma behind them or none."""
    return part_of_parts("listed", part, lambda name: [(commas(part), first), (f"{commas(part)} ,", first)])


def may_list(part):
    return part_of_parts("may_list", part, lambda name: [("", of_values(lambda v: [])), (listed(part), first)])


def placed(name, form):
    """A node with the number of its first token and a form."""
    return lambda v, at, past: struct(name, token=at, form=form(v))


# ---- units, sections, declarations, data

rule("ident", "NAME", lambda v, at, past: struct("Ident", name=quoted(v[0]), token=at))
rule("text", "TEXT", lambda v, at, past: struct("Text", bytes=quoted(v[0]), token=at))
rule("int", "INTEGER", lambda v, at, past: struct("Int", value=v[0], token=at))
for width in (8, 16, 32, 64):
    rule("type", f"bits{width}", placed("TypeName", lambda v, width=width: f"Bits(W{width})"))
rule("type", "NAME", placed("TypeName", lambda v: f"Named({quoted(v[0])})"))

rule("unit", many("top"), of_values(lambda v: items(v[0])))
for part, sort in (("named_section", "Section"), ("decl", "Decl"), ("proc", "Proc")):
    rule("top", part, of_values(lambda v, sort=sort: f"{sort}({v[0]})"))
rule(
    "named_section",
    "section text { " + many("item") + " }",
    lambda v, at, past: struct("Section", token=at, name=v[1], items=items(v[3])),
)
for sort in ("decl", "proc", "datum"):
    rule("item", sort, of_values(lambda v, sort=sort: f"{sort.capitalize()}({v[0]})"))
rule(
    "item",
    "span prim expr { " + many("item") + " }",
    lambda v, at, past: struct("Span", token=at, key=v[1], value=v[2], items=items(v[4])),
)


def declaration(row, form):
    rule("decl", row, placed("Decl", form))


declaration("import " + optional("type") + " " + listed("imported") + " ;", lambda v: struct("Import", width=option(v[1]), imports=items(v[2])))
declaration("export " + optional("type") + " " + listed("exported") + " ;", lambda v: struct("Export", width=option(v[1]), exports=items(v[2])))
declaration("const " + optional("type") + " ident = expr ;", lambda v: struct("Const", width=option(v[1]), name=v[2], value=v[4]))
declaration("typedef type " + listed("ident") + " ;", lambda v: struct("Typedef", width=v[1], names=items(v[2])))
declaration(
    optional("invariant") + " register " + optional("text") + " type " + listed("ident") + " ;",
    lambda v: struct("Register", invariant="true" if v[0] else "false", kind=option(v[2]), width=v[3], names=items(v[4])),
)
declaration("target " + many("property") + " ;", lambda v: f"Target({items(v[1])})")
rule("imported", "ident", of_values(lambda v: struct("Import", link="None", name=v[0])))
rule("imported", "text as ident", of_values(lambda v: struct("Import", link=option(v[0]), name=v[2])))
rule("exported", "ident", of_values(lambda v: struct("Export", name=v[0], link="None")))
rule("exported", "ident as text", of_values(lambda v: struct("Export", name=v[0], link=option(v[2]))))
for word in ("memsize", "pointersize", "wordsize"):
    rule("property", f"{word} int", placed("Property", lambda v, word=word: f"{word.capitalize()}({v[1]})"))
for word in ("little", "big"):
    rule("property", f"byteorder {word}", placed("Property", lambda v, word=word: f"Byteorder({word.capitalize()})"))

rule("datum", "ident :", placed("Datum", lambda v: f"Label({v[0]})"))
rule("datum", "align int ;", placed("Datum", lambda v: f"Align({v[1]})"))
rule("datum", "type count init ;", placed("Datum", lambda v: struct("Data", width=v[0], count=v[1], initial=v[2])))
rule("count", "", of_values(lambda v: "One"))
rule("count", "[ ]", of_values(lambda v: "OfInitial"))
rule("count", "[ expr ]", of_values(lambda v: f"Of({v[1]})"))
rule("init", "", of_values(lambda v: "Zeros"))
rule("init", "{ " + listed("expr") + " }", of_values(lambda v: f"Values({items(v[1])})"))
rule("init", "text", of_values(lambda v: f"Text({v[0]})"))

# ---- procedures

rule(
    "proc",
    "ident ( " + may_list("formal") + " ) block",
    lambda v, at, past: struct("Proc", name=v[0], formals=items(v[2]), body=v[4], past=past),
)
rule("formal", "mods type ident", of_values(lambda v: struct("Formal", modifiers=v[0], width=v[1], name=v[2])))
rule("mods", "", of_values(lambda v: "Nothing"))
rule("mods", "text", of_values(lambda v: f"Kind({v[0]})"))
rule("mods", "text invariant", of_values(lambda v: f"KindInvariant({v[0]})"))
rule("mods", "invariant", lambda v, at, past: f"Invariant({at})")
rule("mods", "invariant text", lambda v, at, past: f"InvariantKind({at}, {v[1]})")
rule("block", "{ " + many("part") + " }", of_values(lambda v: struct("Block", parts=items(v[1]))))
rule("part", "local", lambda v, at, past: f"Local({struct('Local', token=at, past=past, form=v[0])})")
rule("part", "stmt", of_values(lambda v: f"Stmt({v[0]})"))
rule("local", "mods type " + listed("ident") + " ;", of_values(lambda v: struct("Variables", modifiers=v[0], width=v[1], names=items(v[2]))))
rule("local", "stackdata { " + many("room") + " }", of_values(lambda v: f"Stackdata({items(v[2])})"))
rule("room", "room_form", placed("Room", lambda v: v[0]))
rule("room_form", "ident :", of_values(lambda v: f"Label({v[0]})"))
rule("room_form", "align int ;", of_values(lambda v: f"Align({v[1]})"))
rule("room_form", "type " + optional("size") + " ;", of_values(lambda v: struct("Data", width=v[0], count=option(v[1]))))
rule("size", "[ expr ]", of_values(lambda v: v[1]))

# ---- statements


def statement(row, make):
    rule("form", row, of_values(make))


rule("stmt", "form", lambda v, at, past: struct("Stmt", token=at, past=past, form=v[0]))
statement(";", lambda v: "Empty")
rule("form", "if_form", first)
rule("if_form", "if expr block otherwise", of_values(lambda v: struct("If", condition=v[1], then=v[2], otherwise=v[3])))
rule("otherwise", "", of_values(lambda v: "Nothing"))
rule("otherwise", "else block", of_values(lambda v: f"Else({v[1]})"))
rule("otherwise", "else chained", of_values(lambda v: f"ElseIf({v[1]})"))
rule("chained", "if_form", lambda v, at, past: struct("Stmt", token=at, past=past, form=v[0]))
statement(
    "switch " + optional("over") + " expr { " + many("arm") + " }",
    lambda v: struct("Switch", range=option(v[1]), value=v[2], arms=items(v[4])),
)
rule("over", "[ expr .. expr ]", of_values(lambda v: struct("Span", from_=v[1], to=v[3])))
rule("arm", "arm_case block", lambda v, at, past: struct("Arm", token=at, case=v[0], body=v[1]))
rule("arm_case", "case " + commas("range") + " :", of_values(lambda v: f"Ranges({items(v[1])})"))
rule("arm_case", "default :", of_values(lambda v: "Default"))
rule("range", "expr", of_values(lambda v: struct("Range", from_=v[0], to="None")))
rule("range", "expr .. expr", of_values(lambda v: struct("Range", from_=v[0], to=option(v[2]))))
statement("span prim expr block", lambda v: struct("Span", key=v[1], value=v[2], body=v[3]))
statement(commas("lvalue") + " = " + listed("expr") + " ;", lambda v: struct("Assign", to=items(v[0]), values=items(v[2])))
rule("lvalue", "ident", of_values(lambda v: f"Name({v[0]})"))
rule("lvalue", "memory", of_values(lambda v: f"Memory({v[0]})"))
statement(
    "ident = checked ( expr , expr ) flows ;",
    lambda v: struct("Checked", result=v[0], operator=v[2], left=v[4], right=v[6], flows=items(v[8])),
)
rule("checked", "CHECKED", lambda v, at, past: struct("Ident", name=quoted(v[0]), token=at))
statement(
    "results convention callee arguments flows ;",
    lambda v: struct("Call", results=items(v[0]), convention=option(v[1]), callee=v[2], actuals=items(v[3]), flows=items(v[4])),
)
rule("results", "", of_values(lambda v: []))
rule("results", commas("kinded") + " =", first)
rule("kinded", optional("text") + " ident", of_values(lambda v: struct("Kinded", kind=option(v[0]), name=v[1])))
rule("convention", "", of_values(lambda v: None))
rule("convention", "foreign text", of_values(lambda v: v[1]))
rule("callee", "ident", placed("Callee", lambda v: f"Name({v[0]})"))
rule("callee", "memory", placed("Callee", lambda v: f"Memory({v[0]})"))
rule("callee", "( expr )", placed("Callee", lambda v: f"Bracketed({v[1]})"))
rule("arguments", "( " + may_list("actual") + " )", of_values(lambda v: v[1]))
rule("actual", optional("text") + " expr", of_values(lambda v: struct("Actual", kind=option(v[0]), value=v[1])))
rule("flows", "", of_values(lambda v: []))
rule("flows", "flow flows", of_values(lambda v: [v[0]] + v[1]))
rule("flows", "flow , flows", of_values(lambda v: [v[0]] + v[2]))
for verb in ("cuts", "unwinds", "returns"):
    rule("flow", f"also {verb} to " + commas("ident"), placed("Flow", lambda v, verb=verb: f"{verb.capitalize()}To({items(v[3])})"))
rule("flow", "also aborts", placed("Flow", lambda v: "Aborts"))
rule("flow", "never returns", placed("Flow", lambda v: "NeverReturns"))
statement("jump callee arguments ;", lambda v: struct("Jump", callee=v[1], actuals=items(v[2])))
statement(
    "return " + optional("exit") + " " + optional("arguments") + " ;",
    lambda v: struct("Return", exit=option(v[1]), values=option(None if v[2] is None else items(v[2]))),
)
rule("exit", "< prim / prim >", lambda v, at, past: struct("Exit", token=at, index=v[1], count=v[3]))
statement("ident :", lambda v: f"Label({v[0]})")
statement(
    "continuation ident ( " + may_list("kinded") + " ) :",
    lambda v: struct("Continuation", name=v[1], parameters=items(v[3])),
)
statement("goto ident ;", lambda v: f"Goto({v[1]})")
statement("cut to callee arguments flows ;", lambda v: struct("Cut", callee=v[2], actuals=items(v[3]), flows=items(v[4])))

# ---- expressions

INFIX = {
    "==": "Eq",
    "!=": "Ne",
    "<": "Lt",
    "<=": "Le",
    ">": "Gt",
    ">=": "Ge",
    "|": "Or",
    "^": "Xor",
    "&": "And",
    "<<": "Shl",
    ">>": "Shr",
    "+": "Add",
    "-": "Sub",
    "*": "Mul",
    "/": "Div",
    "%": "Mod",
}

# Operators that group to the left: each level, what binds tighter, and its operators.
LEVELS = [
    ("bitor", "bitxor", "|"),
    ("bitxor", "bitand", "^"),
    ("bitand", "shift", "&"),
    ("shift", "sum", "<< >>"),
    ("sum", "product", "+ -"),
    ("product", "unary", "* / %"),
]


def expression(at, form):
    return struct("Expr", token=at, form=form)


def infix(at, left, operator, right):
    return expression(at, struct("Infix", left=left, operator=INFIX[operator], right=right))


def joined(v, at, past):
    tree = v[0]
    for operator, right in v[1]:
        tree = infix(at, tree, operator, right)
    return tree


rule("expr", "bitor", first)
for sign in "== != < <= > >=".split():
    rule("expr", f"bitor {sign} bitor", lambda v, at, past: infix(at, v[0], v[1], v[2]))
for level, tighter, signs in LEVELS:
    rest = f"rest of {level}".replace(" ", "_")
    rule(level, f"{tighter} {rest}", joined)
    rule(rest, "", of_values(lambda v: []))
    for sign in signs.split():
        rule(rest, f"{sign} {tighter} {rest}", of_values(lambda v: [(v[0], v[1])] + v[2]))
for sign, operator in (("-", "Negate"), ("~", "Complement")):
    rule("unary", f"{sign} unary", lambda v, at, past, operator=operator: expression(at, struct("Prefix", operator=operator, operand=v[1])))
rule("unary", "prim_form", lambda v, at, past: expression(at, f"Prim({v[0]})"))
rule("unary", "memory", lambda v, at, past: expression(at, f"Memory({v[0]})"))
rule(
    "unary",
    "OPERATOR ( " + listed("expr") + " )",
    lambda v, at, past: expression(at, struct("Named", operator=quoted(v[0]), operands=items(v[2]))),
)
rule("memory", "type [ expr " + optional("alignment") + " ]", of_values(lambda v: struct("Memory", width=v[0], address=v[2], aligned=option(v[3]))))
for word in ("aligned", "align"):
    rule("alignment", f"{word} int", of_values(lambda v: v[1]))
rule("prim", "prim_form", placed("Primary", lambda v: v[0]))
rule("prim_form", "number", of_values(lambda v: struct("Literal", number=v[0], width="None")))
rule("prim_form", "number :: type", of_values(lambda v: struct("Literal", number=v[0], width=option(v[2]))))
rule("prim_form", "NAME", of_values(lambda v: f"Name({quoted(v[0])})"))
rule("prim_form", "( expr )", of_values(lambda v: f"Bracketed({v[1]})"))
rule("number", "INTEGER", of_values(lambda v: f"Int({v[0]})"))
rule("number", "CHARACTER", of_values(lambda v: f"Char({v[0]})"))

class Recognizer:
    """All trees of each part at each place, and the last token that was wanted."""

    def __init__(self, tokens):
        self.tokens = tokens
        self.found = {}
        self.furthest = 0

    def token(self, sort, at):
        """Where a token of this sort ends, with its value."""
        self.furthest = max(self.furthest, at)
        if at < len(self.tokens) and self.tokens[at][0] == sort:
            return {at + 1: [self.tokens[at][1]]}
        return {}

    def row(self, row, at):
        """The ends and values of a row of parts and tokens."""
        states = [(at, [])]
        for sort in row:
            found = self.part if sort in GRAMMAR else self.token
            states = [(end, values + [value]) for place, values in states for end, ways in found(sort, place).items() for value in ways]
        return states

    def part(self, part, at):
        """Where a part that begins here may end, with its trees for each end."""
        if (part, at) not in self.found:
            ends = {}
            for row, make in GRAMMAR[part]:
                for end, values in self.row(row, at):
                    ends.setdefault(end, []).append(make(values, at, end))
            self.found[part, at] = ends
        return self.found[part, at]


def answer(text, start="unit"):
    """The tree of a text, or where it stops to be one."""
    tokens = tokens_of(text)
    recognizer = Recognizer(tokens)
    ends = recognizer.part(start, 0)
    if start == "unit":
        # the end is tried wherever a unit may end
        recognizer.furthest = max(recognizer.furthest, *ends)
    trees = ends.get(len(tokens), [])
    if len(trees) == 1:
        return trees[0]
    return f"more trees than one: {len(trees)}" if trees else f"rule 10 syntax at token {recognizer.furthest}"


if __name__ == "__main__":
    for line in sys.stdin:
        print(answer(line.rstrip("\n"), *sys.argv[1:]))
