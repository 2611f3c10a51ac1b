#!/usr/bin/env python3
"""Counts the tokens of units, apart from the compiler: token_counts.py [--examples | --write].

A case is a line, its units divided by tabs, as in crates/front_rows/stdin, but for the lines there that begin with a word of SHOWN. Of each case that breaks no rule by
crates/front_rows/stdout the line is printed that must stand there: how many tokens the units have, and then of each procedure, from its name to its last brace, how many belong to statements of its own, and how many it has
in all. What belongs to no statement is its name, its formals, the braces of its body, and its declarations. A declaration of a body begins with `stackdata`, or with
words other than `foreign`, `span` and the like that are followed by another name: the type of locals and what stands before it. `--examples` prints the cases that
the examples are, one a line, each with the units that it imports from; `--write` puts the lines printed into crates/front_rows/stdout.
"""
import os
import re
import sys

TOP = os.path.dirname(os.path.dirname(os.path.abspath(__file__)))
FAULTS = f"{TOP}/crates/front_rows"

# The words of lines of crates/front_rows/stdin that show something else of units.
SHOWN = {"graphs", "tree", "names"}

# The examples that are whole programs, and those whose units come from several files.
PROGRAMS = ["alternate", "bytes", "coroutine", "cut", "difference", "exception", "generator", "interpreter", "loop", "recursion", "stackdata", "sum", "table"]
TOGETHER = [["units", "divide"], ["female", "male"]]

SPACE = re.compile(r"[ \t\r\n\f\v]+|/\*.*?\*/", re.S)
TOKEN = re.compile(
    r"""
    (?P<word>(?!\.\.)[A-Za-z_.$@][A-Za-z0-9_.$@]*)
    | (?P<number>[0-9][A-Za-z0-9_]*)
    | (?P<text>"(?:\\.|[^"\\])*")
    | (?P<char>'(?:\\.|[^'\\])')
    | (?P<operator>%%?[A-Za-z_.$@][A-Za-z0-9_.$@]*)
    | (?P<symbol>\.\.\.|\.\.|::|<<|>>|<=|>=|==|!=|&&|\|\||[-+*/%&|^~!<>=(){}\[\],;:?])
    """,
    re.X | re.S,
)

# What a statement may begin with that is followed by a word or a text, as a type of locals is.
STATEMENTS = {"goto", "return", "jump", "cut", "if", "switch", "span", "continuation", "foreign", "case", "default", "else"}


def tokens_of(text):
    """The tokens of a unit, each with its kind."""
    found, at = [], 0
    while at < len(text):
        space = SPACE.match(text, at)
        if space:
            at = space.end()
            continue
        token = TOKEN.match(text, at)
        if not token:
            raise ValueError(f"no token at {text[at:at + 20]!r}")
        found.append((token.lastgroup, token.group()))
        at = token.end()
    return found


def past(tokens, at, first, last):
    """Behind the bracket that ends what the one here begins."""
    depth = 0
    while True:
        depth += (tokens[at][1] == first) - (tokens[at][1] == last)
        at += 1
        if not depth:
            return at


def declares(tokens, at):
    """Whether a declaration of locals stands here: a type, and what may stand before it, and then a name."""
    while tokens[at][0] == "text" or tokens[at][1] == "invariant":
        at += 1
    return tokens[at][0] == "word" and tokens[at][1] not in STATEMENTS and tokens[at + 1][0] == "word"


def declared_in(tokens, at, end):
    """How many tokens of a body declare something. Where a statement may begin is behind a brace, a semicolon or a colon."""
    count, begins = 0, True
    while at < end:
        if begins and tokens[at][1] == "stackdata":
            behind = past(tokens, at + 1, "{", "}")
            count, at = count + behind - at, behind
        elif begins and declares(tokens, at):
            behind = at
            while tokens[behind][1] != ";":
                behind += 1
            count, at = count + behind + 1 - at, behind + 1
        else:
            begins = tokens[at][1] in ("{", "}", ";", ":")
            at += 1
    return count


def procedures_of(tokens):
    """Of each procedure of a unit its name, how many tokens its statements have, and how many it has."""
    found, at = [], 0
    while at < len(tokens):
        kind, token = tokens[at]
        if token in ("section", "span"):
            # (a section and what stands in a span are gone into)
            while tokens[at][1] != "{":
                at += 1
            at += 1
        elif kind == "word" and token not in ("import", "export", "const", "typedef", "register", "target", "align", "invariant") and tokens[at + 1][1] == "(":
            body = past(tokens, at + 1, "(", ")")
            end = past(tokens, body, "{", "}")
            inside = end - 1 - (body + 1)
            found.append((token, inside - declared_in(tokens, body + 1, end - 1), end - at))
            at = end
        elif token == "}" or token == ";":
            at += 1
        else:
            # (a declaration or a datum: it ends with a semicolon outside braces, or is a label)
            while tokens[at][1] not in (";", ":"):
                at = past(tokens, at, "{", "}") if tokens[at][1] == "{" else past(tokens, at, "(", ")") if tokens[at][1] == "(" else at + 1
            at += 1
    return found


def line_of(case):
    """What must be printed of a case that breaks no rule."""
    units = [tokens_of(text) for text in case.split("\t")]
    procedures = [it for unit in units for it in procedures_of(unit)]
    return "".join([f"accepted, {sum(map(len, units))} tokens", *(f'; "{name}" {own} of {all_}' for name, own, all_ in procedures)])


def examples():
    """The cases that the examples are."""
    for names in [*([name] for name in PROGRAMS), *TOGETHER]:
        texts = []
        for name in names:
            with open(f"{TOP}/examples/{name}.cmm", encoding="utf-8") as file:
                texts.append(" ".join(file.read().split()))
        yield "\t".join(texts)


def main(flag=""):
    if flag == "--examples":
        print("\n".join(examples()))
        return 0
    with open(f"{FAULTS}/stdin", encoding="utf-8") as file:
        cases = file.read().splitlines()
    with open(f"{FAULTS}/stdout", encoding="utf-8") as file:
        lines = file.read().splitlines()
    # (the cases that show something else stand last, and a graph is told by several lines)
    cases = [it for it in cases if it.partition("\t")[0] not in SHOWN]
    lines, shown = lines[: len(cases)], lines[len(cases) :]
    made = [line_of(case) if line.startswith("accepted") else line for case, line in zip(cases, lines, strict=True)]
    if flag == "--write":
        with open(f"{FAULTS}/stdout", "w", encoding="utf-8") as file:
            file.write("\n".join(made + shown) + "\n")
        return 0
    for line in made:
        if line.startswith("accepted"):
            print(line)
    print(f"{sum(one == other for one, other in zip(made, lines))} of {len(lines)} lines are as they must be")
    return int(made != lines)


if __name__ == "__main__":
    sys.exit(main(*sys.argv[1:]))
