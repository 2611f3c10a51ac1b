#!/usr/bin/env python3
"""Runs the programs of this folder with a built `cmm`, and compares what they print: test.py PROGRAM

Each is compiled with both ways to raise exceptions, and each unit is run by `exec` and by `build` and `run`. What it must print is computed here by
other means: by Python, whose generators, exceptions and `json` are not those of lang.py, or it is known. Two more programs show what a mistake looks
like. Each difference is printed; the last line is `N passed, M failed`, of runs, and with a failure the exit status is 1.
"""
import collections
import json
import os
import re
import subprocess
import sys
import tempfile

import lang
import mistakes

HERE = os.path.dirname(os.path.abspath(__file__))


def queens():
    """The numbers of solutions are known: https://oeis.org/A000170."""
    return [f"{n} queens: {ways}" for n, ways in enumerate([1, 0, 0, 2, 10, 4, 40, 92], 1)]


# each text, and for those that are none what is wanted and where, by the grammar of RFC 8259
JSON = [("7", None), ("  [1, -20 , [] ,{}]", None), ('{"name": "cmm", "list": [true, false, null], "nested": {"a": {"b": [[0]]}}}', None), ('["", "  "]', None),
        ("", "a value wanted at 0"), ("[1, 2", ", wanted at 5"), ("[1 2]", ", wanted at 3"), ("[1,]", "a value wanted at 3"), ('{"a" 1}', ": wanted at 5"),
        ('{"a": 1,}', "a name wanted at 8"), ('["x]', "a closing quote wanted at 1"), ("tru", "a value wanted at 0"), ("7 8", "one text wanted at 2"), ("[nul]", "a value wanted at 1")]


def json_texts():
    return [fault or json.dumps(json.loads(text), separators=(",", ":")) for text, fault in JSON]


WORDS = "the cat saw the dog\nand the dog saw\n\n  the\tother cat, the one\nno end"


def words():
    counts = collections.Counter(WORDS.split())
    return [f"{WORDS.count(chr(10))} {len(WORDS.split())} {len(WORDS)}", *(f"{word} {count}" for word, count in counts.items())]


def tree():
    """Keys 0 to 999 lean to the right, so each stands at the depth of its number; -1 is to the left of the first. Of the calls for 500 there are 501."""
    return ["found at depth 999", "found at depth missing 1000 at depth 1000", "found at depth missing -1 at depth 1", "500 with 501 calls left", "nil has no fields"]


def pipeline():
    squares = [n * n for n in range(1, 5000)]
    return [*map(str, [n for n in squares if n % 3][:5]), f"sum {sum([n for n in squares if n % 7][:2000])}", *(f"1000 / x = {1000 // n}" for n in (3, 2, 1)),
            "division by zero", "got 1000", "got -1", "closed"]


def matrix():
    n = 24
    a, b = ([[(i * n + j) % modulus for j in range(n)] for i in range(n)] for modulus in (7, 5))
    c = [[sum(a[i][k] * b[k][j] for k in range(n)) for j in range(n)] for i in range(n)]
    return [f"trace {sum(c[i][i] for i in range(n))}", f"sum {sum(c[i][j] * (j + 1) for i in range(n) for j in range(n))}", "no such element"]


def bank():
    """By hand. After moving 60 ann has 40 and bob 80; bob can't pay 200; 35 more would make 115, above his limit of 110; to nobody ann loses nothing.
    A round moves 2: ann has 40 - 2n and bob 80 + 2n. Bob is full where 80 + 2n + 7 is above 110, at n = 12, before ann has less than 7."""
    return ["moved closed 60", "40", "moved closed 200", "overdrawn: bob", "moved closed 35", "full: bob, given back", "moved to nobody", "closed 5", "40",
            "ann 40, bob 80", "rounds bob is full", "1200", "left with first 1", "second 2", "0", "outer nobody"]


def builder():
    text = "".join(f"{i * i - 100}," for i in range(300))
    h = 5381
    for byte in text.encode():
        h = (h * 33 + byte) % 1000000007
    return ["pieces 600, room 1024", f"length {len(text)}", text[:20], f"hash {h}", "stressed\tdesserts"[::-1], "no such element", "not a number"]


def mutual():
    steps, n = 0, 27
    while n != 1:
        n, steps = n // 2 if n % 2 == 0 else 3 * n + 1, steps + 1
    return ["even 1", "odd 1", f"steps {steps}"]


def machine():
    """10 factorial, the sum of 1 to 1000, and what the mistakes are: a sum of too few, a division, a word, and a push too many."""
    return ["3628800", "500500", "error: the stack has no such place", "error: division by zero", "error: unknown what", "error: the stack has no such place"]


PROGRAMS = [("queens", "", queens), ("json", "".join(f"{text}\n" for text, _ in JSON), json_texts), ("words", WORDS, words), ("tree", "", tree), ("pipeline", "", pipeline),
            ("matrix", "", matrix), ("bank", "", bank), ("builder", "", builder), ("mutual", "", mutual), ("machine", "", machine)]

# what the two programs with a mistake print, how they end, and what is told of them
MISTAKES = [
    ("uncaught", ["12", "16"], 5, ["uncaught Nil", "  uncaught.lang:24: in sum()", "  uncaught.lang:24: in sum(n = 2)", "  uncaught.lang:24: in sum(n = 3)",
                                  "  uncaught.lang:16: in sums(node = Node at *, n = 3)", "  uncaught.lang:7: in main(total = 16)"]),
    ("mistake", [], 3, ["mistake.lang:5: bad number"]),
]


def ran(words, given=""):
    return subprocess.run(words, input=given.encode(), stdout=subprocess.PIPE, stderr=subprocess.PIPE, timeout=600, check=False)


def fault_of(run, output, status):
    """What is wrong with a run, if anything is."""
    printed = run.stdout.decode(errors="replace")
    if run.returncode != status:
        return f"ended with {run.returncode}, and not {status}: {run.stderr.decode(errors='replace')[-300:]}"
    if printed != output:
        return f"printed {printed!r}, and not {output!r}"
    return None


def runs_of(program, name, given, output, status, cuts, folder):
    """Compiles a program one way, and answers what is wrong with each of its two runs."""
    unit = lang.Unit(f"{HERE}/{name}.lang", cuts)
    unit.path = f"{name}.lang"
    base = f"{folder}/{name}"
    for ending, text in (("cmm", unit.unit()), ("script", unit.script())):
        with open(f"{base}.{ending}", "w", encoding="utf-8") as file:
            file.write(text)
    client = ["--client", f"{base}.script"]
    run = ran([program, "exec", f"{base}.cmm", f"{HERE}/runtime.cmm", *client], given)
    yield "exec", run, fault_of(run, output, status)
    built = ran([program, "build", f"{base}.cmm", f"{HERE}/runtime.cmm", "-o", f"{base}.image"])
    run = built if built.returncode else ran([program, "run", f"{base}.image", *client], given)
    yield "build and run", run, fault_of(run, output, status)


def told(run, base, wanted):
    """What is wrong with what is told of a run in words of the source."""
    with open(f"{base}.cmm", encoding="utf-8") as file:
        lines = mistakes.traced(run.stderr.decode(), file.read())
    alike = len(lines) == len(wanted) and all(matches(line, shape) for line, shape in zip(lines, wanted))
    return None if alike else f"told {lines}, and not {wanted}"


def matches(line, shape):
    """Whether a line is of a shape in which `*` stands for an address."""
    return re.fullmatch("0x[0-9a-f]+".join(map(re.escape, shape.split("*"))), line) is not None


def main(program):
    faults, passed = [], 0
    cases = [(name, given, wanted(), 0, None) for name, given, wanted in PROGRAMS] + [(name, "", lines, status, shown) for name, lines, status, shown in MISTAKES]
    with tempfile.TemporaryDirectory() as folder:
        for name, given, lines, status, shown in cases:
            output = "".join(f"{line}\n" for line in lines)
            for cuts in (False, True):
                for how, run, fault in runs_of(program, name, given, output, status, cuts, folder):
                    fault = fault or (shown and told(run, f"{folder}/{name}", shown))
                    passed += not fault
                    if fault:
                        faults.append(f"{name}.lang {'by cuts' if cuts else 'by unwinding'}, {how}: {fault}")
    for fault in faults:
        print(f"lang: {fault}")
    print(f"{passed} passed, {len(faults)} failed")
    return 1 if faults or not passed else 0


if __name__ == "__main__":
    sys.exit(main(*sys.argv[1:]))
