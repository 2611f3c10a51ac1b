#!/usr/bin/env python3
"""Prints a unit of a program of 256 units with 64,006 call sites: sites_unit.py NUMBER, or a program of one unit: sites_unit.py PROCEDURES SITES VARIABLES.

Unit 0 has `main`, which calls a procedure of each other unit, and `leaf`, which yields where it is handed 1. Each other unit N has a procedure `fN`, which calls `leaf` 250
times; the last call of the last unit hands it 1. So the result is 255 times 250.

The program of one unit has so many procedures beside `main` and `leaf`, each of which calls `leaf` so many times with so many variables live; its last call hands 1 on
too. `sites_unit.py 50 1000 8` is one of 50,051 sites.
"""

import sys

UNITS, SITES = 256, 250
LEAF = """leaf(bits64 x) {
  if x == 1 { yield(9); }
  return (1);
}"""


def first():
    names = [f"f{number}" for number in range(1, UNITS)]
    calls = "\n".join(f"  r = {name}(); s = s + r;" for name in names)
    return f"""import {", ".join(names)};
export main, leaf;
main() {{
  bits64 r, s;
{calls}
  return (s);
}}
{LEAF}"""


def other(number):
    handed = [int(number == UNITS - 1 and call == SITES - 1) for call in range(SITES)]
    calls = "\n".join(f"  r = leaf({it}); s = s + r;" for it in handed)
    return f"""import leaf;
export f{number};
f{number}() {{
  bits64 r, s;
{calls}
  return (s);
}}"""


def whole(procedures, sites, variables):
    """The program of one unit."""
    names = [f"v{number}" for number in range(variables)]
    calls = "\n".join(f"  r = f{number}(); s = s + r;" for number in range(procedures))
    text = f"export main;\nmain() {{\n  bits64 r, s;\n{calls}\n  return (s);\n}}\n{LEAF}\n"
    for number in range(procedures):
        handed = [int(number == procedures - 1 and call == sites - 1) for call in range(sites)]
        lines = [f"  bits64 {', '.join([*names, 'r'])};", *(f"  {name} = {number + k};" for k, name in enumerate(names)), *(f"  r = leaf({it});" for it in handed)]
        text += f"f{number}() {{\n" + "\n".join(lines) + f"\n  return ({' + '.join([*names, 'r'])});\n}}\n"
    return text


numbers = [int(it) for it in sys.argv[1:]]
if len(numbers) == 3:
    print(whole(*numbers), end="")
else:
    print(other(*numbers) if numbers[0] else first())
