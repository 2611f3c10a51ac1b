#!/usr/bin/env python3
"""Runs the examples of README.md, examples/README.md, docs/TUTORIAL.md and docs/RUNTIME.md with a built program, and compares what they print: examples.py [PROGRAM].

An example is an indented line `$ COMMAND` of these pages with the lines below it, up to the next such line or the end of its block: what the command
must print on both streams together. A command that is `./cmm ..; echo $?` so shows its exit status; any other must end with 0. Each .cmm file of
examples/ must stand in an example. PROGRAM is run in place of ./cmm, which would prove and build the program first where its sources have changed:
`rt ci` leaves the one that it proved in crates/cmm/out/cmm. Images are written into out/. The last line is `N passed, M failed`.
"""
import os
import re
import subprocess
import sys

TOP = os.path.dirname(os.path.dirname(os.path.abspath(__file__)))


def examples(text):
    """The commands of a page, each with the lines that it must print."""
    found = []
    inside = False
    for line in text.splitlines():
        if line.startswith("    $ "):
            found.append((line[6:], []))
            inside = True
        elif inside and (line.startswith("    ") or not line):
            found[-1][1].append(line[4:])
        else:
            inside = False
    # (blank lines end a block where no more of it follows)
    return [(command, "\n".join(lines).rstrip("\n").splitlines()) for command, lines in found]


def fault_of(command, wanted, program):
    """What is wrong with an example, if anything is."""
    ran = subprocess.run(["bash", "-c", command.replace("./cmm ", f"{program} ")], cwd=TOP, stdin=subprocess.DEVNULL, stdout=subprocess.PIPE, stderr=subprocess.STDOUT, timeout=600)
    printed = ran.stdout.decode(errors="replace").splitlines()
    if ran.returncode:
        return f"ended with {ran.returncode} and printed {printed}"
    if [line.rstrip() for line in printed] != [line.rstrip() for line in wanted]:
        return f"printed {printed}, and not {wanted}"
    return None


def main(program="./cmm"):
    os.makedirs(f"{TOP}/out", exist_ok=True)
    found = []
    for name in ("README.md", "examples/README.md", "docs/TUTORIAL.md", "docs/RUNTIME.md"):
        with open(f"{TOP}/{name}", encoding="utf-8") as page:
            found += examples(page.read())
    shown = " ".join(command for command, _ in found)
    faults = [f"{name}: no example runs it" for name in sorted(os.listdir(f"{TOP}/examples")) if name.endswith(".cmm") and not re.search(rf"\./cmm .*\bexamples/{re.escape(name)}\b", shown)]
    passed = 0
    for command, wanted in found:
        fault = fault_of(command, wanted, program)
        if fault:
            faults.append(f"{command}: {fault}")
        else:
            passed += 1
    for fault in faults:
        print(f"examples: {fault}")
    print(f"{passed} passed, {len(faults)} failed")
    return 1 if faults or not passed else 0


if __name__ == "__main__":
    sys.exit(main(*sys.argv[1:]))
