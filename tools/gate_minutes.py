#!/usr/bin/env python3
"""Processor minutes that `rt ci` spends on each crate: its proof, its tests and its must-fail edits.

Usage, at the top of the repository: tools/gate_minutes.py [NAME..], which runs `rt ci NAME..` and prints the table after the lines of that. With `--anew`
alone, which proves all, it writes the table into docs/CONTRIBUTING.md, between its two marks, with the sum and the budget below: what an earlier run on this
machine has kept takes no time, so a run without it tells nothing of the whole. `--first` does so too, for a clean clone on a machine that has kept nothing: it
runs `./cmm exec` of an example first, which proves and builds the program, and then `rt ci`, which takes up what that has proved, and tells how long each took.
The figures are of processor time, which other work on the machine lengthens too, up to twice. `--sum` runs nothing, and prints the sum of the table that stands.
"""

import os
import re
import subprocess
import sys
import time

TICKS = os.sysconf("SC_CLK_TCK")
TOP = os.path.dirname(os.path.dirname(os.path.abspath(__file__)))
PAGE = os.path.join(TOP, "docs", "CONTRIBUTING.md")
CRATES = os.path.join(TOP, "crates.txt")
MARKS = ("<!-- minutes of the gate -->\n", "<!-- end of the minutes -->\n")
SORTS = ("proof", "tests", "edits")
LEAST = 0.5
# The most processor minutes that the whole gate may take, and by how many the longest chain of crates may grow.
WHOLE = 170
CHAIN_ROOM = 2
PROGRAM = "cmm"


def processes():
    """Each process: its number, its parent's, its processor seconds, its folder and its words."""
    for number in filter(str.isdigit, os.listdir("/proc")):
        try:
            with open(f"/proc/{number}/stat") as file:
                fields = file.read().rsplit(")", 1)[1].split()
            with open(f"/proc/{number}/cmdline", "rb") as file:
                words = file.read().split(b"\0")
            folder = os.readlink(f"/proc/{number}/cwd")
        except OSError:
            continue
        yield int(number), int(fields[1]), (int(fields[11]) + int(fields[12])) / TICKS, folder, [word.decode() for word in words]


def sort_of(folder, words):
    if "--test" in words:
        return "tests"
    return "edits" if re.search("edit|must", folder) else "proof"


def below(root, found):
    """The processes that a process has started, directly or not."""
    children = {}
    for process in found:
        children.setdefault(process[1], []).append(process)
    left = [root]
    while left:
        for process in children.get(left.pop(), []):
            left.append(process[0])
            yield process


def sampled(command, table):
    """The status of a command, and the minutes that it took; the processor minutes of each crate are added to its row of the table, by sort."""
    begun = time.monotonic()
    gate = subprocess.Popen(command)
    spent = {}
    while gate.poll() is None:
        for number, _, seconds, folder, given in below(gate.pid, list(processes())):
            if "--crate-name" in given:
                crate = given[given.index("--crate-name") + 1]
                spent[number, crate, sort_of(folder, given)] = seconds
        time.sleep(1)
    for (_, crate, sort), seconds in spent.items():
        row = table.setdefault(crate, dict.fromkeys(SORTS, 0))
        row[sort] += seconds / 60
    return gate.returncode, (time.monotonic() - begun) / 60


def lines_of(table):
    """The table as it stands in the page, the dearest crate first, with the sums of all crates, also of those that are left out."""
    lines = ["| crate | proof | tests | edits |", "|---|---|---|---|"]
    for crate, row in sorted(table.items(), key=lambda entry: -sum(entry[1].values())):
        shown = [f"{row[sort]:.1f}" if row[sort] >= LEAST else "" for sort in SORTS]
        if any(shown):
            lines.append(f"| `{crate}` | {' | '.join(shown)} |")
    sums = [sum(row[sort] for row in table.values()) for sort in SORTS]
    lines += ["", f"In all {sum(sums):.0f}: proofs {sums[0]:.0f}, tests {sums[1]:.0f}, edits {sums[2]:.0f}.", ""]
    return lines + budget(table, sum(sums))


def longest_chain(table):
    """The crates that wait for each other longest, by the minutes of their proofs, from the first to the program."""
    best = {}
    with open(CRATES, encoding="utf-8") as file:
        for line in file:
            crate, colon, below = line.split("#")[0].strip().partition(":")
            if colon:
                minutes, chain = max((best.get(it, (0, [])) for it in below.split()), default=(0, []))
                own = table[crate]["proof"] if crate in table else 0
                best[crate] = minutes + own, [*chain, crate]
    return best.get(PROGRAM, (0, []))


def budget(table, whole):
    """What may still be spent, and where."""
    minutes, chain = longest_chain(table)
    return [
        f"The budget: at most {WHOLE} processor minutes in all, so {WHOLE - whole:.0f} are left for what is new. A crate that stands may grow by a tenth of its minutes. Those of the longest chain of crates that wait for each other,",
        f"{', '.join(f'`{crate}`' for crate in chain)}, which take {minutes:.0f}, may grow by {CHAIN_ROOM} minutes together: the first call has 30.",
    ]


def standing(text):
    """The table that stands in a text of the page."""
    rows = re.findall(r"^\| `(\w+)` \| ([\d.]*) \| ([\d.]*) \| ([\d.]*) \|$", text, re.M)
    return {crate: dict(zip(SORTS, (float(it or 0) for it in row))) for crate, *row in rows}


def written(text, lines):
    """The page with these lines between its marks."""
    front, rest = text.split(MARKS[0])
    _, end = rest.split(MARKS[1])
    return front + MARKS[0] + "\n".join(lines) + "\n" + MARKS[1] + end


def main(words):
    with open(PAGE, encoding="utf-8") as page:
        text = page.read()
    if words == ["--sum"]:
        print("\n".join(lines_of(standing(text))[-4:]))
        return 0
    table = {}
    if words == ["--first"]:
        status, took = sampled(["./cmm", "exec", "examples/sum.cmm"], table)
        print(f"the first ./cmm exec: {took:.0f} minutes, status {status}, load {os.getloadavg()[2]:.1f}", flush=True)
    status, took = sampled(["rt", "ci", *(word for word in words if word != "--first")], table)
    print(f"rt ci: {took:.0f} minutes, status {status}, load {os.getloadavg()[2]:.1f}")
    print("\n".join(lines_of(table)))
    if words in (["--anew"], ["--first"]) and status == 0:
        with open(PAGE, "w", encoding="utf-8") as page:
            page.write(written(text, lines_of(table)))
    return status


if __name__ == "__main__":
    sys.exit(main(sys.argv[1:]))
