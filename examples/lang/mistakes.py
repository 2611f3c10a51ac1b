"""What went wrong with a program of lang.py, in words of its source: a line that `cmm` refuses, or the calls of a stopped run."""
import os
import re
import subprocess
import sys

HERE = os.path.dirname(os.path.abspath(__file__))


def execute(program, base):
    """Runs the unit and the script of these names with the built `cmm`, tells what went wrong, and answers the status."""
    words = [program, "exec", f"{base}.cmm", f"{HERE}/runtime.cmm", "--client", f"{base}.script"]
    ran = subprocess.run(words, stderr=subprocess.PIPE, check=False)
    tell(ran.stderr.decode(), f"{base}.cmm", sys.stderr)
    return ran.returncode


def tell(log, path, file):
    """Writes to a file what a log of `cmm` says of a unit."""
    with open(path, encoding="utf-8") as unit:
        for line in traced(log, unit.read()):
            print(line, file=file)


def traced(log, unit):
    """The lines of a log of `cmm`, of a unit that was made here, as a user of the language reads them."""
    lines = unit.splitlines()
    source, asked, said = lines[0].partition(" from ")[2], [], []
    name, kinds = os.path.splitext(os.path.basename(source))[0], {number: kind for kind, number in re.findall(r"const kind\.(\w+) = (\d+);", unit)}
    for line in log.splitlines():
        word, *rest = line.split() or [""]
        if fault := re.fullmatch(rf"(?:.*/)?{re.escape(name)}\.cmm:(\d+):\d+: \d+ (.*)", line):
            at = next((it[1] for it in map(re.compile(r" *// (\d+): ").match, reversed(lines[:int(fault[1])])) if it), "1")
            said.append(f"{source}:{at}: {fault[2]}")
        elif word == "yield":
            asked = rest
        elif word == "activation" and rest[0] == "0":
            said.append(f"uncaught {kinds.get(asked[0], asked)}")
        if word == "activation":
            called, shown, at = rest[1].partition(".")[2], [], "?"
            said.append("")
        elif word == "span" and rest[0] == "1":
            at = rest[1]
        elif word == "var" and (named := re.fullmatch(r'var \d+ bits64 "(\w+): (.*)" (\w+)', line)):
            if named[3] != "dead":  # what nothing reads again is not kept
                shown.append(f"{named[1]} = {shown_as(named[2], int(named[3]))}")
        elif word not in ("span", "var", "yield", "at", "resume", "refused", "end", "stopped", "result") and not fault:
            said.append(line)
        if said and word in ("activation", "span", "var"):
            said[-1] = f"  {source}:{at}: in {called}({', '.join(shown)})" if called else ""
    return [line for line in said if line]


def shown_as(type, word):
    """A variable of a stopped program: a walk tells words."""
    return str(word - 2**64 if word >= 2**63 else word) if type == "int" else f"{type} at {word:#x}"
