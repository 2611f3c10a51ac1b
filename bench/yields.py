#!/usr/bin/env python3
"""How many yields a client answers per second: by `return`, and by a `list` of 100 frames and a `return`; and the memory of a run that yields 1,000,000 times.

Usage: bench/yields.py [PROGRAM], at the top of the repository; PROGRAM is the built `cmm`, crates/cmm/out/cmm by default, which `rt ci` leaves there.

The log goes to a file, as a debugger would read it. The time of a run that yields once is taken off. Memory is the most that the process had, as the system counts it.
"""

import os
import subprocess
import sys
import tempfile
import time

FLAT = "export main; main() {{ bits64 i; next: yield(1, i); i = i + 1; if i < {count} {{ goto next; }} return (i); }}\n"

DEEP = """export main;
main() {{ bits64 r; r = down(98); return (r); }}
down(bits64 n) {{
  bits64 i, r;
  if n == 0 {{
  next:
    yield(2, i);
    i = i + 1;
    if i < {count} {{ goto next; }}
    return (i);
  }}
  r = down(n - 1);
  return (r + n);
}}
"""

SCRIPT = "at 1\nreturn 0\nat 2\nlist\nreturn 0\n"


def run(program, folder, unit):
    """The seconds that a run of a unit takes with the script, and the most memory that it has, in KiB."""
    path = os.path.join(folder, "a.cmm")
    with open(path, "w", encoding="utf-8") as file:
        file.write(unit)
    with open(os.path.join(folder, "log"), "wb") as log:
        begun = time.monotonic()
        words = [program, "exec", path, "--client", os.path.join(folder, "s"), "--steps", "1000000000000"]
        ran = subprocess.Popen(words, stdin=subprocess.DEVNULL, stdout=subprocess.DEVNULL, stderr=log)
        _, status, used = os.wait4(ran.pid, 0)
        if status:
            sys.exit(f"a run ended with {os.waitstatus_to_exitcode(status)}")
        return time.monotonic() - begun, used.ru_maxrss


def main(program="crates/cmm/out/cmm"):
    with tempfile.TemporaryDirectory() as folder:
        with open(os.path.join(folder, "s"), "w", encoding="utf-8") as file:
            file.write(SCRIPT)
        for name, unit, count in (("return", FLAT, 100_000), ("list of 100 frames, and return", DEEP, 2_000)):
            once, _ = run(program, folder, unit.format(count=1))
            taken, _ = run(program, folder, unit.format(count=count))
            print(f"{name}: {count / (taken - once):,.0f} yields a second")
        for count in (1_000, 1_000_000):
            taken, most = run(program, folder, FLAT.format(count=count))
            print(f"{count:,} yields: {taken:.2f} s, at most {most:,} KiB")


if __name__ == "__main__":
    main(*sys.argv[1:])
