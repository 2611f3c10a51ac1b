#!/usr/bin/env python3
"""How many instructions calls take as units, and as the same procedures in C, and how many calls the program does per second.

Usage: bench/calls.py [PROGRAM], at the top of the repository; PROGRAM is the built `cmm`, crates/cmm/out/cmm by default, which `rt ci` leaves there.

Calls are counted here, by the same recursion; the rest is counted as bench/counted.py says. C is compiled by gcc for RV64IM, at -O0 and at -O1.
"""
import sys
import tempfile

from counted import instructions, instructions_in_c, seconds, written

SUM = "export main; main() { return (2 + 3); }\n"

FIBONACCI = (
    "recursive Fibonacci numbers, the 20th",
    """export main;
main() { bits64 r; r = f(20); return (r); }
f(bits64 n) {
  bits64 a, b;
  if n < 2 { return (n); }
  a = f(n - 1);
  b = f(n - 2);
  return (a + b);
}
""",
    """u64 f(u64 n) { u64 a, b; if (n < 2) return n; a = f(n - 1); b = f(n - 2); return a + b; }
u64 run(void) { return f(20); }""",
)

ACKERMANN = (
    "Ackermann's function of 2 and 100",
    """export main;
main() { bits64 r; r = a(2, 100); return (r); }
a(bits64 m, bits64 n) {
  bits64 r;
  if m == 0 { return (n + 1); }
  if n == 0 { r = a(m - 1, 1); return (r); }
  r = a(m, n - 1);
  r = a(m - 1, r);
  return (r);
}
""",
    """u64 a(u64 m, u64 n) { u64 r; if (m == 0) return n + 1; if (n == 0) { r = a(m - 1, 1); return r; } r = a(m, n - 1); r = a(m - 1, r); return r; }
u64 run(void) { return a(2, 100); }""",
)

MUTUAL = (
    "two procedures that call one another, 100 times 1,000 deep",
    """export main;
main() {
  bits64 i, r, s;
next:
  r = even(1000);
  s = s + r;
  i = i + 1;
  if i < 100 { goto next; }
  return (s);
}
even(bits64 n) { bits64 r; if n == 0 { return (1); } r = odd(n - 1); return (r); }
odd(bits64 n) { bits64 r; if n == 0 { return (0); } r = even(n - 1); return (r); }
""",
    """u64 odd(u64);
u64 even(u64 n) { u64 r; if (n == 0) return 1; r = odd(n - 1); return r; }
u64 odd(u64 n) { u64 r; if (n == 0) return 0; r = even(n - 1); return r; }
u64 run(void) { u64 i = 0, r, s = 0; do { r = even(1000); s = s + r; i = i + 1; } while (i < 100); return s; }""",
)


def calls_of_fibonacci(n):
    return 1 if n < 2 else 1 + calls_of_fibonacci(n - 1) + calls_of_fibonacci(n - 2)


def calls_of_ackermann(m, n):
    """The calls of Ackermann's function, by a stack of what is still to apply to the last value."""
    calls, waiting = 0, [m]
    while waiting:
        m = waiting.pop()
        calls += 1
        if m == 0:
            n += 1
        elif n == 0:
            waiting, n = [*waiting, m - 1], 1
        else:
            waiting, n = [*waiting, m - 1, m], n - 1
    return calls


def main(program="crates/cmm/out/cmm"):
    cases = [(*FIBONACCI, calls_of_fibonacci(20)), (*ACKERMANN, calls_of_ackermann(2, 100)), (*MUTUAL, 100 * 1001)]
    print("| calls | calls | instructions a call | gcc -O0 | gcc -O1 | calls per second |\n|---|---|---|---|---|---|")
    with tempfile.TemporaryDirectory() as folder:
        process, _ = seconds([program, "exec", written(folder, "a.cmm", SUM)])
        for what, unit, source, calls in cases:
            path = written(folder, "a.cmm", unit)
            count, result = instructions(program, path)
            in_c = [instructions_in_c(folder, f"typedef unsigned long u64;\n{source}\n", level) for level in ("-O0", "-O1")]
            assert {result} == {answer for _, answer in in_c}, (what, result, in_c)
            took, _ = seconds([program, "exec", path])
            counts = " | ".join(f"{of / calls:.1f}" for of in (count, *(of for of, _ in in_c)))
            print(f"| {what} | {calls:,} | {counts} | {calls / (took - process) / 1e6:.2f} million |", flush=True)


if __name__ == "__main__":
    main(*sys.argv[1:])
