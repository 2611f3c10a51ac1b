#!/usr/bin/env python3
"""How many instructions five programs of examples/lang take, by unwinding and by cuts, and as the same algorithms in C, and how long they and Python take.

Usage: bench/lang.py [PROGRAM], at the top of the repository; PROGRAM is the built `cmm`, crates/cmm/out/cmm by default, which `rt ci` leaves there.

C, compiled by gcc for RV64IM at -O0, and Python do what the program does, but for its lines of text and its mistakes; their result has to stand in what
the program prints. C tests no index and no divisor, and Python tests as much as the program does. Counts are made as bench/counted.py says; times are
those that a processor spends, the least of five: on `run`, less that on a program that does nothing, and on the algorithm in Python.
"""
import os
import subprocess
import sys
import tempfile

from counted import instructions, instructions_in_c, written

TOP = os.path.dirname(os.path.dirname(os.path.abspath(__file__)))
RUNTIME = f"{TOP}/examples/lang/runtime.cmm"
NOTHING = "fun main() { }\n"
TIMED = "import time\nstart = time.process_time()\n{}\nprint(time.process_time() - start)\n"

# Of each program: its name, the same in C and in Python.
QUEENS = (
    "queens",
    """static u64 columns[8], up[16], down[16];
u64 ways(u64 row, u64 n) {
  u64 count = 0, c = 0;
  if (row == n) return 1;
  while (c < n) {
    if (!(columns[c] || up[row + c] || down[row - c + n])) {
      columns[c] = up[row + c] = down[row - c + n] = 1;
      count = count + ways(row + 1, n);
      columns[c] = up[row + c] = down[row - c + n] = 0;
    }
    c = c + 1;
  }
  return count;
}
u64 run(void) { u64 n = 1, r = 0; while (n <= 8) { r = ways(0, n); n = n + 1; } return r; }""",
    """
def ways(row, n, columns, up, down):
    if row == n:
        return 1
    count, c = 0, 0
    while c < n:
        if not (columns[c] or up[row + c] or down[row - c + n]):
            columns[c] = up[row + c] = down[row - c + n] = 1
            count = count + ways(row + 1, n, columns, up, down)
            columns[c] = up[row + c] = down[row - c + n] = 0
        c = c + 1
    return count
for n in range(1, 9):
    r = ways(0, n, [0] * n, [0] * 2 * n, [0] * 2 * n)
print(r)""",
)

MATRIX = (
    "matrix",
    """static u64 a[24][24], b[24][24], c[24][24];
void filled(u64 (*rows)[24], u64 n, u64 m) { u64 i = 0, j; while (i < n) { j = 0; while (j < n) { rows[i][j] = (i * n + j) % m; j = j + 1; } i = i + 1; } }
void product(u64 n) {
  u64 i = 0, j, k, sum;
  while (i < n) {
    j = 0;
    while (j < n) {
      sum = 0; k = 0;
      while (k < n) { sum = sum + a[i][k] * b[k][j]; k = k + 1; }
      c[i][j] = sum;
      j = j + 1;
    }
    i = i + 1;
  }
}
u64 run(void) {
  u64 i = 0, j, sum = 0, trace = 0;
  filled(a, 24, 7); filled(b, 24, 5); product(24);
  while (i < 24) { trace = trace + c[i][i]; j = 0; while (j < 24) { sum = sum + c[i][j] * (j + 1); j = j + 1; } i = i + 1; }
  return sum;
}""",
    """
def filled(n, m):
    return [[(i * n + j) % m for j in range(n)] for i in range(n)]
def product(a, b):
    n = len(a)
    c = []
    for i in range(n):
        row, left = [0] * n, a[i]
        for j in range(n):
            sum, k = 0, 0
            while k < n:
                sum = sum + left[k] * b[k][j]
                k = k + 1
            row[j] = sum
        c.append(row)
    return c
c, trace, sum = product(filled(24, 7), filled(24, 5)), 0, 0
for i in range(24):
    trace = trace + c[i][i]
    for j in range(24):
        sum = sum + c[i][j] * (j + 1)
print(sum)""",
)

MUTUAL = (
    "mutual",
    """u64 odd(u64);
u64 even(u64 n) { if (n == 0) return 1; return odd(n - 1); }
u64 odd(u64 n) { if (n == 0) return 0; return even(n - 1); }
u64 triple(u64, u64);
u64 collatz(u64 n, u64 steps) { if (n == 1) return steps; if (n % 2) return triple(n, steps); return collatz(n / 2, steps + 1); }
u64 triple(u64 n, u64 steps) { return collatz(3 * n + 1, steps + 1); }
u64 run(void) { even(100000); odd(100001); return collatz(27, 0); }""",
    """
import sys
def even(n): return 1 if n == 0 else odd(n - 1)
def odd(n): return 0 if n == 0 else even(n - 1)
def collatz(n, steps): return steps if n == 1 else triple(n, steps) if n % 2 else collatz(n // 2, steps + 1)
def triple(n, steps): return collatz(3 * n + 1, steps + 1)
sys.setrecursionlimit(200000)
even(100000), odd(100001)
print(collatz(27, 0))""",
)

PIPELINE = (
    "pipeline",
    """struct gen { u64 (*next)(struct gen *, u64 *); struct gen *source; u64 n; };
u64 up(struct gen *g, u64 *x) { *x = g->n; g->n = g->n + 1; return 1; }
u64 squares(struct gen *g, u64 *x) { u64 y; if (!g->source->next(g->source, &y)) return 0; *x = y * y; return 1; }
u64 without(struct gen *g, u64 *x) { u64 y; while (g->source->next(g->source, &y)) { if (y % g->n) { *x = y; return 1; } } return 0; }
u64 first(struct gen *g, u64 *x) { if (g->n == 0) return 0; g->n = g->n - 1; return g->source->next(g->source, x); }
u64 sum(u64 count, u64 divisor) {
  struct gen a = { up, 0, 1 }, b = { squares, &a, 0 }, c = { without, &b, divisor }, d = { first, &c, count };
  u64 x, sum = 0;
  while (d.next(&d, &x)) sum = sum + x;
  return sum;
}
u64 run(void) { sum(5, 3); return sum(2000, 7); }""",
    """
def up(n):
    while True:
        yield n
        n = n + 1
def squares(source):
    for x in source: yield x * x
def without(divisor, source):
    for x in source:
        if x % divisor: yield x
def first(n, source):
    if n == 0: return
    for x in source:
        yield x
        n = n - 1
        if n == 0: return
def total(n, divisor):
    sum = 0
    for x in first(n, without(divisor, squares(up(1)))): sum = sum + x
    return sum
total(5, 3)
print(total(2000, 7))""",
)

BUILDER = (
    "builder",
    """static char heap[100000], *text; static u64 used;
static char *pieces[1024]; static u64 sizes[1024], count, size;
u64 digits(u64 n, char *to) {
  u64 k = 0, i, m; char c;
  m = (long)n < 0 ? -n : n;
  do { to[k] = '0' + m % 10; k = k + 1; m = m / 10; } while (m);
  if ((long)n < 0) { to[k] = '-'; k = k + 1; }
  i = 0; while (i < k / 2) { c = to[i]; to[i] = to[k - 1 - i]; to[k - 1 - i] = c; i = i + 1; }
  return k;
}
void built(u64 from, u64 to, char **place, u64 *length) {
  u64 middle, l, m, i = 0; char *a, *b, *s;
  if (to - from == 1) { *place = pieces[from]; *length = sizes[from]; return; }
  middle = (from + to) / 2;
  built(from, middle, &a, &l); built(middle, to, &b, &m);
  s = heap + used; used = used + l + m;
  while (i < l) { s[i] = a[i]; i = i + 1; }
  i = 0; while (i < m) { s[l + i] = b[i]; i = i + 1; }
  *place = s; *length = l + m;
}
u64 run(void) {
  u64 i = 0, h = 5381; used = 0; count = 0;
  while (i < 300) {
    pieces[count] = heap + used; sizes[count] = digits(i * i - 100, heap + used); used = used + sizes[count]; count = count + 1;
    pieces[count] = ","; sizes[count] = 1; count = count + 1;
    i = i + 1;
  }
  built(0, count, &text, &size);
  i = 0; while (i < size) { h = (h * 33 + (unsigned char)text[i]) % 1000000007; i = i + 1; }
  return h;
}""",
    """
def built(pieces, a, b):
    if b - a == 1: return pieces[a]
    middle = (a + b) // 2
    return built(pieces, a, middle) + built(pieces, middle, b)
pieces = []
for i in range(300):
    pieces.append(str(i * i - 100))
    pieces.append(",")
text = built(pieces, 0, len(pieces)).encode()
h, i = 5381, 0
while i < len(text):
    h = (h * 33 + text[i]) % 1000000007
    i = i + 1
print(h)""",
)


def compiled(folder, source, *words):
    """The unit of a source and the words behind it, as `exec` takes them."""
    subprocess.run([sys.executable, f"{TOP}/examples/lang/lang.py", source, "-o", folder, *words], check=True)
    base = os.path.join(folder, os.path.splitext(os.path.basename(source))[0])
    return f"{base}.cmm", RUNTIME, "--client", f"{base}.script"


def spent(command, runs=5):
    """The least time that a processor spends on some runs of a command: other work on the machine changes it less than the time that passes."""
    best = None
    for _ in range(runs):
        process = subprocess.Popen(command, stdin=subprocess.DEVNULL, stdout=subprocess.DEVNULL, stderr=subprocess.DEVNULL)
        _, _, usage = os.wait4(process.pid, 0)
        process.returncode = 0
        took = usage.ru_utime + usage.ru_stime
        best = took if best is None else min(best, took)
    return best


def spent_on_run(program, folder, unit, runtime, *client):
    """What a processor spends on a run of an image."""
    image = os.path.join(folder, "a.image")
    subprocess.run([program, "build", unit, runtime, "-o", image], check=True)
    return spent([program, "run", image, *client])


def main(program="crates/cmm/out/cmm"):
    print("| program | by unwinding | by cuts | gcc -O0 | to one of gcc -O0 | `run` | executed per second | Python |\n|---|---|---|---|---|---|---|---|")
    with tempfile.TemporaryDirectory() as folder:
        start = spent_on_run(program, folder, *compiled(folder, written(folder, "nothing.lang", NOTHING)))
        for name, in_c, in_python in (QUEENS, MATRIX, MUTUAL, PIPELINE, BUILDER):
            source = f"{TOP}/examples/lang/{name}.lang"
            by_cuts, _ = instructions(program, *compiled(folder, source, "--cuts"))
            words = compiled(folder, source)
            count, _ = instructions(program, *words)
            plain, result = instructions_in_c(folder, f"typedef unsigned long u64;\n{in_c}\n", "-O0")
            script = written(folder, "a.py", TIMED.format(in_python))
            told = subprocess.run([program, "exec", *words], stdout=subprocess.PIPE, stderr=subprocess.DEVNULL, check=True).stdout.decode().split()
            others = [subprocess.run([sys.executable, script], stdout=subprocess.PIPE, check=True).stdout.decode().split() for _ in range(5)]
            other, in_other = others[0][0], min(float(it[1]) for it in others)
            assert str(result) == other and other in told, (name, result, other, told)
            took = spent_on_run(program, folder, *words) - start
            print(f"| `{name}` | {count:,} | {by_cuts:,} | {plain:,} | {by_cuts / plain:.2f} | {took * 1e3:.1f} ms | {count / took / 1e6:.0f} million | {in_other * 1e3:.1f} ms |", flush=True)


if __name__ == "__main__":
    main(*sys.argv[1:])
