#!/usr/bin/env python3
"""How many instructions five loops take as units, and as the same algorithms in C, and how many the program executes per second.

Usage: bench/loops.py [PROGRAM], at the top of the repository; PROGRAM is the built `cmm`, crates/cmm/out/cmm by default, which `rt ci` leaves there.

Each loop makes its own data, so that nothing stands outside the count. C is compiled by gcc for RV64IM at -O0 and -O1, without a library
(bench/counted.py says how instructions are counted). The results of all three have to be the same.
"""
import sys
import tempfile

from counted import instructions, instructions_in_c, seconds, written

# The loops: what each is, the unit, and the body in C with its data.
MATRIX = (
    "matrix product, 32 by 32",
    """export main;
section "data" { align 8; a: bits64[1024]; b: bits64[1024]; c: bits64[1024]; }
main() {
  bits64 i, j, k, s, sum;
fill:
  bits64[a + i * 8] = i % 7;
  bits64[b + i * 8] = i % 5;
  i = i + 1;
  if i < 1024 { goto fill; }
  i = 0;
rows:
  j = 0;
columns:
  s, k = 0, 0;
inner:
  s = s + bits64[a + (i * 32 + k) * 8] * bits64[b + (k * 32 + j) * 8];
  k = k + 1;
  if k < 32 { goto inner; }
  bits64[c + (i * 32 + j) * 8] = s;
  sum = sum + s * (j + 1);
  j = j + 1;
  if j < 32 { goto columns; }
  i = i + 1;
  if i < 32 { goto rows; }
  return (sum);
}
""",
    "static u64 a[1024], b[1024], c[1024];",
    """u64 i = 0, j, k, s, sum = 0;
  do { a[i] = i % 7; b[i] = i % 5; i = i + 1; } while (i < 1024);
  i = 0;
  do {
    j = 0;
    do {
      s = 0; k = 0;
      do { s = s + a[i * 32 + k] * b[k * 32 + j]; k = k + 1; } while (k < 32);
      c[i * 32 + j] = s;
      sum = sum + s * (j + 1);
      j = j + 1;
    } while (j < 32);
    i = i + 1;
  } while (i < 32);
  return sum;""",
)

SEARCH = (
    "search for 8 bytes in 16,384",
    """export main;
section "data" { text: bits8[16384]; word: bits8[8]; }
main() {
  bits64 i, j;
fill:
  bits8[text + i] = %lobits8((i * i >> 3) & 3);
  i = i + 1;
  if i < 16376 { goto fill; }
  i = 0;
tail:
  bits8[text + 16376 + i] = %lobits8((i & 1) | 2);
  bits8[word + i] = %lobits8((i & 1) | 2);
  i = i + 1;
  if i < 8 { goto tail; }
  i = 0;
next:
  j = 0;
compare:
  if bits8[text + i + j] == bits8[word + j] {
    j = j + 1;
    if j < 8 { goto compare; }
    return (i);
  }
  i = i + 1;
  if i < 16377 { goto next; }
  return (-1);
}
""",
    "static unsigned char text[16384], word[8];",
    """u64 i = 0, j;
  do { text[i] = i * i >> 3 & 3; i = i + 1; } while (i < 16376);
  i = 0;
  do { text[16376 + i] = (i & 1) | 2; word[i] = (i & 1) | 2; i = i + 1; } while (i < 8);
  i = 0;
  do {
    j = 0;
    while (text[i + j] == word[j]) { j = j + 1; if (j < 8) continue; return i; }
    i = i + 1;
  } while (i < 16377);
  return -1;""",
)

HASH = (
    "hash of 65,536 bytes",
    """export main;
section "data" { bytes: bits8[65536]; }
main() {
  bits64 i, h;
fill:
  bits8[bytes + i] = %lobits8(i * 37);
  i = i + 1;
  if i < 65536 { goto fill; }
  i, h = 0, 14695981039346656037;
next:
  h = (h ^ %zx64(bits8[bytes + i])) * 1099511628211;
  i = i + 1;
  if i < 65536 { goto next; }
  return (h);
}
""",
    "static unsigned char bytes[65536];",
    """u64 i = 0, h;
  do { bytes[i] = i * 37; i = i + 1; } while (i < 65536);
  i = 0; h = 14695981039346656037ul;
  do { h = (h ^ bytes[i]) * 1099511628211ul; i = i + 1; } while (i < 65536);
  return h;""",
)

SORT = (
    "insertion sort of 600 words",
    """export main;
section "data" { align 8; words: bits64[600]; }
main() {
  bits64 i, j, x, sum;
  x = 1;
fill:
  x = x * 6364136223846793005 + 1442695040888963407;
  bits64[words + i * 8] = x >> 33;
  i = i + 1;
  if i < 600 { goto fill; }
  i = 1;
outer:
  x, j = bits64[words + i * 8], i;
inner:
  if j > 0 {
    if bits64[words + j * 8 - 8] > x {
      bits64[words + j * 8] = bits64[words + j * 8 - 8];
      j = j - 1;
      goto inner;
    }
  }
  bits64[words + j * 8] = x;
  i = i + 1;
  if i < 600 { goto outer; }
  i = 0;
add:
  sum = sum * 3 + bits64[words + i * 8];
  i = i + 1;
  if i < 600 { goto add; }
  return (sum);
}
""",
    "static u64 words[600];",
    """u64 i = 0, j, x = 1, sum = 0;
  do { x = x * 6364136223846793005ul + 1442695040888963407ul; words[i] = x >> 33; i = i + 1; } while (i < 600);
  i = 1;
  do {
    x = words[i]; j = i;
    while (j > 0) {
      if (words[j - 1] > x) { words[j] = words[j - 1]; j = j - 1; } else break;
    }
    words[j] = x;
    i = i + 1;
  } while (i < 600);
  i = 0;
  do { sum = sum * 3 + words[i]; i = i + 1; } while (i < 600);
  return sum;""",
)

HISTOGRAM = (
    "histogram of 65,536 bytes, by a switch",
    """export main;
section "data" { align 8; counts: bits64[4]; }
main() {
  bits64 i, byte, kind, sum;
next:
  byte = (i * 167 >> 4) & 255;
  switch byte {
    case 48 .. 57: { kind = 0; }
    case 65 .. 90, 97 .. 122: { kind = 1; }
    case 9, 10, 32: { kind = 2; }
    default: { kind = 3; }
  }
  bits64[counts + kind * 8] = bits64[counts + kind * 8] + 1;
  i = i + 1;
  if i < 65536 { goto next; }
  i = 0;
add:
  sum = sum * 65537 + bits64[counts + i * 8];
  i = i + 1;
  if i < 4 { goto add; }
  return (sum);
}
""",
    "static u64 counts[4];",
    """u64 i = 0, byte, kind, sum = 0;
  do {
    byte = (i * 167 >> 4) & 255;
    switch (byte) {
      case 48 ... 57: kind = 0; break;
      case 65 ... 90: case 97 ... 122: kind = 1; break;
      case 9: case 10: case 32: kind = 2; break;
      default: kind = 3;
    }
    counts[kind] = counts[kind] + 1;
    i = i + 1;
  } while (i < 65536);
  i = 0;
  do { sum = sum * 65537 + counts[i]; i = i + 1; } while (i < 4);
  return sum;""",
)

SUM = "export main; main() { return (2 + 3); }\n"


def main(program="crates/cmm/out/cmm"):
    print("| loop | `cmm` | gcc -O0 | gcc -O1 | executed per second |\n|---|---|---|---|---|")
    with tempfile.TemporaryDirectory() as folder:
        process, _ = seconds([program, "exec", written(folder, "a.cmm", SUM)])
        for what, unit, data, body in (MATRIX, SEARCH, HASH, SORT, HISTOGRAM):
            source = f"typedef unsigned long u64;\n{data}\nu64 run(void)\n{{\n  {body}\n}}\n"
            path = written(folder, "a.cmm", unit)
            count, result = instructions(program, path)
            plain, in_c = instructions_in_c(folder, source, "-O0")
            better, also = instructions_in_c(folder, source, "-O1")
            assert result == in_c == also, (what, result, in_c, also)
            took, _ = seconds([program, "exec", path])
            print(f"| {what} | {count:,} | {plain:,} | {better:,} | {count / (took - process) / 1e6:.1f} million |", flush=True)


if __name__ == "__main__":
    main(*sys.argv[1:])
