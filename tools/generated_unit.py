#!/usr/bin/env python3
"""The unit that `gen` makes, made a second time: `generated_unit.py NUMBER` prints its text. part_rows.py has the lengths and the sums of some, where a sum is
(31 * sum + byte) modulo 2^32 over the bytes.
`generated_unit.py --cycle COUNT` prints another unit: constants, of which each is the next and the last is itself."""
import sys

# of these letters neither a reserved word of the language is made nor main
LETTERS = "abcdefghijknopqr"

BODIES = [
    "bits64 r; r = p{j}(x + bits64[t + {a}]); return (r);",
    "jump p{j}(x + bits64[t + {a}]);",
    "bits64 r; r = p{j}(x + bits64[t + {a}]) also returns to k; return (r); "
    "continuation k(r): return (r);",
    "bits64 r; r = w(x + bits64[t + {a}], k) also cuts to k; return <1/1> (r); "
    "continuation k(r): r = p{j}(r); return <0/1> (r);",
]


def unit(number):
    cells = ", ".join(str((number + i) % 1000) for i in range(2000))
    lines = [
        "export main;",
        f'section "data" {{ t: bits64 {{ {cells} }}; }}',
        f"main() {{ bits64 r; r = p0({number}); return (r); }}",
        "w(bits64 x, bits64 k) { cut to k(x); }",
    ]
    for i in range(2000):
        body = BODIES[i % 4].format(j=i + 1, a=8 * i)
        lines.append(f"p{i}(bits64 x) {{ {body} }}")
    lines.append("p2000(bits64 x) { return (x); }")
    return "".join(line + "\n" for line in lines).encode()


def name(number):
    return "".join(LETTERS[number >> shift & 15] for shift in (12, 8, 4, 0))


def cycle(count):
    """A main and, in a line of their own, constants that all lead to the last one, which depends on itself: 16 bytes each."""
    constants = [f"const {name(n)}={name(min(n + 1, count - 1))};" for n in range(count)]
    return f"export main; main() {{ return (1); }}\n{''.join(constants)}\n".encode()


def total(text):
    result = 0
    for byte in text:
        result = (31 * result + byte) % 2**32
    return result


def main(words):
    if words[0] == "--cycle":
        sys.stdout.buffer.write(cycle(int(words[1])))
    else:
        sys.stdout.buffer.write(unit(int(words[0])))


if __name__ == "__main__":
    main(sys.argv[1:])
