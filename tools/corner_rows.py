#!/usr/bin/env python3
"""Each operator on corner operands at each width, for code_rows.py.

The values are those of Python's integers, by the table of operators of the C-- Language Specification 2.0: a word of
w bits is a number below 2**w, its signed reading is less by 2**w where the top bit is set, and each result is taken
modulo 2**w. Python's // rounds down; a quotient rounded toward zero is found from the absolute values.
"""

WIDTHS = (8, 16, 32, 64)


def signed(width, word):
    return word - (1 << width) if word >> (width - 1) else word


def toward_zero(dividend, divisor):
    quotient = abs(dividend) // abs(divisor)
    return quotient if (dividend < 0) == (divisor < 0) else -quotient


def rotated_left(width, word, count):
    bits = format(word, f"0{width}b")
    count %= width
    return int(bits[count:] + bits[:count], 2)


def plain_values(width, a, b):
    """Add, Sub, Mul, And, Or, Xor, Shl, Shrl, Shra, Rotl, Rotr."""
    values = [a + b, a - b, a * b, a & b, a | b, a ^ b]
    # Python holds no number of 2**64 bits, and a count of 2 * width leaves nothing either.
    count = min(b, 2 * width)
    values += [a << count, a >> count, signed(width, a) >> count]
    values += [rotated_left(width, a, b), rotated_left(width, a, -b)]
    return [value % (1 << width) for value in values]


def division_values(width, a, b):
    """Divu, Modu, Div, Mod, Quot, Rem; None where the divisor is 0."""
    if b == 0:
        return None
    x, y = signed(width, a), signed(width, b)
    down, zero = x // y, toward_zero(x, y)
    values = [a // b, a % b, down, x - y * down, zero, x - y * zero]
    return [value % (1 << width) for value in values]


def comparisons(width, a, b):
    """Eq, Ne, Lt, Le, Gt, Ge, Ltu, Leu, Gtu, Geu."""
    x, y = signed(width, a), signed(width, b)
    return [a == b, a != b, x < y, x <= y, x > y, x >= y, a < b, a <= b, a > b, a >= b]


def operands(width):
    most, top = (1 << width) - 1, 1 << (width - 1)
    mixed = int("5a" * (width // 8), 16), int("c3" * (width // 8), 16)
    return [
        (0, 0), (1, most), (most, 1), (most, most), (top, most), (top, 1), (most, top), (top, top), (top - 1, 2),
        (most - 6, 2), (7, most - 1), (most - 6, most - 1), (7, 2), (6, most - 2), (7, 0), (top, 0),
        (top | 1, 0), (top | 1, 1), (top | 1, most), (top | 1, width - 1), (top | 1, width), (top | 1, width + 1), (top - 1, width), mixed,
    ]
