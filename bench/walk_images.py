#!/usr/bin/env python3
"""Two images with stacks for bench/walk.sh: walk_images.py FOLDER

- `flat`: a chain of 100,000 frames without variables, each at a site of its own, of 100 procedures with 1,000 sites each.
- `wide`: a chain of 1,000 frames with 1,000 variables each, each of a procedure of its own: 11 are in callee-saves registers, which each procedure saves,
  and the others in slots. A variable has 8, 16, 32 or 64 bits.

Of each the folder gets NAME.image, the image, and NAME.stack, the 32 registers and then the words of the stack. A line says what a walk comes to.
"""

import os
import struct
import sys

sys.path.insert(0, os.path.join(os.path.dirname(os.path.abspath(__file__)), "..", "tools"))
from walk_rows import BOTTOM, CODE_BASE, SAVES, Image, Proc, Site

WIDTHS = [8, 16, 32, 64]


def word(frame, offset):
    """What stands in a frame, or in a register as if it were saved in the frame before the youngest."""
    return ((frame + 1) * 0x9E3779B97F4A7C15 + offset * 0xC2B2AE3D27D4EB4F) % 2**64


def flat():
    """The image, and the site of each frame, youngest first: not in the order of the table."""
    procs = [Proc(b"p%d" % k, CODE_BASE + 4000 * k, 16, 8) for k in range(100)]
    sites = [Site(CODE_BASE + 4 * (k + 1), k // 1000, k % 1000, []) for k in range(100_000)]
    return laid_out(procs, sites), [sites[k * 7919 % 100_000] for k in range(100_000)]


def wide():
    """The image, and the site of each frame, youngest first."""
    places = [("register", r) for r in SAVES] + [("slot", 8 * n) for n in range(len(SAVES), 1000)]
    saved = [(r, 8 * k) for k, r in enumerate(SAVES)]
    variables = [(WIDTHS[n % 4], 0, b"") for n in range(1000)]
    procs = [Proc(b"p%d" % k, CODE_BASE + 8 * k, 8016, 8000, saved, variables) for k in range(1000)]
    sites = [Site(CODE_BASE + 8 * k + 4, k, 0, places) for k in range(1000)]
    return laid_out(procs, sites), [sites[k * 7 % 1000] for k in range(1000)]


def laid_out(procs, sites):
    """An image whose code reaches past the last site."""
    image = Image(CODE_BASE, procs, sites)
    image.code = bytes(sites[-1].address + 4 - CODE_BASE)
    return image


def stack_of(image, chain):
    """The registers, and the words of the stack: frames are as long as the youngest, and each has the return address of the next older one."""
    size, ret = image.procs[0].frame, image.procs[0].ret
    registers = [0] * 32
    registers[1], registers[2] = chain[0].address, BOTTOM
    for k, r in enumerate(SAVES):
        registers[r] = word(-1, 8 * k)
    words = [word(frame, offset) for frame in range(len(chain)) for offset in range(0, size, 8)]
    for frame, older in enumerate([site.address for site in chain[1:]] + [image.last]):
        words[(frame * size + ret) // 8] = older
    return struct.pack(f"<{32 + len(words)}Q", *registers, *words)


def total(image, chain):
    """How many variables there are, and the sum of their values. A register's value is saved in the next younger frame."""
    values = [
        word(frame - 1 if place[0] == "register" else frame, 8 * n) % 2 ** image.procs[site.proc].variables[n][0]
        for frame, site in enumerate(chain)
        for n, place in enumerate(site.places)
    ]
    return len(values), sum(values) % 2**64


for name, (image, chain) in [("flat", flat()), ("wide", wide())]:
    with open(os.path.join(sys.argv[1], f"{name}.image"), "wb") as file:
        file.write(image.bytes())
    with open(os.path.join(sys.argv[1], f"{name}.stack"), "wb") as file:
        file.write(stack_of(image, chain))
    print("%s laid out: %d activations, %d variables, sum %d" % (name, len(chain), *total(image, chain)))
