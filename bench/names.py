#!/usr/bin/env python3
"""Times of `jlint check` on sources of about 1 MiB that are full of names: ordinary ones, and ones that were chosen to
make a table of names slow.

Run it at the top of the repository after the program is built (`rt run` in crates/jlint). It prints the least time of
three runs of each source, and its ratio to the ordinary names of the same length. No ratio should be above two; the exit
status is 1 where one is.

Colliding names are those whose hashes by std's hasher, whose seed is fixed, have the same low bits, by which a table of
hashes finds their first group. Nested ones have long prefixes in common, and rising ones come in their order."""

import os
import random
import subprocess
import sys
import time

PROGRAM = os.path.join("crates", "jlint", "out", "jlint")
SIZE = 1024 * 1024
LETTERS = "abcdefghijklmnopqrstuvwxyz"
LIMIT = 2.0
MASK = 2**64 - 1
MULTIPLIER = 0x9E3779B97F4A7C15
START = 0x243F6A8885A308D3
# so many low bits of the hash agree
BITS = 7


def folded(a, b):
    product = a * b
    return (product & MASK) ^ (product >> 64)


def fed(state, unit):
    """The state of the hasher after a unit of two bytes, of which the second is zero."""
    return folded(state ^ unit, MULTIPLIER ^ 4)


def colliding(count):
    """Names of six letters whose hashes agree in their low bits."""
    first = folded(START ^ 6, MULTIPLIER ^ 16)
    found = []
    stack = [("", first)]
    units = [(letter, ord(letter)) for letter in LETTERS]
    while stack and len(found) < count:
        name, state = stack.pop()
        if len(name) == 5:
            key = MULTIPLIER ^ 4
            for letter, unit in units:
                product = (state ^ unit) * key
                if (product ^ product >> 32 ^ product >> 64 ^ product >> 96) & (2**BITS - 1) == 0:
                    found.append(name + letter)
        else:
            stack.extend((name + letter, fed(state, unit)) for letter, unit in units)
    return found


def ordinary(count, length=6):
    source = random.Random(1)
    found = set()
    while len(found) < count:
        found.add("".join(source.choice(LETTERS) for _ in range(length)))
    return list(found)


def nested(count, length):
    return ["a" * (length - 6) + name for name in ordinary(count)]


def literal(names):
    return "({" + ",".join(name + ":0" for name in names) + "});\n"


def function(names):
    return "function f(" + ",".join(names) + "){'use strict'}\n"


def seconds(source):
    best = None
    for _ in range(3):
        start = time.perf_counter()
        subprocess.run([PROGRAM, "check"], input=source.encode(), stdout=subprocess.DEVNULL, check=False)
        spent = time.perf_counter() - start
        best = spent if best is None else min(best, spent)
    return best


def main():
    if not os.path.exists(PROGRAM):
        sys.exit("no " + PROGRAM + ": run `rt run` in crates/jlint first")
    worst = 0.0
    for form, written, extra in (("keys", literal, 3), ("parameters", function, 1)):
        short = SIZE // (6 + extra) - 8
        long = SIZE // (100 + extra) - 8
        rows = [
            ("colliding", colliding(short), ordinary(short)),
            ("rising", sorted(ordinary(short)), ordinary(short)),
            ("nested", nested(long, 100), ordinary(long, 100)),
        ]
        for kind, names, others in rows:
            base = seconds(written(others))
            spent = seconds(written(names))
            worst = max(worst, spent / base)
            print(f"{form:12}{kind:12}{len(names):8} names{spent:8.3f} s, ordinary {base:7.3f} s, ratio {spent / base:5.2f}")
    sys.exit(worst > LIMIT)


main()
