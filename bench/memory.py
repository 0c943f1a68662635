#!/usr/bin/env python3
"""What a running script takes of memory: bytes for each call, binding, function, object, property and element, and what a
text takes that grows by one unit at a time.

usage: bench/memory.py [PROGRAM]      JLINT names the program, or the argument, or else the one of this clone is taken

The bytes of a thing are what the most memory that `run` holds grows by from a script with n of them to one with 2n, where
n is a power of two, so that lists which double their room have as much to spare in both. What the same script takes
without the thing is taken off. Nothing that a script makes is let go of before its end, but for texts. The system counts
as the most memory of a run at least what this script itself holds; so n is such that the program holds more.

The text grows in a loop by `t += "x"`. For each length milliseconds of the processor are printed, and how many times as
long as for half the length that is."""

import sys

from measuring import BUDGET, Machine, named_program, once

LOOP = "(function () {{ var i, o = {{}}, a = []; for (i = 0; i < {n}; i++) {{ %s }} }})();"
CALLS = "function f(n) {{ %sreturn n; }} " + LOOP % "f(i);"
NESTED = "function f(n) {{ if (n) f(n - 1); }} f({n});"
EIGHT = [f"v{it}" for it in range(8)]
# the thing, a script with n of it, the script without it, the power of two that n is, and how many there are for each of n
THINGS = [
    ("call that is over", CALLS % "", LOOP % "", 17, 1),
    ("call that waits for another", NESTED, LOOP % "", 16, 1),
    ("binding of a call", CALLS % f"var {', '.join(EIGHT)}; ", CALLS % "", 17, len(EIGHT)),
    ("function", LOOP % "(function () {{ }});", LOOP % "", 16, 1),
    ("object without properties", LOOP % "({{}});", LOOP % "", 18, 1),
    ("first property of an object", LOOP % "({{v: 1}});", LOOP % "({{}});", 18, 1),
    ("property of an object with eight", LOOP % f"({{{{{': 1, '.join(EIGHT)}: 1}}}});", LOOP % "({{}});", 16, len(EIGHT)),
    ("property of an object with many", LOOP % "o['p' + i] = i;", LOOP % "'p' + i;", 17, 1),
    ("array without elements", LOOP % "[];", LOOP % "", 16, 1),
    ("element of an array", LOOP % "a[i] = i;", LOOP % "", 17, 1),
]
LENGTHS = [2 ** it for it in range(12, 18)]
JOINS = "var t = '', n = {n}; while (n--) {{ t += 'x'; }} print(t.length);"


def held(program, script):
    """The most kilobytes that a script holds."""
    ran = once([program, "run", *BUDGET], script)
    if "jlint: normal steps=" not in ran.output:
        sys.exit(f"{script}: {ran.output[-200:]}")
    return ran.kilobytes


def growth(program, script, n):
    """The bytes by which the most memory grows from n to 2n, for each of n, and what is held at n."""
    few, many = (held(program, script.format(n=it)) for it in (n, 2 * n))
    return 1024 * (many - few) / n, few


def main():
    program = named_program()
    least = held(program, "")
    print(f"{'bytes':36}{'each':>8}")
    for thing, script, without, power, count in THINGS:
        more, few = growth(program, script, 2 ** power)
        if few < 1.1 * least:
            sys.exit(f"{thing}: too few of them, {few} kB where {least} are counted at least")
        print(f"{thing:36}{(more - growth(program, without, 2 ** power)[0]) / count:8.0f}", flush=True)
    machine, before = Machine(), None
    print(f"\n{'units of a text':>16}{'ms':>8}{'to half':>9}")
    for n in LENGTHS:
        seconds = machine.run("joins", JOINS.format(n=n))[0]
        told = f"{seconds / before:.2f}" if before else "-"
        print(f"{n:16}{1e3 * seconds:8.0f}{told:>9}", flush=True)
        before = seconds
    return 0


if __name__ == "__main__":
    sys.exit(main())
