#!/usr/bin/env python3
"""What the machine takes to run a script, and what its woven form takes beside it.

usage: bench/running.py [PROGRAM]      JLINT names the program, or the argument, or else the one of this clone is taken

Scripts run with the greatest budget,
and the time of an empty script is taken off. Three tables are printed:

1.  For each script, at three sizes, nanoseconds of the processor for a step of `run` and the memory at the most, and how
    many times as long as node, mujs and duktape it takes, where these are there and run the script. A script is judged
    by the cost of a step at its greatest size over that at a tenth of it: what is linear gives about 1, what is
    quadratic about 10, and the limit is 2. A join copies both texts, so that of joins is above it.
2.  For each script the instructions of a step of `run`, as bench/instructions.py counts them where valgrind is there;
    how many steps of the woven script `lint` takes for one of the script, at most 3.4; and how many times as long a
    woven step of `lint` takes as a step of `run`, at most 2.
3.  Where a script has twice as many steps, calls, objects, arrays, properties or statements, how many times as long it
    takes: the mean of five doublings, at most 2.3.

Where one is above its limit, it says so, and the exit status is 1."""

import shutil
import sys

import instructions
from measuring import Machine, engines, ratio_of

LIMIT, WOVEN_STEPS, WOVEN_TIME, DOUBLING = 2.0, 3.4, 2.0, 2.3
BESIDE = ["node", "mujs", "duktape"]
SCRIPTS = [
    ("turns of a loop", "var n = {n}; while (n--) {{ }} print(n);", (10000, 100000, 1000000)),
    ("sums in a loop", "var s = 0; for (var i = 0; i < {n}; i++) {{ s = s + i % 7; }} print(s);", (1000, 10000, 100000)),
    ("calls in one another", "function f(n) {{ if (n) f(n - 1); }} f({n});", (1000, 10000, 100000)),
    ("calls in a row", "function f(n) {{ return n + 1; }} var s = 0; for (var i = 0; i < {n}; i++) {{ s = f(s); }} print(s);",
     (500, 5000, 50000)),
    ("joins of a text", "var t = '', n = {n}; while (n--) {{ t += 'x'; }} print(t === '');", (1000, 10000, 100000)),
    ("for-in over properties", "var o = {{}}, s = 0; for (var i = 0; i < {n}; i++) {{ o['k' + i] = i; }} "
     "for (var k in o) {{ s = s + o[k]; }} print(s);", (80, 800, 8000)),
    ("elements of an array", "var a = [], s = 0; for (var i = 0; i < {n}; i++) {{ a[i] = i; }} "
     "for (i = 0; i < {n}; i++) {{ s = s + a[i]; }} print(s);", (80, 800, 8000)),
    ("throws that are caught", "var s = 0; for (var i = 0; i < {n}; i++) {{ try {{ throw i; }} catch (e) {{ s = s + e; }} }} "
     "print(s);", (600, 6000, 60000)),
]
# so many iterations, and twice as many, are counted instruction by instruction
COUNTED = 300
DOUBLINGS = 5
# what there is more of, the script, and the number of it to begin with
GROWING = [
    ("steps", lambda n: f"var n = {n}; while (n--) {{ }}", 40000),
    ("calls", lambda n: f"function f(n) {{ return n; }} for (var i = 0; i < {n}; i++) {{ f(i); }}", 8000),
    ("objects", lambda n: f"var o = null; for (var i = 0; i < {n}; i++) {{ o = {{p: i, q: o}}; }}", 8000),
    ("arrays", lambda n: f"var a = []; for (var i = 0; i < {n}; i++) {{ a[i] = [i]; }}", 4000),
    ("properties", lambda n: f"var o = {{}}; for (var i = 0; i < {n}; i++) {{ o['p' + i] = i; }}", 8000),
    ("statements", lambda n: "var x = 0;\n" + "x = x + 1;\n" * n, 2000),
]


def judged(value, limit, width=8):
    """A value as it is printed, with a word where it is above its limit."""
    return f"{value:{width}.2f}" + ("  above the limit" if value > limit else "")


def step_costs(machine):
    """Prints the first table, and answers whether all is within the limit."""
    others, right = engines(BESIDE), True
    heads = "".join(f"{'times ' + it.name:>15}" for it in others)
    print(f"{'script':24}{'size':>8}{'steps':>9}{'ns a step':>11}{'MB':>6}{heads}")
    for name, text, sizes in SCRIPTS:
        costs = []
        for n in sizes:
            script = text.format(n=n)
            seconds, megabytes, printed, steps = machine.run(name, script)
            costs.append(1e9 * seconds / steps)
            times = "".join(f"{it.times(script, seconds, printed):>15}" for it in others)
            print(f"{name:24}{n:8}{steps:9}{costs[-1]:11.0f}{megabytes:6}{times}", flush=True)
        right = ratio_of(name, costs, 23) <= LIMIT and right
    return right


def instructions_of(machine, text):
    """The instructions of a step of a script, as they are printed."""
    if shutil.which("valgrind") is None:
        return "-"
    return f"{instructions.of_a_step(machine.command[0], text, COUNTED):.0f}"


def woven_costs(machine):
    """Prints the second table, and answers whether all is within the limits."""
    linter, right = Machine("lint"), True
    print(f"\n{'script':24}{'instructions a step':>21}{'own steps':>11}{'woven':>10}{'ratio':>8}"
          f"{'ns a step':>11}{'woven':>8}{'ratio':>8}")
    for name, text, sizes in SCRIPTS:
        script = text.format(n=sizes[-1])
        seconds, _, _, own = machine.run(name, script)
        longer, _, _, woven = linter.run(name, script)
        plain, beside = 1e9 * seconds / own, 1e9 * longer / woven
        right = woven <= WOVEN_STEPS * own and beside <= WOVEN_TIME * plain and right
        print(f"{name:24}{instructions_of(machine, text):>21}{own:11}{woven:10}{judged(woven / own, WOVEN_STEPS)}"
              f"{plain:11.0f}{beside:8.0f}{judged(beside / plain, WOVEN_TIME)}", flush=True)
    return right


def growths(machine):
    """Prints the third table, and answers whether all is within the limit."""
    right = True
    print(f"\n{'milliseconds of so many':24}" + "".join(f"{f'times {2 ** it}':>10}" for it in range(DOUBLINGS + 1))
          + "  ratio of doubling")
    for name, script, first in GROWING:
        found = [machine.run(name, script(first * 2 ** it))[0] for it in range(DOUBLINGS + 1)]
        ratio = (found[-1] / max(found[0], 1e-3)) ** (1 / DOUBLINGS)
        right = right and ratio <= DOUBLING
        print(f"{f'{first} {name}':24}" + "".join(f"{1e3 * it:10.0f}" for it in found) + judged(ratio, DOUBLING, 10),
              flush=True)
    return right


def main():
    machine = Machine()
    return 0 if all([step_costs(machine), woven_costs(machine), growths(machine)]) else 1


if __name__ == "__main__":
    sys.exit(main())
