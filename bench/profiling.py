#!/usr/bin/env python3
"""What `jlint objects` takes for an object and `jlint cover` for a condition: nanoseconds of the processor at 1,000, 10,000
and 100,000 of them, made or evaluated at one place or at places of their own, and how many times as long as `run` of the
same script that is.

Run it at the top of the repository after `./jlint check < examples/closures.js`. The time of an empty script is taken off
first. Where the cost at one place differs by more than 20 % between two sizes, the exit status is 1. At places of their
own a script grows with its number, so that reading it and the logarithm of the number of rows are in the cost; that is
printed alone."""

import os
import sys

from measuring import BUDGET, PROGRAM, least

LIMIT = 1.2
SIZES = (1000, 10000, 100000)
# command, name, script of that number, whether it is judged
SCRIPTS = [
    ("objects", "object literals", lambda n: f"for (var i = 0; i < {n}; i++) {{ ({{}}); }}", True),
    ("objects", "objects by new", lambda n: f"function F() {{ }} for (var i = 0; i < {n}; i++) {{ new F(); }}", True),
    ("objects", "objects that are used", lambda n: f"for (var i = 0; i < {n}; i++) {{ ({{}}).a; }}", True),
    ("objects", "arrays at their own places", lambda n: "[];\n" * n, False),
    ("cover", "conditions", lambda n: f"for (var i = 0; i < {n}; i++) {{ i % 2 ? 1 : 2; }}", True),
    ("cover", "functions entered", lambda n: f"function f() {{ }} for (var i = 0; i < {n}; i++) {{ f(); }}", True),
    ("cover", "conditions at their own places", lambda n: "0?1:2;\n" * n, False),
]


def seconds(command, text, empty, n):
    """The least of several runs, of more of them where each is short."""
    runs = [least([PROGRAM, command, *BUDGET], text).seconds for _ in range(max(5, SIZES[-1] // n // 5))]
    return max(min(runs) - empty, 1e-6)


def main():
    if not os.path.exists(PROGRAM):
        sys.exit("no " + PROGRAM + ": build it first")
    empty = {c: least([PROGRAM, c, *BUDGET], "").seconds for c in ("run", "objects", "cover")}
    worst = 0.0
    print(f"{'command':9}{'script':32}{'number':>8}{'ns each':>10}{'times run':>11}")
    for command, name, script, judged in SCRIPTS:
        costs = []
        for n in SIZES:
            text = script(n)
            spent = seconds(command, text, empty[command], n)
            plain = seconds("run", text, empty["run"], n)
            costs.append(1e9 * spent / n)
            print(f"{command:9}{name:32}{n:8}{costs[-1]:10.0f}{spent / plain:11.1f}", flush=True)
        apart = max(costs) / min(costs)
        print(f"{command:9}{name:32}{'greatest by least':>18}{apart:11.2f}", flush=True)
        if judged:
            worst = max(worst, apart)
    return 1 if worst > LIMIT else 0


if __name__ == "__main__":
    sys.exit(main())
