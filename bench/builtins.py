#!/usr/bin/env python3
"""What builtins take: nanoseconds of the processor for a unit of their work, at three sizes each, the memory at the most,
and how many times as long as node that is, where node is there.

Run it at the top of the repository after `rt ci`, as bench/running.py. The work of a script of size n is n, or n times n
where each of n calls goes through all n elements, as `shift` and `unshift` do by their turns. A script is judged by the cost
of its greatest size over that of a tenth of it. Where one gives more than 2, the exit status is 1."""

import sys

from measuring import Machine, engines, ratio_of

LIMIT = 2.0
TEXT = "var t = 'x'; while (t.length < {n}) {{ t = t + t; }} t = t.slice(0, {n}); "
# name, script, sizes, and the power of the size that the work is
SCRIPTS = [
    ("push", "var a = []; for (var i = 0; i < {n}; i++) {{ a.push(i); }} print(a.length);", (80, 800, 8000), 1),
    ("shift", "var a = [], s = 0; for (var i = 0; i < {n}; i++) {{ a[i] = i; }} while (a.length) {{ s = s + a.shift(); }} "
     "print(s);", (40, 400, 4000), 2),
    ("sort", "var a = []; for (var i = 0; i < {n}; i++) {{ a[i] = i * 7919 % 10007; }} a.sort(); print(a[0], a[{n} - 1]);",
     (80, 800, 8000), 1),
    ("map", "var a = []; for (var i = 0; i < {n}; i++) {{ a[i] = i; }} print(a.map(function (x) {{ return x + 1; }}).length);",
     (80, 800, 8000), 1),
    ("join", "var a = []; for (var i = 0; i < {n}; i++) {{ a[i] = 'abcdefg'; }} print(a.join(',').length);",
     (1000, 10000, 100000), 1),
    ("split", "var t = 'abcdefg,'; while (t.length < 8 * {n}) {{ t = t + t; }} t = t.slice(0, 8 * {n}); "
     "print(t.split(',').length);", (1000, 10000, 100000), 1),
    ("indexOf of a string", TEXT + "print(t.indexOf('y'), t.lastIndexOf('y'));", (10000, 100000, 1000000), 1),
    ("concat of strings", TEXT + "print(t.concat('y').length);", (10000, 100000, 1000000), 1),
    ("toUpperCase", TEXT + "print(t.toUpperCase().length);", (10000, 100000, 1000000), 1),
    ("concat of arrays", "var a = []; for (var i = 0; i < {n}; i++) {{ a[i] = i; }} print(a.concat(a).length);",
     (80, 800, 8000), 1),
    ("keys", "var o = {{}}; for (var i = 0; i < {n}; i++) {{ o['k' + i] = i; }} print(Object.keys(o).length);",
     (80, 800, 8000), 1),
    ("apply", "var a = []; for (var i = 0; i < {n}; i++) {{ a[i] = i; }} print(Math.max.apply(null, a));",
     (80, 800, 8000), 1),
]


def main():
    machine, others, worst = Machine(), engines(["node"]), 0.0
    print(f"{'script':24}{'size':>8}{'ns a unit':>11}{'MB':>6}{'times node':>12}")
    for name, text, sizes, power in SCRIPTS:
        costs = []
        for n in sizes:
            script = text.format(n=n)
            seconds, megabytes, printed, _ = machine.run(name, script)
            times = "".join(f"{it.times(script, seconds, printed):>12}" for it in others)
            costs.append(1e9 * seconds / n ** power)
            print(f"{name:24}{n:8}{costs[-1]:11.0f}{megabytes:6}{times}", flush=True)
        worst = max(worst, ratio_of(name, costs, 19))
    return 1 if worst > LIMIT else 0


if __name__ == "__main__":
    sys.exit(main())
