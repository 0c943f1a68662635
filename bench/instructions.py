#!/usr/bin/env python3
"""Instructions that `run` takes for a step of each of twelve scripts, and their geometric mean: a count by valgrind and no
time, so that it is the same whatever else the machine does, but for the random keys of hashes.

usage: bench/instructions.py [PROGRAM [OTHER]]

PROGRAM is crates/jlint/out/jlint where none is named. A script runs with n iterations and with 2n; what the second run
takes beyond the first is divided by the steps that it takes beyond it, so that reading the script and making the initial
store are not counted. With OTHER each line has its figure too, and how many times as many instructions PROGRAM takes."""

import math
import os
import re
import subprocess
import sys

from measuring import PROGRAM

COUNTED = ["valgrind", "--tool=cachegrind", "--cache-sim=no", "--cachegrind-out-file=/dev/null"]
# the script, and its n
SCRIPTS = {
    "sums, global": ("var s = 0; for (var i = 0; i < {n}; i++) {{ s = s + i % 7; }} print(s);", 1000),
    "sums, local": ("(function () {{ var s = 0; for (var i = 0; i < {n}; i++) {{ s = s + i % 7; }} print(s); }})();", 1000),
    "countdown": ("(function () {{ var n = {n}; while (n--) {{ }} print(n); }})();", 2000),
    "calls": ("function fib(n) {{ if (n < 2) {{ return n; }} return fib(n - 1) + fib(n - 2); }} "
              "for (var i = 0; i < {n}; i++) fib(7);", 10),
    "closures": ("function counter() {{ var k = 0; return function () {{ k = k + 1; return k; }}; }} var c = counter(); "
                 "(function () {{ for (var i = 0; i < {n}; i++) {{ c(); }} }})(); print(c());", 500),
    "new functions": ("(function () {{ var f; for (var i = 0; i < {n}; i++) {{ f = function (a) {{ return a; }}; f(i); }} }})();",
                      300),
    "objects": ("(function () {{ var f; for (var i = 0; i < {n}; i++) {{ f = {{p: i, q: 2}}; f.p = f.q; }} }})();", 300),
    "properties": ("(function () {{ var o = {{alpha: 1, beta: 2, gamma: 3}}; for (var i = 0; i < {n}; i++) "
                   "{{ o.alpha = o.beta + i; o.gamma = o.alpha - o.beta; }} print(o.gamma); }})();", 500),
    "methods": ("function P(x) {{ this.x = x; }} P.prototype.get = function () {{ return this.x; }}; (function () {{ "
                "var s = 0; for (var i = 0; i < {n}; i++) {{ var p = new P(i); s = s + p.get(); }} print(s); }})();", 300),
    "arrays": ("(function () {{ var a = [], s = 0, i; for (i = 0; i < {n}; i++) {{ a.push(i); }} "
               "for (i = 0; i < a.length; i++) {{ s = s + a[i]; }} print(s); }})();", 500),
    "sieve": ("(function () {{ var n = {n}, a = [], c = 0, i, j; for (i = 0; i <= n; i++) {{ a[i] = true; }} "
              "for (i = 2; i <= n; i++) {{ if (a[i]) {{ c++; for (j = i + i; j <= n; j = j + i) {{ a[j] = false; }} }} }} "
              "print(c); }})();", 300),
    "strings": ("(function () {{ var t = '', c = 0; for (var i = 0; i < {n}; i++) {{ t = 'a' + i; "
                "if (t.charAt(1) === '1') {{ c = c + t.length; }} }} print(c); }})();", 300),
}


def count(program, script):
    """The instructions of a run and its steps."""
    command = [*COUNTED, program, "run", "--budget", "1000000000"]
    ran = subprocess.run(command, input=script, capture_output=True, text=True, check=False)
    counted = re.search(r"I\s+refs:\s+([\d,]+)", ran.stderr)
    steps = re.search(r"^jlint: normal steps=(\d+)$", ran.stdout, re.M)
    if not counted or not steps:
        sys.exit(f"{program}: no count of {script}: {ran.stdout[-200:]}{ran.stderr[-400:]}")
    return int(counted[1].replace(",", "")), int(steps[1])


def of_a_step(program, script, n):
    """The instructions of a step."""
    (few, first), (many, last) = (count(program, script.format(n=it)) for it in (n, 2 * n))
    return (many - few) / (last - first)


def line(name, found):
    ratio = f"{found[0] / found[1]:8.2f}" if len(found) == 2 else ""
    print(f"{name:16}" + "".join(f"{it:8.0f}" for it in found) + ratio, flush=True)


def main():
    programs = sys.argv[1:3] or [PROGRAM]
    for program in programs:
        if not os.path.exists(program):
            sys.exit(f"no {program}: build it first")
    logs = [0.0] * len(programs)
    for name, (script, n) in SCRIPTS.items():
        found = [of_a_step(program, script, n) for program in programs]
        logs = [log + math.log(it) for log, it in zip(logs, found)]
        line(name, found)
    line("geometric mean", [math.exp(log / len(SCRIPTS)) for log in logs])


if __name__ == "__main__":
    main()
