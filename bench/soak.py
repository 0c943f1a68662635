#!/usr/bin/env python3
"""What `soak` takes: milliseconds of the processor for scripts of 1,000 to 8,000 functions, how these grow, how many steps
of the rewritten script there are for one of the script, and how many times as long as node the greatest takes.

usage: bench/soak.py [PROGRAM]      JLINT names the program, or the argument, or else the one of this clone is taken

The time of a script without functions is taken off first. node runs the text that `instrument` writes of the same script,
with hooks that give their values (`bench/plain_hooks.js`); it is told with its start and without. The exit status is 1
where a function costs over 10 percent more or less than in a script of half the size, where there are more than 3.3 steps
for one, or where node's time is less than a third."""

import json
import os
import shutil
import subprocess
import sys
import tempfile

from measuring import least, named_program

TOP = os.path.dirname(os.path.dirname(os.path.abspath(__file__)))
HOOKS = os.path.join(TOP, "bench", "plain_hooks.js")
SIZES = (1000, 2000, 4000, 8000)
SPREAD, STEPS, TIMES = 0.1, 3.3, 3.0


def script_of(number):
    """The script of so many functions, by its definition in jl_soak."""
    lines = ["var total = 0;"]
    for i in range(number):
        lines.append(f"function f{i}(a, b) {{ var o = {{ p: a, q: b }}; o.p += {i}; return o.p % {7 + i % 5} - o.q; }}")
        lines.append(f"total += f{i}({i}, {i * i % 11});")
    return "\n".join([*lines, "print(total);", ""])


def soaked(program, number):
    """The processor time of a soak in seconds, its memory at the most in MB, its steps, and the line that it prints."""
    ran = least([program, "soak", "--number", str(number)], "")
    printed, _, end = ran.output.rstrip("\n").rpartition("\n")
    if not end.startswith("jlint: normal steps="):
        sys.exit(f"soak of {number}: {ran.output!r}")
    return ran.seconds, ran.kilobytes // 1024, int(end.split("steps=")[1].split()[0]), printed


def answer_to(program, command, script):
    return subprocess.run([program, command], input=script, stdout=subprocess.PIPE, text=True, check=False).stdout


def node_time(node, text, printed):
    """The processor time of node for a text with plain hooks, which has to print this line."""
    with tempfile.NamedTemporaryFile("w", suffix=".js") as file:
        file.write(text)
        file.flush()
        ran = least([node, HOOKS, file.name], "")
    due = {"output": printed.splitlines(), "end": "normal"}
    if json.loads(ran.output) != due:
        sys.exit(f"node gives {ran.output!r}, where {due} is due")
    return ran.seconds


def main():
    program, is_right = named_program(), True
    empty, before = soaked(program, 0)[0], None
    print(f"{'functions':>10}{'steps':>9}{'ms':>8}{'us a function':>15}{'MB':>6}{'to half the size':>18}")
    for number in SIZES:
        spent, megabytes, steps, printed = soaked(program, number)
        cost = (spent - empty) / number
        ratio = cost / before if before else 1.0
        is_right = is_right and abs(ratio - 1) <= SPREAD
        told = f"{ratio:.2f}" if before else "-"
        print(f"{number:10}{steps:9}{1e3 * spent:8.0f}{1e6 * cost:15.1f}{megabytes:6}{told:>18}", flush=True)
        before = cost
    script = script_of(number)
    own = int(answer_to(program, "run", script).rpartition("steps=")[2])
    is_right = is_right and steps <= STEPS * own
    print(f"{steps / own:.2f} steps of the rewritten script for one of the script, of {own} (at most {STEPS})")
    node = shutil.which("node")
    if node is None:
        print("node is missing: nothing is compared")
        return 0 if is_right else 1
    other = node_time(node, answer_to(program, "instrument", script), printed)
    bare = node_time(node, answer_to(program, "instrument", ""), "")
    is_right = is_right and spent <= TIMES * other
    print(f"{spent / other:.1f} times node's {1e3 * other:.0f} ms (at most {TIMES:.0f})")
    print(f"{(spent - empty) / max(other - bare, 1e-3):.1f} times node's {1e3 * (other - bare):.0f} ms without starts")
    return 0 if is_right else 1


if __name__ == "__main__":
    sys.exit(main())
