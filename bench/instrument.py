#!/usr/bin/env python3
"""How long `jlint instrument` takes for scripts of 1,048,576 bytes: processor seconds of `check` and of `instrument`, their
ratio, and how many bytes are written for each that is read.

Run it at the top of the repository after `./jlint check < examples/closures.js`. Where a ratio is above 10, the exit status
is 1."""

import os
import resource
import subprocess
import sys

PROGRAM = os.path.join("crates", "jlint", "out", "jlint")
BYTES = 1048576
LIMIT = 10.0
STATEMENTS = ["x;", "1;", "x++;", "a.b=c;", "f(1);", "(function(){});", '(function(){"use strict"});']


def taken(command, script):
    """The processor seconds of a run, and the length of its answer."""
    before = resource.getrusage(resource.RUSAGE_CHILDREN)
    done = subprocess.run([PROGRAM, command], input=script, capture_output=True, check=False)
    after = resource.getrusage(resource.RUSAGE_CHILDREN)
    if done.returncode != 0:
        sys.exit(f"{command}: status {done.returncode}, {done.stdout[:80]!r}")
    return after.ru_utime + after.ru_stime - before.ru_utime - before.ru_stime, len(done.stdout)


def main():
    if not os.path.exists(PROGRAM):
        sys.exit("no " + PROGRAM + ": run rt ci first")
    worst = 0.0
    print(f"{'statement':28}{'check':>8}{'instrument':>12}{'ratio':>7}{'bytes a byte':>14}")
    for statement in STATEMENTS:
        script = (statement * (BYTES // len(statement))).encode()
        checked, _ = taken("check", script)
        woven, written = taken("instrument", script)
        ratio = woven / max(checked, 0.01)
        worst = max(worst, ratio)
        print(f"{statement:28}{checked:8.2f}{woven:12.2f}{ratio:7.1f}{written / len(script):14.1f}", flush=True)
    return 1 if worst > LIMIT else 0


if __name__ == "__main__":
    sys.exit(main())
