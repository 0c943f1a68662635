"""What the benchmarks share: the program that they measure, other engines, and what a run takes."""

import os
import resource
import shutil
import subprocess
import sys
import tempfile
from typing import NamedTuple

TOP = os.path.dirname(os.path.dirname(os.path.abspath(__file__)))
PROGRAM = os.path.join(TOP, "crates", "jlint", "out", "jlint")
BUDGET = ["--budget", "1000000000"]
# node has other names for what a script uses, and says at its end how many microseconds the script took
NODE = """var print = function () { console.log([].slice.call(arguments).join(' ')); };
(function (begun) {
    process.on('exit', function () { var spent = process.cpuUsage(begun); print(spent.user + spent.system); });
}(process.cpuUsage()));
"""
# name, command, and what stands before a script
ENGINES = [
    ("node", ["node", "--stack-size=60000", "-"], NODE),
    ("mujs", ["mujs", "/dev/stdin"], ""),
    ("duktape", ["duk", "--run-stdin"], ""),
]


class Run(NamedTuple):
    """The seconds of the processor that a run took, its memory at the most, its status and its output."""
    seconds: float
    kilobytes: int
    status: int
    output: str


def named_program():
    """The program that the first argument names, or JLINT, or else that of this clone."""
    place = sys.argv[1] if len(sys.argv) > 1 else os.environ.get("JLINT", PROGRAM)
    if not os.path.exists(place):
        sys.exit("no " + place + ": build it first")
    return place


def deep_stack():
    """Lets an engine use the stack that it is told of."""
    hard = resource.getrlimit(resource.RLIMIT_STACK)[1]
    resource.setrlimit(resource.RLIMIT_STACK, (hard, hard))


def once(command, text, prepare=None):
    with tempfile.TemporaryFile() as script, tempfile.TemporaryFile() as out:
        script.write(text.encode())
        script.seek(0)
        child = subprocess.Popen(command, stdin=script, stdout=out, stderr=subprocess.DEVNULL, preexec_fn=prepare)
        _, status, usage = os.wait4(child.pid, 0)
        child.returncode = os.waitstatus_to_exitcode(status)
        out.seek(0)
        return Run(usage.ru_utime + usage.ru_stime, usage.ru_maxrss, child.returncode, out.read().decode())


def least(command, text, prepare=None):
    """The one of three runs that took least."""
    return min(once(command, text, prepare) for _ in range(3))


class Engine:
    """Another engine, and what it takes for a script that does nothing."""

    def __init__(self, name, command, prelude):
        self.name, self.command, self.prelude = name, command, prelude
        self.bare = min(self.run("") for _ in range(5))[0]

    def run(self, script):
        """The seconds that a run takes, its status, and what it printed. Those of node don't count its start."""
        ran = once(self.command, self.prelude + script, deep_stack)
        if self.prelude != NODE or ran.status != 0:
            return ran.seconds, ran.status, ran.output.rstrip("\n")
        printed, _, microseconds = ran.output.rstrip("\n").rpartition("\n")
        return int(microseconds) / 1e6, ran.status, printed

    def times(self, script, spent, printed):
        """How many times as long as this engine a run took that printed this, or a dash where the engine fails or takes
        too little to tell."""
        seconds, status, output = min(self.run(script) for _ in range(5))
        if status != 0 or seconds < 1.5 * self.bare:
            return "-"
        if output != printed:
            sys.exit(f"{self.name} prints {output!r}, and not {printed!r}: {script}")
        return f"{spent / (seconds - self.bare):.1f}"


def engines(names):
    """Those of the engines that are there."""
    return [Engine(*it) for it in ENGINES if it[0] in names and shutil.which(it[1][0])]


class Machine:
    """A command of the program, and what it takes for a script that does nothing."""

    def __init__(self, command="run"):
        self.command = [named_program(), command, *BUDGET]
        self.empty = least(self.command, "").seconds

    def run(self, name, script):
        """The seconds that a script takes beyond the empty one, its memory at the most in MB, what it printed, and its
        steps."""
        ran = least(self.command, script)
        printed, _, end = ran.output.rstrip("\n").rpartition("\n")
        if not end.startswith("jlint: normal steps="):
            sys.exit(f"{name}: {end}")
        steps = int(end.split("steps=")[1].split()[0])
        return max(ran.seconds - self.empty, 0.0), ran.kilobytes // 1024, printed, steps


def ratio_of(name, costs, width):
    """The cost at the greatest size over that of a tenth of it, which is printed. The smallest run is over before a clock
    tells much of it."""
    ratio = costs[-1] / costs[-2] if costs[-2] else 0.0
    print(f"{name:24}{'ratio of the last two':>{width}}{ratio:7.2f}", flush=True)
    return ratio
