#!/usr/bin/env python3
"""What calls of jl_props cost on objects of few and of many properties: instructions, time and memory, each judged by
ratios within one run.

usage: bench/properties.py [OTHER]     at the top of the repository, after `tools/programs.py jl_props_bench`

OTHER is a build of the same program over another store of properties, which objects of few names are compared with.
An item is as large as a property of jl_heap. Each call is given each name once a turn:

    get      looks it up
    put      looks it up in a new object and puts it
    remove   takes it out; what is told is that of a turn which puts and removes all names, less that of one which puts
    order    lists it, in the list of all names
    share    puts it into the same list out of a slice of the names: the least that `order` can cost
    make     looks it up and puts it in an object of a store of many objects

Instructions are counted by valgrind (`cachegrind`, without caches), and are the same whatever else the machine does but
for the keys of the hashes, which are other ones in each run. A time is that of the process, in user mode for many names
and the whole of it for few, the least of several runs. Both are those of a run less those of a run without a turn, a
call. Memory is what the peak of a run grows by from 100,000 to 200,000 objects.

Judged, with the exit status 1 where one is above its limit:

- The instructions of a call at 1,000,000 names of one object are at most 1.3 times those at 100. Names rise.
- The time is at most 5 times as long, that of `order` at most 3 times as much longer as that of `share`: the steps are
  as many, and what they take is past the processor's nearer caches.
- Names that collide under the kit's default hasher, whose seed is fixed, take at most 1.05 of the instructions that
  other names of as many units take. That they collide there is judged too: put into a map by that hasher they take at
  least 10 times as many.
- An object of 1, 2, 4 or 8 names takes at most 1.8 of the time that it takes with OTHER, and at most its memory."""

import itertools
import math
import os
import re
import subprocess
import sys

PROGRAM = os.path.join("programs", "out", "jl_props_bench")
COUNTS = [100, 10000, 1000000]
CALLS = ["get", "put", "remove", "order", "share"]
# The properties that a run begins with are those of `get` at no turn.
FILLED = ["get", "order"]
FEW = [1, 2, 4, 8]
INSTRUCTIONS, TIMES, LIST, CRAFTED, COLLIDING, TIME_OF_FEW, MEMORY_OF_FEW = 1.3, 5.0, 3.0, 1.05, 10.0, 1.8, 1.0


def instructions(program, call, kind, count, turns):
    """The instructions of a run."""
    command = ["valgrind", "--tool=cachegrind", "--cache-sim=no", "--cachegrind-out-file=/dev/null"]
    ran = subprocess.run([*command, program, call, kind, str(count), str(turns)], capture_output=True, text=True,
                         check=True)
    return int(re.search(r"I\s+refs:\s+([\d,]+)", ran.stderr)[1].replace(",", ""))


def user_time(program, call, kind, count, turns):
    """The microseconds of a run in user mode, of its process alone."""
    return 1e6 * usage_of(program, call, kind, count, turns).ru_utime


def whole_time(program, call, kind, count, turns):
    """The microseconds of a run, those of the kernel too."""
    usage = usage_of(program, call, kind, count, turns)
    return 1e6 * (usage.ru_utime + usage.ru_stime)


def usage_of(program, *words):
    with subprocess.Popen([program, *map(str, words)], stdout=subprocess.DEVNULL) as child:
        _, status, usage = os.wait4(child.pid, 0)
        child.returncode = os.waitstatus_to_exitcode(status)
    if child.returncode != 0:
        sys.exit(f"{program} ended with status {child.returncode}")
    return usage


class Costs:
    """What calls cost by one measure, each run made as often as is said and the least of them taken."""

    def __init__(self, measure, runs):
        self.measure = measure
        self.runs = runs
        self.least = {}

    def run(self, *row):
        """Makes one run, and keeps it where it is the least of this row."""
        self.least[row] = min(self.least.get(row, math.inf), self.measure(*row))

    def of_run(self, *row):
        if row not in self.least:
            for _ in range(self.runs):
                self.run(*row)
        return self.least[row]

    def of_call(self, program, call, kind, count, turns):
        """What one call costs."""
        if call == "remove":
            bare = self.of_run(program, "put", kind, count, turns)
        else:
            bare = self.of_run(program, "get" if call in FILLED else "put", kind, count, 0)
        return (self.of_run(program, call, kind, count, turns) - bare) / (count * turns)


class Judge:
    """Says of each ratio whether it is within its limit."""

    def __init__(self):
        self.passed = True

    def told(self, ratio, least=0.0, most=math.inf):
        if least <= ratio <= most:
            return f"{ratio:8.2f}"
        self.passed = False
        limit = f"above {most}" if ratio > most else f"below {least}"
        return f"{ratio:8.2f}  {limit}"


def many_names(judge):
    """One object of many names."""
    for title, costs, limit, calls in (("instructions", Costs(instructions, 1), INSTRUCTIONS, 100000),
                                       ("microseconds", Costs(user_time, 5), TIMES, 8000000)):
        print(f"\n{title} a call, one object of so many names\n{'':8}" + "".join(f"{it:>11}" for it in COUNTS)
              + "  growth")
        growths = {}
        for call in reversed(CALLS):
            found = [costs.of_call(PROGRAM, call, "rising", count, max(1, calls // count)) for count in COUNTS]
            growths[call] = found[-1] / found[0]
            if title == "microseconds" and call in ("order", "share"):
                most = math.inf if call == "share" else LIST * growths["share"]
            else:
                most = limit
            print(f"{call:8}" + "".join(f"{it:11.3f}" for it in found) + judge.told(growths[call], most=most),
                  flush=True)


def crafted_names(judge):
    """Names that collide under the default hasher, and others of as many units."""
    costs = Costs(instructions, 1)
    count, turns = 2000, 10
    print(f"\ninstructions a call, one object of {count} names\n{'':8}    crafted      other   ratio")
    for call in ("get", "put", "remove", "default"):
        crafted, other = (costs.of_call(PROGRAM, call, kind, count, 1 if call == "default" else turns)
                          for kind in ("crafted", "rising"))
        limits = {"least": COLLIDING} if call == "default" else {"most": CRAFTED}
        print(f"{call:8}{crafted:11.0f}{other:11.0f}{judge.told(crafted / other, **limits)}", flush=True)


def memory(program, count):
    """The bytes of an object of so many names."""
    few, many = (usage_of(program, "make", "rising", count, objects).ru_maxrss for objects in (100000, 200000))
    return (many - few) * 1024 / 100000


def few_names(judge, other):
    """Many objects of few names, with another store too where one is given."""
    programs = [PROGRAM, other] if other else [PROGRAM]
    rows = [("make", "instructions", Costs(instructions, 1), 2000, TIME_OF_FEW),
            ("get", "instructions", Costs(instructions, 1), 2000, TIME_OF_FEW),
            ("make", "microseconds", Costs(whole_time, 9), 20000, TIME_OF_FEW),
            ("get", "microseconds", Costs(whole_time, 9), 200000, TIME_OF_FEW)]
    print("\nan object of few names: a name's cost, and the bytes of the object, then with the other store if any")
    for count in FEW:
        for call, title, costs, turns, most in rows:
            for _, program, these in itertools.product(range(costs.runs), programs, (turns, 0)):
                costs.run(program, call, "rising", count, these)
            found = [costs.of_call(program, call, "rising", count, turns) for program in programs]
            print_few(judge, f"{count} {call:5}{title}", found, most)
        print_few(judge, f"{count}      bytes", [memory(program, count) for program in programs], MEMORY_OF_FEW)


def print_few(judge, title, found, most):
    ratio = judge.told(found[0] / found[1], most=most) if len(found) == 2 else ""
    print(f"{title:22}" + "".join(f"{it:11.3f}" for it in found) + ratio, flush=True)


def main():
    if not os.path.exists(PROGRAM):
        sys.exit("no " + PROGRAM + ": run tools/programs.py jl_props_bench first")
    judge = Judge()
    crafted_names(judge)
    few_names(judge, sys.argv[1] if len(sys.argv) > 1 else None)
    many_names(judge)
    sys.exit(not judge.passed)


if __name__ == "__main__":
    main()
