#!/usr/bin/env python3
"""What `jl` takes beside the program's own runs, on 200 files, and what it gains by four at a time.

Run it at the top of the repository; JLINT names the program, or else the one of this clone is taken. Both are held to
one processor for the first figure, which is of processor seconds, so that other work on the machine does not count.
Where `jl` takes more than 1.3 times what the runs take, the exit status is 1. The gain on four is of seconds that went
by, and means little on a machine that is busy."""

import os
import resource
import subprocess
import sys
import tempfile
import time

TOP = os.path.dirname(os.path.dirname(os.path.abspath(__file__)))
FILES, LIMIT = 200, 1.3
SCRIPT = """function Shape(name) { this.name = name; }
Shape.prototype.area = function () { return 0; };
function Rect(w, h) { Shape.call(this, "rect"); this.w = w; this.h = h; }
Rect.prototype = Object.create(Shape.prototype);
Rect.prototype.area = function () { return this.w * this.h; };
var total = 0, i, shapes = [];
for (i = 0; i < LENGTH; i += 1) { shapes.push(i % 2 ? new Shape("s" + i) : new Rect(i, 3)); }
shapes.forEach(function (shape) { total += shape.area(); });
print(total, parseInt("42 px"), total == "3");
"""


def program():
    places = [os.environ.get("JLINT"), f"{TOP}/out/jlint", f"{TOP}/crates/jlint/out/jlint"]
    return next(it for it in places if it and os.access(it, os.X_OK))


def measured(call):
    """The processor seconds of what a call starts, and the seconds that it took."""
    before, began = resource.getrusage(resource.RUSAGE_CHILDREN), time.monotonic()
    call()
    after = resource.getrusage(resource.RUSAGE_CHILDREN)
    spent = after.ru_utime + after.ru_stime - before.ru_utime - before.ru_stime
    return spent, time.monotonic() - began


def run_each(names):
    """Runs the program once for each file, as a shell's loop would."""
    for name in names:
        with open(name, "rb") as script:
            subprocess.run([program(), "lint"], stdin=script, stdout=subprocess.DEVNULL, check=False)


def run_jl(names, jobs):
    words = [sys.executable, f"{TOP}/jl", "--jobs", str(jobs), *names]
    subprocess.run(words, stdout=subprocess.DEVNULL, check=False, env={**os.environ, "JLINT": program()})


def main():
    processors = os.sched_getaffinity(0)
    with tempfile.TemporaryDirectory(prefix="jl-bench-") as folder:
        names = [f"{folder}/f{number:03}.js" for number in range(FILES)]
        for number, name in enumerate(names):
            with open(name, "w", encoding="utf-8") as file:
                file.write(SCRIPT.replace("LENGTH", str(20 + number)))
        os.sched_setaffinity(0, {min(processors)})
        own, own_wall = measured(lambda: run_each(names))
        one, one_wall = measured(lambda: run_jl(names, 1))
        os.sched_setaffinity(0, processors)
        four, four_wall = measured(lambda: run_jl(names, 4))
    print(f"{'':32}{'processor s':>12}{'seconds':>10}")
    for name, spent, wall in (
        (f"{FILES} runs of the program", own, own_wall),
        ("jl --jobs 1, one processor", one, one_wall),
        (f"jl --jobs 4, {len(processors)} processors", four, four_wall),
    ):
        print(f"{name:32}{spent:12.2f}{wall:10.2f}")
    print(f"jl takes {one / own:.2f} times what the runs take; four at a time gain {one_wall / four_wall:.2f}")
    return 0 if one / own <= LIMIT else 1


if __name__ == "__main__":
    sys.exit(main())
