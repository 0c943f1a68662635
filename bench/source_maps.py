#!/usr/bin/env python3
"""Source maps of rewritten scripts beside node's own reader of them, and how long they take.

usage: bench/source_maps.py [FILE..]

For each script that is accepted (without FILE those of examples/) the segments that `jlint unmap` lists of what
`jlint srcmap` writes are looked up in that map by node's `module.SourceMap`, and by the package `source-map` where node
finds it: each has to give the same source, line and column; and the id of the hook that stands at a segment has to have
that place in `jlint map`. A rewritten script that throws is run by `node --enable-source-maps`, whose stack trace has to
name the line of the script. Then processor seconds of `instrument`, `srcmap` and `unmap` are printed for scripts of 64 KiB,
256 KiB and 1 MiB. Where node is not installed, only that is done.

Run it at the top of the repository after `./jlint check < examples/closures.js`. The status is 1 where a place differs, or
where a size takes more than eight times as long as the one before it."""

import glob
import os
import re
import resource
import shutil
import subprocess
import sys
import tempfile

TOP = os.path.dirname(os.path.dirname(os.path.abspath(__file__)))
PROGRAM = os.path.join(TOP, "crates", "jlint", "out", "jlint")
HERE = os.path.join(TOP, "bench")
SIZES = [65536, 262144, 1048576]
GROWS = 8.0
UNIT = "function f(a) { var b = a + 1; o.k = b * 2; return g(b); }\n"
THROWS = "var a = 1;\n\nfunction f(x) {\n  return x.y.z;\n}\n\nf({ });\n"


def jlint(command, text):
    done = subprocess.run([PROGRAM, command], input=text, capture_output=True, check=False)
    return done.returncode, done.stdout


def answer(command, text):
    status, written = jlint(command, text)
    if status != 0:
        sys.exit(f"{command}: status {status}, {written[:80]!r}")
    return written


def segments(mapped):
    """Of each segment its place in the rewritten script, the source's number and the place there."""
    lines = answer("unmap", mapped).decode().splitlines()
    return [line.split(" ") for line in lines]


def looked_up(mapped, places):
    with tempfile.NamedTemporaryFile(suffix=".map") as file:
        file.write(mapped)
        file.flush()
        done = subprocess.run(["node", os.path.join(HERE, "source_maps.js"), file.name], input="\n".join(places).encode(),
                              capture_output=True, check=True)
    return done.stdout.decode().splitlines()


def units(line):
    """The line as UTF-16 units, of which columns count."""
    return line.encode("utf-16-le")


def hook_at(woven, place):
    line, column = (int(part) for part in place.split(":"))
    rest = units(woven[line - 1])[2 * (column - 1):].decode("utf-16-le")
    found = re.match(r"J\$\.\w+\((\d+)", rest)
    return int(found.group(1)) if found else None


def differing(name, script):
    """How many places of the map of a script differ, each with a line."""
    mapped = answer("srcmap", script)
    woven = answer("instrument", script).decode().split("\n")
    rows = dict(line.split(" ")[::2] for line in answer("map", script).decode().splitlines())
    listed = segments(mapped)
    told = looked_up(mapped, [segment[0] for segment in listed])
    count = 0
    for segment, others in zip(listed, told):
        own = f"script.js {segment[2]}"
        answers = {others} if others.count(" ") == 1 else {" ".join(others.split(" ")[:2]), " ".join(others.split(" ")[2:])}
        if answers != {own} or rows.get(str(hook_at(woven, segment[0]))) != segment[2]:
            print(f"{name}: {segment} is told as {others}")
            count += 1
    return len(listed), count


def names_line():
    """Whether a stack trace of a rewritten script names the line of the script."""
    script = THROWS.encode()
    with tempfile.TemporaryDirectory() as folder:
        files = {
            "script.js": script,
            "woven.js": answer("instrument", script) + b"//# sourceMappingURL=woven.js.map\n",
            "woven.js.map": answer("srcmap", script),
        }
        for name, text in files.items():
            with open(os.path.join(folder, name), "wb") as file:
                file.write(text)
        done = subprocess.run(["node", "--enable-source-maps", "--require", os.path.join(HERE, "global_hooks.js"), "woven.js"],
                              cwd=folder, capture_output=True, check=False)
    trace = done.stderr.decode()
    if "script.js:4" in trace and "script.js:7" in trace:
        return True
    print("no line of the script in the stack trace:\n" + trace)
    return False


def seconds(command, text):
    before = resource.getrusage(resource.RUSAGE_CHILDREN)
    answer(command, text)
    after = resource.getrusage(resource.RUSAGE_CHILDREN)
    return after.ru_utime + after.ru_stime - before.ru_utime - before.ru_stime


def times():
    """The greatest factor by which a command takes longer at a size than at the one before it."""
    worst, before = 0.0, None
    print(f"{'bytes':>9}{'instrument':>12}{'srcmap':>9}{'unmap':>9}")
    for size in SIZES:
        script = (UNIT * (size // len(UNIT))).encode()
        taken = [seconds("instrument", script), seconds("srcmap", script), seconds("unmap", answer("srcmap", script))]
        print(f"{size:9}{taken[0]:12.2f}{taken[1]:9.2f}{taken[2]:9.2f}", flush=True)
        if before:
            worst = max(worst, *(now / max(then, 0.02) for now, then in zip(taken, before)))
        before = taken
    return worst


def main():
    if not os.path.exists(PROGRAM):
        sys.exit("no " + PROGRAM + ": run rt ci first")
    bad = 0
    if shutil.which("node") is None:
        print("node is not installed: no map was read by it")
    else:
        scripts = sys.argv[1:] or sorted(glob.glob(os.path.join(TOP, "examples", "*.js")))
        read = looked = 0
        for name in scripts:
            with open(name, "rb") as file:
                script = file.read()
            if jlint("check", script)[0] == 0:
                found, differ = differing(name, script)
                read, looked, bad = read + 1, looked + found, bad + differ
        print(f"{read} scripts, {looked} segments: {bad} differ")
        bad += not names_line()
    worst = times()
    print(f"at most {worst:.1f} times as long for four times the bytes")
    return 1 if bad or worst > GROWS else 0


if __name__ == "__main__":
    sys.exit(main())
