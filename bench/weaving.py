#!/usr/bin/env python3
"""Runs scripts in node as they stand, and as `jlint instrument` writes them with hooks of plain JavaScript beside them
(`bench/plain_hooks.js`), and compares what they print and how they end.

Run it at the top of the repository after `./jlint check < examples/closures.js`, with folders of scripts as arguments,
or with none for `examples/`; `--program FILE` names another jlint. Scripts that jlint refuses are left out, and so are
those that node does not end in 20 seconds in both forms. The hooks do what node does where they stand: a put or delete
that fails throws where the code that called the hook is strict. In both runs the text of a function is that of jlint,
since 15.3.4.2 leaves it to the implementation, and a woven function would show its hooks.

The exit status is 1 where node does not read a woven text, and where it prints something else or ends otherwise."""

import argparse
import json
import os
import shutil
import subprocess
import sys
import tempfile

TOP = os.path.dirname(os.path.dirname(os.path.abspath(__file__)))
PROGRAM = os.path.join(TOP, "crates", "jlint", "out", "jlint")
HOOKS = os.path.join(TOP, "bench", "plain_hooks.js")
SECONDS = 20


def woven(program, path):
    """What `instrument` writes for a script, or None where it is refused."""
    with open(path, "rb") as script:
        done = subprocess.run([program, "instrument"], stdin=script, capture_output=True, check=False)
    if done.returncode not in (0, 3):
        sys.exit(f"instrument ends with status {done.returncode} for {path}")
    return done.stdout if done.returncode == 0 else None


def ran(path):
    """What a script prints in node, and how it ends."""
    try:
        done = subprocess.run(["node", HOOKS, path], capture_output=True, timeout=SECONDS, check=False)
        return json.loads(done.stdout)
    except (subprocess.TimeoutExpired, json.JSONDecodeError):
        return None


def is_read(path):
    return subprocess.run(["node", "--check", path], capture_output=True, check=False).returncode == 0


def compared(program, path, at):
    """What comes of a script, whose woven text is written to the file `at`."""
    text = woven(program, path)
    if text is None:
        return "refused"
    with open(at, "wb") as file:
        file.write(text)
    if not is_read(at):
        return "not read"
    plain, other = ran(path), ran(at)
    if plain is None and other is None:
        return "not ended"
    return "alike" if plain == other else "differs"


def main():
    words = argparse.ArgumentParser(description=__doc__, formatter_class=argparse.RawDescriptionHelpFormatter)
    words.add_argument("--program", default=PROGRAM)
    words.add_argument("folders", nargs="*", default=[os.path.join(TOP, "examples")])
    given = words.parse_args()
    if shutil.which("node") is None:
        print("node is missing: nothing is compared")
        return 0
    if not os.path.exists(given.program):
        sys.exit("no " + given.program + ": run ./jlint first")
    paths = sorted(os.path.join(f, name) for f in given.folders for name in os.listdir(f) if name.endswith(".js"))
    counts = dict.fromkeys(("alike", "differs", "not read", "refused", "not ended"), 0)
    with tempfile.TemporaryDirectory() as room:
        for path in paths:
            found = compared(given.program, path, os.path.join(room, "woven.js"))
            counts[found] += 1
            if found in ("differs", "not read", "not ended"):
                print(f"{found}: {path}", flush=True)
    print(", ".join(f"{count} {found}" for found, count in counts.items()))
    return 1 if counts["differs"] or counts["not read"] else 0


if __name__ == "__main__":
    sys.exit(main())
