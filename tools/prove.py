#!/usr/bin/env python3
"""Proves the crates of this clone side by side, as `rt ci` does, and keeps each library that it has proved.

usage: tools/prove.py [NAME..]                these crates and those below them; all of them where none is named
       tools/prove.py --programs [NAME..]     builds programs too, of what was checked, as `rt ci` of kit 13b does

A run that was ended, or in which a crate failed, is gone on with by the next: what is proved and unchanged is not proved
again, and `rt check` and `rt must-fail` of a crate above begin at once. What the check of a crate says stands in its
`out/prove.log`. It tries no edits and runs nothing, and is for work alone: the gate is `rt ci`. The status is 0 where
each crate is proved."""

import copy
import os
import sys
import threading
import time

from kit import below, rt, rtlib

TOP = os.path.dirname(os.path.dirname(os.path.abspath(__file__)))
PRINTING, BEGAN = threading.Lock(), time.monotonic()


def say(*words):
    """Prints a line that begins with the minutes since the start."""
    with PRINTING:
        print(f"{(time.monotonic() - BEGAN) / 60:6.1f}", *words, flush=True)


def prove(crate, jobs, builds):
    """The status of the check of a crate from nothing. A library stays, with the sum of what it was made from, and a
    program where it is built."""
    if builds and crate.is_program:
        return crate.ci(["--jobs", str(jobs)], False)
    if not crate.makes_rlib():
        return crate.prove(["check", *crate.words(["--jobs", str(jobs)], keeps=False)])
    made_from = crate.stamp()
    status = crate.build_rlib(["--jobs", str(jobs)], anew=True)
    if not status and made_from == crate.stamp():
        with open(f"{crate.folder}/out/rlib/stamp", "w", encoding="utf-8") as it:
            it.write(made_from)
    return status


def work(crate, given, jobs, builds):
    """Whether a crate is proved, once those below it have been looked at."""
    lacking = [it.name for it in below(crate) if not given[it.name, "proof"]]
    if lacking:
        say(f"{crate.name} waits for {lacking[0]}")
        return False
    if crate.makes_rlib() and crate.is_built():
        say(f"{crate.name} is kept")
        return True
    say(f"{crate.name} begins, jobs={jobs}")
    began, crate = time.monotonic(), copy.copy(crate)
    os.makedirs(f"{crate.folder}/out", exist_ok=True)
    with open(f"{crate.folder}/out/prove.log", "w", encoding="utf-8") as crate.out:
        status = rtlib.fmt(crate.folder, "--check", crate.out) or prove(crate, jobs, builds)
    say(f"{crate.name} {'NOT PROVED' if status else 'proved'}, {time.monotonic() - began:.0f} s")
    return not status


def main(words):
    builds, names = "--programs" in words, [it for it in words if it != "--programs"]
    os.chdir(TOP)
    rtlib.guarded()
    rtlib.Crate.cuts_libraries, rt.Crate.allowed, rtlib.stop = True, [], rt.stop
    if builds:
        rtlib.Crate = rt.Crate
    crates = [it for it in rtlib.crates_below(TOP) if it.folder.startswith(f"{TOP}/crates/")]
    wanted = {it.name for crate in crates if crate.name in names for it in [crate, *below(crate)]}
    crates = sorted((it for it in crates if not names or it.name in wanted), key=lambda it: len(below(it)))
    tasks = {}
    for crate in crates:
        waits = [(it.name, "proof") for it in below(crate)]
        call = lambda given, jobs, it=crate: work(it, given, jobs, builds)
        tasks[crate.name, "proof"] = (waits, crate.count(rb"\n"), rt.need(crate), call)
    proved = rt.in_lanes(tasks)
    say(f"{sum(proved.values())} of {len(proved)} proved")
    return 0 if all(proved.values()) else 1


if __name__ == "__main__":
    sys.exit(main(sys.argv[1:]))
