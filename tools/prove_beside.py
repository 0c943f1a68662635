#!/usr/bin/env python3
"""Proves the crates of this clone beside a run of tools/prove.py in another clone, whose libraries it takes where it can.

usage: tools/prove_beside.py [--lanes N] CLONE [NAME..]     these crates and those below them; all where none is named

A crate whose text, and that of all crates below, is that of CLONE is not proved here: its library is linked as soon as
it is proved there, so that two branches share the proofs of what they have in common. Of the others N are proved at once
(2 where it is not said), those with the longest chain of crates above first. What a crate's check says stands in its
`out/prove.log`, and what was proved and has not changed since is kept, as by tools/prove.py. The status is 0 where each
crate is proved. Give the run in CLONE the processors first, by `nice`."""

import argparse
import copy
import os
import shutil
import subprocess
import sys
import threading
import time

from kit import below, rt, rtlib
from prove import prove, say

TOP = os.path.dirname(os.path.dirname(os.path.abspath(__file__)))
SECONDS = 5


class Lanes:
    """So many proofs at once, of those that wait the one with the greatest weight first."""

    def __init__(self, count):
        self.free, self.waiting, self.changed = count, [], threading.Condition()

    def take(self, weight):
        with self.changed:
            self.waiting.append(weight)
            self.changed.wait_for(lambda: self.free and weight == max(self.waiting))
            self.waiting.remove(weight)
            self.free -= 1
            self.changed.notify_all()

    def give(self):
        with self.changed:
            self.free += 1
            self.changed.notify_all()


class Beside:
    """The crates of this clone, beside another one."""

    def __init__(self, clone, lanes, crates):
        self.clone, self.lanes, self.alike = os.path.abspath(clone), Lanes(lanes), {}
        self.weights = {crate.name: crate.count(rb"\n") for crate in crates}
        for crate in reversed(crates):
            for it in below(crate):
                self.weights[it.name] = max(self.weights[it.name], self.weights[crate.name] + it.count(rb"\n"))

    def is_alike(self, crate):
        """Whether a crate and all below it have the text that they have in the other clone."""
        if crate.name not in self.alike:
            same = texts(crate.folder) == texts(f"{self.clone}/crates/{crate.name}")
            self.alike[crate.name] = same and all(self.is_alike(it) for it in below(crate))
        return self.alike[crate.name]

    def link(self, crate):
        """Waits until the other clone has the library of a crate, and links it."""
        there, here = (f"{folder}/out/rlib" for folder in (f"{self.clone}/crates/{crate.name}", crate.folder))
        while rtlib.text_of(f"{there}/stamp") != crate.stamp():
            time.sleep(SECONDS)
        shutil.rmtree(here, ignore_errors=True)
        os.makedirs(os.path.dirname(here), exist_ok=True)
        subprocess.run(["cp", "-al", there, here], check=True)
        say(f"{crate.name} is that of {self.clone}")

    def work(self, crate, given):
        """Whether a crate is proved, once those below it have been looked at."""
        if not all(given[it.name] for it in below(crate)):
            say(f"{crate.name} waits for a crate below it")
            return False
        if crate.makes_rlib() and crate.is_built():
            return True
        if self.is_alike(crate) and crate.makes_rlib():
            self.link(crate)
            return True
        self.lanes.take((self.weights[crate.name], crate.name))
        try:
            return checked(crate)
        finally:
            self.lanes.give()


def texts(folder):
    """The files of a crate by their paths in it."""
    found = {}
    for file in rtlib.files_of(folder):
        with open(file, "rb") as it:
            found[file.replace(folder, "")] = it.read()
    return found


def checked(crate):
    """Whether the check of a crate passes, whose library then stays."""
    say(f"{crate.name} begins")
    began, crate = time.monotonic(), copy.copy(crate)
    os.makedirs(f"{crate.folder}/out", exist_ok=True)
    with open(f"{crate.folder}/out/prove.log", "w", encoding="utf-8") as crate.out:
        status = rtlib.fmt(crate.folder, "--check", crate.out) or prove(crate, 1, False)
    say(f"{crate.name} {'NOT PROVED' if status else 'proved'}, {time.monotonic() - began:.0f} s")
    return not status


def main():
    words = argparse.ArgumentParser(description=__doc__, formatter_class=argparse.RawDescriptionHelpFormatter)
    words.add_argument("--lanes", type=int, default=2)
    words.add_argument("clone")
    words.add_argument("names", nargs="*")
    asked = words.parse_args()
    os.chdir(TOP)
    # (a crate that waits for the other clone takes no processor, so all tasks are begun as soon as they can be)
    os.environ["RT_JOBS"] = "1000"
    rtlib.guarded()
    rtlib.Crate.cuts_libraries, rt.Crate.allowed, rtlib.stop = True, [], rt.stop
    crates = [it for it in rtlib.crates_below(TOP) if it.folder.startswith(f"{TOP}/crates/")]
    wanted = {it.name for crate in crates if crate.name in asked.names for it in [crate, *below(crate)]}
    crates = sorted((it for it in crates if not wanted or it.name in wanted), key=lambda it: len(below(it)))
    beside = Beside(asked.clone, asked.lanes, crates)
    tasks = {crate.name: ([it.name for it in below(crate)], beside.weights[crate.name], 0,
                          lambda given, _jobs, it=crate: beside.work(it, given)) for crate in crates}
    proved = rt.in_lanes(tasks)
    say(f"{sum(proved.values())} of {len(proved)} proved")
    return 0 if all(proved.values()) else 1


if __name__ == "__main__":
    sys.exit(main())
