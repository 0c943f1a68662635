#!/usr/bin/env python3
"""The kit's `rt`, which looks at each library once.

usage: tools/kit.py WORDS..      as rt WORDS

Some kits sum up the files of a crate's libraries along each way that leads to them, which takes minutes for the upper
crates. It is for work alone: the gate is `rt ci`."""

import hashlib
import importlib.machinery
import importlib.util
import os
import shutil
import sys

FOLDER = os.path.dirname(os.path.realpath(shutil.which("rt") or "/opt/rattle/bin/rt"))


def load(name):
    """The kit's file of this name as a module."""
    loader = importlib.machinery.SourceFileLoader(name, os.path.join(FOLDER, name if name == "rt" else f"{name}.py"))
    made = importlib.util.module_from_spec(importlib.util.spec_from_loader(name, loader))
    loader.exec_module(made)
    return made


rt = load("rt")
rtlib = rt.rtlib
BELOW, SUMS = {}, {}


def below(crate):
    """The libraries of the repository below a crate, each after those that it uses."""
    if crate.folder not in BELOW:
        found = []
        for dep in crate.deps:
            found += [it for it in [*below(dep), dep] if it not in found]
        BELOW[crate.folder] = found
    return BELOW[crate.folder]


def sum_of(crate):
    if crate.folder not in SUMS:
        SUMS[crate.folder] = stamp(crate)
    return SUMS[crate.folder]


def stamp(crate):
    """The sum of all that a crate is made from. Its own files are read anew, those of its libraries once."""
    total = hashlib.sha256(repr((crate.said, crate.has_c)).encode())
    with open(f"{rtlib.KIT}/WHAT", "rb") as it:
        total.update(it.read())
    for file in rtlib.files_of(crate.folder):
        with open(file, "rb") as it:
            total.update(repr((file.replace(crate.folder, ""), it.read())).encode())
    total.update(repr([sum_of(dep) for dep in crate.deps]).encode())
    return total.hexdigest()


rtlib.Crate.below, rtlib.Crate.stamp = below, stamp

if __name__ == "__main__":
    sys.exit(rt.main(sys.argv[1:]))
