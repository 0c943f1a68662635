#!/usr/bin/env python3
"""Gives a clone the libraries that a run of `rt ci` has proved in another, so that `rt check` there does not prove them again.

usage: tools/borrow.py FROM [CRATE ..]      in the clone that is to get them; all crates that FROM has where none is named

FROM is a clone in which a whole `rt ci` runs, or has run, of the same text of these crates; or the word `kept`, for what
runs of `rt ci` and `rt ci NAME` have kept on this machine, of each crate the library that was kept last. What `rt ci`
leaves in a clone are the statements of each library without its proofs, and no stamp, so other commands build their
own. This links them and writes the stamp. It is for work alone: no verdict rests on it, and the gate proves all again.
Libraries fit together only where each was proved over the others, so take all from one run, or of one text."""

import glob
import json
import os
import shutil
import subprocess
import sys

from kit import rtlib

TOP = os.path.dirname(os.path.dirname(os.path.abspath(__file__)))
KEPT = os.path.join(os.path.dirname(rtlib.KIT), "rattle-kept")


def link_kept(name, out):
    """Links the library of a crate that was kept last, and answers whether there is one."""
    found = sorted(glob.glob(os.path.join(KEPT, f"proof-{name}-*")), key=os.path.getmtime)
    if not found:
        return False
    with open(os.path.join(found[-1], "made.json"), encoding="utf-8") as it:
        files = json.load(it)["files"]
    for number, (file, _sum) in enumerate(files):
        # (of a program what two compilers made is kept, which no crate stands on)
        if file.startswith("rlib/"):
            place = os.path.join(out, file)
            os.makedirs(os.path.dirname(place), exist_ok=True)
            os.link(os.path.join(found[-1], str(number)), place)
    return os.path.isdir(os.path.join(out, "rlib"))


def link_from(clone, name, out):
    """Links the library of a crate in another clone, and answers whether there is one."""
    given = os.path.join(clone, "crates", name, "out", "rlib")
    if not os.path.isdir(given):
        return False
    subprocess.run(["cp", "-al", given, out], check=True)
    return True


def borrow(source, crate):
    """Links one library, and answers whether the kit takes it for built."""
    name, out = os.path.basename(crate.folder), os.path.join(crate.folder, "out")
    os.makedirs(out, exist_ok=True)
    for part in ("rlib", "incremental"):
        shutil.rmtree(os.path.join(out, part), ignore_errors=True)
    if not (link_kept(name, out) if source == "kept" else link_from(source, name, out)):
        return False
    stamp = os.path.join(out, "rlib", "stamp")
    if os.path.exists(stamp):
        os.remove(stamp)
    with open(stamp, "w", encoding="utf-8") as file:
        file.write(crate.stamp())
    return crate.is_built()


def main():
    if len(sys.argv) < 2:
        sys.exit(__doc__)
    source, names = sys.argv[1], set(sys.argv[2:])
    source = source if source == "kept" else os.path.abspath(source)
    os.chdir(TOP)
    crates = [crate for crate in rtlib.crates_below(TOP) if crate.folder.startswith(TOP + os.sep)]
    for crate in crates:
        name = os.path.basename(crate.folder)
        if not names or name in names:
            print(name, "built" if borrow(source, crate) else "not there")


if __name__ == "__main__":
    main()
