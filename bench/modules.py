#!/usr/bin/env python3
"""Which modules the prover made for each crate are the largest: what is dear in a proof, without another proof.

usage: bench/modules.py [--least MB] [NAME..]      all crates where none is named; modules of 1 MB and more, or of MB

It reads the libraries that a whole `rt ci` or `tools/prove.py` has left in this checkout. A line is a crate: how many
megabytes its modules have, how many modules there are, and how much of that is lifetimes (`Lts`), where each value
that is let go of stands with all paths of its variants; the lines after it are its largest modules. The lifetimes of a
function with answers by hand stand three times. Sizes rank the functions of one crate: in jl_heap a megabyte of
lifetimes took some eight processor seconds, in the walks over statements of jl_numbering less than one.
"""
import glob
import os
import sys

TOP = os.path.dirname(os.path.dirname(os.path.abspath(__file__)))


def modules(file):
    """The megabytes and the name of each module: a line has the name, and the next one the module."""
    with open(file, encoding="utf-8") as lines:
        name = None
        for line in lines:
            if line.startswith('"'):
                name = line.strip().strip('"')
            else:
                yield len(line) / 1e6, name


def is_lifetimes(name):
    return any(part.startswith("Lts") for part in name.split("/"))


def main(words):
    least = 1.0
    if "--least" in words:
        at = words.index("--least")
        least, words = float(words[at + 1]), words[:at] + words[at + 2 :]
    if any(word.startswith("-") for word in words):
        print(__doc__)
        return 2
    for name in words or sorted(os.listdir(os.path.join(TOP, "crates"))):
        for file in glob.glob(os.path.join(TOP, "crates", name, "out", "rlib", "*.rlib", "lang", "antt", "made.json")):
            found = sorted(modules(file), reverse=True)
            lifetimes = sum(size for size, module in found if is_lifetimes(module))
            whole = sum(size for size, _ in found)
            print(f"{name}: {whole:.1f} MB, {len(found)} modules, lifetimes {lifetimes:.1f} MB")
            for size, module in found:
                if size >= least:
                    print(f"{size:8.1f}  {module}")
    return 0


if __name__ == "__main__":
    sys.exit(main(sys.argv[1:]))
