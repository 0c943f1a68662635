#!/usr/bin/env python3
"""Where `soak --number 8000` spends its time: the share of each part of jlint, by samples of `perf`.

Run it at the top of the repository after `./jlint check < examples/closures.js`; words after it are taken in place of
`soak --number 8000`, with standard input as the script. It is skipped where `perf` is missing. A sample counts for the
crate whose function was running, and not for its callers; what lets go of a tree, and what takes and gives back
memory, in the C library and in the kernel, count as parts of their own."""

import os
import re
import shutil
import subprocess
import sys
import tempfile

PROGRAM = os.path.join("crates", "jlint", "out", "jlint")
FREQUENCY = "2000"
PARTS = {
    "tokens": "jl_token jl_lex",
    "the tree, its numbers and its grammar": "jl_ast jl_grammar jl_parse jl_numbering",
    "early errors and names": "jl_scope",
    "weaving, and the map": "jl_weave jl_map jl_op",
    "printing": "jl_print",
    "texts and numbers": "jl_text jl_num jl_conv",
    "objects": "jl_heap jl_props jl_value",
    "checkers and the report": "jl_analysis jl_rules_type jl_rules_use jl_report",
    "commands": "jl_app jl_command jl_soak jl_port jlint",
}
PART_OF = {crate: part for part, crates in PARTS.items() for crate in crates.split()}
LINE = re.compile(r"^\s*([\d.]+)%\s+(\S+)\s+\[[.k]\]\s+(.*?)\s*$")


def part_of(library, symbol):
    """The part that a function belongs to."""
    if "Destruct" in symbol:
        return "letting go of trees and values"
    crate = symbol.split("::")[0]
    if crate in PART_OF:
        return PART_OF[crate]
    if crate.startswith("jl_"):
        return "the machine"
    if library != "jlint" or symbol == "rattle_alloc":
        return "copies of memory" if "memmove" in symbol or "memcpy" in symbol else "taking and giving back memory"
    return "Rattle's libraries"


def shares(words, samples):
    """The share of each part, in hundredths."""
    subprocess.run(
        ["perf", "record", "-q", "-e", "cpu-clock", "-F", FREQUENCY, "-o", samples, PROGRAM, *words],
        stdout=subprocess.DEVNULL, check=True,
    )
    report = subprocess.run(
        ["perf", "report", "-i", samples, "--stdio", "--no-children", "-F", "overhead,dso,symbol"],
        stdout=subprocess.PIPE, stderr=subprocess.DEVNULL, text=True, check=True,
    ).stdout
    found = {}
    for line in filter(None, map(LINE.match, report.splitlines())):
        part = part_of(line[2], line[3])
        found[part] = found.get(part, 0) + float(line[1])
    return found


def main():
    if shutil.which("perf") is None:
        print("no perf: skipped")
        return
    with tempfile.TemporaryDirectory() as room:
        found = shares(sys.argv[1:] or ["soak", "--number", "8000"], os.path.join(room, "samples"))
    for part, share in sorted(found.items(), key=lambda it: -it[1]):
        print(f"{share:6.1f} %  {part}")


if __name__ == "__main__":
    main()
