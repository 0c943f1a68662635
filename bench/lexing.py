#!/usr/bin/env python3
"""Times of lexing: four kinds of source at 64 KiB, 256 KiB and 1 MiB, and the ratios from each size to the next.

Run it at the top of the repository after `tools/programs.py jl_lex_bench`. A step of four in size should cost at most five
in time."""

import os
import subprocess
import sys
import time

PROGRAM = os.path.join("programs", "out", "jl_lex_bench")
SIZES = [64 * 1024, 256 * 1024, 1024 * 1024]
KINDS = {
    "names and punctuators": "if (first.second[third] >>>= fourth) { fifth(sixth, seventh); }\n",
    "numbers": "x = 0x1fffff + 9007199254740991 * 12.000 - 1500e-2;\n",
    "strings": "s = \"some text with an \\u0041 escape\" + 'and another\\n one';\n",
    "comments and space": "  // what stands on this line\n\t/* and on\n these */ a\n",
}


def seconds(source, turns):
    """The least of five runs, without the time of reading the source."""
    best = None
    for _ in range(5):
        times = []
        for count in (0, turns):
            start = time.perf_counter()
            subprocess.run([PROGRAM, str(count)], input=source, stdout=subprocess.DEVNULL, check=True)
            times.append(time.perf_counter() - start)
        spent = (times[1] - times[0]) / turns
        best = spent if best is None else min(best, spent)
    return best


def main():
    if not os.path.exists(PROGRAM):
        sys.exit("no " + PROGRAM + ": run tools/programs.py jl_lex_bench first")
    print(f"{'kind':24}{'64 KiB':>12}{'256 KiB':>12}{'1 MiB':>12}{'ratios':>16}")
    for kind, line in KINDS.items():
        found = []
        for size in SIZES:
            source = (line * (size // len(line))).encode()
            found.append(seconds(source, 20 * SIZES[-1] // size))
        times = "".join(f"{1000 * spent:9.2f} ms" for spent in found)
        print(f"{kind:24}{times}{found[1] / found[0]:8.2f}{found[2] / found[1]:8.2f}")


main()
