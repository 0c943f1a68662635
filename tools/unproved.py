#!/usr/bin/env python3
"""Answers once by a program that is compiled without proofs: what `JLINT_UNPROVED=1 ./jlint WORDS..` runs.

usage: tools/unproved.py WORDS..

`rt try` compiles the crates, interprets the program for a while and runs it with checks; it keeps nothing, so each
call takes some minutes. That the answer is not that of the proved program is said on standard error each time."""

from __future__ import annotations

import os
import re
import shutil
import subprocess
import sys

TOP = os.path.dirname(os.path.dirname(os.path.abspath(__file__)))
ENDED = re.compile(rb"^run=ended status=(\d+) .*proved=no\s*\Z", re.M)
NOT_BUILT = 70


def say(text: str) -> None:
    print(f"jlint: {text}", file=sys.stderr, flush=True)


def main(words: list[str]) -> int:
    if shutil.which("rt") is None:
        say("the Rattle toolchain is missing: no rt on the path")
        return NOT_BUILT
    say("unproved: compiling without proofs for this one answer, which takes some minutes")
    command = ["rt", "try", "jlint", "--", *words]
    done = subprocess.run(command, cwd=os.path.join(TOP, "crates", "jlint"), stderr=subprocess.PIPE, check=False)
    ended = ENDED.search(done.stderr)
    if ended is None:
        sys.stderr.buffer.write(done.stderr)
        say("unproved: no answer")
        return NOT_BUILT
    say("unproved: this is the answer of a program that nothing was proved of")
    return int(ended[1])


if __name__ == "__main__":
    sys.exit(main(sys.argv[1:]))
