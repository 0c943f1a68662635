#!/usr/bin/env python3
"""Prints the path of the program jlint, which it proves and builds first where that was not done for these sources.

usage: tools/program.py
       tools/program.py --gate-begins         prints a note of the sources, for the next
       tools/program.py --gate-passed NOTE    takes the program that `rt ci` has built in this clone since that note

The program is `out/jlint` at the top of the clone, beside the sum of the sources that it was made from. Where the sum
is another, the program is looked for among the last ones of this machine, which all clones share (tools/shared.py), and
among what the kit has kept: kit 13f keeps what `rt ci` and `rt ci NAME` prove, by the sums of all that they read. What
is missing `rt ci jlint` proves there, and tools/prove.py with a kit that keeps nothing. Both work on a copy: nothing in
`crates` is touched. One call in a clone works at a time, and the next ones wait.

`.ci/run` hands over what it has built. That is taken where no source file was written since the gate began, not even
with what it had before, so that it was made from the sources that are there.

How far the proofs are is said on standard error every half minute. The status is 0, or 70 where there is no program."""

from __future__ import annotations

import contextlib
import json
import os
import shutil
import signal
import subprocess
import sys

from kept_program import KeptProgram
from proving import Proving, prove_aside
from shared import SharedPrograms, cache_folder, locked
from sources import Seen, contents, listing, look, stamp_of, sum_of

TOP = os.path.dirname(os.path.dirname(os.path.abspath(__file__)))
OUT = os.path.join(TOP, "out")
PROGRAM, STATE, LOG, WORKING, INSTALLING = (
    os.path.join(OUT, name) for name in ("jlint", "jlint.json", "jlint.log", "jlint.lock", "install.lock")
)
OF_GATE = os.path.join(TOP, "crates", "jlint", "out", "jlint")
NO_PROGRAM, BAD_WORDS = 70, 2


def say(text: str) -> None:
    print(f"jlint: {text}", file=sys.stderr, flush=True)


def read_state() -> dict[str, str]:
    try:
        with open(STATE, encoding="utf-8") as file:
            state = json.load(file)
        return state if isinstance(state, dict) else {}
    except (OSError, ValueError):
        return {}


def write_state(seen: Seen, program_sum: str) -> None:
    made = f"{STATE}.{os.getpid()}"
    with open(made, "w", encoding="utf-8") as file:
        json.dump({**seen._asdict(), "program": program_sum}, file)
    os.replace(made, STATE)


def is_current() -> bool:
    """Whether the program was made from the sources that are there."""
    return os.access(PROGRAM, os.X_OK) and read_state().get("listing") == listing(TOP)


def is_only_touched() -> bool:
    """Whether the program was made from such sources, though files were touched, which is noted where that can be."""
    state, seen = read_state(), look(TOP)
    if state.get("contents") != seen.contents or not os.access(PROGRAM, os.X_OK):
        return False
    if state.get("program") != sum_of(PROGRAM):
        return False
    with contextlib.suppress(OSError), locked(INSTALLING):
        if read_state() == state:
            write_state(seen, state["program"])
    return True


def install(made: str, seen: Seen) -> bool:
    """Puts a program in its place and among those that all clones share, unless the sources changed since they were
    seen, and answers whether it did."""
    new = f"{PROGRAM}.{os.getpid()}"
    with locked(INSTALLING):
        if look(TOP) != seen:
            return False
        shutil.copyfile(made, new)
        os.chmod(new, 0o755)
        program_sum = sum_of(new)
        os.replace(new, PROGRAM)
        write_state(seen, program_sum)
    try:
        SharedPrograms(seen.contents).keep(PROGRAM)
    except OSError as error:
        say(f"other clones won't find the program: {error}")
    return True


def build() -> bool:
    """Makes the program, and answers whether there is one."""
    if is_current() or is_only_touched():
        return True
    if shutil.which("rt") is None:
        say("not built yet, and the Rattle toolchain is missing: no rt on the path")
        return False
    seen, kept = look(TOP), KeptProgram(TOP)
    made = SharedPrograms(seen.contents).find() or kept.find()
    if made is None and kept.has_store:
        say_proving()
        made = kept.find() if Proving(TOP, LOG).run(["rt", "ci", "jlint"]) == 0 else None
    if made is not None or kept.has_store:
        return install_or_say(made, seen)
    # All clones prove in one copy: what one of them has proved of the same text no other proves again.
    waits = "waiting for a ./jlint in another clone, which proves and builds"
    with locked(os.path.join(cache_folder(), "copy.lock"), lambda: say(waits)) as lock:
        seen = look(TOP)
        made = SharedPrograms(seen.contents).find()
        if made is None:
            say_proving()
            made = prove_aside(TOP, LOG, os.path.join(cache_folder(), "copy"), lock)
        return install_or_say(made, seen)


def install_or_say(made: str | None, seen: Seen) -> bool:
    """Installs what was made, or says why it does not; answers whether it did."""
    if made is None:
        say(f"not built; the end of {LOG}:")
        with contextlib.suppress(OSError), open(LOG, encoding="utf-8", errors="replace") as file:
            sys.stderr.writelines(file.readlines()[-5:])
        return False
    if not install(made, seen):
        say("sources changed while they were proved: run it again")
        return False
    return True


def say_proving() -> None:
    say(f"proving and building, which may take an hour or more; the log is {LOG}")


def note_of_gate() -> str:
    """What a gate that begins has to know at its end: the sources, and the program that an earlier one left."""
    return " ".join([*look(TOP), stamp_of(OF_GATE)])


def take_from_gate(note: str) -> None:
    """Installs the program that a gate has built, if it was made from the sources that are there."""
    *sums, left = note.split() or [""]
    if len(sums) != 2 or stamp_of(OF_GATE) in ("none", left):
        say("this run has left no new program for ./jlint")
    elif install(OF_GATE, Seen(*sums)):
        say("./jlint runs the program that this run has proved and built")
    else:
        say("./jlint does not take what this run has built: source files were written or linked meanwhile")


def end_on_signals() -> None:
    """Has a signal end what this began too."""
    for number in (signal.SIGTERM, signal.SIGHUP):
        signal.signal(number, lambda number, _: sys.exit(128 + number))


def print_program() -> int:
    """Prints the path of the program, which is built first where it has to be, and answers the status."""
    if not (is_current() or is_only_touched()):
        with locked(WORKING, lambda: say("waiting for another ./jlint in this clone, which proves and builds")):
            if not build():
                return NO_PROGRAM
    print(PROGRAM)
    return 0


def main(words: list[str]) -> int:
    end_on_signals()
    try:
        if not words:
            return print_program()
        if words == ["--gate-begins"]:
            print(note_of_gate())
        elif len(words) == 2 and words[0] == "--gate-passed":
            take_from_gate(words[1])
        else:
            print(__doc__, file=sys.stderr)
            return BAD_WORDS
    except (OSError, subprocess.SubprocessError) as error:
        say(f"no program: {error}")
        return NO_PROGRAM
    except KeyboardInterrupt:
        say("interrupted; what was proved so far is kept")
        return NO_PROGRAM
    return 0


if __name__ == "__main__":
    sys.exit(main(sys.argv[1:]))
