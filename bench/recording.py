#!/usr/bin/env python3
"""Bytes and time an operation of `record` and `replay`, and both against `lint` of the same script.

usage: bench/recording.py [PROGRAM]      JLINT names the program, or the argument, or else the one of this clone is taken

Runs a loop with some 10^4, 10^5 and 10^6 operations. For each it prints the number of operations, the bytes of the
record for each, the microseconds of the processor that `record` and `replay` take for each, and the ratios of their times
to that of `lint`. Each command is run eight times, all sizes in turn, and its fastest run counts; what it takes for a loop
without a turn is taken off. The status is 1 where the bytes or the time of an operation differ by more than a fifth
between two sizes."""

import sys

from measuring import BUDGET, named_program, once

TURNS = [1_000, 10_000, 100_000]
SCRIPT = "var sum = 0; for (var i = 0; i < {}; i++) {{ sum = sum + i; }}\n"
ROUNDS = 8
COUNTED = ("bytes", "record", "replay")


def run(program, words, text):
    """The seconds that a command takes for a text, and its output."""
    done = once([program, *words], text)
    if done.status > 1:
        sys.exit(f"{words[0]}: status {done.status}: {done.output[-200:]!r}")
    return done.seconds, done.output


def operations(record):
    """How many operations a record has."""
    return next(int(line[4:]) for line in record.split("\n") if line.startswith("ops "))


def fastest(program):
    """For no turn and each number of turns the record, and the seconds of its `lint`, `record` and `replay`."""
    found = {}
    for _ in range(ROUNDS):
        for turns in [0, *TURNS]:
            script = SCRIPT.format(turns)
            linting, _ = run(program, ["lint", *BUDGET], script)
            recording, record = run(program, ["record", *BUDGET], script)
            replaying, _ = run(program, ["replay"], record)
            spent = [linting, recording, replaying]
            found[turns] = record, [min(both) for both in zip(spent, found.get(turns, (record, spent))[1])]
    return found


def main():
    found = fastest(named_program())
    empty, begun = found.pop(0)
    rows = []
    for record, spent in found.values():
        count = operations(record) - operations(empty)
        lint, recording, replaying = (took - start for took, start in zip(spent, begun))
        rows.append(((len(record) - len(empty)) / count, 1e6 * recording / count, 1e6 * replaying / count))
        print(f"{count:>9} operations: {rows[-1][0]:.1f} bytes, record {rows[-1][1]:.2f} us, replay {rows[-1][2]:.2f} us "
              f"each; against lint: record {recording / lint:.2f}, replay {replaying / lint:.2f}")
    uneven = [name for name, each in zip(COUNTED, zip(*rows)) if max(each) > 1.2 * min(each)]
    for name in uneven:
        print(f"uneven: {name}")
    return 1 if uneven else 0


if __name__ == "__main__":
    sys.exit(main())
