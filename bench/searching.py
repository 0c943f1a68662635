#!/usr/bin/env python3
"""What a search in a text takes: `indexOf`, `lastIndexOf` and `split` by a part of n units in a text of 2n, for n from 2^15
to 2^19, with texts and parts that differ late or repeat themselves; and how many times as much a search takes where n is
twice as great.

usage: bench/searching.py [PROGRAM]      JLINT names the program, or the argument, or else the one of this clone is taken

A script makes as many searches as go over 2^22 units together, and what the same script takes without a search is taken
off. Each of the two is run eight times, all sizes in turn, and its fastest run counts, so that what else the machine does
for a while spoils no size. A search is judged by the mean ratio of doubling, from the smallest n to the greatest: what is
linear gives about 2, what is quadratic about 4. Where one gives more than 2.2 or a script takes longer than a minute, the
exit status is 1."""

import sys

from measuring import BUDGET, named_program, once

LIMIT = 2.2
SIZES = [2 ** power for power in range(15, 20)]
UNITS = 2 ** 22
SECONDS = 60.0
ROUNDS = 8
# the text, of 2n units, and the part, of n
FORMS = [
    ("b at the end", "'a'", "t.slice(0, n - 1) + 'b'"),
    ("b at the start", "'a'", "'b' + t.slice(0, n - 1)"),
    ("b in the middle", "'a'", "t.slice(0, n / 2) + 'b' + t.slice(0, n / 2 - 1)"),
    ("pairs", "'ab'", "t.slice(0, n - 1) + 'a'"),
    ("blocks", "'aaaaaaaaaaaaaaab'", "t.slice(0, n - 1) + 'a'"),
    ("Fibonacci word", "fibonacci(2 * n)", "t.slice(0, n - 1) + 'c'"),
    ("Fibonacci word behind c", "fibonacci(2 * n)", "'c' + t.slice(0, n - 1)"),
]
CALLS = [("indexOf", "t.indexOf(p)"), ("lastIndexOf", "t.lastIndexOf(p)"), ("split", "t.split(p).length")]
SCRIPT = """var n = {n}, turns = {turns}, found = 0, t, p;
function fibonacci(size) {{
    var short = 'a', long = 'ab', next;
    while (long.length < size) {{ next = long + short.slice(0, size - long.length); short = long; long = next; }}
    return long.slice(0, size);
}}
t = {text};
while (t.length < 2 * n) {{ t = t + t; }}
p = {part};
while (turns--) {{ found = found + {call}; }}
print(t.length, p.length, found);
"""


def seconds(command, n, turns, form, call):
    """What a script takes that makes so many searches. Each of them finds nothing, so that their sum is known."""
    _, text, part = form
    ran = once(command, SCRIPT.format(n=n, turns=turns, text=text, part=part, call=call[1]))
    due = f"{2 * n} {n} {turns if call[0] == 'split' else -turns}"
    if ran.output.split("\n", 1)[0] != due:
        sys.exit(f"{call[0]}, {form[0]}, {n}: {ran.output} in place of {due}")
    return ran.seconds


def costs(command, form, call):
    """The milliseconds of a search at each size, up to one at which a script takes too long."""
    sizes, fastest = SIZES, {}
    for _ in range(ROUNDS):
        for n in sizes:
            pair = [seconds(command, n, turns, form, call) for turns in (UNITS // n, 0)]
            fastest[n] = [min(both) for both in zip(pair, fastest.get(n, pair))]
            if pair[0] > SECONDS:
                sizes = [it for it in sizes if it <= n]
                break
    return [max(1e3 * (fastest[n][0] - fastest[n][1]) * n / UNITS, 1e-3) for n in sizes]


def main():
    command, worst = [named_program(), "run", *BUDGET], 0.0
    print(f"{'milliseconds of a search':37}" + "".join(f"{n:>9}" for n in SIZES) + "  ratio of doubling")
    for call in CALLS:
        for form in FORMS:
            found = costs(command, form, call)
            ratio = (found[-1] / found[0]) ** (1 / max(len(found) - 1, 1))
            short = len(found) < len(SIZES)
            told = "  too long" if short else "  above the limit" if ratio > LIMIT else ""
            print(f"{call[0]:12}{form[0]:25}" + "".join(f"{it:9.2f}" for it in found) + f"{ratio:9.2f}{told}", flush=True)
            worst = max(worst, LIMIT + 1 if short else ratio)
    return 1 if worst > LIMIT else 0


if __name__ == "__main__":
    sys.exit(main())
