#!/usr/bin/env python3
"""Deep scripts for the parser: the rows of jl_parse_depths, and the stack that it takes for them.

`bench/depths.py --rows` writes the rows to standard output, each with the answer that is due by the height of its form.
Without it, run at the top of the repository after `rt run` (or `rt run --backend rattle`) in crates/jl_parse_depths, it
takes for each form at the limit the least stack, in kB, with which the program does not end by a signal, and what that
is a level."""

import os
import resource
import subprocess
import sys

PROGRAM = os.path.join("crates", "jl_parse_depths", "out", "jl_parse_depths")
LIMITS = (200, 1000)

# How an operand goes on: each adds one level.
LINKS = [".b", "()", "[0]", "+b", "&&b", ",b"]

# Brackets: before all, open, close, the levels that one adds, the levels of what stands before and round it.
BRACKETS = [
    ("", "(", ")", 0, 1),
    ("", "[", "]", 1, 1),
    ("x=", "{a:", "}", 1, 2),
    ("", "f(", ")", 1, 1),
    ("x=", "function(){return ", "}", 2, 2),
]

# Forms that stand in one another: before all, open, inside, close, the levels of what stands inside and before it; each
# adds one level.
CHAINS = [
    ("", "if(a)", ";", "", 1),
    ("", "if(a);else ", ";", "", 1),
    ("", "if(a){", ";", "}", 1),
    ("", "for(var a;;)", ";", "", 1),
    ("", "for(;;)", ";", "", 1),
    ("", "for(a in b)", ";", "", 1),
    ("", "while(a)", ";", "", 1),
    ("", "do ", ";", "while(a);", 1),
    ("", "l:", ";", "", 1),
    ("", "{", ";", "}", 1),
    ("", "function f(){", ";", "}", 1),
    ("", "try{", ";", "}catch(e){}", 1),
    ("", "try{", ";", "}finally{}", 1),
    ("", "switch(a){case 0:", ";", "}", 1),
    ("", "- ", "a", "", 2),
    ("", "new ", "a", "", 2),
    ("", "a=", "b", "", 2),
    ("", "a?", "b", ":c", 2),
    ("", "a?b:", "c", "", 2),
]


# Of these, 1,000 levels take more than 8 MB of stack as Rattle's own compiler builds the program. So the rows, which
# the gate runs by both builds, have them at 200 levels and at so many; a brace may be opened twice as often. At 1,000
# the gate hands them to LLVM's build alone.
FEWER = {
    "for(var a;;)": 700,
    "for(;;)": 700,
    "if(a){": 300,
    "try{": 300,
    "switch(a){case 0:": 300,
}


def row(limit, before, opening, opens, inside, link, links, closing, closes, accepted):
    fields = [limit, before, opening, opens, inside, link, links, closing, closes]
    return "|".join(map(str, fields)) + " => " + ("accepted" if accepted else "refused")


def bracket_rows(limit):
    for before, opening, closing, levels, round_it in BRACKETS:
        for link in LINKS:
            # A comma between elements, values and arguments is no operator, and a key is due after one in an object.
            row_of = (before, opening, link, closing)
            if link == ",b" and opening in ("[", "{a:", "f("):
                yield row(limit, before, opening, 168, "a", link, 195, closing, 0, False)
                continue
            yield row(limit, *row_of[:2], 168, "a", link, 195, closing, 168, False)
            yield row(limit, *row_of[:2], 168, "a", link, 195, closing, 84, False)
            yield row(limit, *row_of[:2], 168, "a", link, 195, closing, 0, False)
            # Twenty brackets of as many links as go into the limit, and then with one link more inside.
            links = (limit - 1 - round_it - 20 * levels) // 20
            height = round_it + 1 + 20 * (levels + links)
            yield row(limit, *row_of[:2], 20, "a", link, links, closing, 20, height <= limit)
            inside = "a" + link * (limit - height)
            yield row(limit, *row_of[:2], 20, inside, link, links, closing, 20, True)
            yield row(limit, *row_of[:2], 20, inside + link, link, links, closing, 20, False)


def chain_rows(limit):
    for before, opening, inside, closing, least in CHAINS:
        for count in (limit - least, limit - least + 1, 1200):
            accepted = count + least <= limit
            yield row(limit, before, opening, count, inside, "", 0, closing, count if closing else 0, accepted)
    for link in LINKS:
        for count in (limit - 2, limit - 1, 1200):
            yield row(limit, "", "", 0, "a", link, count, "", 1, count + 2 <= limit)
    for count in (2 * limit, 2 * limit + 1):
        yield row(limit, "", "(", count, "a", "", 0, ")", count, count <= 2 * limit)


def rows(limits):
    for limit in limits:
        yield f"-- limit {limit}"
        yield from bracket_rows(limit)
        yield from (line for line in chain_rows(limit) if limit == 200 or line.split("|")[2] not in FEWER)
    for limit in sorted({*FEWER.values()}):
        yield f"-- limit {limit}"
        yield from (line for line in chain_rows(limit) if FEWER.get(line.split("|")[2]) == limit)


def rows_built_once():
    """The rows at the upper limit that the gate answers as LLVM builds the program alone (tools/deep_rows.py)."""
    return [line for line in chain_rows(max(LIMITS)) if line.split("|")[2] in FEWER]


def runs(line, kilobytes):
    size = kilobytes * 1024

    def limit_stack():
        resource.setrlimit(resource.RLIMIT_STACK, (size, size))

    run = subprocess.run([PROGRAM], input=line + "\n", text=True, stdout=subprocess.DEVNULL, preexec_fn=limit_stack)
    return run.returncode == 0


def least_stack(line):
    low, high = 16, 16
    while not runs(line, high):
        low, high = high, 2 * high
    while high - low > 16:
        middle = (low + high) // 2
        low, high = (low, middle) if runs(line, middle) else (middle, high)
    return high


def measure():
    if not os.path.exists(PROGRAM):
        sys.exit("no " + PROGRAM + ": run `rt run` in crates/jl_parse_depths first")
    empty = least_stack(row(200, "", "", 0, ";", "", 0, "", 0, True))
    print(f"{'form':28}{'limit':>8}{'kB':>8}{'bytes a level':>16}")
    for limit in LIMITS:
        lines = list(chain_rows(limit)) + list(bracket_rows(limit))
        for line in lines:
            stack = least_stack(line)
            fields = line.split(" => ")[0].split("|")
            form = fields[2] + fields[5] + fields[7] + " x" + fields[3] + "," + fields[6]
            print(f"{form[:28]:28}{limit:>8}{stack:>8}{(stack - empty) * 1024 // limit:>16}")


if __name__ == "__main__":
    if "--rows" in sys.argv[1:]:
        print("\n".join(rows(LIMITS)))
    else:
        measure()
