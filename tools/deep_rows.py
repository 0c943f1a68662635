#!/usr/bin/env python3
"""Hands the built program deep sources, and looks at what it answers.

usage: tools/deep_rows.py [PROGRAM]      PROGRAM is ./jlint at the top where none is given

The forms are those of bench/depths.py: those that stand in one another, and operands that go on, once in each kind of
bracket. `exec`, which reads 1,000 levels, refuses 1,200 of each as Unreadable, whole and without its end; `check`,
which reads 200, accepts 150 of those that are no higher, and refuses the others so. Where jl_parse_depths is built, it
is handed its rows at 1,000 levels that only LLVM's build of it answers. Ends with status 1 where a source is answered
otherwise.
"""
import os
import subprocess
import sys

from rows import answer

TOP = os.path.dirname(os.path.dirname(os.path.abspath(__file__)))
sys.path.insert(0, os.path.join(TOP, 'bench'))
from depths import BRACKETS, CHAINS, LINKS, rows_built_once  # noqa: E402

MANY, FEW, LIMIT = 1200, 150, 200
PARSER = os.path.join(TOP, 'crates', 'jl_parse_depths', 'out', 'jl_parse_depths')
REFUSED = b'jlint: refused Unreadable at '


def opened(opening, count):
    """What opens so many levels, with a label of its own for each."""
    return ''.join(f'l{at}:' for at in range(count)) if opening == 'l:' else opening * count


def chained(chain, count):
    """So many of a form in one another: the source, the source without its end, and its height."""
    before, opening, inside, closing, least = chain
    begun = before + opened(opening, count)
    return begun + inside + closing * count, begun, count + least


def bracketed(bracket, link, count):
    """The same of brackets, each of which has an operand within that goes on once. It has no height where it is no
    program."""
    before, opening, closing, levels, around = bracket
    begun = before + opening * count + 'a'
    # a comma is an operator within parentheses and functions alone, and a key is due after one in an object
    links = 0 if link == ',b' and opening in ('[', 'f(') else 1
    height = None if link == ',b' and opening == '{a:' else around + 1 + count * (levels + links)
    return begun + (link + closing) * count, begun + link, height


def sources(count):
    """The name of each form, and what `chained` and `bracketed` give of it."""
    for chain in CHAINS:
        yield f'{chain[1]}{chain[3]}', chained(chain, count)
    for bracket in BRACKETS:
        for link in LINKS:
            yield f'{bracket[1]}{link}{bracket[2]}', bracketed(bracket, link, count)


def is_refused(program, command, source):
    status, written = answer(program, [command], source.encode())
    return status == 3 and written.startswith(REFUSED) and written.count(b'\n') == 1


def is_accepted(program, source):
    functions = source.count('function')
    return answer(program, ['check'], source.encode()) == (0, b'jlint: accepted functions=%d\n' % functions)


def is_parsed(row):
    """Whether jl_parse_depths, as LLVM builds it, answers a row of its own as due."""
    ran = subprocess.run([PARSER], input=row + '\n', text=True, capture_output=True, check=False)
    return ran.returncode == 0 and ran.stdout == '1 rows, of which 0 are answered otherwise\n'


def main():
    program = sys.argv[1] if len(sys.argv) > 1 else os.path.join(TOP, 'jlint')
    rows, differ = 0, 0
    told = []
    for name, (whole, cut, _) in sources(MANY):
        told.append((f'exec of {MANY} of {name}', is_refused(program, 'exec', whole)))
        told.append((f'exec of {MANY} of {name} without their end', is_refused(program, 'exec', cut)))
    for name, (whole, _, height) in sources(FEW):
        low = height is not None and height <= LIMIT
        right = is_accepted(program, whole) if low else is_refused(program, 'check', whole)
        told.append((f'check of {FEW} of {name}', right))
    if os.path.exists(PARSER):
        told += [(f'jl_parse_depths of {row}', is_parsed(row)) for row in rows_built_once()]
    for row, right in told:
        rows += 1
        if not right:
            differ += 1
            print(f'{row} is answered otherwise')
    print(f'{rows - differ} of {rows} deep sources are answered as due')
    return 1 if differ else 0


if __name__ == '__main__':
    sys.exit(main())
