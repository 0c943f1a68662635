#!/usr/bin/env python3
"""Puts the wrong definitions of tools/standard/wrong.txt into a clone, or says which of them the rows notice.

usage: tools/wrong.py put CLONE           changes the code of a clone; the program is then built there unproved
       tools/wrong.py seen PROGRAM        runs the rows of examples/standard.txt by that program

All of them go into one program, since each has a row of its own, which has to be answered otherwise than is due.
Ends with status 1 where one could not be put, or is not noticed.
"""
import os
import re
import sys

import rows

TOP = os.path.dirname(os.path.dirname(os.path.abspath(__file__)))


def wrong_definitions():
    """The blocks of the file, each as its fields by name."""
    with open(os.path.join(TOP, 'tools', 'standard', 'wrong.txt'), encoding='utf-8') as file:
        blocks = re.split(r'\n\n', file.read())
    fields = [dict(line.split(': ', 1) for line in block.splitlines() if not line.startswith('--')) for block in blocks]
    return [it for it in fields if it]


def plain(text):
    """A text of the file as it stands in the code."""
    return text.replace('\\n', '\n').replace('\\\\', '\\')


def put(clone):
    """Changes the code; gives the numbers of those whose text does not stand once in its file."""
    missing = []
    for wrong in wrong_definitions():
        path = os.path.join(clone, wrong['file'])
        with open(path, encoding='utf-8') as file:
            text = file.read()
        if text.count(plain(wrong['old'])) != 1:
            missing.append(wrong['no'])
            continue
        with open(path, 'w', encoding='utf-8') as file:
            file.write(text.replace(plain(wrong['old']), plain(wrong['new'])))
    return missing


def is_as_due(program, line):
    """Whether a row is answered as is due; prints the answer."""
    row, _, due = line.partition(' => ')
    call, _, rest = row.partition(' ')
    status, _, text = due.partition(' ')
    answer = rows.given(program, call, rest)
    print(f'{row} => {answer}, where {due} is due', flush=True)
    return answer == (int(status), rows.unescape(text))


def unseen(program):
    """The numbers of those whose row is answered as is due."""
    with open(os.path.join(TOP, 'examples', 'standard.txt'), encoding='utf-8') as file:
        lines = [line.rstrip('\n') for line in file if ' => ' in line]
    answered = {}
    for wrong in wrong_definitions():
        line = next(line for line in lines if wrong['row'] in line)
        if line not in answered:
            answered[line] = is_as_due(program, line)
        if answered[line]:
            yield wrong['no']


def main():
    if len(sys.argv) != 3 or sys.argv[1] not in ('put', 'seen'):
        print(__doc__)
        return 2
    found = put(sys.argv[2]) if sys.argv[1] == 'put' else list(unseen(sys.argv[2]))
    print('none is left' if not found else 'left: ' + ', '.join(found))
    return 1 if found else 0


if __name__ == '__main__':
    sys.exit(main())
