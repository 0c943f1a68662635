#!/usr/bin/env python3
"""Runs each script of examples/ that has an expected answer beside it, and compares.

usage: tools/examples.py [PROGRAM]      PROGRAM is ./jlint at the top where none is given

examples/NAME.expected has the lines `command: WORDS` and `status: N`, an empty line, and then the answer to
examples/NAME.js, in which `=*` stands for `=` and any number. A line `beginnings: N N ..` says with which statuses
`check` answers the beginnings of the script, byte by byte. Ends with status 1 where an answer differs.
"""
import os
import re
import subprocess
import sys

TOP = os.path.dirname(os.path.dirname(os.path.abspath(__file__)))


def answer(program, words, script):
    run = subprocess.run([program, *words], input=script, stdout=subprocess.PIPE)
    return run.returncode, run.stdout


def matches(due, written):
    """Whether what is written is what is due, `=*` being `=` and any number."""
    pattern = re.escape(due).replace(r'=\*', '=[0-9]+')
    return re.fullmatch(pattern.encode(), written) is not None


def beginnings(program, script, statuses):
    """How long the first beginning of the script is that `check` answers with another status, if there is one."""
    for n in range(len(script)):
        if answer(program, ['check'], script[:n])[0] not in statuses:
            return n
    return None


def main():
    program = sys.argv[1] if len(sys.argv) > 1 else os.path.join(TOP, 'jlint')
    folder = os.path.join(TOP, 'examples')
    failed = 0
    names = sorted(f[:-len('.expected')] for f in os.listdir(folder) if f.endswith('.expected'))
    for name in names:
        with open(os.path.join(folder, name + '.expected'), encoding='utf-8') as f:
            head, due = f.read().split('\n\n', 1)
        fields = dict(line.split(': ', 1) for line in head.splitlines())
        with open(os.path.join(folder, name + '.js'), 'rb') as f:
            script = f.read()
        status, written = answer(program, fields['command'].split(), script)
        bad = None
        if 'beginnings' in fields:
            bad = beginnings(program, script, [int(n) for n in fields['beginnings'].split()])
        if status != int(fields['status']) or not matches(due, written) or bad is not None:
            failed += 1
            print(f'{name}: status {status}, answer {written!r}, beginning {bad}')
    print(f'{len(names) - failed} of {len(names)} examples answer as expected')
    return 1 if failed else 0


if __name__ == '__main__':
    sys.exit(main())
