#!/usr/bin/env python3
"""Answers each row of examples/rows.txt and examples/standard.txt by the program, and compares.

usage: tools/rows.py [PROGRAM]      PROGRAM is ./jlint at the top where none is given

A row is a line `CALL SCRIPT => STATUS ANSWER`; other lines are passed over. CALL is a command, a command with its
options between brackets, as `[run --budget 7]`, or one of

    each        what all commands that read a script answer alike
    canonical   what `print` answers, where it answers the same to that answer
    but_end X   what the command X answers, without its last line
    alone       what `trace` answers, where `exec` with its steps answers the same to what `instrument` writes
    words       what the program answers to these words, and no script

In scripts and answers `\\n`, `\\r` and `\\\\` are as in JavaScript, `\\xHH` is a byte, `\\s` a space, `\\e` nothing, and
`\\{COUNT*PIECE}` that many times the piece. Ends with status 1 where a row is answered otherwise.
"""
import os
import re
import subprocess
import sys

TOP = os.path.dirname(os.path.dirname(os.path.abspath(__file__)))
FILES = ['rows.txt', 'standard.txt']
COMMANDS = ['check', 'print', 'instrument', 'map', 'srcmap', 'run', 'lint', 'trace', 'record', 'objects', 'cover']
ESCAPE = re.compile(rb'\\(?:x([0-9A-Fa-f]{2})|\{(\d+)\*([^}]*)\}|(.))', re.S)
SINGLE = {b'n': b'\n', b'r': b'\r', b's': b' ', b'e': b'', b'\\': b'\\'}


def unescape(text):
    """The bytes that a row writes so."""
    def one(found):
        byte, count, piece, single = found.groups()
        if byte is not None:
            return bytes([int(byte, 16)])
        return piece * int(count) if count is not None else SINGLE[single]
    return ESCAPE.sub(one, text.encode('utf-8'))


def answer(program, words, script):
    """The status and the bytes that are written."""
    run = subprocess.run([program, *words], input=script, stdout=subprocess.PIPE, check=False)
    return run.returncode, run.stdout


def given(program, call, rest):
    """What is answered to a row, or None where two answers that are to be alike differ."""
    if call == 'words':
        return answer(program, rest.split(' ') if rest else [], b'')
    if call == 'but_end':
        command, script = rest.split(' ', 1)
        status, written = answer(program, [command], unescape(script))
        return status, b''.join(written.splitlines(keepends=True)[:-1])
    script = unescape(rest)
    if call.startswith('['):
        return answer(program, call[1:-1].split(' '), script)
    if call == 'alone':
        traced = answer(program, ['trace'], script)
        woven = answer(program, ['instrument'], script)[1]
        return traced if answer(program, ['exec', '--budget', '32000064'], woven) == traced else None
    if call == 'each':
        answers = [answer(program, [command], script) for command in COMMANDS]
        return answers[0] if all(other == answers[0] for other in answers) else None
    if call == 'canonical':
        first = answer(program, ['print'], script)
        return first if answer(program, ['print'], first[1]) == first else None
    return answer(program, [call], script)


def lines():
    """The lines of the files of rows."""
    for name in FILES:
        with open(os.path.join(TOP, 'examples', name), encoding='utf-8') as file:
            yield from file


def main():
    program = sys.argv[1] if len(sys.argv) > 1 else os.path.join(TOP, 'jlint')
    rows, differ = 0, 0
    for line in lines():
        row, arrow, due = line.rstrip('\n').partition(' => ')
        if not arrow:
            continue
        call, _, rest = row.partition('] ' if row.startswith('[') else ' ')
        call += ']' if row.startswith('[') else ''
        status, _, text = due.partition(' ')
        rows += 1
        told = given(program, call, rest)
        if told != (int(status), unescape(text)):
            differ += 1
            print(f'{row} => {told}, where {due} is due')
    print(f'{rows - differ} of {rows} rows are answered as due')
    return 1 if differ else 0


if __name__ == '__main__':
    sys.exit(main())
