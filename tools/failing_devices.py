#!/usr/bin/env python3
"""Runs the built program where a read, a write or an allocation fails, and compares what it answers with what is due.

usage: tools/failing_devices.py [--all | --every K] [PROGRAM]

PROGRAM is crates/jlint/out/jlint where none is given. `cc` makes a library of tools/failing_devices.c, which the loader
puts before the C library, so that one call fails or each moves a single byte. Due is, by the statuses of docs/usage.md,

    a read fails            status 7, and nothing is written
    a write fails           status 8, and of the answer the bytes that the device took before, and no others
    an allocation fails     status 9 and nothing written, or what is answered without failure

and where the call that is to fail is never made, or each moves one byte, what is answered without failure. Each read
and each write fails in turn. Of the allocations from main on some 200 of each script do, by even steps, or each Kth, or
all. Tables of names hash by random keys, so how many allocations a run makes differs by a few from run to run: the Kth
is then another one or is not reached, and either answer is due of it. Ends with status 1 where an answer is not as due, or no call of a table failed; with 0 where no library is made.
"""
import argparse
import concurrent.futures
import os
import shutil
import struct
import subprocess
import sys
import tempfile
import time
from typing import NamedTuple

TOP = os.path.dirname(os.path.dirname(os.path.abspath(__file__)))
PROGRAM = os.path.join(TOP, 'crates', 'jlint', 'out', 'jlint')
SOURCE = os.path.join(TOP, 'tools', 'failing_devices.c')
LOADER = '/lib64/ld-linux-x86-64.so.2'
SAMPLES = 200
SHOWN = 5
SECONDS = 120
COUNTS = struct.Struct('4Q')
# Examples whose answers have all statuses but those of failures and of bad words. Devices fail at each byte of the
# first BY_BYTES of them.
ANSWERS = ['binding', 'refused', 'chosen', 'uncaught', 'outside', 'budget', 'dense', 'shapes', 'exec']
BY_BYTES = 2
ALLOCATING = ['check binding', 'run binding', 'lint binding', 'print dense', 'trace trace', 'lint shapes']


class Answer(NamedTuple):
    status: int
    written: bytes
    told: bytes


class Run(NamedTuple):
    """An answer, and how many reads, writes, bytes written and allocations there were, those that failed among them."""
    answer: Answer
    reads: int
    writes: int
    written: int
    allocations: int


class Case(NamedTuple):
    """A command of the program with a file as its standard input."""
    words: list
    file: str

    def name(self):
        return ' '.join([*self.words, '<', os.path.basename(self.file)])


class Devices:
    """The program with the library that makes calls fail."""

    def __init__(self, program, room):
        self.program, self.room = program, room
        self.library = os.path.join(room, 'failing_devices.so')
        command = ['cc', '-O1', '-shared', '-fPIC', '-o', self.library, SOURCE, '-ldl']
        self.is_built = subprocess.run(command, check=False).returncode == 0

    def run(self, case, **settings):
        """The run of a case with settings of the library, as `read=3`."""
        counted = tempfile.NamedTemporaryFile(dir=self.room)
        with counted, open(case.file, 'rb') as script:
            counted.write(bytes(COUNTS.size))
            counted.flush()
            named = {'DEVICES_' + name.upper(): str(value) for name, value in settings.items()}
            around = {**os.environ, **named, 'DEVICES_COUNTS': counted.name, 'LD_PRELOAD': self.library}
            answer = answered([self.program, *case.words], script, around)
            counted.seek(0)
            return Run(answer, *COUNTS.unpack(counted.read()))


def answered(words, script, around):
    """What a program answers to a file in this environment; a status that is none where it does not end in time."""
    try:
        done = subprocess.run(words, stdin=script, capture_output=True, env=around, timeout=SECONDS, check=False)
        return Answer(done.returncode, done.stdout, done.stderr)
    except subprocess.TimeoutExpired:
        return Answer(None, b'', b'')


def due_of_read(plain, run, number):
    return Answer(7, b'', b'') if run.reads >= number else plain.answer


def due_of_write(plain, run, number):
    return Answer(8, plain.answer.written[:run.written], b'') if run.writes >= number else plain.answer


def due_of_room(plain, room):
    return Answer(8, plain.answer.written[:room], b'') if room < len(plain.answer.written) else plain.answer


class Table:
    """Runs side by side, and those of them that answered otherwise than is due."""

    def __init__(self, devices, pool):
        self.devices, self.pool = devices, pool
        self.runs, self.failed, self.wrong = 0, 0, []

    def add(self, case, plain, rows):
        """Runs a case with each of these settings, whose second half gives what is due of the run."""
        pending = [(settings, due, self.pool.submit(self.devices.run, case, **settings)) for settings, due in rows]
        for settings, due, found in pending:
            run = found.result()
            self.runs += 1
            self.failed += run.answer != plain.answer
            wanted = due(run)
            if run.answer != wanted:
                self.wrong.append(f'{case.name()} {settings}: {run.answer}, where {wanted} is due')

    def close(self, title):
        """Prints what came of the table, and whether all was as due."""
        print(f'{title}: {self.runs} runs, {self.failed} told of the failure, {len(self.wrong)} not as due', flush=True)
        for line in self.wrong[:SHOWN]:
            print('  ' + line)
        if not self.failed:
            print('  nothing failed, so that nothing is shown: the program calls the library by other names')
        return not self.wrong and self.failed > 0


def failing_reads(plain, **more):
    """The rows in which each read fails in turn, and the first in which it is not reached."""
    return [({'read': n, **more}, lambda run, n=n: due_of_read(plain, run, n)) for n in range(1, plain.reads + 2)]


def check_reads(table, cases, short):
    for case in cases:
        plain = table.devices.run(case)
        table.add(case, plain, failing_reads(plain))
    for case in short:
        plain = table.devices.run(case)
        bytewise = table.devices.run(case, short=1)
        table.add(case, plain, [({'short': 1}, lambda run, plain=plain: plain.answer)])
        table.add(case, plain, failing_reads(plain._replace(reads=bytewise.reads), short=1))
    return table.close('reads')


def failing_writes(plain):
    """The rows in which each write fails in turn, and the first in which it is not reached."""
    return [({'write': n}, lambda run, n=n: due_of_write(plain, run, n)) for n in range(1, plain.writes + 2)]


def writes_by_bytes(plain, lengths):
    """The rows in which a device takes so many bytes, one at a time or as many as come, and fails then."""
    rows = [({'short': 1}, lambda run: plain.answer)]
    for taken in lengths:
        rows.append(({'room': taken}, lambda run, taken=taken: due_of_room(plain, taken)))
        rows.append(({'short': 1, 'write': taken + 1}, lambda run, taken=taken: due_of_room(plain, taken)))
    return rows


def check_writes(table, cases, by_bytes):
    for case in cases:
        plain = table.devices.run(case)
        length = len(plain.answer.written)
        lengths = range(length + 1) if case in by_bytes else (1, length - 1, length)
        table.add(case, plain, failing_writes(plain) + writes_by_bytes(plain, lengths))
    return table.close('writes')


def check_allocations(table, case, every):
    """Whether each allocation whose number is taken fails as is due, and one more that is not reached."""
    begun = time.monotonic()
    plain = table.devices.run(case)
    step = every or max(1, -(-plain.allocations // SAMPLES))
    numbers = [*range(1, plain.allocations + 1, step), plain.allocations + 1]
    none = Answer(9, b'', b'')
    table.add(case, plain, [({'allocation': n}, lambda run, plain=plain: none if run.answer == none else plain.answer)
                            for n in numbers])
    taken = 'each' if step == 1 else f'each {step}th'
    return table.close(f'allocations of {case.name()}, {taken} of {plain.allocations},'
                       f' {time.monotonic() - begun:.1f} s')


def example(words, name):
    return Case(words, os.path.join(TOP, 'examples', name + '.js'))


def command_of(name):
    """The words by which the example of this name is run."""
    with open(os.path.join(TOP, 'examples', name + '.expected'), encoding='utf-8') as lines:
        return next(lines).partition(': ')[2].split()


def made(room, name, text):
    """A command that reads a script of this text."""
    file = os.path.join(room, name + '.js')
    with open(file, 'wb') as script:
        script.write(text)
    return Case(['check'], file)


def main():
    words = argparse.ArgumentParser(description=__doc__, formatter_class=argparse.RawDescriptionHelpFormatter)
    words.add_argument('--all', action='store_true')
    words.add_argument('--every', type=int)
    words.add_argument('program', nargs='?', default=PROGRAM)
    given = words.parse_args()
    if shutil.which('cc') is None or not os.path.exists(LOADER):
        print('failing devices are not tried: there is no cc, or another loader')
        return 0
    every = 1 if given.all else given.every
    with tempfile.TemporaryDirectory(prefix='jlint-devices-') as room, \
            concurrent.futures.ThreadPoolExecutor(os.cpu_count()) as pool:
        devices = Devices(os.path.abspath(given.program), room)
        if not devices.is_built:
            print('failing devices are not tried: cc makes no library')
            return 0
        short = [example(['check'], name) for name in ('binding', 'refused')]
        long = [made(room, 'long', b'x;\n' * 4000), made(room, 'over', b' ' * 1048577)]
        answers = [Case(['nothing'], short[0].file)] + [example(command_of(name), name) for name in ANSWERS]
        right = [check_reads(Table(devices, pool), short + long, short)]
        right.append(check_writes(Table(devices, pool), answers, answers[:BY_BYTES + 1]))
        for row in ALLOCATING:
            command, name = row.split()
            right.append(check_allocations(Table(devices, pool), example([command], name), every))
    return 0 if all(right) else 1


if __name__ == '__main__':
    sys.exit(main())
