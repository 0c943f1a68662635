#!/usr/bin/env python3
"""Proves, builds and runs programs of `programs/`: rows of calls with the answers that are due, and what benchmarks time.

usage: tools/programs.py [--fast] [NAME..]      all of them where none is named

They stand outside of the gate, since the proof of a program that calls many crates takes minutes. Their files end in
`.rs` and `.txt`, since the gate refuses a `.rt` or `.antt` file that no check of it reads. This makes a clone of the
last commit with these programs as crates, over the libraries that a whole `rt ci` has left in this checkout, runs each
by `rt run`, which proves and builds it, and compares what it prints with its `stdout`. The programs that it built are
then in `programs/out`. With `--fast` nothing is proved and no library is wanted: tools/fast_compiler.py compiles them, for
measurements. The status is 0 where each printed what is due.
"""
import os
import shutil
import subprocess
import sys
import tempfile

import fast_compiler

TOP = os.path.dirname(os.path.dirname(os.path.abspath(__file__)))
PROGRAMS = os.path.join(TOP, 'programs')
OUT = os.path.join(PROGRAMS, 'out')
# What the endings of their files stand for.
ENDINGS = {'.rs': '.rt', '.txt': '.antt'}


def libraries():
    """The line of each program in a list of crates."""
    with open(os.path.join(PROGRAMS, 'uses.txt'), encoding='utf-8') as lines:
        return {line.partition(':')[0]: line for line in lines if not line.startswith('#')}


def lay_out(clone, names):
    """Makes crates of the programs, and leaves the edits out."""
    for crate in os.listdir(os.path.join(clone, 'crates')):
        shutil.rmtree(os.path.join(clone, 'crates', crate, 'must-fail'), ignore_errors=True)
    for name in names:
        crate = os.path.join(clone, 'crates', name)
        shutil.copytree(os.path.join(PROGRAMS, name), crate)
        for folder, _, files in os.walk(crate):
            for file in files:
                stem, ending = os.path.splitext(file)
                if ending in ENDINGS:
                    os.rename(os.path.join(folder, file), os.path.join(folder, stem + ENDINGS[ending]))
    used = libraries()
    with open(os.path.join(clone, 'crates.txt'), 'a', encoding='utf-8') as lines:
        lines.writelines(used[name] for name in names)


def is_right(clone, name, is_fast):
    """Whether a program is proved, or compiled without proofs, and prints what is due."""
    crate = os.path.join(clone, 'crates', name)
    given, due, words = (read(os.path.join(crate, it)) for it in ('stdin', 'stdout', 'args'))
    command = [*command_of(clone, name, is_fast), *words.decode().split()]
    ran = subprocess.run(command, cwd=crate, check=False, input=given, stdout=subprocess.PIPE)
    right = ran.returncode == 0 and ran.stdout == due
    print(name, 'passed' if right else f'FAILED (status {ran.returncode})', flush=True)
    return right


def command_of(clone, name, is_fast):
    """What runs a program: `rt run`, which proves and builds it, or the file that is compiled here without proofs."""
    if not is_fast:
        return [sys.executable, os.path.join(clone, 'tools', 'kit.py'), 'run', '--']
    program = built(clone, name)
    os.makedirs(os.path.dirname(program), exist_ok=True)
    if not fast_compiler.write_program(os.path.join(clone, 'crates', name), program):
        sys.exit(f'{name} was not compiled')
    return [program]


def built(clone, name):
    """Where a program is put that was built."""
    return os.path.join(clone, 'crates', name, 'out', name)


def read(file):
    """The bytes of a file, none where it is not there."""
    if not os.path.exists(file):
        return b''
    with open(file, 'rb') as it:
        return it.read()


def main():
    is_fast = sys.argv[1:2] == ['--fast']
    names = sys.argv[1 + is_fast:] or sorted(libraries())
    missing = [name for name in names if name not in libraries()]
    if missing:
        print('no programs ' + ', '.join(missing))
        return 2
    with tempfile.TemporaryDirectory(prefix='jlint-programs-') as folder:
        clone = os.path.join(folder, 'repository')
        subprocess.run(['git', 'clone', '--quiet', TOP, clone], check=True)
        shutil.rmtree(os.path.join(clone, 'programs'))
        lay_out(clone, names)
        if not is_fast:
            subprocess.run([sys.executable, 'tools/borrow.py', TOP], cwd=clone, check=True, stdout=subprocess.DEVNULL)
        status = 0 if all([is_right(clone, name, is_fast) for name in names]) else 1
        os.makedirs(OUT, exist_ok=True)
        for name in names:
            if os.path.exists(built(clone, name)):
                shutil.copy2(built(clone, name), OUT)
    return status


if __name__ == '__main__':
    sys.exit(main())
