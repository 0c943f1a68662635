#!/usr/bin/env python3
"""Runs scripts by jlint and by other engines, and tells each difference.

usage: tools/engines.py FOLDER [--program PROGRAM] [--engines NAMES] [--jobs N]

FOLDER has scripts `*.js`, as tools/random_scripts.py writes them. The engines are node, mujs and duktape, or of these
the ones that are named, where they are installed. Before each script an engine reads tools/standard/prelude.js, which
puts the letter of edition 5.1 in the place of what later editions changed. What is printed has to be alike, and
whether a throw is not caught; where jlint ends by a fault or has no steps left, what it printed has to be the beginning
of what the engine prints.

First the rows of tools/standard/engines.txt are run, each a known difference with its section: every engine has to
answer as its row says. Ends with status 1 where something differs otherwise, and tells how many steps jlint took.
"""
import argparse
import collections
import concurrent.futures
import glob
import json
import os
import re
import shutil
import subprocess
import sys
import tempfile

TOP = os.path.dirname(os.path.dirname(os.path.abspath(__file__)))
TABLES = os.path.join(TOP, 'tools', 'standard')
PRELUDE = os.path.join(TABLES, 'prelude.js')
COMMANDS = {'node': 'node', 'mujs': 'mujs', 'duktape': 'duk'}
SECONDS = 60

Ran = collections.namedtuple('Ran', 'lines end steps')


def by_jlint(program, script):
    """What jlint printed of a script, how it ended, and its steps."""
    try:
        run = subprocess.run([program, 'run'], input=script.encode(), stdout=subprocess.PIPE, check=False,
                             timeout=10 * SECONDS)
    except subprocess.TimeoutExpired:
        return Ran([], 'spent', 0)
    lines = run.stdout.decode('utf-8', 'replace').rstrip('\n').split('\n')
    last = re.match(r'jlint: (\w+)(?:.* steps=(\d+))?', lines[-1])
    end = last.group(1)
    return Ran(lines[:-2] if end == 'thrown' else lines[:-1], end, int(last.group(2) or 0))


def by_shell(command, prelude, script):
    """What an engine with a shell of its own printed, and how it ended."""
    with tempfile.NamedTemporaryFile('w', suffix='.js', encoding='utf-8') as file:
        file.write(prelude + script)
        file.flush()
        try:
            run = subprocess.run([command, file.name], stdout=subprocess.PIPE, stderr=subprocess.DEVNULL,
                                 stdin=subprocess.DEVNULL, timeout=SECONDS, check=False)
        except subprocess.TimeoutExpired:
            return Ran([], 'spent', 0)
    lines = run.stdout.decode('utf-8', 'replace').split('\n')[:-1]
    return Ran(lines, 'thrown' if run.returncode else 'normal', 0)


def by_node(prelude, script):
    """What node printed, in a realm in which nothing but the language is, and how it ended."""
    with tempfile.TemporaryDirectory() as folder:
        names = [os.path.join(folder, name) for name in ('prelude.js', 'script.js')]
        for name, text in zip(names, (prelude, script)):
            with open(name, 'w', encoding='utf-8') as file:
                file.write(text)
        run = subprocess.run(['node', os.path.join(TABLES, 'node.js'), *names], stdout=subprocess.PIPE,
                             stdin=subprocess.DEVNULL, check=True)
    answer = json.loads(run.stdout)
    return Ran('\n'.join(answer['lines']).split('\n') if answer['lines'] else [], answer['end'], 0)


def by_engine(engine, prelude, script):
    return by_node(prelude, script) if engine == 'node' else by_shell(COMMANDS[engine], prelude, script)


def difference(ours, theirs):
    """Where two runs first differ, or None."""
    if ours.end == 'refused' or theirs.end == 'spent':
        return None if ours.end == 'spent' else 'jlint ended as %s, the engine as %s' % (ours.end, theirs.end)
    whole = ours.end in ('normal', 'thrown')
    theirs_part = theirs.lines if whole else theirs.lines[:len(ours.lines)]
    for number in range(max(len(ours.lines), len(theirs_part))):
        one, other = ours.lines[number:number + 1], theirs_part[number:number + 1]
        if one != other:
            return 'line %d: jlint %.300r, the engine %.300r' % (number + 1, ''.join(one), ''.join(other))
    return None if not whole or ours.end == theirs.end else 'jlint ended as %s, the engine as %s' % (
        ours.end, theirs.end)


def compare(job):
    """A script's name, its end and steps by jlint, and the differences by engine."""
    name, program, engines = job
    with open(name, encoding='utf-8') as file:
        script = file.read()
    with open(PRELUDE, encoding='utf-8') as file:
        prelude = file.read()
    ours = by_jlint(program, script)
    found = [(engine, difference(ours, by_engine(engine, prelude, script))) for engine in engines]
    return os.path.basename(name), ours.end, ours.steps, [(engine, what) for engine, what in found if what]


def known_rows():
    """The rows of the table of known differences: section, script, and what each engine prints."""
    with open(os.path.join(TABLES, 'engines.txt'), encoding='utf-8') as lines:
        kept = [line.rstrip('\n').split(' | ') for line in lines if line.strip() and not line.startswith('--')]
    return [(row[0], row[1], dict(zip(('jlint', 'node', 'mujs', 'duktape'), row[2:6]))) for row in kept]


def wrong_rows(program, engines):
    """The known differences that are not as the table says."""
    for section, script, due in known_rows():
        answer = {engine: by_engine(engine, '', script) for engine in engines}
        answer['jlint'] = by_jlint(program, script)
        for engine, ran in answer.items():
            said = ' '.join(ran.lines) + ('' if ran.end == 'normal' else ' (%s)' % ran.end)
            if due[engine] not in (said, '*'):
                yield '%s: %s: %s prints %r, where the table has %r' % (section, script, engine, said, due[engine])


def main():
    words = argparse.ArgumentParser()
    words.add_argument('folder')
    words.add_argument('--program', default=os.path.join(TOP, 'jlint'))
    words.add_argument('--engines', default='node,mujs,duktape')
    words.add_argument('--jobs', type=int, default=os.cpu_count())
    given = words.parse_args()
    engines = [name for name in given.engines.split(',') if shutil.which(COMMANDS[name])]
    wrong = list(wrong_rows(given.program, engines))
    print('\n'.join(wrong), end='\n' if wrong else '')
    jobs = [(name, given.program, engines) for name in sorted(glob.glob(os.path.join(given.folder, '*.js')))]
    ends, steps, differ = collections.Counter(), 0, len(wrong)
    with concurrent.futures.ThreadPoolExecutor(given.jobs) as pool:
        for name, end, taken, found in pool.map(compare, jobs):
            ends[end] += 1
            steps += taken
            differ += len(found)
            for engine, what in found:
                print('%s: %s: %s' % (name, engine, what), flush=True)
    print('engines: %s; scripts: %d (%s); steps: %d; differences: %d' % (
        ', '.join(engines), len(jobs), ', '.join('%s %d' % it for it in ends.items()), steps, differ))
    return 1 if differ else 0


if __name__ == '__main__':
    sys.exit(main())
