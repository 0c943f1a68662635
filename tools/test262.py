#!/usr/bin/env python3
"""Runs the tests of edition 5.1 in a checkout of test262 by `jlint run`, and counts them by clause.

usage: tools/test262.py FOLDER [--program PROGRAM] [--only TEXT] [--loose] [--jobs N] [--show N] [--write FILE] [--page]

FOLDER is a checkout of any date. Tests of edition 5.1 are those whose head has an `es5id:`, those whose file is named by
a section, as 15.4.4.4-5-b-1.js and S7.8.3_A1.js, and those of 2012 with an `@path`. None is copied. A test runs with the functions of tools/standard/harness.js that it asks for, in loose code, in strict code or
in both, as its flags say (with --loose in strict code only where it can't run in the other); one that is to be refused
or to throw is passed where it is or does. Outcomes are

    passed      in each of its modes
    skipped     what it is about is left out: the first row of tools/standard/causes.txt that fits says why
    due         it fails, and a row of tools/standard/failed.txt says why edition 5.1 asks for that
    FAILED      it fails, and no row says why

Writes the counts by clause, the causes, and the tests that failed; with --page the counts go into docs/standard.md too,
with the date of the checkout, and with --write each test and its outcome into a file. Ends with status 1 where a test
failed without a row.
"""
import argparse
import collections
import concurrent.futures
import fnmatch
import os
import re
import subprocess
import sys

TOP = os.path.dirname(os.path.dirname(os.path.abspath(__file__)))
TABLES = os.path.join(TOP, 'tools', 'standard')
# What comes first in each alternative is passed over by the ones after it.
LEXEME = re.compile(r'''
    (?P<gap> \s+ | //[^\n\r\u2028\u2029]* | /\*.*?\*/ )
  | (?P<text> "(?:\\.|[^"\\\n])*" | '(?:\\.|[^'\\\n])*' )
  | (?P<word> (?:[\w$]|\\u[0-9a-fA-F]{4})+ )
  | (?P<regexp> /(?![*/])(?:\\.|\[(?:\\.|[^\]\\\n])*\]|[^/\\\[\n])+/\w* )
  | (?P<sign> => | \.\.\. | . )''', re.S | re.X)
# Words after which a slash begins a regular expression.
BEFORE_VALUE = set('return typeof instanceof in new delete void throw case do else'.split())
BUDGET = '20000000'

Test = collections.namedtuple('Test', 'name section text flags includes negative features')
Cause = collections.namedtuple('Cause', 'name section way pattern')


def rows_of(name):
    """The rows of a table: fields between bars, but for empty lines and comments."""
    with open(os.path.join(TABLES, name), encoding='utf-8') as lines:
        kept = [line.rstrip('\n') for line in lines if line.strip() and not line.startswith('--')]
    return [[field.strip() for field in re.split(r' \| ', row)] for row in kept]


def harness():
    """The functions that tests call, by the name of the file that has them in test262."""
    with open(os.path.join(TABLES, 'harness.js'), encoding='utf-8') as file:
        parts = re.split(r'^// file: (\S+)\n', file.read(), flags=re.M)
    return dict(zip(parts[1::2], parts[2::2]))


def field(head, name):
    """The words of a field of a test's head, which stand in its line or in lines below it."""
    found = re.search(r'^%s:[ \t]*(.*(?:\n[ \t]+.*)*)' % name, head, re.M)
    return re.findall(r'[\w.$-]+', found.group(1)) if found else []


def test_of(folder, path):
    """The test in a file, or None where it is none of edition 5.1."""
    with open(os.path.join(folder, path), encoding='utf-8', errors='replace', newline='') as file:
        text = file.read()
    head = re.search(r'/\*---(.*?)---\*/', text, re.S)
    if head is None:
        return old_test(path, text)
    head = re.sub(r'\r\n?', '\n', head.group(1))
    section = section_of((field(head, 'es5id') or [''])[0]) or section_of(os.path.basename(path))
    if not section and not path.startswith('annexB'):
        return None
    return Test(path, section, text, field(head, 'flags'), field(head, 'includes'),
                negative_of(head), field(head, 'features'))


def negative_of(head):
    """The phase in which a test is to fail and the kind of error, or None where it is to pass."""
    block = re.search(r'^negative:\s*\n((?:[ \t]+.*\n?)*)', head, re.M)
    if block is None:
        return None
    return tuple(re.search(r'%s:\s*(\w+)' % name, block.group(1)).group(1) for name in ('phase', 'type'))


def old_test(path, text):
    """A test with a head of the year 2012, or None."""
    place = re.search(r'^ \* @path (\S+)', text, re.M)
    if place is None:
        return None
    flags = re.findall(r'^ \* @(onlyStrict|noStrict)', text, re.M)
    negative = re.search(r'^ \* @negative ?(\S*)', text, re.M)
    kind = None
    if negative:
        kind = ('parse' if 'Syntax' in negative.group(1) or not negative.group(1) else 'runtime', negative.group(1))
    return Test(path, section_of(os.path.basename(path)), text, flags, ['propertyHelper.js'], kind, [])


def section_of(name):
    """The section that a test's name begins with, as 15.4.4.4."""
    found = re.match(r'S?((?:B|[7-9]|1[0-5])(?:\.\d+)+)', name)
    return found.group(1) if found else ''


def code_of(text):
    """The text of a script without its comments, and the regular expressions in it; strings are left empty."""
    kept, regexps, before, at = [], 0, '', 0
    while at < len(text):
        lexeme = LEXEME.match(text, at)
        kind, piece = lexeme.lastgroup, lexeme.group()
        value_before = re.match(r'[\w$)\]}"\']', before[-1:]) and before not in BEFORE_VALUE
        if kind == 'regexp' and value_before:
            kind, piece = 'sign', '/'
        at += len(piece)
        if kind == 'gap':
            kept.append(' ')
            continue
        regexps += kind == 'regexp'
        kept.append('""' if kind == 'text' else '/re/' if kind == 'regexp' else piece)
        before = piece
    return ''.join(kept), regexps


def scripts_of(test, functions, loose_alone):
    """The scripts of a test, a mode each."""
    if 'raw' in test.flags:
        return [test.text]
    asked = ['sta.js', 'assert.js'] + [name for name in test.includes if name in functions]
    before = ''.join(functions[name] for name in dict.fromkeys(asked))
    loose = [] if 'onlyStrict' in test.flags else [before + test.text]
    strict = [] if 'noStrict' in test.flags else ['"use strict";\n' + before + test.text]
    return loose if loose and loose_alone else loose + strict


def answer(program, script):
    """The status and the lines that the program answers; status -1 where it took too long."""
    try:
        run = subprocess.run([program, 'run', '--budget', BUDGET], input=script.encode('utf-8', 'replace'),
                             stdout=subprocess.PIPE, timeout=300, check=False)
    except subprocess.TimeoutExpired:
        return -1, ['no answer in 300 seconds']
    return run.returncode, run.stdout.decode('utf-8', 'replace').rstrip('\n').split('\n')


def is_right(test, status, lines):
    """Whether a test is passed by an answer."""
    if test.negative is None:
        return status == 0
    phase, kind = test.negative
    if phase != 'runtime':
        return status == 3 and re.search(r'refused (BadInput|Unreadable|Early)', lines[-1]) is not None
    thrown = lines[-2] if status == 4 and len(lines) > 1 else ''
    return thrown.startswith('uncaught ' + kind) or (kind == 'Test262Error' and thrown == 'uncaught [Object]')


def cause_of(test, code, causes, said=None):
    """The first cause that fits a test's head and code, or, where it is given, what the program said."""
    for cause in causes:
        if said is not None and re.search(cause.pattern, {'answer': said, 'failing': code}.get(cause.way, '')):
            return cause
        if said is None and cause.way == 'code' and re.search(cause.pattern, code):
            return cause
        if said is None and cause.way == 'head' and fits_head(test, cause.pattern):
            return cause
    return None


def fits_head(test, pattern):
    """Whether a pattern is met by a test's name, or by a feature or a file that it asks for."""
    return any(re.search(pattern, it) for it in (test.name, *test.features, *test.includes))


def outcome(job):
    """A test's outcome, and the cause, the row or the last lines of the answer."""
    words, path, causes, functions = job
    folder, program = words.folder, words.program
    test = test_of(folder, path)
    if test is None:
        return None
    code, regexps = code_of(test.text)
    cause = cause_of(test, code + (' /re/' if regexps else ''), causes)
    if cause:
        return test, 'skipped', cause.name
    for script in scripts_of(test, functions, words.loose):
        status, lines = answer(program, script)
        if is_right(test, status, lines):
            continue
        said = ' '.join(lines[-2:])
        cause = cause_of(test, code, causes, said)
        return (test, 'skipped', cause.name) if cause else (test, 'FAILED', said)
    return test, 'passed', ''


def with_reasons(results):
    """The outcomes, where a failure that a row explains is due."""
    rows = rows_of('failed.txt')
    used, kept = set(), []
    for test, kind, why in results:
        if kind == 'FAILED':
            found = next((row for row in rows if fnmatch.fnmatch(test.name, row[0])), None)
            if found:
                used.add(found[0])
                kind, why = 'due', ' | '.join((found[1], found[2], '`%s`' % found[0]))
        kept.append((test, kind, why))
    return kept, [row[0] for row in rows if row[0] not in used]


def tests_in(folder):
    """The files that may be tests, in order; of a test that stands in two modes the loose one."""
    found = []
    for place, _, files in os.walk(folder):
        inside = os.path.relpath(place, folder)
        found += [os.path.normpath(os.path.join(inside, file)) for file in files if file.endswith('.js')]
    known = set(found)
    return sorted(it for it in found if not (it.endswith('-strict.js') and it[:-len('-strict.js')] + '.js' in known))


def clause_of(section):
    """Clause and, in clause 15, the group of builtins."""
    parts = section.split('.')
    return '.'.join(parts[:2] if parts[0] == '15' else parts[:1])


def counted(results):
    """A table of outcomes by clause."""
    counts = collections.defaultdict(collections.Counter)
    for test, kind, _ in results:
        counts[clause_of(test.section) or 'none named'][kind] += 1
        counts['all'][kind] += 1
    yield from ('| Clause | Passed | Fail rightly | Failed | Skipped |', '|---|---|---|---|---|')
    last = ['B', 'none named', 'all']
    order = sorted(counts, key=lambda clause: [99, last.index(clause)] if clause in last else
                   [int(it) for it in clause.split('.')])
    yield from ('| %s | %s |' % (clause, ' | '.join(str(counts[clause][k]) for k in KINDS)) for clause in order)


def tables(results, causes):
    """The tables of outcomes, of causes, and of tests that fail rightly."""
    sections = {cause.name: cause.section for cause in causes}
    yield from counted(results)
    skipped = collections.Counter(why for _, kind, why in results if kind == 'skipped')
    yield from ('', '| Skipped for | Section | Tests |', '|---|---|---|')
    yield from ('| %s | %s | %d |' % (why, sections[why], n) for why, n in skipped.most_common())
    due = collections.Counter(why for _, kind, why in results if kind == 'due')
    yield from ('', '| Section | Why a test fails rightly | Tests | How many |', '|---|---|---|---|')
    yield from ('| %s | %d |' % (why, n) for why, n in sorted(due.items()))


def date_of(folder):
    """The date of a checkout: of its last commit, or as the file GIT-INFO of a copy says."""
    info = os.path.join(folder, 'GIT-INFO')
    if os.path.exists(info):
        with open(info, encoding='utf-8') as file:
            return re.search(r'Date: +(.*)', file.read()).group(1)
    run = subprocess.run(['git', '-C', folder, 'log', '-1', '--format=%cD'], stdout=subprocess.PIPE, check=False)
    return run.stdout.decode().strip() or 'no date'


def write_page(words, lines):
    """Puts the tables between the two marks in docs/standard.md."""
    page = os.path.join(TOP, 'docs', 'standard.md')
    with open(page, encoding='utf-8') as file:
        before, _, rest = file.read().partition(MARKS[0] + '\n')
    after = rest.partition(MARKS[1] + '\n')[2]
    head = 'The checkout is of %s.' % date_of(words.folder)
    if words.loose:
        head += ' Each test ran in loose code, or in strict code where it asks for that.'
    with open(page, 'w', encoding='utf-8') as file:
        file.write('\n'.join([before + MARKS[0], head, '', *lines, MARKS[1], after]))


MARKS = ('<!-- counts, as tools/test262.py --page writes them -->', '<!-- end of the counts -->')
KINDS = ('passed', 'due', 'FAILED', 'skipped')


def kept(results, name):
    """The outcomes as they come, each in a line of a file too where one is named."""
    with open(name or os.devnull, 'w', encoding='utf-8', buffering=1) as file:
        for result in results:
            if result:
                test, kind, why = result
                file.write('%s\t%s\t%s\t%s\n' % (kind, test.section, test.name, why))
            yield result


def arguments():
    """The words of the command line."""
    words = argparse.ArgumentParser()
    words.add_argument('folder')
    words.add_argument('--program', default=os.path.join(TOP, 'jlint'))
    words.add_argument('--only', default='')
    words.add_argument('--loose', action='store_true')
    words.add_argument('--jobs', type=int, default=os.cpu_count())
    words.add_argument('--show', type=int, default=40)
    words.add_argument('--write')
    words.add_argument('--page', action='store_true')
    return words.parse_args()


def main():
    words = arguments()
    causes = [Cause(*row) for row in rows_of('causes.txt')]
    functions = harness()
    jobs = [(words, path, causes, functions) for path in tests_in(words.folder) if words.only in path]
    with concurrent.futures.ProcessPoolExecutor(words.jobs) as pool:
        results = [it for it in kept(pool.map(outcome, jobs, chunksize=4), words.write) if it]
    results, unused = with_reasons(results)
    lines = list(tables(results, causes))
    print('\n'.join(lines))
    if words.page:
        write_page(words, lines)
    failed = [(test.name, why) for test, kind, why in results if kind == 'FAILED']
    for name, why in failed[:words.show]:
        print('FAILED', name + ':', why)
    if not words.only and unused:
        print('rows of failed.txt that no test met: ' + ', '.join(unused))
    return 1 if failed else 0


if __name__ == '__main__':
    sys.exit(main())
