#!/usr/bin/env python3
"""Checks the table of sections in docs/standard.md against the definitions.

Each definition that a row names stands in the file that it names; each section that a comment of a definition cites has
a row, and no section has two. Ends with status 1, and says what is wrong, where that is not so.
"""
import glob
import os
import re
import sys

TOP = os.path.dirname(os.path.dirname(os.path.abspath(__file__)))
PAGE = os.path.join(TOP, 'docs', 'standard.md')
ROW = re.compile(r'^\| (\d+(?:\.\d+)+) \| .*? \| (.*?) \| (as the standard|in the profile|left out|departs)', re.M)
NAMED = re.compile(r'`(jl_\w+/specs/[\w/]+): ([^`]+)`')
SECTION = re.compile(r'(?<![\d.])(?:[7-9]|1[0-5])(?:\.\d+)+(?![\d.]*\d)')


def missing_definitions(section, cell):
    """The definitions that a row names and that are not there."""
    for path, names in NAMED.findall(cell):
        file = os.path.join(TOP, 'crates', path + '.antt')
        text = open(file, encoding='utf-8').read() if os.path.exists(file) else ''
        for name in names.split(', '):
            if not re.search(r'^\s*(?:\w+ )*%s (?:[({].*)?:' % re.escape(name), text, re.M):
                yield '%s: no definition %s in %s' % (section, name, path)


def cited():
    """The sections that comments of definitions cite, each with a file that does."""
    found = {}
    for file in sorted(glob.glob(os.path.join(TOP, 'crates', '*', 'specs', '**', '*.antt'), recursive=True)):
        with open(file, encoding='utf-8') as lines:
            comments = ' '.join(line for line in lines if line.strip().startswith('--'))
        for section in SECTION.findall(comments):
            found.setdefault(section, os.path.relpath(file, TOP))
    return found


def main():
    with open(PAGE, encoding='utf-8') as file:
        rows = ROW.findall(file.read())
    sections = [section for section, _, _ in rows]
    wrong = [what for section, cell, _ in rows for what in missing_definitions(section, cell)]
    wrong += ['%s has two rows' % section for section in sorted(set(sections)) if sections.count(section) > 1]
    wrong += ['%s cites %s, which has no row' % (file, section) for section, file in cited().items()
              if section not in sections]
    print('\n'.join(wrong + ['docs/standard.md: %d sections, %d faults' % (len(sections), len(wrong))]))
    return 1 if wrong else 0


if __name__ == '__main__':
    sys.exit(main())
