#!/usr/bin/env python3
"""Tries edits of a large crate quickly: each by a check of the functions that it touches, and no others.

usage: tools/try_edit.py CRATE [EDIT..]      EDIT is a file; all of `edits/CRATE` where none is named

The libraries below CRATE have to be built in this checkout (tools/borrow.py, tools/prove.py). What the checks of one call
keep is used by the next, so that the modules of the crate are made once: the first edit takes minutes, and each later
one less than one. The verdict is tools/edits.py, since this looks at the edited functions alone. `refused` is told
apart from MISSED (they are still proved, so that either a caller owes something or the edit is none), BAD (it does not
apply or compile) and NAMES GONE (a proof file names what the edit took away, which says little of the contract). The
status is 0 where each edit was refused.
"""
import os
import re
import shutil
import sys
import tempfile
import time

from kit import below, rt, rtlib

TOP = os.path.dirname(os.path.dirname(os.path.abspath(__file__)))
METHOD = re.compile(r'\s*(?:pub(?:\(crate\))? )?(?:const )?fn (\w+)')
IMPL = re.compile(r'(?:impl|pub trait|trait)\b(?:<[^{]*?>)? (?:[\w:<>\' ,]+ for )?(\w+)')


def function_at(crate, lines, path, at):
    """The name of the function that a line stands in, or of the module where it is in none, as `--only` takes it."""
    stem = path.removeprefix('src/').removesuffix('.rt').replace('/', '::')
    module = crate if stem in ('lib', 'main') else f'{crate}::{stem}'
    for back in range(at, -1, -1):
        found = METHOD.match(lines[back])
        if not found:
            continue
        if lines[back][0].isspace():
            heads = (IMPL.match(line) for line in lines[back::-1])
            owner = next((head.group(1) for head in heads if head), None)
            if owner:
                # the whole name has the module of the type, which may be another; the end of it does
                return f'{owner}::{found.group(1)}'
        return f'{module}::{found.group(1)}'
    return module


def touched(crate, texts):
    """The names of the functions that the edited texts change."""
    names = set()
    for path, text in texts.items():
        with open(f'{crate.folder}/{path}', encoding='utf-8') as it:
            old = it.read().split('\n')
        new = text.split('\n')
        for at, (before, after) in enumerate(zip(old, new)):
            if before != after:
                names.add(function_at(crate.name, new, path, at))
    return sorted(names)


# a proof file that names what an edit took away, which says little of the contract
NAMES_GONE = re.compile(r'(note: )?(\./)?proofs/.*(has no field|is not in scope|has no `|was not admitted)')


def outcome_of(ran, texts, unread):
    """What a check with edited texts came to: a word, and the line that tells most."""
    lines = ran.stdout.rstrip('\n').split('\n')
    told = [it for it in lines if re.match(r'(note: )?\S+:\d+:\d+:', it)]
    told = [it for it in told if ': error' in it or 'it is not proved' in it]
    refusals = [it for it in lines if re.match(r'fn \S+: (no proof|not proved)', it)]
    bad = next((it for it in lines if unread(it, texts) or re.search(r'\berror\[[\w-]+\]', it)), '')
    if ran.returncode == 0:
        return 'MISSED', lines[-1]
    if bad:
        return 'BAD', bad
    first = next((it for it in told if not NAMES_GONE.match(it)), '')
    if ran.returncode == 1 and first:
        return 'refused', first
    if ran.returncode == 1 and (told or refusals):
        return 'NAMES GONE' if told else 'refused', (told or refusals)[0]
    return f'UNSURE (status {ran.returncode})', lines[-1]


def main():
    if len(sys.argv) < 2:
        sys.exit(__doc__)
    name, edits = sys.argv[1], [os.path.abspath(it) for it in sys.argv[2:]]
    folder = os.path.join(TOP, 'edits', name)
    edits = edits or [os.path.join(folder, it) for it in sorted(os.listdir(folder)) if it.endswith('.edit')]
    os.chdir(TOP)
    crate = next(it for it in rtlib.crates_below(TOP) if it.name == name)
    unbuilt = [it.name for it in below(crate) if not it.is_built()]
    if unbuilt:
        sys.exit(f'not built: {" ".join(unbuilt)}')
    kept = tempfile.mkdtemp(prefix=f'try-edit-{name}-')
    missed = 0
    try:
        for edit in edits:
            texts, why = rt.read_edit(edit, crate.folder)
            if why:
                print(f'{os.path.basename(edit)}: BAD: {why}', flush=True)
                missed += 1
                continue
            functions = touched(crate, texts)
            flags = ['--jobs', '1', *(word for it in functions for word in ('--only', it))]
            began = time.time()
            ran = rt.checked(crate, texts, flags, kept)
            outcome, said = outcome_of(ran, texts, rt.unread)
            missed += outcome != 'refused'
            print(f'{os.path.basename(edit)} [{" ".join(functions)}] {time.time() - began:.0f} s: {outcome}: {said[:200]}',
                  flush=True)
    finally:
        shutil.rmtree(kept, ignore_errors=True)
    print(f'{len(edits) - missed} of {len(edits)} edits are refused')
    return 1 if missed else 0


if __name__ == '__main__':
    sys.exit(main())
