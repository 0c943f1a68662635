#!/usr/bin/env python3
"""Looks at what files import and which lemmas code names, in seconds: a check finds it when it comes to the crate.

usage: tools/imports.py

- A crate names the files of those alone that stand in its line of `crates.txt`, and of these the ones that their `Lib`
  has as `pub mod`.
- What is imported from a file is declared there or passed on, and public.
- No name is imported from two files.
- What `using(..)` and `unfolding(..)` name is there.
- A file with `do` has `◌>>=◌`, which each line of a `do` stands for, so that it doesn't look used.
The status is 1 where something was found.
"""
import functools
import os
import re
import sys

TOP = os.path.dirname(os.path.dirname(os.path.abspath(__file__)))
CRATES = os.path.join(TOP, 'crates')
IMPORT = re.compile(
    r'^[ \t]*(?:ghost |unfoldable )?(?:pub )?use Rattle\.(\w+)\.(specs|proofs)\.([^\s{;]+?)\.?'
    r'(?:\{([^}]*)\})?(?: as \S+)?;?$',
    re.M,
)
PLACE = re.compile(r'\b(?:using|unfolding)\(([^()]*)\)')
# What the prover makes of the code, and no files: at the first place and at the last.
MADE = ('declared', 'contracts')
MADE_LAST = ('Given', 'Goals', 'OwnLists')


@functools.cache
def read(path):
    with open(path, encoding='utf-8') as it:
        return it.read()


def files(ending):
    for folder, _, names in os.walk(CRATES):
        for name in sorted(names):
            if name.endswith(ending) and f'{os.sep}out{os.sep}' not in folder + os.sep:
                yield os.path.join(folder, name)


def libraries():
    """The crates that each crate may name."""
    lines = [it.partition(':') for it in read(os.path.join(TOP, 'crates.txt')).split('\n') if it and it[0] != '#']
    return {left.split()[0]: {*right.split(), left.split()[0]} for left, _, right in lines}


@functools.cache
def is_public(path, name):
    """Whether a file declares the name for others, or passes it on."""
    text = read(path)
    word = re.escape(name)
    declared = rf'^\s*(?:abbrev |unfoldable )?pub (?:abbrev |unfoldable |data |record |ruleset )?{word}(?=\s|:|$)'
    member = rf'^\s+(?:pub )?{word} :'
    passed = rf'^(?:unfoldable )?pub use [^{{\n]*\{{(?:[^}}]*[\s,])?{word}(?=[\s,}}])'
    return any(re.search(it, text, re.M) for it in (declared, member, passed))


def of_imports(path, text, crate, uses):
    """Yields what is wrong with the imports of a file."""
    sources = {}
    for other, kind, module, names in IMPORT.findall(text):
        parts = module.split('.')
        if not other.startswith('jl') or parts[0] in MADE or parts[-1] in MADE_LAST:
            continue
        if other not in uses.get(crate, ()):
            yield f'{other} is not in its line of crates.txt'
        library = os.path.join(CRATES, other, kind, 'Lib.antt')
        if other != crate and not (
            os.path.exists(library) and re.search(rf'^pub mod {parts[0]}$', read(library), re.M)
        ):
            yield f'{other}/{kind} has no pub mod {parts[0]}'
        file = os.path.join(CRATES, other, kind, *parts) + '.antt'
        if not os.path.exists(file):
            yield f'there is no {other}/{kind}/{"/".join(parts)}'
            continue
        for name, _, here in (it.strip().partition(' as ') for it in names.split(',') if it.strip()):
            if not is_public(file, name):
                yield f'{name} is no public name of {other}/{kind}/{"/".join(parts)}'
            if sources.setdefault(here or name, file) != file:
                yield f'{here or name} is imported from two files'
    code = re.sub(r'^\s*--.*', '', text, flags=re.M)
    if path.endswith('.antt') and re.search(r'\bdo$', code, re.M) and not re.search('◌(>>=|then)◌', text):
        yield 'a do needs ◌>>=◌'


def of_lemmas(text, crate):
    """Yields the lemmas and definitions that code names and that are not there."""
    for words in PLACE.findall(text):
        for word in (it.strip() for it in words.split(',')):
            first, _, rest = word.partition('::')
            owner = crate if first == 'crate' else first
            if not rest or not os.path.isdir(os.path.join(CRATES, owner)):
                continue
            *folders, name = rest.split('::')
            file = os.path.join(CRATES, owner, *folders) + '.antt'
            if not os.path.exists(file) or not re.search(rf'(?:^|\s){re.escape(name)}(?=\s|:|$)', read(file), re.M):
                yield f'there is no {word}'


def main():
    uses, found = libraries(), 0
    for ending in ('.antt', '.rt'):
        for path in files(ending):
            text, short = read(path), os.path.relpath(path, CRATES)
            crate = short.split(os.sep)[0]
            wrong = [*of_imports(path, text, crate, uses)]
            wrong += of_lemmas(text, crate) if ending == '.rt' else []
            for it in wrong:
                print(f'{short}: {it}')
            found += len(wrong)
    return 1 if found else 0


if __name__ == '__main__':
    sys.exit(main())
