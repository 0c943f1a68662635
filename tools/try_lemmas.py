#!/usr/bin/env python3
"""Tries files of lemmas of a crate in seconds: in a trial crate of their own, over libraries that this checkout has.

usage: tools/try_lemmas.py CRATE MODULE..      MODULE is a file of `crates/CRATE/proofs`, as Heights

The trial has these files and those of the same folder that they name. Where the library of CRATE itself is built here,
they stand over its definitions as they were then; otherwise the trial has the files of `specs/` too, of which those
that name a type of the code (`specs.declared`) are left out and named. The libraries that CRATE uses have to be built
(tools/borrow.py, tools/prove.py). No verdict rests on it. The status is that of `rt check`.
"""
import os
import re
import subprocess
import sys
import tempfile

from kit import below, rtlib

TOP = os.path.dirname(os.path.dirname(os.path.abspath(__file__)))
TRIAL = 'trial'


def read(path):
    with open(path, encoding='utf-8') as it:
        return it.read()


def write(path, text):
    os.makedirs(os.path.dirname(path), exist_ok=True)
    with open(path, 'w', encoding='utf-8') as it:
        it.write(text)


def lemmas(crate, modules):
    """The texts of these files and of those of their folder that they name, by module."""
    texts, left = {}, [*modules]
    while left:
        module = left.pop()
        if module not in texts:
            texts[module] = read(f'{TOP}/crates/{crate}/proofs/{module}.antt')
            left += re.findall(rf'Rattle\.{crate}\.proofs\.(\w+)', texts[module])
    return texts


def definitions(crate):
    """The texts of the files of `specs/` that name no type of the code, by path, and the paths of the others."""
    folder = f'{TOP}/crates/{crate}/specs'
    paths = [os.path.relpath(f'{at}/{name}', folder) for at, _, names in os.walk(folder) for name in names]
    texts = {path: read(f'{folder}/{path}') for path in paths}
    out = sorted(path for path in paths if f'Rattle.{crate}.specs.declared' in texts[path])
    gone = {os.path.basename(path).removesuffix('.antt') for path in out}
    for path in set(texts) & {'Lib.antt', 'inner.antt'}:
        texts[path] = ''.join(it for it in texts[path].splitlines(True) if it.split()[-1:] not in [[name] for name in gone])
    return {path: text for path, text in texts.items() if path not in out}, out


def link(name, room):
    """Links a crate with its library into the room, since a repository names no crate outside of it."""
    os.makedirs(f'{room}/crates/{name}/out')
    for part in ('src', 'specs', 'proofs', 'out/rlib'):
        if os.path.isdir(f'{TOP}/crates/{name}/{part}'):
            subprocess.run(['cp', '-al', f'{TOP}/crates/{name}/{part}', f'{room}/crates/{name}/{part}'], check=True)


def lay_out(crate, modules, is_built, room):
    """Writes the trial crate."""
    texts = {f'proofs/{module}.antt': text for module, text in lemmas(crate, modules).items()}
    names = sorted(os.path.basename(it).removesuffix('.antt') for it in texts)
    texts['proofs/Lib.antt'] = ''.join(f'pub mod {name}\n' for name in names)
    if not is_built:
        kept, out = definitions(crate)
        texts |= {f'specs/{path}': text for path, text in kept.items()}
        for path in out:
            print(f'left out: specs/{path}, which names a type of the code')
    for path, text in texts.items():
        for part in ('proofs',) if is_built else ('proofs', 'specs'):
            text = text.replace(f'Rattle.{crate}.{part}', f'Rattle.{TRIAL}.{part}')
        write(f'{room}/crates/{TRIAL}/{path}', text)
    write(f'{room}/crates/{TRIAL}/src/lib.rt', '//! Lemmas alone.\n#![tactic(auto)]\n\n/// Nothing.\npub fn nothing() {}\n')


def main():
    if len(sys.argv) < 3:
        sys.exit(__doc__)
    name, modules = sys.argv[1], sys.argv[2:]
    crate = next(it for it in rtlib.crates_below(TOP) if it.name == name)
    unbuilt = [it.name for it in below(crate) if not it.is_built()]
    if unbuilt:
        sys.exit(f'not built: {" ".join(unbuilt)}')
    is_built = crate.is_built()
    uses = re.search(rf'(?m)^{name}:(.*)$', read(f'{TOP}/crates.txt')).group(1)
    os.makedirs(f'{crate.folder}/out', exist_ok=True)
    with tempfile.TemporaryDirectory(prefix='try-', dir=f'{crate.folder}/out') as room:
        libraries = [it.name for it in below(crate)] + [name] * is_built
        for library in libraries:
            link(library, room)
        lines = [it for it in read(f'{TOP}/crates.txt').splitlines() if it.partition(':')[0] in libraries]
        write(f'{room}/crates.txt', '\n'.join([*lines, f'{TRIAL}:{uses}{" " + name if is_built else ""}', '']))
        lay_out(name, modules, is_built, room)
        ran = subprocess.run([sys.executable, f'{TOP}/tools/kit.py', 'check'], cwd=f'{room}/crates/{TRIAL}',
                             stdin=subprocess.DEVNULL, capture_output=True, text=True, check=False)
    told = [it for it in (ran.stdout + ran.stderr).splitlines() if ': error' in it or it.startswith(('logic=', 'rt: '))]
    print('\n'.join(told))
    return ran.returncode


if __name__ == '__main__':
    sys.exit(main())
