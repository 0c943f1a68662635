#!/usr/bin/env python3
"""Checks a crate before those below it are proved: in a trial crate, over stubs and the libraries that are here.

usage: tools/trial_crate.py CRATE [flags of rt check]      as tools/trial_crate.py jl_machine --only calls --jobs 1

The trial lies in `crates/CRATE/out/trial` and is kept: a second call writes only the files that changed. It has `src`,
`specs` and `proofs` of CRATE, links to the libraries below CRATE that are built here (tools/borrow.py, tools/prove.py),
and of each crate below without one only what is named: functions, files of `specs/`, and files of lemmas, with paths
rewritten. A function that returns a Result over NoMemory is a stub, with the real contract and the body
`Err(NoMemory)`; any other has its real body, with the functions that this calls and the answers of its goals.

What proves over stubs proves over the real crates with the same contracts. It proves nothing of what is handed in: no
verdict rests on it, and the status is that of `rt check`. Its limits: a type that a crate without a library declares is
no function, so such a crate has to be proved first; lemmas are taken along and checked again, whole files of them;
the code is read by its layout, an item from the line of its `fn` to the next line that is `}`, its body from `{`.
"""
import glob
import os
import re
import shutil
import subprocess
import sys

from kit import below, rtlib
from try_lemmas import TOP, read, write

PARTS = ('src', 'specs', 'proofs')
USE = re.compile(r'(?ms)^((?:ghost )?use [\w.:\-]+)(\.|::)(\{[^}]*\}|[^\s;{}]+(?: as [^\s;]+)?);\n')
STUB = '{\n    Err(NoMemory)\n}'


def names_of(names):
    """What the last part of a `use` names, with or without braces."""
    return [it.strip() for it in names.strip('{}').split(',') if it.strip()]


def is_named(name, body):
    """Whether a text names what a `use` brings; of an operator all parts have to be there."""
    name = name.split(' as ')[-1]
    if '◌' in name:
        return all(it in body for it in name.split('◌') if it)
    return re.search(rf'(?<![\w.]){re.escape(name)}(?!\w)', body) is not None


def uses_for(text, body):
    """The lines of `use` of a module that a part of it needs."""
    lines = ''
    for start, dot, names in USE.findall(text):
        kept = [it for it in names_of(names) if is_named(it, body)]
        # (a module is named without braces)
        if kept:
            lines += f'{start}{dot}{names};\n' if names[0] != '{' else f'{start}{dot}{{{", ".join(kept)}}};\n'
    return lines


def item(text, name):
    """A constant of a module, or a function in two parts, up to its body and the body."""
    if found := re.search(rf'(?ms)^(?:pub(?:\(\w+\))? )?const {name}\b.*?;$', text):
        return found.group(), ''
    found = re.search(rf'(?ms)^(?:#\[[^\n]*\]\n)*(?:pub(?:\(\w+\))? )?fn {name}\b.*?(?:^\}}|\{{\}})$', text)
    body = re.search(r'(?m)^\{$', found.group()) or re.search(r'\{(?:\n|\}$)', found.group())
    return found.group()[:body.start()], found.group()[body.start():]


def is_stubbed(head):
    """Whether the type that a function returns is a Result over NoMemory."""
    return re.search(r'-> Result<.*NoMemory>\s*$', re.split(r'\n\s*(?:requires|ensures)\b', head)[0], re.S) is not None


class Trial:
    """The files of a trial crate, by path, and what was taken of the crates below that have no library."""

    def __init__(self, name, gone):
        self.name, self.gone = name, gone
        self.files, self.modules, self.left, self.told = {}, {}, [], {}
        crates = '|'.join(gone) or '(?!)'
        self.paths = re.compile(rf'\b(?:Rattle\.)?({crates}|crate)(\.|::)(specs|proofs)\2((?:[a-z_]\w*\2)*)(\w+)')
        self.calls = re.compile(rf'\b({crates})::([a-z]\w*)(?=\()')

    def tell(self, crate, sort, what):
        self.told.setdefault((crate, sort), set()).add(what)

    def module_of(self, crate, name):
        """The module of the trial for a function of a crate without a library, which is taken along."""
        for path in sorted(glob.glob(f'{TOP}/crates/{crate}/src/**/*.rt', recursive=True)):
            if re.search(rf'(?m)^pub(?:\(\w+\))? (?:fn|const) {name}\b', read(path)):
                return self.take(crate, os.path.relpath(path, f'{TOP}/crates/{crate}/src')[:-3], name)
        sys.exit(f'{crate}::{name} is no function, and {crate} has no library here: prove it first')

    def take(self, crate, module, name):
        """Takes an item of a module along, and names its module of the trial."""
        key = crate, module
        if name not in self.modules.setdefault(key, []):
            self.modules[key].append(name)
            self.left.append(key)
        return f's_{crate}_{module.replace("/", "_")}'

    def rewritten(self, text, own):
        """A text of the crate `own` with the paths of the trial."""
        def use(found):
            root = found[1].removeprefix('use ').split('::')[0]
            crate = own if root == 'crate' else root
            if found[2] == '.' or crate not in self.gone:
                return found[0]
            return ''.join(f'use crate::{self.module_of(crate, it.split(" as ")[0])}::{it};\n'
                           for it in names_of(found[3]))

        def path(found):
            crate = own if found[1] == 'crate' else found[1]
            if crate not in self.gone:
                return found[0]
            dot = found[2]
            place = self.file(crate, found[3], [it for it in found[4].split(dot) if it], found[5])
            return dot.join([f'Rattle.{self.name}' if dot == '.' else 'crate', found[3], *place])

        for line, crate, short in re.findall(r'(?m)^(use (\w+) as (\w+);\n)', text):
            if crate in self.gone:
                text = re.sub(rf'(?<![\w:]){short}::', f'{crate}::', text.replace(line, ''))
        text = self.calls.sub(lambda it: f'crate::{self.module_of(it[1], it[2])}::{it[2]}', USE.sub(use, text))
        return self.paths.sub(path, text)

    def file(self, crate, part, folders, name):
        """The place in the trial of a file of specs or lemmas, which is taken along, or of the goals of a function."""
        if part == 'proofs' and folders:
            return [f's_{crate}_{folders[0]}', *folders[1:], name]
        source = '/'.join([f'{TOP}/crates/{crate}/{part}', *folders, f'{name}.antt'])
        if 'declared' in folders or not os.path.exists(source):
            sys.exit(f'{source.removeprefix(TOP + "/")} is no file, and {crate} has no library here: prove it first')
        words = [it.capitalize() for it in (*crate.split('_'), *folders) if it != 'inner']
        place = ['inner'] * (part == 'specs') + [''.join(words) + name]
        path = '/'.join([part, *place]) + '.antt'
        if path not in self.files:
            self.files[path] = ''
            self.files[path] = self.rewritten(read(source), crate)
            self.tell(crate, part, name)
        return place

    def take_left(self):
        """Writes the modules of what was taken along, until nothing is named that isn't there."""
        while self.left:
            crate, module = self.left.pop()
            text = read(f'{TOP}/crates/{crate}/src/{module}.rt')
            body, heading = self.items(crate, module, text), '//! Of a crate that has no library here.\n'
            if 'Err(NoMemory)' in body and not re.search(r'(?m)^use [^;]*\bNoMemory\b', text):
                heading += 'use jl_text::NoMemory;\n'
            path = f'src/{self.take(crate, module, self.modules[crate, module][0])}.rt'
            self.files[path] = self.rewritten(f'{heading}{uses_for(text, body)}\n{body}', crate)

    def items(self, crate, module, text):
        """The text of what is taken of a module: stubs, and what is no stub with what it calls in the module."""
        parts = []
        for name in self.modules[crate, module]:
            head, body = item(text, name)
            if is_stubbed(head):
                head, body = re.sub(r'(?m)^#\[[^\n]*\]\n', '', head), STUB
            else:
                self.take_answers(crate, module, name)
                for it in dict.fromkeys(re.findall(r'\b\w+\b', body)):
                    if it != name and re.search(rf'(?m)^(?:pub(?:\(\w+\))? )?(?:fn|const) {it}\b', text):
                        self.take(crate, module, it)
            self.tell(crate, 'stubs' if body == STUB else 'with their bodies', name)
            head = re.sub(r'(?m)^(?:pub(?:\(\w+\))? )?(fn|const) ', r'pub \1 ', head)
            parts.append(f'/// Taken along.\n{head}{body}')
        return '\n\n'.join(parts) + '\n'

    def take_answers(self, crate, module, name):
        """Takes the answers of the goals of a function along."""
        folder, there = f'{TOP}/crates/{crate}/proofs/{module}', f'proofs/{self.take(crate, module, name)}'
        for at in (name, f'+{name}'):
            for path in glob.glob(f'{folder}/{at}/**/*.antt', recursive=True):
                self.files[f'{there}/{os.path.relpath(path, folder)}'] = self.rewritten(read(path), crate)

    def take_own(self):
        """Takes the files of the crate itself."""
        folder = f'{TOP}/crates/{self.name}'
        for path in (it for part in PARTS for it in glob.glob(f'{folder}/{part}/**/*', recursive=True)):
            if os.path.isfile(path):
                self.files[os.path.relpath(path, folder)] = self.rewritten(read(path), self.name)

    def add_lines(self):
        """Names what was taken along in the files that list modules."""
        def add(path, names, end=''):
            text = self.files.get(path, '')
            lines = [f'pub mod {it}{end}\n' for it in sorted(names) if not re.search(rf'(?m)\bmod {it}{end}$', text)]
            if lines:
                self.files[path] = text.rstrip('\n') + '\n' * bool(text) + ''.join(lines)

        def listed(folder):
            names = [os.path.basename(it)[:-5] for it in self.files if os.path.dirname(it) == folder]
            return [it for it in names if it != 'Lib']

        add('src/lib.rt', [it[4:-3] for it in self.files if it.startswith('src/s_')], ';')
        add('specs/inner.antt', listed('specs/inner'))
        add('specs/Lib.antt', ['inner'] * bool(listed('specs/inner')))
        add('proofs/Lib.antt', listed('proofs'))


def link(name, room):
    """Links a library into the trial, unless it is there."""
    here, there, stamp = f'{TOP}/crates/{name}', f'{room}/crates/{name}', 'out/rlib/stamp'
    if os.path.exists(f'{there}/{stamp}') and os.path.samefile(f'{here}/{stamp}', f'{there}/{stamp}'):
        return
    shutil.rmtree(there, ignore_errors=True)
    os.makedirs(f'{there}/out')
    for part in (*PARTS, 'c', 'out/rlib'):
        if os.path.isdir(f'{here}/{part}'):
            subprocess.run(['cp', '-al', f'{here}/{part}', f'{there}/{part}'], check=True)


def lay_out(trial, built, room):
    """Writes the trial, and leaves what is the same as it was."""
    for name in built:
        link(name, room)
    lines = dict(re.findall(r'(?m)^(\w+):(.*)$', read(f'{TOP}/crates.txt')))
    taken = [trial.name, *dict.fromkeys(crate for crate, _ in trial.told)]
    uses = dict.fromkeys(it for name in taken for it in lines[name].split() if it not in trial.gone)
    write(f'{room}/crates.txt', ''.join(f'{it}:{lines[it]}\n' for it in built) + f'{trial.name}: {" ".join(uses)}\n')
    folder = f'{room}/crates/{trial.name}'
    for path in (it for part in PARTS for it in glob.glob(f'{folder}/{part}/**/*', recursive=True)):
        if os.path.isfile(path) and os.path.relpath(path, folder) not in trial.files:
            os.remove(path)
    for path, text in trial.files.items():
        if not os.path.exists(f'{folder}/{path}') or read(f'{folder}/{path}') != text:
            write(f'{folder}/{path}', text)


def main():
    if len(sys.argv) < 2 or sys.argv[1].startswith('-'):
        sys.exit(__doc__)
    name, flags = sys.argv[1], sys.argv[2:]
    crate = next((it for it in rtlib.crates_below(TOP) if it.name == name), None)
    if crate is None:
        sys.exit(f'crates.txt names no crate {name}')
    room, built = f'{crate.folder}/out/trial', []
    for it in below(crate):
        built += [it.name] * (it.is_built() and all(dep.name in built for dep in below(it)))
    if not built:
        sys.exit(f'no library below {name} is built here: see tools/borrow.py')
    trial = Trial(name, [it.name for it in below(crate) if it.name not in built])
    for step in (trial.take_own, trial.take_left, trial.add_lines):
        step()
    lay_out(trial, built, room)
    for (taken, sort), names in sorted(trial.told.items()):
        print(f'{taken}, {sort}: {", ".join(sorted(names))}')
    print(f'trial: {room}', flush=True)
    return subprocess.run([sys.executable, f'{TOP}/tools/kit.py', 'check', *flags], cwd=f'{room}/crates/{name}',
                          stdin=subprocess.DEVNULL, check=False).returncode


if __name__ == '__main__':
    sys.exit(main())
