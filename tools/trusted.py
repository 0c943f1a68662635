#!/usr/bin/env python3
"""Writes docs/trusted.md: the definitions that the contract of jl_app::jlint rests on, in reading order.

usage: tools/trusted.py             writes the page, and prints its figures
       tools/trusted.py --check     writes nothing, and ends with status 1 where the page is not what it would write
       tools/trusted.py --why NAME  prints by which definitions a definition is reached first

A clause reaches the definitions that it names, and a definition those that it names. Names are looked up among the
imports of their file and what the file declares. Where a clause cites a ghost member of a trait, as `S.left`, what
that is for each type is looked at too.
"""
import collections
import functools
import os
import re
import sys

TOP = os.path.dirname(os.path.dirname(os.path.abspath(__file__)))
CRATES = os.path.join(TOP, 'crates')
PAGE = os.path.join(TOP, 'docs', 'trusted.md')
PROGRAM = 'jl_app'

# The parts of the page: a title, a public function, and its clauses, or fields of a record that a clause names, where
# None are all. One whose function is not there is left out.
PARTS = (
    ('The first theorem alone', 'run_and_lint', None),
    ('The two theorems', 'jlint', ('headline',)),
    ('The other clauses', 'jlint', None),
)

USE = re.compile(
    r'^[ \t]*(?:ghost )?(?:unfoldable )?(?P<out>pub )?use Rattle\.(?P<path>[^\s{;]+?)\.?'
    r'(?:\{(?P<names>[^}]*)\})?(?: as (?P<alias>\S+?))?;?[ \t]*$',
    re.M,
)
WORD = r'(?:(?:unfoldable|abbrev|pub|data|record)\s+)*'
HEAD = re.compile(rf'^(?P<kind>{WORD})(?P<name>[^\s:(){{}}\[\],;.=]+)(?=\s)(?P<typed>[^=]*?\s:(?=\s|$))?')
GROUP = re.compile(r'^(?:(?:unfoldable|abbrev)\s+)*(?:mutual$|module\s)')
FIELD = r'[^\s:(){}]+'
OWNER = r'^(?:pub )?(?:impl\b.*?\bfor (?P<type>\w+)|trait (?P<trait>\w+)|impl\b)'
GHOST = r'^\s+ghost (?P<name>\w+)(?:: \{[^}]*\})?(?: =|:) \{'
CLAUSE = re.compile(r'^    (requires|ensures)\*? ?(\w*) ?\{', re.M)


@functools.cache
def read(path):
    with open(path, encoding='utf-8') as it:
        return it.read()


def indent(line):
    return len(line) - len(line.lstrip())


class Definition:
    """A definition with the comment before it: its name, its first line, and its lines."""

    def __init__(self, file, name, first, group):
        self.file, self.name, self.first, self.group = file, name, first, group
        self.lines = []

    def text(self):
        around = [line for at in self.group for line in self.file.groups[at]]
        return '\n'.join([*around, *(line for line in self.lines)])


class File:
    """A file of definitions: what it imports, and what it declares."""

    def __init__(self, path):
        self.path = path
        text = read(path)
        self.names, self.aliases, self.passed = imports(text)
        self.definitions, self.groups, self.head = [], {}, []
        self.split(text.split('\n'))
        self.by_name = {it.name: it for it in self.definitions}
        for it in self.definitions:
            for member in members(it):
                self.by_name.setdefault(member, it)

    def split(self, lines):
        """Cuts the file into definitions. A line that begins further left than a group of them ends the group."""
        at, levels, comment, current = 0, [(0, None)], [], None
        while at < len(lines) and lines[at].startswith('--'):
            self.head.append(lines[at])
            at += 1
        skipping = False
        for number, line in enumerate(lines[at:], at):
            bare = line.strip()
            if skipping or re.match(r'(?:unfoldable )?(?:pub )?(?:use|mod) ', bare):
                # an import may go on to the next lines
                opened = line.count('{') - line.count('}')
                skipping = opened > 0 if not skipping else opened >= 0
                continue
            if not bare:
                continue
            while indent(line) < levels[-1][0]:
                levels.pop()
            if levels[-1][0] is None:
                levels[-1] = (indent(line), levels[-1][1])
            inside = indent(line) > levels[-1][0]
            if bare.startswith('--') and not inside:
                comment.append(line)
                current = None
            elif GROUP.match(bare) and not inside:
                self.groups[number] = [*comment, line]
                levels.append((levels[-1][0] + 2, number))
                comment, current = [], None
            elif not inside and self.begins(bare):
                group = [it for _, it in levels if it is not None]
                current = Definition(self, HEAD.match(bare)['name'], number, group)
                current.lines = [*comment, line]
                self.definitions.append(current)
                comment = []
            elif current is not None:
                current.lines += [*comment, line]
                comment = []
            elif levels[-1][1] is not None:
                self.groups[levels[-1][1]] += [*comment, line]
                comment = []

    def begins(self, bare):
        """Whether a line is the signature of a definition, and not one of its cases."""
        found = HEAD.match(bare)
        return bool(found and (found['kind'] or found['typed']) and not re.match(r'infix[lr]? ', bare))

    def counted(self, reached, before=()):
        """How many lines one reads here for these definitions, blank ones and imports left out, after those before."""
        groups = {at for it in reached for at in it.group} - {at for it in before for at in it.group}
        head = 0 if before else len(self.head)
        return head + sum(len(it.lines) for it in reached) + sum(len(self.groups[at]) for at in groups)


def imports(text):
    """What each name that a file imports is, what each alias is, and which names it passes on: paths and names."""
    names, aliases, passed = {}, {}, set()
    for use in USE.finditer(text):
        if use['alias']:
            aliases[use['alias']] = use['path']
        for item in (use['names'] or '').split(','):
            there, _, here = item.strip().partition(' as ')
            if there:
                names[here or there] = (use['path'], there)
                if use['out']:
                    passed.add(here or there)
    return names, aliases, passed


def members(definition):
    """The constructors of a data type, and the fields of a record."""
    kind = next((it for it in definition.lines if not it.strip().startswith('--')), '')
    if re.match(rf'\s*{WORD}', kind) and re.search(r'\b(?:data|record)\s', kind.split(':')[0]):
        for line in definition.lines:
            found = re.match(rf'\s+(?:pub )?({FIELD}) :', line)
            if found and indent(line) > indent(kind):
                yield found[1]


@functools.cache
def load(path):
    return File(path)


def place(path):
    """The file that an import names, and the rest of its path; nothing where it names what the code declares."""
    crate, _, rest = path.partition('.specs')
    parts = rest.strip('.').split('.')
    for end in range(len(parts), 0, -1):
        found = os.path.join(CRATES, crate, 'specs', *parts[:end]) + '.antt'
        if parts[0] != 'declared' and os.path.exists(found):
            return load(found), parts[end:]
    return None, []


def find(path, name):
    """The definitions that a name of an import is."""
    file, rest = place(path)
    if file is None:
        return []
    for it in [name, *rest]:
        if it in file.by_name:
            return [file.by_name[it]]
        if it in file.passed:
            return find(*file.names[it])
    return []


def words(text):
    """The words of a text as they are looked up: without comments, strings and names of fields, and of `a.b` both."""
    text = re.sub(r'"(?:[^"\\]|\\.)*"', ' ', text)
    text = re.sub(r'(?:^|(?<=\s))(?:--|//).*', ' ', text)
    text = re.sub(r'([{;]\s*)[^\s(){}\[\],;.]+(?= = )', r'\1', text)
    text = re.sub(r'^(\s+(?:pub )?)[^\s(){}\[\],;.]+(?= : )', r'\1', text, flags=re.M)
    for word in re.split(r'[\s(){}\[\],;⟦⟧<>]+', text):
        first, _, rest = word.partition('.')
        yield first, rest.partition('.')[0]


def named(text, names, aliases, own):
    """The definitions that a text names, of a file with these imports and these definitions of its own."""
    found, seen = {}, set(words(text))
    plain = {first for first, _ in seen}
    for first, second in seen:
        if first in aliases and second:
            found.update((it, None) for it in find(aliases[first], second))
        elif first in own:
            found[own[first]] = None
        elif first in names:
            found.update((it, None) for it in find(*names[first]))
    # operators between their operands, and `do`, which stands for the bind
    for name in [it for it in {*names, *own} if '◌' in it]:
        pieces = {it for it in name.split('◌') if it}
        if pieces <= plain or ('>>=' in pieces and 'do' in plain):
            found.update((it, None) for it in ([own[name]] if name in own else find(*names[name])))
    return found


def named_by(definition, text):
    """What a text of a definition names."""
    file = definition.file
    found = named(text, file.names, file.aliases, file.by_name)
    return sorted((it for it in found if it is not definition), key=lambda it: (it.file.path, it.first))


@functools.cache
def needs(definition):
    return named_by(definition, definition.text())


def below(name):
    """The crates that a crate stands on, and itself."""
    lines = [it.partition(':') for it in read(os.path.join(TOP, 'crates.txt')).split('\n') if it and it[0] != '#']
    uses = {left.split()[0]: right.split() for left, _, right in lines}
    found, left = set(), [name]
    while left:
        it = left.pop()
        if it in uses and it not in found:
            found.add(it)
            left += uses[it]
    return sorted(found)


def sources(crate):
    for folder, _, names in sorted(os.walk(os.path.join(CRATES, crate, 'src'))):
        yield from (os.path.join(folder, name) for name in sorted(names) if name.endswith('.rt'))


def closed(text, start):
    """The text from an opening brace to the one that closes it."""
    depth = 0
    for at in range(start, len(text)):
        depth += (text[at] == '{') - (text[at] == '}')
        if depth == 0:
            return text[start : at + 1]
    return text[start:]


@functools.cache
def ghost_members():
    """What the ghost members of traits are, by name: for which type or of which trait, the text, and its file."""
    found = collections.defaultdict(list)
    for crate in below(PROGRAM):
        for path in sources(crate):
            text, owner = read(path), None
            for it in re.finditer(OWNER + '|' + GHOST, text, re.M):
                if it['name']:
                    found[it['name']].append((owner, closed(text, it.end() - 1), path))
                else:
                    owner = it['type'] or it['trait']
    return found


def cited_members(text):
    """The ghost members that a text cites, as `⟦<Crowd as Observer>⟧.rules` or `S.left`."""
    for types, name in re.findall(r'(?:⟦<(\w+ as \w+)>⟧|\b[A-Z]\w*|\))\.(\w+)', text):
        for owner, said, path in ghost_members().get(name, []):
            if not types or owner in types.split(' as '):
                yield said, path


def with_members(texts):
    """These texts, each with its file, and what the ghost members are that they cite."""
    found = dict.fromkeys(texts)
    left = list(found)
    while left:
        for it in cited_members(left.pop()[0]):
            if it not in found:
                found[it] = None
                left.append(it)
    return list(found)


def clauses(function):
    """The clauses of a public function of the program, by name, with the imports of its file."""
    for path in sources(PROGRAM):
        text = read(path)
        found = re.search(rf'^pub fn {function}\b', text, re.M)
        if found:
            head = text[found.start() : text.index('\n{', found.start())]
            return [(it[1], it[2] or it[1], closed(head, it.end() - 1)) for it in CLAUSE.finditer(head)], path
    return None, None


def with_field(start, name):
    """The record among these definitions that has this field, and what it says with no other field."""
    for it in start:
        head = next((line for line in it.lines if not line.strip().startswith('--')), '')
        if re.match(rf'\s*{WORD}', head) and 'record ' in head.split(':')[0]:
            fields = [at for at, line in enumerate(it.lines) if re.match(rf'\s+(?:pub )?{FIELD} :(?=\s|$)', line)]
            fields = [at for at in fields if indent(it.lines[at]) == indent(head) + 2]
            for at, end in zip(fields, [*fields[1:], len(it.lines)]):
                if re.match(rf'\s+(?:pub )?{name} :', it.lines[at]):
                    return it, '\n'.join([*it.lines[: fields[0]], *it.lines[at:end]])
    return None


def roots(function, chosen):
    """What clauses of a function name, with what it requires; and of a record of which one field is meant, its text.

    Where no clause has a name, it is that of a field of a record which a clause names."""
    listed, path = clauses(function)
    if listed is None:
        return None, {}
    names, aliases, _ = imports(read(path))
    limited = {}
    for name in set(chosen or ()) - {name for _, name, _ in listed}:
        of_clauses = named(' '.join(text for _, _, text in listed), names, aliases, {})
        found = with_field(of_clauses, name)
        if found is None:
            sys.exit(f'{PROGRAM}::{function} has no clause {name}, and no record there has such a field')
        limited[found[0]] = found[1]
    texts = [(text, path) for kind, name, text in listed if kind == 'requires' or not chosen or name in chosen]
    found = dict.fromkeys(limited)
    for text, path in with_members(texts):
        names, aliases, _ = imports(read(path))
        found.update(named(text, names, aliases, {}))
    return sorted(found, key=lambda it: (it.file.path, it.first)), limited


def reach(start, limited):
    """All that these definitions need, themselves too, each with the one by which it was reached first."""
    by, left = {it: None for it in start}, collections.deque(start)
    while left:
        it = left.popleft()
        for other in named_by(it, limited[it]) if it in limited else needs(it):
            if other not in by:
                by[other] = it
                left.append(other)
    return by


def in_order(reached):
    """The files of these definitions, each after those that it needs."""
    order, done = [], set()
    of_file = collections.defaultdict(list)
    for it in reached:
        of_file[it.file].append(it)

    def visit(file):
        done.add(file)
        others = {other.file for it in of_file[file] for other in needs(it)}
        for other in sorted(others - done, key=lambda it: it.path):
            if other not in done:
                visit(other)
        order.append(file)

    for file in sorted(of_file, key=lambda it: it.path):
        if file not in done:
            visit(file)
    return [(file, sorted(of_file[file], key=lambda it: it.first)) for file in order if of_file[file]]


def which(file, reached, before):
    """Which definitions of a file these are, in few words, where some stood before."""
    if len(reached) == len(file.definitions):
        return 'all'
    if len(reached) + len(before) == len(file.definitions):
        return 'the others'
    there = ', '.join(f'`{it.name}`' for it in reached)
    out = ', '.join(f'`{it.name}`' for it in file.definitions if it not in reached)
    return there if before or len(there) <= len(out) + len('all but ') else f'all but {out}'


def about(file):
    said = ' '.join(line[2:].strip() for line in file.head)
    return re.split(r'(?<=[.]) ', said + ' ')[0].strip()


def row(file, reached, before):
    name = os.path.relpath(file.path, CRATES)[: -len('.antt')]
    before = [it for it in file.definitions if it in before]
    cells = (f'`{name}`', str(file.counted(reached, before)), which(file, reached, before), about(file))
    return '| ' + ' | '.join(it.replace('|', r'\|') for it in cells) + ' |\n'


def total(reached):
    """The number of files, definitions and lines."""
    of_file = collections.defaultdict(list)
    for it in reached:
        of_file[it.file].append(it)
    return len(of_file), len(reached), sum(file.counted(them) for file, them in of_file.items())


def parts():
    """The parts of the page: title, what is cited, all that it rests on, and what is new in it."""
    before = set()
    for title, function, chosen in PARTS:
        start, limited = roots(function, chosen)
        if start is not None:
            reached = set(reach(start, limited))
            cited = f'`{"`, `".join(chosen)}` of' if chosen else 'all clauses of'
            yield title, f'{cited} `{PROGRAM}::{function}`', reached, reached - before, set(before)
            before |= reached


def page():
    text, figures, all_before = INTRODUCTION, [], 0
    for title, cited, reached, new, before in parts():
        files, definitions, lines = total(reached)
        figures.append(f'{title}: {lines:,} lines, {definitions:,} definitions in {files} files ({cited})')
        verb = 'rest' if cited.startswith('all') else 'rests'
        text += f'\n## {title}\n\n{cited[0].upper()}{cited[1:]} {verb} on {lines:,} lines: '
        text += f'{definitions:,} definitions in {files} files'
        if before:
            more = total(reached | before)[2] - all_before
            text += f'. Those that stand above are not repeated: {more:,} lines are new'
        text += '.\n\n| File | Lines | Definitions | What it is about |\n|---|---|---|---|\n'
        text += ''.join(row(file, them, before) for file, them in in_order(new))
        all_before = total(reached | before)[2]
    return text + TAIL, figures


INTRODUCTION = '''# What has to be believed

The two theorems of the README stand in the contract of `jl_app::jlint`. Its words are defined in these files of `specs/`, each of which comes after what it needs. A clause reaches the definitions that it names, and these the ones that they name; only what is reached is counted, with the comments before it and the head of its file, and without blank lines and imports. Lemmas (`proofs/`) and the bodies of functions need no reading, since Rattle checks them. One definition is a constant of the code: the order of the builtins is that of `BUILTINS` in `jl_value/src/builtin_table.rt` (102 lines, not counted here).

`tools/trusted.py` writes this page, and `.ci/run` compares it.
'''

TAIL = '''
## Beside the definitions

What the contract says rests on

- the types that the definitions speak of (values, operations, tokens), which are those of the code, in the `src/` of the same crates;
- the ghost members of traits that it names, which stand in `src/` too: those of sources, sinks and shelves in jl_port (`traits.rt`, `memory.rt`, `shelf.rt`, `adapters.rt`), and `stands_for` and `rules` of a crowd in `jl_op/src/observer.rt` and in jl_analysis (`findings.rt`, `crowd.rt`, and `analysis.rt` and `checker.rt` for its boxes);
- the definitions of the kit's libraries that these files import: std, `ucd_category`, `unicode` and `clap`.

Not listed, though it stands in `specs/`: what only other contracts and proofs cite.
'''


def why(name):
    start = {it for _, function, chosen in PARTS for it in roots(function, chosen)[0] or []}
    by = reach(sorted(start, key=lambda it: (it.file.path, it.first)), {})
    for it in by:
        if it.name == name:
            while it is not None:
                print(f'{os.path.relpath(it.file.path, CRATES)}: {it.name}')
                it = by[it]


def main(given):
    if given[:1] == ['--why']:
        return why(given[1])
    wanted, figures = page()
    if '--check' in given:
        if not os.path.exists(PAGE) or read(PAGE) != wanted:
            sys.exit('docs/trusted.md is not what tools/trusted.py writes')
        return None
    with open(PAGE, 'w', encoding='utf-8') as out:
        out.write(wanted)
    return print('\n'.join(figures))


if __name__ == '__main__':
    main(sys.argv[1:])
