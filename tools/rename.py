#!/usr/bin/env python3
"""Renames what definitions, code and proofs name, by a table, in crates, their edits and their pages.

usage: tools/rename.py TABLE

A line of TABLE is `OLD NEW WHERE HOW`:
  WHERE  crates with commas between them; `CRATE+` is a crate with all that stand on it
  HOW    `word`: OLD as a whole word, also as a part of a name with hyphens, such as the goals of a clause
         `from MODULE`: OLD where MODULE defines it or a file imports it from there, as jl_state.specs.Rest
A folder of `proofs/` that has the name of a function is renamed with it, and a file of definitions that has the name of
what it defines. In pages and comments a name is renamed where it is quoted as code. An empty line, and one that begins
with `#`, is passed over.

Nothing is written where a NEW is there already in the crates of its line. After a run come `rt fmt` in each crate whose
lines changed, and the check of each: what was missed is a name that nothing defines."""

import glob
import os
import re
import sys

TOP = os.path.dirname(os.path.dirname(os.path.abspath(__file__)))
WORD = r"(?<!\w){}(?!\w)"


def crates_above(name):
    """The crate, and all that stand on it, by crates.txt, which has a crate behind those that it stands on."""
    found = {name}
    with open(os.path.join(TOP, "crates.txt"), encoding="utf-8") as it:
        for line in it:
            crate, colon, below = line.split("#")[0].partition(":")
            if colon and found & set(below.split()):
                found.add(crate.strip())
    return found


def files_of(crate):
    for pattern in (f"crates/{crate}/**/*", f"edits/{crate}/*", f"must-fail/{crate}/**/*"):
        for file in glob.glob(os.path.join(TOP, pattern), recursive=True):
            if os.path.isfile(file) and "/out/" not in file and file.endswith((".rt", ".antt", ".md", ".edit")):
                yield file


class Texts:
    """The files that were looked into, and what they become."""

    def __init__(self):
        self.before, self.now = {}, {}

    def read(self, file):
        if file not in self.now:
            with open(file, encoding="utf-8") as it:
                self.before[file] = self.now[file] = it.read()
        return self.now[file]

    def write(self):
        for file, text in self.now.items():
            if text != self.before[file]:
                with open(file, "w", encoding="utf-8") as it:
                    it.write(text)


def is_named(name, text):
    """Whether a line that is no comment has the word."""
    lines = (it for it in text.split("\n") if not it.lstrip().startswith(("//", "-- ")))
    return any(re.search(WORD.format(re.escape(name)), it) for it in lines)


def renamed(text, pattern, new, is_page):
    """The text with each match renamed, in prose only between backquotes."""
    lines = text.split("\n")
    for number, line in enumerate(lines):
        if is_page or line.lstrip().startswith(("//", "-- ")):
            parts = line.split("`")
            parts[1::2] = [re.sub(pattern, new, it) for it in parts[1::2]]
            lines[number] = "`".join(parts)
        else:
            lines[number] = re.sub(pattern, new, line)
    return "\n".join(lines)


def rename_imported(texts, file, old, new, module):
    """Renames what a file imports from a module, or what the module itself defines."""
    text = texts.read(file)
    own = os.path.join(TOP, "crates", module.replace(".", "/") + ".antt")
    imports = re.compile(r"(use Rattle\.%s\.\{)([^}]*)\}" % re.escape(module))
    word = WORD.format(re.escape(old))
    if file != own and not any(re.search(word, it.group(2)) for it in imports.finditer(text)):
        return
    text = imports.sub(lambda it: it.group(1) + re.sub(word, new, it.group(2)) + "}", text)
    texts.now[file] = renamed(text, r"(?<![\w.:-])%s(?![\w-])" % re.escape(old), new, file.endswith(".md"))


def rename_places(crate, old, new):
    """Renames the folder of a function's proofs, and the file of a definition."""
    for at, folders, files in os.walk(os.path.join(TOP, "crates", crate), topdown=False):
        if "/out" in at:
            continue
        if "/proofs" in at and old in folders:
            os.rename(os.path.join(at, old), os.path.join(at, new))
        if f"{old}.antt" in files:
            os.rename(os.path.join(at, f"{old}.antt"), os.path.join(at, f"{new}.antt"))


def main(words):
    if len(words) != 1:
        print(__doc__, file=sys.stderr)
        return 2
    with open(words[0], encoding="utf-8") as it:
        rows = [line.split(None, 3) for line in it if line.strip() and not line.startswith("#")]
    texts, places = Texts(), []
    for old, new, where, how in rows:
        parts = [crates_above(it[:-1]) if it.endswith("+") else {it} for it in where.split(",")]
        for crate in sorted(set().union(*parts)):
            for file in files_of(crate):
                texts.read(file)
                if is_named(new, texts.before[file]) and not file.endswith(".md"):
                    print(f"{new} is in {os.path.relpath(file, TOP)} already", file=sys.stderr)
                    return 1
                if how.startswith("from "):
                    rename_imported(texts, file, old, new, how.split()[1])
                else:
                    texts.now[file] = renamed(texts.read(file), WORD.format(re.escape(old)), new, file.endswith(".md"))
            if how.strip() == "word":
                places.append((crate, old, new))
    texts.write()
    for place in places:
        rename_places(*place)
    return 0


if __name__ == "__main__":
    sys.exit(main(sys.argv[1:]))
