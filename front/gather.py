"""Finds the scripts that the command line names: files, folders and standard input."""

from __future__ import annotations

import argparse
import fnmatch
import os
import sys
from dataclasses import dataclass
from typing import Iterator

from .source import Place, SourceText

STANDARD_INPUT = "-"
LARGEST = 1_048_576
"""A script may have as many bytes; nothing past the next one is read."""


class Unreadable(Exception):
    """A file can't be read, and why."""


class NotAccepted(Exception):
    """What a file holds is no script, and why."""

    def __init__(self, kind: str, sentence: str, place: Place) -> None:
        super().__init__(sentence)
        self.kind, self.sentence, self.place = kind, sentence, place


@dataclass(frozen=True)
class Script:
    """A script to look at: its path as it is shown, and whether it is standard input."""

    path: str
    is_standard_input: bool = False
    trouble: str | None = None
    """Why there is nothing to read, where that is known already: a folder that can't be searched is listed so."""


def named_scripts(options: argparse.Namespace) -> list[Script]:
    """The scripts that the words of a command name. Where there are none, that is said on standard error."""
    found = scripts(options.files, tuple(options.ext.split(",")), options.ignore, options.stdin_filename)
    if not found:
        print("jl: the folders have no scripts", file=sys.stderr)
    return found


def scripts(words: list[str], suffixes: tuple[str, ...], ignored: list[str], stdin_name: str) -> list[Script]:
    """The scripts that these words name, each once, those of a folder in the order of their names."""
    found: dict[str, Script] = {}
    for word in words:
        if word == STANDARD_INPUT:
            found.setdefault(word, Script(stdin_name, True))
        elif os.path.isdir(word):
            for script in files_below(word, suffixes, ignored):
                found.setdefault(os.path.normpath(script.path), script)
        else:
            found.setdefault(os.path.normpath(word), Script(word))
    return list(found.values())


def files_below(top: str, suffixes: tuple[str, ...], ignored: list[str]) -> Iterator[Script]:
    """The scripts below a folder. A folder that links lead to more than once is visited once."""
    seen: set[tuple[int, int]] = set()
    # What is left to visit, the next at the end: folders lie deeper in one another than Python calls itself.
    left = [(top, True)]
    while left:
        path, is_folder = left.pop()
        if not is_folder:
            yield Script(path)
            continue
        try:
            about = os.stat(path)
            if (about.st_dev, about.st_ino) in seen:
                continue
            seen.add((about.st_dev, about.st_ino))
            entries = sorted(os.scandir(path), key=lambda it: it.name, reverse=True)
        except OSError as error:
            yield Script(path, trouble=f"the folder can't be searched: {error.strerror}")
            continue
        for entry in entries:
            below = os.path.join(path, entry.name)
            is_folder, is_file = kind_of(entry)
            is_script = is_file and entry.name.endswith(suffixes)
            if (is_folder or is_script) and not is_ignored(entry.name, below, ignored):
                left.append((below, is_folder))


def kind_of(entry: os.DirEntry[str]) -> tuple[bool, bool]:
    """Whether an entry is a folder, and whether a file, also by a link. A link to itself is neither."""
    try:
        return entry.is_dir(), entry.is_file()
    except OSError:
        return False, False


def is_ignored(name: str, path: str, ignored: list[str]) -> bool:
    """Whether a file or folder is passed over inside a folder: hidden ones, node_modules, and what a pattern names."""
    if name.startswith(".") or name == "node_modules":
        return True
    return any(fnmatch.fnmatch(path, it) or fnmatch.fnmatch(name, it) for it in ignored)


def read_standard_input(found: list[Script]) -> bytes:
    """Standard input, where it is one of the scripts."""
    if not any(it.is_standard_input for it in found):
        return b""
    if sys.stdin is None:
        raise Unreadable("standard input is closed")
    return sys.stdin.buffer.read(LARGEST + 1)


def read_script(script: Script, standard_input: bytes) -> str:
    """The text of a script."""
    if script.trouble is not None:
        raise Unreadable(script.trouble)
    if script.is_standard_input:
        given = standard_input
    else:
        try:
            if not os.path.isfile(script.path) and os.path.exists(script.path):
                raise Unreadable("it is no file")
            with open(script.path, "rb") as file:
                given = file.read(LARGEST + 1)
        except OSError as error:
            raise Unreadable(f"it can't be read: {error.strerror}") from error
    if len(given) > LARGEST:
        sentence = f"the script has more than {LARGEST:,} bytes: lint its parts, or what it is bundled from"
        raise NotAccepted("TooLong", sentence, Place(1, 1))
    try:
        return given.decode("utf-8")
    except UnicodeDecodeError as error:
        place = SourceText(given[: error.start].decode("utf-8")).end()
        sentence = f"byte {error.start} is not UTF-8: convert the file, for instance by `iconv -f latin1 -t utf-8`"
        raise NotAccepted("NotUtf8", sentence, place) from error
