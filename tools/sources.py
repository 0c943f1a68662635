"""The files that the program is made from, and what was seen of them."""

from __future__ import annotations

import hashlib
import os
from typing import NamedTuple

PARTS = ("src", "specs", "c")


class Seen(NamedTuple):
    """Two sums of the source files of a clone."""

    listing: str
    """Of names, sizes and times: quick, and another one where a file was only touched, or changed and changed back."""
    contents: str
    """Of names and contents."""


def look(top: str) -> Seen:
    return Seen(listing(top), contents(top))


def source_files(top: str) -> list[str]:
    """The files that the program is made from, relative to the top."""
    found = [name for name in ("crates.txt", "HANDLES") if os.path.isfile(os.path.join(top, name))]
    crates = os.path.join(top, "crates")
    for crate in sorted(os.listdir(crates)):
        for part in PARTS:
            for folder, folders, files in os.walk(os.path.join(crates, crate, part)):
                folders.sort()
                found += [os.path.relpath(os.path.join(folder, name), top) for name in sorted(files)]
    return found


def listing(top: str) -> str:
    total = hashlib.sha256()
    for name in source_files(top):
        total.update(f"{name} {stamp_of(os.path.join(top, name))}\n".encode())
    return total.hexdigest()


def contents(top: str) -> str:
    total = hashlib.sha256()
    for name in source_files(top):
        total.update(f"{name} {sum_of(os.path.join(top, name))}\n".encode())
    return total.hexdigest()


def stamp_of(path: str) -> str:
    """What the file system says of a file, which is something else once the file was written or replaced."""
    try:
        about = os.stat(path)
    except FileNotFoundError:
        return "none"
    return f"{about.st_ino}-{about.st_size}-{about.st_mtime_ns}-{about.st_ctime_ns}"


def sum_of(path: str) -> str:
    with open(path, "rb") as file:
        return hashlib.sha256(file.read()).hexdigest()
