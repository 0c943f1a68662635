"""The output formats, each a module with a function `write(results, out, colour)`."""

from __future__ import annotations

import importlib
from typing import Protocol, Sequence, TextIO, cast

from ..findings import FileResult

MODULES = {
    "stylish": "stylish",
    "unix": "unix",
    "json": "eslint_json",
    "github": "github",
    "checkstyle": "checkstyle",
    "junit": "junit",
    "sarif": "sarif",
    "html": "html",
}
NAMES = tuple(MODULES)


class Format(Protocol):
    """What each module offers."""

    def __call__(self, results: Sequence[FileResult], out: TextIO, colour: bool) -> None:
        ...


def writer_of(name: str) -> Format:
    """The function that writes a format; only the module that is asked for is loaded."""
    return cast(Format, importlib.import_module(f".{MODULES[name]}", __package__).write)
