"""Keeps results between runs, by the sum of what they were made from: the text that was run, the words, the path, the
source map, the program and this front end.

An entry is never out of date, and a folder of entries may be removed at any time."""

from __future__ import annotations

import hashlib
import json
import os
from typing import Any

from . import VERSION
from .findings import FileResult, Finding, Severity
from .original import MapError, map_url, read_map_bytes
from .output import write_whole
from .program import ProgramError
from .source import Place


def file_sum(path: str) -> str:
    """The sum of a file's bytes."""
    try:
        with open(path, "rb") as file:
            return hashlib.sha256(file.read()).hexdigest()
    except OSError as error:
        raise ProgramError(f"{path} can't be read: {error.strerror}") from error


def map_sum(text: str, path: str) -> str | None:
    """The sum of the source map that a script ends in, where that is a file."""
    url = map_url(text)
    try:
        return hashlib.sha256(read_map_bytes(url, path)[0]).hexdigest() if url else None
    except MapError:
        return None


def write_finding(finding: Finding) -> list[Any]:
    place = [finding.place.line, finding.place.column]
    about = [finding.rule, finding.message, finding.severity.value, finding.count]
    return [finding.path, *place, *about, finding.source_line, finding.source_column]


def read_finding(parts: list[Any]) -> Finding:
    path, line, column, rule, message, severity, count, source_line, source_column = parts
    return Finding(path, Place(line, column), rule, message, Severity(severity), count, source_line, source_column)


class Cache:
    """A folder of results."""

    def __init__(self, folder: str, program_path: str) -> None:
        self.folder = folder
        self.made_by = f"{VERSION} {file_sum(program_path)}"
        os.makedirs(folder, exist_ok=True)

    def key(self, text: str, words: list[str], path: str) -> str:
        """The name of the entry for a text that is run with these words."""
        made_from = json.dumps([self.made_by, words, os.path.abspath(path), path, text, map_sum(text, path)])
        return hashlib.sha256(made_from.encode("utf-8", "surrogatepass")).hexdigest()

    def path_of(self, key: str) -> str:
        return os.path.join(self.folder, f"{key}.json")

    def read(self, key: str) -> FileResult | None:
        """The result that was kept, or None where there is none that can be read."""
        try:
            with open(self.path_of(key), encoding="utf-8", errors="surrogatepass") as file:
                kept = json.load(file)
            findings = tuple(read_finding(it) for it in kept["findings"])
            return FileResult(kept["path"], findings, kept["end"], None, tuple(kept["notes"]))
        except (OSError, ValueError, KeyError, TypeError):
            return None

    def write(self, key: str, result: FileResult) -> None:
        """Keeps a result; where there is no room, it is not kept."""
        kept = {
            "path": result.path,
            "end": result.end,
            "notes": list(result.notes),
            "findings": [write_finding(it) for it in result.findings],
        }
        try:
            write_whole(self.path_of(key), lambda file: json.dump(kept, file))
        except OSError:
            pass
