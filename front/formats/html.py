"""One page for a browser: a list of the findings, and each source with the findings under their lines."""

from __future__ import annotations

import os
from typing import Sequence, TextIO

from ..findings import FileResult, Severity, Totals
from ..original import read_source
from ..source import SourceText
from .lines import findings_of
from .page import Note, Row, escape, link_to, write_foot, write_head, write_source
from .stylish import summary


def read_lines(path: str) -> list[str]:
    """The lines of a file, none where it can't be read."""
    text = read_source(path)
    return [] if text is None else SourceText(text).lines


def rows_of(lines: list[str], notes: dict[int, list[Note]], known: dict[int, str]) -> list[Row]:
    """A row for each line, or only for those with notes where the file can't be read."""
    numbers = range(1, max(len(lines), *notes) + 1) if lines else sorted(notes)
    return [
        Row(it, lines[it - 1] if it <= len(lines) else known.get(it, ""), notes=notes.get(it, [])) for it in numbers
    ]


def write(results: Sequence[FileResult], out: TextIO, colour: bool) -> None:
    del colour
    write_head(out, "jlint: " + summary(Totals.of(results)))
    by_path: dict[str, dict[int, list[Note]]] = {}
    known: dict[str, dict[int, str]] = {}
    out.write("<ol>\n")
    for result in results:
        for it in findings_of(result):
            note = Note(it.place.column, it.text, it.rule, it.severity is Severity.ERROR)
            by_path.setdefault(it.path, {}).setdefault(it.place.line, []).append(note)
            known.setdefault(it.path, {})[it.place.line] = it.source_line or ""
            where = f"{it.path}:{it.place}"
            link = link_to(it.path, it.place.line)
            out.write(f'<li><a href="{escape(link)}">{escape(where)}</a> {escape(it.text)} <i>{it.rule}</i></li>\n')
    out.write("</ol>\n")
    for path, notes in by_path.items():
        out.write(f"<h2>{escape(os.path.normpath(path))}</h2>\n")
        write_source(out, path, rows_of(read_lines(path), notes, known[path]))
    write_foot(out)
