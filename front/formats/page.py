"""Annotated source as HTML, without scripts and without anything from elsewhere."""

from __future__ import annotations

import html
import unicodedata
import urllib.parse
from dataclasses import dataclass, field
from typing import Sequence, TextIO

from ..source import index_of_column

STYLE = """
:root { color-scheme: light }
body { font: 14px system-ui, sans-serif; margin: 2em; color: #222; background: #fff }
h1 { font-size: 1.4em } h2 { font-size: 1.1em; margin: 2em 0 .5em; overflow-wrap: anywhere }
ol { max-height: 24em; overflow: auto } li { margin: .1em 0; overflow-wrap: anywhere } li i { color: #666 }
table { border-collapse: collapse } td { padding: 0 .6em; vertical-align: top }
pre { margin: 0; font: 12px/1.5 ui-monospace, monospace; white-space: pre; tab-size: 4 }
.number { color: #767676; text-align: right; user-select: none }
.count { color: #0b57a4; text-align: right; border-right: 1px solid #ccc }
.never { background: #fdeaea } .never .count { color: #a40000 }
.note pre { background: #fff3c4; color: #6b3d00; white-space: pre-wrap }
.error pre { background: #fbd5d5; color: #7a0000; white-space: pre-wrap }
.gap pre { background: #fdeaea; color: #8a1c1c } tr:target { outline: 2px solid #f5a623 }
"""


@dataclass(frozen=True)
class Note:
    """What is said under a line, with a caret under its column."""

    column: int
    text: str
    rule: str = ""
    is_error: bool = False
    is_gap: bool = False

    @property
    def css_class(self) -> str:
        return "gap" if self.is_gap else "error" if self.is_error else "note"


@dataclass(frozen=True)
class Row:
    """A line of source, how often it ran where that is known, and its notes."""

    number: int
    text: str
    count: int | None = None
    notes: Sequence[Note] = field(default=())


def escape(text: str) -> str:
    return html.escape(text.replace("\0", "\ufffd"))


def anchor_of(path: str, line: int) -> str:
    return escape(f"{path}-{line}")


def link_to(path: str, line: int) -> str:
    return "#" + urllib.parse.quote(f"{path}-{line}", safe="/", errors="backslashreplace")


LONGEST_LINE = 1_000
"""Under a longer line a note has its column in words, in place of a caret."""


def caret_under(line: str, column: int) -> str:
    """A caret under a column, after spaces, with the line's own tabs, and wide spaces for wide characters."""
    if len(line) > LONGEST_LINE:
        return f"column {column}:"
    before = line[: index_of_column(line, column)]
    return "".join(it if it == "\t" else "\u3000" if is_wide(it) else " " for it in before) + "^"


def is_wide(character: str) -> bool:
    return unicodedata.east_asian_width(character) in "WF"


def write_head(out: TextIO, title: str) -> None:
    out.write('<!doctype html>\n<html lang="en"><head><meta charset="utf-8">')
    out.write('<meta name="viewport" content="width=device-width, initial-scale=1">')
    out.write(f"<title>{escape(title)}</title>\n<style>{STYLE}</style></head>\n<body>\n<h1>{escape(title)}</h1>\n")


def write_foot(out: TextIO) -> None:
    out.write("</body></html>\n")


def write_source(out: TextIO, path: str, rows: Sequence[Row]) -> None:
    """A table of a source's lines. The rows under a line are its notes."""
    out.write("<table>\n")
    if len(rows) > 1 and not rows[-1].text and not rows[-1].notes:
        # What follows the last line's end is no line to a reader.
        rows = rows[:-1]
    for row in rows:
        never = ' class="never"' if row.count == 0 else ""
        count = "" if row.count is None else f"{row.count:,}"
        out.write(
            f'<tr id="{anchor_of(path, row.number)}"{never}><td class="number">{row.number}</td>'
            f'<td class="count">{count}</td><td><pre>{escape(row.text) or " "}</pre></td></tr>\n'
        )
        for note in row.notes:
            rule = f"<b>{escape(note.rule)}</b> " if note.rule else ""
            caret = escape(caret_under(row.text, note.column))
            out.write(
                f'<tr class="{note.css_class}" data-line="{row.number}"><td></td><td class="count"></td>'
                f"<td><pre>{caret} {rule}{escape(note.text)}</pre></td></tr>\n"
            )
    out.write("</table>\n")
