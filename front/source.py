"""The text of a script: its lines as ECMA-262 5.1 counts them (7.3), and columns in UTF-16 units."""

from __future__ import annotations

import re
import unicodedata
from dataclasses import dataclass

LINE_TERMINATOR = re.compile("\r\n|[\n\r\u2028\u2029]")
TAB_WIDTH = 4


@dataclass(frozen=True, order=True)
class Place:
    """A line and a column, both from 1. The column counts UTF-16 units."""

    line: int
    column: int

    def __str__(self) -> str:
        return f"{self.line}:{self.column}"

    @staticmethod
    def parse(text: str) -> Place:
        line, column = text.split(":")
        return Place(int(line), int(column))


def utf16_length(text: str) -> int:
    """How many UTF-16 units a text has."""
    return len(text) + sum(character > "\uffff" for character in text)


def index_of_column(line: str, column: int) -> int:
    """The index in a line at which a column begins, and the line's length where the line has no such column."""
    if line.isascii():
        return min(column - 1, len(line))
    units = 0
    for index, character in enumerate(line):
        if units >= column - 1:
            return index
        units += 2 if character > "\uffff" else 1
    return len(line)


class SourceText:
    """A text and its lines."""

    def __init__(self, text: str) -> None:
        self.text = text
        ends = list(LINE_TERMINATOR.finditer(text))
        self.starts = [0, *(end.end() for end in ends)]
        self.lines = [text[start : end.start()] for start, end in zip(self.starts, ends)] + [text[self.starts[-1] :]]

    def line(self, number: int) -> str | None:
        """A line without its terminator, or None where the text has no such line."""
        return self.lines[number - 1] if 1 <= number <= len(self.lines) else None

    def place_of(self, offset: int) -> Place:
        """The place of the character at an offset."""
        low, high = 0, len(self.starts)
        while high - low > 1:
            middle = (low + high) // 2
            if self.starts[middle] <= offset:
                low = middle
            else:
                high = middle
        return Place(low + 1, utf16_length(self.text[self.starts[low] : offset]) + 1)

    def offset_of(self, place: Place) -> int:
        """The offset of the character at a place; the end of the line, or of the text, where the place is past it."""
        if place.line > len(self.lines):
            return len(self.text)
        line = self.lines[place.line - 1]
        return self.starts[place.line - 1] + index_of_column(line, place.column)

    def end(self) -> Place:
        """The place just past the last character."""
        return self.place_of(len(self.text))


LONGEST_LINE = 400
"""Of a longer line, only what is round a column is kept with a finding."""
LONGEST_WIDE_LINE = 20_000
"""In a longer line that is not ASCII, columns are not looked up, since that takes as long as the line."""


def part_of_line(line: str | None, column: int) -> tuple[str | None, int]:
    """A line and a column in it, or of a long line the part round the column and the column in that part."""
    if line is None or len(line) <= LONGEST_LINE:
        return line, column
    if len(line) > LONGEST_WIDE_LINE and not line.isascii():
        return None, column
    index = index_of_column(line, column)
    first = max(0, index - LONGEST_LINE // 2)
    return line[first : first + LONGEST_LINE], utf16_length(line[first:index]) + 1


def shown_width(text: str) -> int:
    """How many cells of a terminal a text takes."""
    wide = sum(unicodedata.east_asian_width(it) in "WF" for it in text)
    return len(text) + wide - sum(unicodedata.combining(it) > 0 for it in text)


def excerpt(line: str, column: int, width: int = 120) -> tuple[str, str]:
    """The part of a line round a column, and a line with a caret under that column."""
    index = index_of_column(line, column)
    first = max(0, index - width // 2) if len(line) > width else 0
    part = line[first : first + width]
    before, after = ("…" if first else ""), ("…" if first + width < len(line) else "")
    left = printable(part[: index - first])
    caret = " " * (len(before) + shown_width(left)) + "^"
    return before + left + printable(part[index - first :]) + after, caret


def printable(text: str) -> str:
    """A text with spaces for tabs, and a replacement for each control character and lone surrogate."""
    text = text.replace("\t", " " * TAB_WIDTH)
    if text.isprintable():
        return text
    return "".join(it if it.isprintable() else "\ufffd" for it in text)
