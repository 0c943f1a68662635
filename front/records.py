"""Reads the text that `jlint record` writes: the operations of a script with their places, and those of one run."""

from __future__ import annotations

import re
from collections import Counter
from dataclasses import dataclass

from .answers import ReportLine, read_line
from .program import ProgramError
from .source import Place

HEAD = b"jlint-record 1"
ROW = re.compile(rb"(\w+) (\d+):(\d+)")
OPERATION = re.compile(rb"^(\d+) (?:Conditional (.*)$)?", re.M)
REPLAYED = re.compile(rb"jlint: replayed hooks=\d+ reports=(\d+)")
FALSE = frozenset((b"u", b"z", b"f", b"n0", b"nNaN", b'""'))
"""The values whose ToBoolean (9.2) is false, as a record writes them."""


class BadRecord(ProgramError):
    """What was read is no record."""


@dataclass(frozen=True)
class Row:
    """An operation of the script."""

    kind: str
    place: Place


@dataclass(frozen=True)
class Record:
    """The operations of a script, and how often each came in a run. The id of a row is its number from 1."""

    rows: list[Row]
    counts: Counter[int]
    true: Counter[int]
    """How often the condition with an id was true."""
    false: Counter[int]


def read_section(text: bytes, start: int, word: bytes) -> tuple[int, int]:
    """The number in a line `WORD N` that begins at an offset, and the offset of the next line."""
    end = text.find(b"\n", start)
    name, _, number = text[start:end].partition(b" ")
    if end < 0 or name != word or not number.isdigit():
        raise BadRecord(f"no record: a line `{word.decode()} N` is missing")
    return int(number), end + 1


def skip_lines(text: bytes, start: int, count: int) -> int:
    """The offset after `count` lines."""
    for _ in range(count):
        start = text.find(b"\n", start) + 1
        if not start:
            raise BadRecord("no record: it ends too early")
    return start


def read_record(text: bytes) -> Record:
    """Reads a record. Of the facts of operations, only those of conditions are looked at."""
    if not text.startswith(HEAD + b"\n"):
        raise BadRecord(f"no record: the first line is not `{HEAD.decode()}`")
    count, start = read_section(text, len(HEAD) + 1, b"rows")
    end = skip_lines(text, start, count)
    rows = []
    for line in text[start:end].splitlines():
        found = ROW.fullmatch(line)
        if found is None:
            raise BadRecord(f"no record: {line[:60]!r} is no row")
        rows.append(Row(found[1].decode(), Place(int(found[2]), int(found[3]))))
    count, start = read_section(text, end, b"off")
    count, start = read_section(text, skip_lines(text, start, count), b"ops")
    if not text.endswith(b"end\n"):
        raise BadRecord("no record: it ends too early")
    counts: Counter[bytes] = Counter()
    true: Counter[bytes] = Counter()
    false: Counter[bytes] = Counter()
    for found in OPERATION.finditer(text, start):
        counts[found[1]] += 1
        if found[2] is not None:
            (false if found[2] in FALSE else true)[found[1]] += 1
    if sum(counts.values()) != count:
        raise BadRecord(f"no record: it has {sum(counts.values())} operations, and says {count}")
    return Record(rows, by_number(counts), by_number(true), by_number(false))


def by_number(counts: Counter[bytes]) -> Counter[int]:
    return Counter({int(id): count for id, count in counts.items()})


def read_replayed(output: bytes) -> list[ReportLine]:
    """The report lines in an answer of `jlint replay`."""
    lines = output.split(b"\n")
    found = REPLAYED.fullmatch(lines[-2]) if len(lines) > 1 else None
    if found is None:
        raise ProgramError(f"no whole answer of `replay`: {output[-80:]!r}")
    return [read_line(line) for line in lines[: int(found[1])]]
