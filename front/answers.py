"""Reads what `jlint lint` answered.

A script may print anything, also what looks like a report line, so the lines of the report are counted from the end, as
the last line says."""

from __future__ import annotations

import re
from dataclasses import dataclass

from .program import Answer, ProgramError, Status
from .source import Place

END_LINE = re.compile(
    rb"jlint: (?P<end>normal|thrown|spent|fault [A-Za-z.]+(?: [A-Za-z.]+)?) steps=(?P<steps>\d+) "
    rb"hooks=(?P<hooks>\d+) reports=(?P<reports>\d+)"
)
REFUSED_LINE = re.compile(
    r"jlint: refused (?P<kind>\w+)(?: (?P<detail>[\w$-]+))??(?: at (?:byte (?P<byte>\d+)|(?P<place>\d+:\d+)))?"
)


@dataclass(frozen=True)
class ReportLine:
    """A rule that hit at a place, and how often."""

    place: Place
    rule: str
    count: int


@dataclass(frozen=True)
class Report:
    """The answer to a script that was run."""

    output: bytes
    lines: tuple[ReportLine, ...]
    end: str
    """`normal`, `thrown`, `spent` or `fault KIND`."""
    uncaught: str | None
    """What was thrown and not caught, with the word `uncaught`."""
    steps: int
    hooks: int


@dataclass(frozen=True)
class Refusal:
    """The answer to a script that was not run."""

    kind: str
    detail: str | None = None
    """The kind of bad input, the early rule, or the name that is left out."""
    place: Place | None = None
    byte: int | None = None

    @property
    def words(self) -> str:
        return f"{self.kind} {self.detail}" if self.detail else self.kind


def read_refusal(output: bytes) -> Refusal:
    """The refusal that an answer of status 3 is."""
    found = REFUSED_LINE.fullmatch(output.decode("utf-8", "replace").rstrip("\n"))
    if found is None:
        raise ProgramError(f"no whole answer: {output[-80:]!r}")
    place, byte = found["place"], found["byte"]
    return Refusal(
        found["kind"],
        found["detail"],
        Place.parse(place) if place else None,
        int(byte) if byte else None,
    )


def read_answer(answer: Answer) -> Report | Refusal:
    """What an answer of `lint` says."""
    if answer.status is Status.REFUSED:
        return read_refusal(answer.output)
    if answer.status is Status.BAD_WORDS:
        raise ProgramError("the program does not take these options")
    lines = answer.output.split(b"\n")
    found = END_LINE.fullmatch(lines[-2]) if len(lines) > 1 and not lines[-1] else None
    if found is None:
        raise ProgramError(f"no whole answer: {answer.output[-80:]!r}")
    end, last = found["end"].decode(), len(lines) - 2
    uncaught = None
    if end == "thrown":
        last -= 1
        uncaught = lines[last].decode("utf-8", "replace")
    first = last - int(found["reports"])
    if first < 0:
        raise ProgramError("no whole answer: fewer lines than its last line says")
    return Report(
        b"".join(line + b"\n" for line in lines[:first]),
        tuple(read_line(line) for line in lines[first:last]),
        end,
        uncaught,
        int(found["steps"]),
        int(found["hooks"]),
    )


def read_line(line: bytes) -> ReportLine:
    """The line `LINE:COLUMN RULE COUNT` of a report."""
    try:
        place, rule, count = line.decode("ascii").split(" ")
        return ReportLine(Place.parse(place), rule, int(count))
    except ValueError:
        raise ProgramError(f"no whole answer: {line[:80]!r} is no report line") from None
