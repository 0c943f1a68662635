"""For people at a terminal: each file with its findings, the line and a caret under the place."""

from __future__ import annotations

import itertools
from typing import Sequence, TextIO

from ..findings import FileResult, Finding, Severity, Totals
from ..source import excerpt, printable

BOLD, RED, YELLOW, DIM, PLAIN = "\x1b[1m", "\x1b[31m", "\x1b[33m", "\x1b[2m", "\x1b[0m"
COLOURS = {Severity.ERROR: RED, Severity.WARNING: YELLOW}


class Paint:
    """Puts colour round words, or does not."""

    def __init__(self, is_on: bool) -> None:
        self.is_on = is_on

    def __call__(self, colour: str, words: str) -> str:
        return f"{colour}{words}{PLAIN}" if self.is_on else words


def write_finding(finding: Finding, out: TextIO, paint: Paint) -> None:
    colour = COLOURS[finding.severity]
    severity = paint(colour, finding.severity.value)
    rule = paint(DIM, finding.rule)
    out.write(f"  {str(finding.place):>8}  {severity}  {printable(finding.text)}  {rule}\n")
    if finding.source_line is not None:
        part, caret = excerpt(finding.source_line, finding.source_column)
        out.write(f"            {part}\n            {paint(colour, caret)}\n")


def write_result(result: FileResult, out: TextIO, paint: Paint) -> None:
    """The findings of a file, under the path that each is in."""
    for path, findings in itertools.groupby(result.findings, key=lambda it: it.path):
        out.write(paint(BOLD, printable(path)) + "\n")
        for finding in findings:
            write_finding(finding, out, paint)
        out.write("\n")
    if result.trouble is not None:
        out.write(f"{paint(BOLD, printable(result.path))}\n  {paint(RED, 'error')}  {printable(result.trouble)}\n\n")


def summary(totals: Totals) -> str:
    """What was found in all."""
    problems = totals.errors + totals.warnings
    said = f"{problems} problem{'' if problems == 1 else 's'}"
    said += f" ({totals.errors} error{'' if totals.errors == 1 else 's'}, "
    said += f"{totals.warnings} warning{'' if totals.warnings == 1 else 's'})"
    if totals.troubles:
        said += f"; {totals.troubles} file{'' if totals.troubles == 1 else 's'} could not be looked at"
    return said


def write(results: Sequence[FileResult], out: TextIO, colour: bool) -> None:
    paint = Paint(colour)
    for result in results:
        write_result(result, out, paint)
    totals = Totals.of(results)
    if totals.errors or totals.warnings or totals.troubles:
        worst = RED if totals.errors or totals.troubles else YELLOW
        out.write(paint(worst, f"✖ {summary(totals)}") + "\n")
