"""A line `PATH:LINE:COLUMN: MESSAGE [RULE]` for each finding, and nothing else: for editors and other programs."""

from __future__ import annotations

from typing import Sequence, TextIO

from ..findings import FileResult
from .lines import all_findings, on_one_line


def write(results: Sequence[FileResult], out: TextIO, colour: bool) -> None:
    del colour
    for it in all_findings(results):
        out.write(f"{on_one_line(it.path)}:{it.place}: {on_one_line(it.text)} [{it.rule}]\n")
