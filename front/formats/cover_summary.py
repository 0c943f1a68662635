"""A line for each script: what share of its lines, functions and branches ran."""

from __future__ import annotations

from typing import Sequence, TextIO

from ..coverage import Coverage, share
from .lines import on_one_line


def cell(part: int, whole: int) -> str:
    return f"{share(part, whole):6.1f} % {f'({part}/{whole})':>12}"


def write(coverages: Sequence[Coverage], out: TextIO) -> None:
    out.write(f"{'lines':>21} {'functions':>21} {'branches':>21}  script\n")
    for it in coverages:
        cells = (
            cell(it.lines_hit, len(it.lines)),
            cell(it.functions_entered, len(it.functions)),
            cell(it.branches_taken, it.branches),
        )
        out.write(" ".join(cells) + f"  {on_one_line(it.path)}\n")
