"""A tracefile of LCOV, which genhtml, Codecov, Coveralls and editors read."""

from __future__ import annotations

import os
from typing import Sequence, TextIO

from ..coverage import ConditionCount, Coverage
from .lines import on_one_line


def write_condition(number: int, condition: ConditionCount, out: TextIO) -> None:
    """The two branches of a condition, `-` where it was never reached."""
    for branch, count in enumerate((condition.true, condition.false)):
        taken = count if condition.is_reached else "-"
        out.write(f"BRDA:{condition.place.line},{number},{branch},{taken}\n")


def write_one(coverage: Coverage, out: TextIO) -> None:
    out.write(f"TN:\nSF:{on_one_line(os.path.abspath(coverage.path))}\n")
    for it in coverage.functions:
        out.write(f"FN:{it.place.line},{it.name}\n")
    for it in coverage.functions:
        out.write(f"FNDA:{it.count},{it.name}\n")
    out.write(f"FNF:{len(coverage.functions)}\nFNH:{coverage.functions_entered}\n")
    for number, condition in enumerate(coverage.conditions):
        write_condition(number, condition, out)
    out.write(f"BRF:{coverage.branches}\nBRH:{coverage.branches_taken}\n")
    for line, count in coverage.lines.items():
        out.write(f"DA:{line},{count}\n")
    out.write(f"LF:{len(coverage.lines)}\nLH:{coverage.lines_hit}\nend_of_record\n")


def write(coverages: Sequence[Coverage], out: TextIO) -> None:
    for it in coverages:
        write_one(it, out)
