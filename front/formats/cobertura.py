"""The XML of Cobertura, which GitLab, Jenkins and Azure read."""

from __future__ import annotations

import os
import time
from typing import Sequence, TextIO

from .. import VERSION
from ..coverage import Coverage, FunctionCount
from .xml_text import attribute


def rate(part: int, whole: int) -> str:
    return f"{part / whole if whole else 1:.4f}"


def rates(coverages: Sequence[Coverage]) -> str:
    """The two attributes that every level has."""
    lines = rate(sum(it.lines_hit for it in coverages), sum(len(it.lines) for it in coverages))
    branches = rate(sum(it.branches_taken for it in coverages), sum(it.branches for it in coverages))
    return f'line-rate="{lines}" branch-rate="{branches}"'


def write_method(function: FunctionCount, out: TextIO) -> None:
    entered = rate(int(function.count > 0), 1)
    out.write(f'<method name={attribute(function.name)} signature="()" line-rate="{entered}" branch-rate="1.0000">')
    out.write(f'<lines><line number="{function.place.line}" hits="{function.count}"/></lines></method>\n')


def write_lines(coverage: Coverage, out: TextIO) -> None:
    """The lines, with what share of the branches of a line was taken."""
    taken: dict[int, list[int]] = {}
    for it in coverage.conditions:
        taken.setdefault(it.place.line, []).append(it.taken)
    out.write("<lines>\n")
    for line, count in coverage.lines.items():
        branches = ""
        if line in taken:
            part, whole = sum(taken[line]), 2 * len(taken[line])
            branches = f' branch="true" condition-coverage="{100 * part // whole}% ({part}/{whole})"'
        out.write(f'<line number="{line}" hits="{count}"{branches}/>\n')
    out.write("</lines>\n")


def write_class(coverage: Coverage, out: TextIO) -> None:
    name = attribute(os.path.splitext(os.path.basename(coverage.path))[0])
    out.write(f'<class name={name} filename={attribute(coverage.path)} {rates([coverage])} complexity="0">\n')
    out.write("<methods>\n")
    for it in coverage.functions:
        write_method(it, out)
    out.write("</methods>\n")
    write_lines(coverage, out)
    out.write("</class>\n")


def write(coverages: Sequence[Coverage], out: TextIO) -> None:
    lines = f'lines-covered="{sum(it.lines_hit for it in coverages)}" '
    lines += f'lines-valid="{sum(len(it.lines) for it in coverages)}"'
    branches = f'branches-covered="{sum(it.branches_taken for it in coverages)}" '
    branches += f'branches-valid="{sum(it.branches for it in coverages)}"'
    about = f'complexity="0" version="jl {VERSION}" timestamp="{int(time.time())}"'
    out.write('<?xml version="1.0" encoding="utf-8"?>\n')
    out.write(f"<coverage {rates(coverages)} {lines} {branches} {about}>\n")
    out.write(f"<sources><source>{os.curdir}</source></sources>\n<packages>\n")
    out.write(f'<package name="." {rates(coverages)} complexity="0"><classes>\n')
    for it in coverages:
        write_class(it, out)
    out.write("</classes></package>\n</packages>\n</coverage>\n")
