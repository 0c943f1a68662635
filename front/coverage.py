"""What of a script ran: its lines, functions and branches, by a record of a run."""

from __future__ import annotations

import re
from dataclasses import dataclass
from typing import Callable, Iterable

from .answers import ReportLine
from .records import Record
from .source import Place, SourceText

FRAME = frozenset(("ScriptEnter", "ScriptExit", "FunctionEnter", "FunctionExit"))
"""Operations that say nothing of a line: a function that is declared has not run."""
DECLARED = re.compile(r"(?:function\s*|(?=[gs]et\b))([gs]et\s+)?([^\s(){},;]+)\s*\(")
ASSIGNED = re.compile(r"""([\w$.]+|"[^"]*"|'[^']*')\s*[=:]\s*$""")
InScript = Callable[[Place], "Place | None"]


@dataclass(frozen=True)
class FunctionCount:
    """A function, and how often it was entered."""

    name: str
    place: Place
    count: int


@dataclass(frozen=True)
class ConditionCount:
    """A condition, and how often it was true and false."""

    place: Place
    true: int
    false: int

    @property
    def is_reached(self) -> bool:
        return bool(self.true or self.false)

    @property
    def taken(self) -> int:
        """How many of its two branches were taken."""
        return bool(self.true) + bool(self.false)


@dataclass(frozen=True)
class Gap:
    """What did not run, in words."""

    place: Place
    text: str


@dataclass(frozen=True)
class Coverage:
    """What ran of one script."""

    path: str
    source: SourceText
    lines: dict[int, int]
    """For each line with an operation, how often the one that came most often came."""
    functions: tuple[FunctionCount, ...]
    conditions: tuple[ConditionCount, ...]
    reports: tuple[ReportLine, ...] = ()
    note: str | None = None
    """How the run ended, where that was not normally."""

    @property
    def functions_entered(self) -> int:
        return sum(it.count > 0 for it in self.functions)

    @property
    def branches(self) -> int:
        return 2 * len(self.conditions)

    @property
    def branches_taken(self) -> int:
        return sum(it.taken for it in self.conditions)

    @property
    def lines_hit(self) -> int:
        return sum(count > 0 for count in self.lines.values())

    def gaps(self) -> list[Gap]:
        """The functions that were never entered, and the conditions that were never true or never false, by place."""
        found = [Gap(it.place, "function never entered") for it in self.functions if not it.count]
        for it in self.conditions:
            if not it.is_reached:
                found.append(Gap(it.place, "condition never reached"))
            elif not it.true:
                found.append(Gap(it.place, "condition never true"))
            elif not it.false:
                found.append(Gap(it.place, "condition never false"))
        return sorted(found, key=lambda it: it.place)


def name_of(source: SourceText, place: Place) -> str:
    """The name of the function at a place: its own, or what it is assigned to."""
    offset = source.offset_of(place)
    declared = DECLARED.match(source.text, offset)
    if declared is not None:
        return (declared[1] or "") + declared[2]
    assigned = ASSIGNED.search(source.text, max(0, offset - 200), offset)
    return assigned[1].strip("\"'") if assigned else "(anonymous)"


def named_apart(functions: Iterable[FunctionCount]) -> tuple[FunctionCount, ...]:
    """The functions by place. Where an earlier one has the same name, or where there is none, the place is put into it."""
    seen: set[str] = set()
    named = []
    for it in sorted(functions, key=lambda it: it.place):
        name = f"{it.name}@{it.place}" if it.name in seen or it.name == "(anonymous)" else it.name
        seen.add(name)
        named.append(FunctionCount(name, it.place, it.count))
    return tuple(named)


def coverage_of(
    path: str, source: SourceText, record: Record, in_script: InScript, reports: Iterable[ReportLine] = ()
) -> Coverage:
    """What a record says of a script. Operations outside of the script, as those of a prelude, are left out."""
    lines: dict[int, int] = {}
    functions, conditions = [], []
    for number, row in enumerate(record.rows, 1):
        place, count = in_script(row.place), record.counts[number]
        if place is None:
            continue
        if row.kind not in FRAME:
            lines[place.line] = max(lines.get(place.line, 0), count)
        elif row.kind == "FunctionEnter":
            functions.append(FunctionCount(name_of(source, place), place, count))
        if row.kind == "Conditional":
            conditions.append(ConditionCount(place, record.true[number], record.false[number]))
    inside = [(in_script(it.place), it) for it in reports]
    shown = tuple(ReportLine(place, it.rule, it.count) for place, it in inside if place is not None)
    by_place = tuple(sorted(conditions, key=lambda it: it.place))
    return Coverage(path, source, dict(sorted(lines.items())), named_apart(functions), by_place, shown)


def share(part: int, whole: int) -> float:
    """A percentage, 100 where there is nothing to run."""
    return 100.0 * part / whole if whole else 100.0
