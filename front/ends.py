"""Where a run ended: the last operation in the script, and the functions that were entered and not left.

The report does not say it. Here it is read off `jlint trace`, which lists the operations of the same run, and
`jlint map`, which has their places."""

from __future__ import annotations

import re
from dataclasses import dataclass
from typing import Callable, Iterator

from .program import Program, Status
from .source import Place

CALLS = re.compile(rb"^(\d+) Function(Enter|Exit)\b", re.M)
MAP_LINE = re.compile(rb"^(\d+) \w+ (\d+):(\d+)$", re.M)
OPERATION = re.compile(r"(\d+) (\w+)(.*)", re.S)
LONGEST_FACTS = 60

Places = Callable[[Place], "Place | None"]
"""Gives the place in the script of a place in what was run, or None outside of the script."""


@dataclass(frozen=True)
class Operation:
    """A line of a trace."""

    id: int
    kind: str
    facts: str

    def __str__(self) -> str:
        facts = self.facts if len(self.facts) <= LONGEST_FACTS else self.facts[:LONGEST_FACTS] + "…"
        return f"{self.kind}{facts}"


@dataclass(frozen=True)
class RunEnd:
    """The last operation of a run in the script, and where the functions round it begin, the innermost first."""

    operation: Operation
    place: Place
    functions: tuple[Place, ...]

    def __str__(self) -> str:
        """A clause that follows a message."""
        inside = f", in the function at {self.functions[0]}" if self.functions else ""
        callers = f", called from that at {', '.join(map(str, self.functions[1:6]))}" if self.functions[1:] else ""
        return f"the last operation was {self.operation} at {self.place}{inside}{callers}"


def read_places(listing: bytes) -> dict[int, Place]:
    """The places of the operations in an answer of `map`, by id."""
    return {int(found[1]): Place(int(found[2]), int(found[3])) for found in MAP_LINE.finditer(listing)}


def operations_backwards(trace: bytes) -> Iterator[tuple[int, Operation]]:
    """The operations of a trace with the offsets of their lines, the last one first."""
    end = len(trace)
    while end > 0:
        start = trace.rfind(b"\n", 0, end - 1) + 1
        found = OPERATION.fullmatch(trace[start : end - 1].decode("utf-8", "replace"))
        if found is not None:
            yield start, Operation(int(found[1]), found[2], found[3])
        end = start


def functions_entered(trace: bytes, end: int) -> list[int]:
    """The ids of the functions that are entered and not left where the first bytes of a trace end."""
    entered: list[int] = []
    for found in CALLS.finditer(trace, 0, end):
        if found[2] == b"Enter":
            entered.append(int(found[1]))
        elif entered:
            entered.pop()
    return entered


def find_end(trace: bytes, places: dict[int, Place], in_script: Places) -> RunEnd | None:
    """Where the run that a trace lists ended, or None where no operation of it is in the script.

    A function that something thrown leaves has its FunctionExit too, so those at the end are passed over; only where
    the operation before them is a Return, the first of them is an ordinary one."""
    has_left = False
    for start, operation in operations_backwards(trace):
        if operation.kind in ("FunctionExit", "ScriptExit"):
            has_left = True
            continue
        line_end = trace.index(b"\n", start) + 1
        place = in_script(places[operation.id]) if operation.id in places else None
        if place is None or operation.kind == "ScriptEnter":
            has_left = False
            continue
        entered = functions_entered(trace, line_end)
        if operation.kind == "Return" and has_left and entered:
            entered.pop()
        inside = [in_script(places[it]) for it in reversed(entered) if it in places]
        return RunEnd(operation, place, tuple(it for it in inside if it is not None))
    return None


def end_of_run(program: Program, script: bytes, budget: int, in_script: Places) -> RunEnd | None:
    """Where the run of a script with a budget ends, or None where that can't be known."""
    trace = program.run(["trace", "--budget", str(budget)], script)
    listing = program.run(["map"], script)
    if trace.status is Status.REFUSED or listing.status is not Status.CLEAN:
        return None
    return find_end(trace.output, read_places(listing.output), in_script)
