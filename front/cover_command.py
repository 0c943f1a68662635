"""`jl cover FILE|FOLDER..`"""

from __future__ import annotations

import argparse
import dataclasses
import importlib
import sys
from dataclasses import dataclass
from typing import Callable, Sequence, TextIO

from .answers import ReportLine, read_refusal
from .coverage import Coverage, coverage_of, share
from .findings import FileResult
from .gather import NotAccepted, Script, Unreadable, named_scripts, read_script, read_standard_input
from .lint_command import say_notes
from .linting import DEFAULT_BUDGET
from .options import cover_parser
from .output import write_answer
from .pool import Progress, map_in_order
from .program import NoSuchCommand, Program, ProgramError, Status, find_program
from .records import read_record, read_replayed
from .refusals import explain
from .wrapping import Prelude, Wrapped, read_prelude

FORMATS = {"lcov": "lcov", "cobertura": "cobertura", "html": "cover_html", "summary": "cover_summary"}

LARGEST_RECORD = 268_435_456
"""A record may have as many bytes."""

ENDS = {
    Status.THROWN: "the script threw what nothing caught, so what comes after did not run",
    Status.FAULT: "the run left what jlint can run, so what comes after did not run",
    Status.SPENT: "the run ended for want of steps (--budget), so what comes after did not run",
}


@dataclass(frozen=True)
class Coverer:
    """How what ran is found out."""

    program: Program
    budget: int = DEFAULT_BUDGET
    prelude: Prelude = Prelude()
    is_module: bool = False
    record: bytes | None = None
    """A record that is taken in place of a run."""

    def cover(self, script: Script, standard_input: bytes) -> Coverage | FileResult:
        """What ran of a script, or why that can't be known."""
        try:
            text = read_script(script, standard_input)
            wrapped = Wrapped(text, self.prelude, self.is_module)
            record, note = (self.record, None) if self.record is not None else self.recorded(wrapped)
            reports = self.replayed(record)
            found = coverage_of(script.path, wrapped.source, read_record(record), wrapped.place_of, reports)
            return dataclasses.replace(found, note=note)
        except (Unreadable, NotAccepted, ProgramError) as error:
            return FileResult(script.path, trouble=str(error))

    def recorded(self, wrapped: Wrapped) -> tuple[bytes, str | None]:
        """The record of a run of a script, and how the run ended where that was not normally."""
        given = wrapped.text.encode("utf-8")
        answer = self.program.ask("record", ["--budget", str(self.budget)], given)
        if answer.status is not Status.REFUSED:
            return answer.output, ENDS.get(answer.status)
        refusal = read_refusal(answer.output)
        if refusal.kind == "RecordTooLong":
            raise ProgramError("the record of its run is longer than 256 MiB: lower --budget, or run less of it")
        reason = explain(refusal, wrapped.source)
        raise ProgramError(f"it is not accepted at {wrapped.nearest(reason.place)}: {reason.sentence}")

    def replayed(self, record: bytes) -> list[ReportLine]:
        """The report lines of a record; none where the program can't replay one."""
        try:
            answer = self.program.ask("replay", [], record)
        except NoSuchCommand:
            return []
        if answer.status is Status.REFUSED:
            raise ProgramError(f"the record is not accepted: {answer.output.decode('utf-8', 'replace').strip()}")
        return read_replayed(answer.output)


def main(words: list[str]) -> int:
    """Writes what of the scripts ran, and answers the exit status."""
    parser = cover_parser(tuple(FORMATS))
    options = parser.parse_with_files(words)
    found = named_scripts(options)
    if options.record is not None and len(found) != 1:
        parser.error("--record is of one script")
    standard_input = read_standard_input(found)
    coverer = make_coverer(options)
    progress = Progress(len(found), True)
    results = list(map_in_order(lambda it: coverer.cover(it, standard_input), found, options.jobs, progress))
    coverages = [it for it in results if isinstance(it, Coverage)]
    troubles = [it for it in results if isinstance(it, FileResult)]
    write: Callable[[Sequence[Coverage], TextIO], None]
    write = importlib.import_module(f".formats.{FORMATS[options.format]}", __package__).write
    write_answer(options.output, lambda out: write(coverages, out))
    say_notes(troubles + [FileResult(it.path, notes=(it.note,)) for it in coverages if it.note is not None])
    is_enough = meets_thresholds(coverages, options)
    return 2 if troubles else 0 if is_enough else 1


def make_coverer(options: argparse.Namespace) -> Coverer:
    program = find_program(options.timeout)
    record = None
    if options.record is not None:
        with open(options.record, "rb") as file:
            record = file.read(LARGEST_RECORD + 1)
    prelude = read_prelude(program, options.prelude, options.commonjs)
    return Coverer(program, options.budget, prelude, options.commonjs, record)


def meets_thresholds(coverages: Sequence[Coverage], options: argparse.Namespace) -> bool:
    """Whether as much ran as was asked, and says where it did not."""
    entered = share(sum(it.functions_entered for it in coverages), sum(len(it.functions) for it in coverages))
    taken = share(sum(it.branches_taken for it in coverages), sum(it.branches for it in coverages))
    is_enough = True
    for name, reached, least in (
        ("functions", entered, options.min_functions),
        ("branches", taken, options.min_branches),
    ):
        if least is not None and reached < least:
            print(f"jl: {reached:.1f} % of the {name} ran, and --min-{name} asks {least:g} %", file=sys.stderr)
            is_enough = False
    return is_enough
