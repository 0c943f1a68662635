"""`jl [OPTIONS] FILE|FOLDER|-..`"""

from __future__ import annotations

import argparse
import sys
from typing import TYPE_CHECKING

from . import formats
from .findings import FileResult, Totals
from .formats.lines import on_one_line
from .gather import named_scripts, read_standard_input
from .linting import Linter
from .options import lint_parser
from .output import write_answer
from .pool import Progress, map_in_order
from .program import Program, find_program
from .wrapping import read_prelude

if TYPE_CHECKING:
    from .cache import Cache


def main(words: list[str]) -> int:
    """Lints the scripts that the words name, and answers the exit status."""
    options = lint_parser().parse_with_files(words)
    found = named_scripts(options)
    standard_input = read_standard_input(found)
    linter = make_linter(options)
    progress = Progress(len(found), not options.no_progress)
    results = list(map_in_order(lambda it: linter.lint(it, standard_input), found, options.jobs, progress))
    is_terminal = options.output is None and sys.stdout is not None and sys.stdout.isatty()
    colour = is_terminal if options.colour is None else options.colour
    write = formats.writer_of(options.format or ("stylish" if is_terminal else "unix"))
    write_answer(options.output, lambda out: write(results, out, colour))
    say_notes(results)
    return status_of(results, options.max_reports)


def make_cache(options: argparse.Namespace, program: Program) -> Cache | None:
    if not options.cache:
        return None
    from .cache import Cache

    return Cache(options.cache_location, program.path)


def make_linter(options: argparse.Namespace) -> Linter:
    """How these options have scripts linted."""
    program = find_program(options.timeout)
    return Linter(
        program,
        options.rules,
        options.budget,
        read_prelude(program, options.prelude, options.commonjs),
        options.commonjs,
        make_cache(options, program),
    )


def say_notes(results: list[FileResult]) -> None:
    """Says on standard error what no finding says, and which files could not be looked at."""
    for result in results:
        for note in result.notes:
            print(f"jl: {on_one_line(result.path)}: {note}", file=sys.stderr)
        if result.trouble is not None:
            print(f"jl: {on_one_line(result.path)}: {result.trouble}", file=sys.stderr)


def status_of(results: list[FileResult], most_reports: int) -> int:
    totals = Totals.of(results)
    if totals.troubles:
        return 2
    return 1 if totals.errors or totals.warnings > most_reports else 0
