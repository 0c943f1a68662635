"""`jl offs FILE|FOLDER..`"""

from __future__ import annotations

import argparse
from typing import TextIO

from .answers import Refusal, read_answer
from .findings import FileResult
from .formats.lines import on_one_line
from .gather import NotAccepted, Script, Unreadable, named_scripts, read_script, read_standard_input
from .lint_command import say_notes
from .linting import Linter, Look
from .offs import Idle, look_at, masked, unused
from .options import offs_parser
from .output import write_answer
from .pool import Progress, map_in_order
from .program import ProgramError, find_program
from .source import SourceText
from .wrapping import Wrapped, read_prelude

Listing = tuple[Script, list[Idle], str | None]


def main(words: list[str]) -> int:
    """Lists the comments that switch nothing off, and answers the exit status."""
    options = offs_parser().parse_with_files(words)
    found = named_scripts(options)
    standard_input = read_standard_input(found)
    linter = None if options.forms else make_linter(options)
    progress = Progress(len(found), True)
    listings = list(map_in_order(lambda it: list_one(linter, it, standard_input), found, options.jobs, progress))
    write_answer(None, lambda out: write(listings, out))
    say_notes([FileResult(script.path, trouble=trouble) for script, _, trouble in listings])
    if any(trouble for _, _, trouble in listings):
        return 2
    return 1 if any(idle for _, idle, _ in listings) else 0


def make_linter(options: argparse.Namespace) -> Linter:
    program = find_program(options.timeout)
    prelude = read_prelude(program, options.prelude, options.commonjs)
    return Linter(program, None, options.budget, prelude, options.commonjs)


def list_one(linter: Linter | None, script: Script, standard_input: bytes) -> Listing:
    """The comments of a script that switch nothing off, or why they can't be known."""
    try:
        text = read_script(script, standard_input)
    except (Unreadable, NotAccepted) as error:
        return script, [], str(error)
    offs, idle = look_at(SourceText(text))
    if linter is not None and offs:
        try:
            idle += unused_in(linter, script, text)
        except ProgramError as error:
            return script, [], str(error)
    return script, sorted(idle, key=lambda it: it.place), None


def unused_in(linter: Linter, script: Script, text: str) -> list[Idle]:
    """The comments whose rule does not hit where the script is run without them; none of a script
    that is refused or whose run does not end normally."""
    wrapped = Wrapped(masked(text), linter.prelude, linter.is_module)
    answer = read_answer(linter.program.run(linter.words(), wrapped.text.encode("utf-8")))
    if isinstance(answer, Refusal) or answer.end != "normal":
        return []
    look = Look(script.path, wrapped, None, [])
    found = [look.of_line(it) for it in answer.lines]
    return unused(look_at(SourceText(text))[0], [it for it in found if it is not None])


def write(listings: list[Listing], out: TextIO) -> None:
    for script, idle, _ in listings:
        for it in idle:
            out.write(f"{on_one_line(script.path)}:{it.place}: this comment switches nothing off: {it.why}\n")
