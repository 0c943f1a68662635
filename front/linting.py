"""Lints one script: runs the program on it, and makes findings of the answer."""

from __future__ import annotations

from dataclasses import dataclass
from typing import TYPE_CHECKING

from .answers import Refusal, Report, ReportLine, read_answer
from .ends import end_of_run
from .findings import EndRule, FileResult, Finding, Severity, sentence_of
from .gather import NotAccepted, Script, Unreadable, read_script
from .program import Program, ProgramError
from .refusals import TRANSPILE, explain
from .source import Place, part_of_line
from .wrapping import Prelude, Wrapped

if TYPE_CHECKING:
    from .cache import Cache
    from .original import SourceMap

DEFAULT_BUDGET = 1_000_000
EARLY_STEPS = 20_000
"""Where a run that ends for want of steps was is looked up after as many steps, since its whole trace may be huge."""

FAULTS = {
    "NumberOutside": "a number here is no whole number, or is past 9007199254740991",
    "StringTooLong": "a string here has more than 1,048,576 UTF-16 units",
    "OutputTooLong": "the script prints more than jlint keeps",
    "CodeFromText": "code is made from a string here, which jlint can't run",
}


@dataclass(frozen=True)
class Linter:
    """How scripts are linted."""

    program: Program
    rules: str | None = None
    budget: int = DEFAULT_BUDGET
    prelude: Prelude = Prelude()
    is_module: bool = False
    cache: Cache | None = None

    def lint(self, script: Script, standard_input: bytes = b"") -> FileResult:
        """What is found in a script. It raises nothing: what went wrong is the result's trouble."""
        try:
            text = read_script(script, standard_input)
        except Unreadable as error:
            return FileResult(script.path, trouble=str(error))
        except NotAccepted as error:
            found = Finding(script.path, error.place, EndRule.REFUSED.value, error.sentence, Severity.ERROR)
            return FileResult(script.path, (found,), f"refused {error.kind}")
        wrapped = Wrapped(text, self.prelude, self.is_module)
        key = self.cache.key(wrapped.text, self.words(), script.path) if self.cache else None
        kept = self.cache.read(key) if self.cache and key else None
        if kept is not None:
            return kept
        try:
            result = self.lint_wrapped(script.path, wrapped)
        except ProgramError as error:
            return FileResult(script.path, trouble=str(error))
        if self.cache and key:
            self.cache.write(key, result)
        return result

    def words(self) -> list[str]:
        """The words that the program is run with."""
        rules = ["--rules", self.rules] if self.rules else []
        return ["lint", "--budget", str(self.budget), *rules]

    def lint_wrapped(self, path: str, wrapped: Wrapped) -> FileResult:
        """What is found in a script with what is put round it."""
        given = wrapped.text.encode("utf-8")
        answer = read_answer(self.program.run(self.words(), given))
        look = Look(path, wrapped, *self.map_of(path, wrapped))
        if isinstance(answer, Refusal):
            return look.refused(answer)
        found = [look.of_line(line) for line in answer.lines]
        findings = [it for it in found if it is not None]
        if len(findings) < len(found):
            look.notes.append(f"report lines in preludes, which are not shown: {len(found) - len(findings)}")
        if answer.end != "normal":
            findings.append(self.of_end(look, answer, given))
        return FileResult(path, tuple(findings), answer.end, None, tuple(look.notes))

    def map_of(self, path: str, wrapped: Wrapped) -> tuple[SourceMap | None, list[str]]:
        """The source map of a script, and a note where one is named and can't be used."""
        if "sourceMappingURL=" not in wrapped.source.text:
            return None, []
        from .original import MapError, find_map

        try:
            return find_map(self.program, wrapped.source.text, path), []
        except MapError as error:
            return None, [str(error)]

    def of_end(self, look: Look, report: Report, given: bytes) -> Finding:
        """The finding that a run's end is, with the place where it was and the functions round that."""
        budget = min(self.budget, EARLY_STEPS) if report.end == "spent" else self.budget
        end = end_of_run(self.program, given, budget, look.wrapped.place_of)
        where = f"; {end}" if end else ""
        place = end.place if end else Place(1, 1)
        if report.end == "thrown":
            return look.found(place, EndRule.UNCAUGHT.value, f"{report.uncaught}{where}", Severity.ERROR)
        if report.end == "spent":
            early = f"; within its first {budget:,} steps {end}" if end else ""
            message = f"the run takes more than {self.budget:,} steps (an endless loop, or raise --budget){early}"
            return look.found(place, EndRule.SPENT.value, message, Severity.ERROR)
        kind = report.end.removeprefix("fault ")
        said = FAULTS.get(kind, f"jlint can't run {kind.removeprefix('Unsupported ')}{remedy_of(kind)}")
        return look.found(place, EndRule.FAULT.value, f"{kind}: {said}{where}", Severity.ERROR)


def remedy_of(fault: str) -> str:
    """What to do about a builtin that is left out."""
    is_in_prelude = fault.endswith((".sort", ".replace", ".toFixed"))
    return " as it is called here (`--prelude es5` has one in whole numbers)" if is_in_prelude else ""


class Look:
    """Turns places of what was run into findings in the script, or in its original."""

    def __init__(self, path: str, wrapped: Wrapped, source_map: SourceMap | None, notes: list[str]) -> None:
        self.path, self.wrapped, self.source_map, self.notes = path, wrapped, source_map, notes

    def found(self, place: Place, rule: str, message: str, severity: Severity, count: int = 1) -> Finding:
        """A finding at a place in the script."""
        original = self.source_map.original(place) if self.source_map else None
        path, line = self.path, self.wrapped.source.line(place.line)
        if original is not None:
            path, place, line = original.path, original.place, original.line
        return Finding(path, place, rule, message, severity, count, *part_of_line(line, place.column))

    def of_line(self, line: ReportLine) -> Finding | None:
        """The finding of a report line, or None where it is in a prelude."""
        place = self.wrapped.place_of(line.place)
        if place is None:
            return None
        return self.found(place, line.rule, sentence_of(line.rule), Severity.WARNING, line.count)

    def refused(self, refusal: Refusal) -> FileResult:
        """The result of a script that is not accepted."""
        if refusal.place is not None:
            refusal = Refusal(refusal.kind, refusal.detail, self.wrapped.nearest(refusal.place))
        reason = explain(refusal, self.wrapped.source)
        said = reason.sentence
        if self.source_map is not None:
            said = said.replace(TRANSPILE, "have the transpiler make ES5")
        finding = self.found(reason.place, EndRule.REFUSED.value, said, Severity.ERROR)
        return FileResult(self.path, (finding,), f"refused {refusal.words}", None, tuple(self.notes))
