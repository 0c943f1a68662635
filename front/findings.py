"""What is found in a file, in the form that every output format takes."""

from __future__ import annotations

from dataclasses import dataclass, field
from enum import Enum
from typing import Sequence

from .rules import BY_NAME
from .source import Place


class Severity(Enum):
    WARNING = "warning"
    """A rule hit."""
    ERROR = "error"
    """The script is refused, threw, or its run could not be finished."""


class EndRule(Enum):
    """The names under which a run's end is found, beside those of the rules."""

    REFUSED = "refused"
    UNCAUGHT = "uncaught"
    FAULT = "fault"
    SPENT = "spent"

    @property
    def sentence(self) -> str:
        return END_SENTENCES[self]


END_SENTENCES = {
    EndRule.REFUSED: "the script is not accepted",
    EndRule.UNCAUGHT: "the script threw what nothing caught",
    EndRule.FAULT: "the run left what jlint can run",
    EndRule.SPENT: "the run took more steps than its budget",
}


def sentence_of(rule: str) -> str:
    """What a rule, or the end of a run, says in general."""
    return BY_NAME[rule].sentence if rule in BY_NAME else EndRule(rule).sentence


@dataclass(frozen=True)
class Finding:
    """One problem at one place. The path is that of the original where a source map leads to one."""

    path: str
    place: Place
    rule: str
    message: str
    severity: Severity
    count: int = 1
    source_line: str | None = None
    """The line, or the part of a long one that is round the place."""
    source_column: int = 1
    """The column in that part."""

    @property
    def text(self) -> str:
        """The message, with how often the rule hit where that is more than once."""
        return self.message if self.count == 1 else f"{self.message} ({self.count} times)"


@dataclass(frozen=True)
class FileResult:
    """What was found in one file."""

    path: str
    findings: tuple[Finding, ...] = ()
    end: str = "normal"
    """How the run ended: `normal`, `thrown`, `fault KIND`, `spent` or `refused KIND`."""
    trouble: str | None = None
    """Why the file could not be looked at, where it could not."""
    notes: tuple[str, ...] = field(default=())

    def counted(self, severity: Severity) -> int:
        return sum(finding.severity is severity for finding in self.findings)


@dataclass(frozen=True)
class Totals:
    """Sums over all files."""

    files: int
    errors: int
    warnings: int
    troubles: int

    @staticmethod
    def of(results: Sequence[FileResult]) -> Totals:
        return Totals(
            len(results),
            sum(it.counted(Severity.ERROR) for it in results),
            sum(it.counted(Severity.WARNING) for it in results),
            sum(it.trouble is not None for it in results),
        )
