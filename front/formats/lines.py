"""What the formats of one line a finding have in common."""

from __future__ import annotations

from typing import Iterator, Sequence

from ..findings import FileResult, Finding, Severity
from ..source import Place

TROUBLE = "trouble"
"""The rule's name of a file that could not be looked at."""


def on_one_line(text: str) -> str:
    """A text without line ends and other control characters, which a path may have."""
    return "".join(it if it >= " " and it not in "\x7f\x85\u2028\u2029" else f"\\x{ord(it):02x}" for it in text)


def all_findings(results: Sequence[FileResult]) -> Iterator[Finding]:
    """The findings of all files, a file that could not be looked at being one too."""
    for result in results:
        yield from findings_of(result)


def findings_of(result: FileResult) -> Iterator[Finding]:
    yield from result.findings
    if result.trouble is not None:
        yield Finding(result.path, Place(1, 1), TROUBLE, result.trouble, Severity.ERROR)
