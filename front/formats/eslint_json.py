"""JSON in the shape of ESLint's own: a list of files with `filePath` and `messages`. `count`, `end` and `trouble` are
members that ESLint does not have."""

from __future__ import annotations

import json
from typing import Any, Sequence, TextIO

from ..findings import FileResult, Finding, Severity
from .lines import findings_of

SEVERITIES = {Severity.WARNING: 1, Severity.ERROR: 2}


def message(finding: Finding, path: str) -> dict[str, Any]:
    said: dict[str, Any] = {
        "ruleId": finding.rule,
        "severity": SEVERITIES[finding.severity],
        "message": finding.message,
        "line": finding.place.line,
        "column": finding.place.column,
        "count": finding.count,
    }
    if finding.path != path:
        said["originalPath"] = finding.path
    return said


def entry(result: FileResult) -> dict[str, Any]:
    findings = list(findings_of(result))
    return {
        "filePath": result.path,
        "messages": [message(it, result.path) for it in findings],
        "errorCount": sum(it.severity is Severity.ERROR for it in findings),
        "warningCount": sum(it.severity is Severity.WARNING for it in findings),
        "fixableErrorCount": 0,
        "fixableWarningCount": 0,
        "end": result.end if result.trouble is None else None,
        "trouble": result.trouble,
        "notes": list(result.notes),
    }


def write(results: Sequence[FileResult], out: TextIO, colour: bool) -> None:
    """One file a line, so that a long list is not held as one text."""
    del colour
    out.write("[")
    for number, result in enumerate(results):
        out.write(("," if number else "") + "\n" + json.dumps(entry(result)))
    out.write("\n]\n")
