"""SARIF 2.1.0, which GitHub's code scanning, VS Code and others read."""

from __future__ import annotations

import hashlib
import json
import os
import urllib.parse
from typing import Any, Sequence, TextIO

from .. import VERSION
from ..findings import EndRule, FileResult, Finding, Severity
from ..rules import RULES
from .lines import TROUBLE, findings_of

SCHEMA = "https://docs.oasis-open.org/sarif/sarif/v2.1.0/errata01/os/schemas/sarif-schema-2.1.0.json"
LEVELS = {Severity.WARNING: "warning", Severity.ERROR: "error"}


def uri_of(path: str) -> str:
    """The URI of a path, relative where the path is."""
    path = path.replace(os.sep, "/")
    try:
        given = os.fsencode(path)
    except UnicodeEncodeError:  # no path of this system, but one that a source map names
        given = path.encode("utf-8", "backslashreplace")
    quoted = urllib.parse.quote(given)
    return f"file://{quoted}" if path.startswith("/") else quoted


def descriptors() -> list[dict[str, Any]]:
    """The rules, and the ends of runs after them."""
    rules = [
        {
            "id": rule.name,
            "shortDescription": {"text": rule.sentence},
            "defaultConfiguration": {"level": "warning"},
        }
        for rule in RULES
    ]
    ends = [
        {"id": end.value, "shortDescription": {"text": end.sentence}, "defaultConfiguration": {"level": "error"}}
        for end in EndRule
    ]
    return rules + ends


def fingerprint(finding: Finding) -> str:
    """A sum that stays where lines before the finding are added or taken away."""
    made_from = f"{finding.path}\0{finding.rule}\0{(finding.source_line or '').strip()}"
    return hashlib.sha256(made_from.encode("utf-8", "surrogatepass")).hexdigest()[:32]


def result_of(finding: Finding, numbers: dict[str, int]) -> dict[str, Any]:
    region: dict[str, Any] = {"startLine": finding.place.line, "startColumn": finding.place.column}
    if finding.source_line is not None:
        region["snippet"] = {"text": finding.source_line}
    return {
        "ruleId": finding.rule,
        "ruleIndex": numbers[finding.rule],
        "level": LEVELS[finding.severity],
        "message": {"text": finding.text},
        "occurrenceCount": finding.count,
        "locations": [{"physicalLocation": {"artifactLocation": {"uri": uri_of(finding.path)}, "region": region}}],
        "partialFingerprints": {"ruleAndLine/v1": fingerprint(finding)},
    }


def invocation(results: Sequence[FileResult]) -> dict[str, Any]:
    """Whether all files could be looked at, and a notification for each that could not."""
    troubles = [it for it in results if it.trouble is not None]
    notifications = [
        {
            "level": "error",
            "message": {"text": it.trouble},
            "locations": [{"physicalLocation": {"artifactLocation": {"uri": uri_of(it.path)}}}],
        }
        for it in troubles
    ]
    return {"executionSuccessful": not troubles, "toolExecutionNotifications": notifications}


def write(results: Sequence[FileResult], out: TextIO, colour: bool) -> None:
    del colour
    rules = descriptors()
    numbers = {rule["id"]: number for number, rule in enumerate(rules)}
    driver = {"name": "jlint", "version": VERSION, "rules": rules}
    head = {
        "tool": {"driver": driver},
        "columnKind": "utf16CodeUnits",
        "invocations": [invocation(results)],
    }
    out.write('{"$schema": ' + json.dumps(SCHEMA) + ', "version": "2.1.0", "runs": [\n')
    out.write(json.dumps(head)[:-1] + ', "results": [')
    is_first = True
    for result in results:
        for it in findings_of(result):
            if it.rule != TROUBLE:
                out.write(("" if is_first else ",") + "\n" + json.dumps(result_of(it, numbers)))
                is_first = False
    out.write("\n]}]}\n")
