"""The XML of JUnit: a suite for each file, and in it a failed case for each finding, or one case that passed."""

from __future__ import annotations

from typing import Sequence, TextIO

from ..findings import FileResult, Finding, Severity
from .lines import findings_of
from .xml_text import attribute, content


def write_case(finding: Finding, out: TextIO) -> None:
    name = attribute(f"{finding.rule} at {finding.place}")
    kind = "error" if finding.severity is Severity.ERROR else "failure"
    line = f"\n{finding.source_line}" if finding.source_line is not None else ""
    said = f"{finding.path}:{finding.place}: {finding.text}{line}"
    out.write(f"<testcase name={name} classname={attribute(finding.path)}>")
    out.write(f"<{kind} type={attribute(finding.rule)} message={attribute(finding.text)}>{content(said)}</{kind}>")
    out.write("</testcase>\n")


def write(results: Sequence[FileResult], out: TextIO, colour: bool) -> None:
    del colour
    out.write('<?xml version="1.0" encoding="utf-8"?>\n<testsuites name="jlint">\n')
    for result in results:
        findings = list(findings_of(result))
        errors = sum(it.severity is Severity.ERROR for it in findings)
        counts = f'tests="{max(1, len(findings))}" failures="{len(findings) - errors}" errors="{errors}"'
        out.write(f"<testsuite name={attribute(result.path)} {counts}>\n")
        for it in findings:
            write_case(it, out)
        if not findings:
            out.write(f"<testcase name={attribute('jlint')} classname={attribute(result.path)}/>\n")
        out.write("</testsuite>\n")
    out.write("</testsuites>\n")
