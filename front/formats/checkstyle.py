"""The XML of Checkstyle, which Jenkins, GitLab's converters and many others read."""

from __future__ import annotations

import itertools
from typing import Sequence, TextIO

from ..findings import FileResult
from .lines import findings_of
from .xml_text import attribute


def write(results: Sequence[FileResult], out: TextIO, colour: bool) -> None:
    del colour
    out.write('<?xml version="1.0" encoding="utf-8"?>\n<checkstyle version="4.3">\n')
    for result in results:
        by_path = itertools.groupby(findings_of(result), key=lambda it: it.path)
        groups = [(path, list(group)) for path, group in by_path] or [(result.path, [])]
        for path, findings in groups:
            out.write(f"<file name={attribute(path)}>\n")
            for it in findings:
                at = f'line="{it.place.line}" column="{it.place.column}" severity="{it.severity.value}"'
                out.write(f"<error {at} message={attribute(it.text)} source={attribute('jlint.' + it.rule)}/>\n")
            out.write("</file>\n")
    out.write("</checkstyle>\n")
