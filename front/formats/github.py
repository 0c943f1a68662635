"""Workflow commands of GitHub Actions, which annotate the lines of a change."""

from __future__ import annotations

from typing import Sequence, TextIO

from ..findings import FileResult, Severity
from .lines import all_findings

COMMANDS = {Severity.WARNING: "warning", Severity.ERROR: "error"}


def escape_message(text: str) -> str:
    return text.replace("%", "%25").replace("\r", "%0D").replace("\n", "%0A")


def escape_property(text: str) -> str:
    return escape_message(text).replace(":", "%3A").replace(",", "%2C")


def write(results: Sequence[FileResult], out: TextIO, colour: bool) -> None:
    del colour
    for it in all_findings(results):
        at = f"file={escape_property(it.path)},line={it.place.line},col={it.place.column}"
        title = escape_property(f"jlint {it.rule}")
        out.write(f"::{COMMANDS[it.severity]} {at},title={title}::{escape_message(it.text)}\n")
