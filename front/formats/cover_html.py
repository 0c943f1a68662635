"""One page of annotated source: counts in the margin, reports under their places, what never ran shaded."""

from __future__ import annotations

from typing import Sequence, TextIO

from ..coverage import Coverage, share
from ..findings import sentence_of
from .page import Note, Row, anchor_of, escape, link_to, write_foot, write_head, write_source


def notes_of(coverage: Coverage) -> dict[int, list[Note]]:
    """What is said under each line."""
    notes: dict[int, list[Note]] = {}
    for it in coverage.reports:
        times = f" ({it.count} times)" if it.count > 1 else ""
        note = Note(it.place.column, sentence_of(it.rule) + times, it.rule)
        notes.setdefault(it.place.line, []).append(note)
    for gap in coverage.gaps():
        notes.setdefault(gap.place.line, []).append(Note(gap.place.column, gap.text, is_gap=True))
    for found in notes.values():
        found.sort(key=lambda it: it.column)
    return notes


def summary_cells(coverage: Coverage) -> str:
    parts = [
        (coverage.lines_hit, len(coverage.lines)),
        (coverage.functions_entered, len(coverage.functions)),
        (coverage.branches_taken, coverage.branches),
    ]
    cells = "".join(f"<td>{part} of {whole} ({share(part, whole):.1f} %)</td>" for part, whole in parts)
    return cells + f"<td>{len(coverage.reports)}</td>"


def write(coverages: Sequence[Coverage], out: TextIO) -> None:
    write_head(out, f"jl cover: {len(coverages)} script{'' if len(coverages) == 1 else 's'}")
    out.write("<table><tr><th>script</th><th>lines</th><th>functions</th><th>branches</th><th>reports</th></tr>\n")
    for it in coverages:
        link = f'<a href="{escape(link_to(it.path, 1))}">{escape(it.path)}</a>'
        out.write(f"<tr><td>{link}</td>{summary_cells(it)}</tr>\n")
    out.write("</table>\n")
    for it in coverages:
        notes = notes_of(it)
        out.write(f'<h2 id="{anchor_of(it.path, 0)}">{escape(it.path)}</h2>\n')
        rows = [
            Row(number, text, it.lines.get(number), notes.get(number, []))
            for number, text in enumerate(it.source.lines, 1)
        ]
        write_source(out, it.path, rows)
    write_foot(out)
