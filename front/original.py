"""Places in the original of a script that was made by a transpiler and ends in a source map (revision 3).

`jlint unmap` reads the map; this finds it, and looks places up in what `unmap` lists."""

from __future__ import annotations

import base64
import binascii
import bisect
import errno
import json
import os
import re
import urllib.parse
from dataclasses import dataclass
from typing import BinaryIO

from .program import NoSuchCommand, Program, ProgramError, Status
from .source import Place, SourceText

URL = re.compile(r"""^[ \t]*(?://|/\*)[#@][ \t]*sourceMappingURL=([^\s'"]+)""", re.M)
SEGMENT = re.compile(rb"^(\d+):(\d+)(?: (\d+) (\d+):(\d+)(?: \d+)?)?$", re.M)
XSSI_PREFIX = b")]}'"
LARGEST_FILE = 67_108_864
"""A map may have as many bytes, and an original."""


class MapError(Exception):
    """A map that is named can't be used, and why."""


@dataclass(frozen=True)
class Segment:
    """From this column on, to the next segment of the line, the text is made from a place of a source."""

    column: int
    source: int | None
    place: Place | None


@dataclass(frozen=True)
class Original:
    """A place in an original, and its line where the text is known."""

    path: str
    place: Place
    line: str | None


class SourceMap:
    """The segments of a map by generated line, and its sources."""

    def __init__(self, segments: dict[int, list[Segment]], paths: list[str | None], texts: list[str | None]) -> None:
        self.segments, self.paths, self.texts = segments, paths, texts
        self.sources: dict[int, SourceText | None] = {}

    def original(self, place: Place) -> Original | None:
        """What a place is made from, by the last segment of its line that begins at or before it."""
        line = self.segments.get(place.line, [])
        index = bisect.bisect_right([it.column for it in line], place.column) - 1
        if index < 0:
            return None
        found = line[index]
        path = self.paths[found.source] if found.source is not None and found.source < len(self.paths) else None
        if path is None or found.place is None or found.source is None:
            return None
        source = self.source_text(found.source, path)
        return Original(path, found.place, source.line(found.place.line) if source else None)

    def source_text(self, number: int, path: str) -> SourceText | None:
        """The text of a source: the one in the map, or else the file."""
        if number not in self.sources:
            text = self.texts[number] if number < len(self.texts) else None
            if text is None:
                text = read_source(path)
            self.sources[number] = None if text is None else SourceText(text)
        return self.sources[number]


def read_source(path: str) -> str | None:
    """The text of a script or an original, or None where it can't be read or is larger than that may well be."""
    try:
        with open_file(path) as file:
            given = file.read(LARGEST_FILE + 1)
    except (OSError, ValueError):
        return None
    return None if len(given) > LARGEST_FILE else given.decode("utf-8", "replace")


def open_file(path: str) -> BinaryIO:
    """Opens what a script or a map names, where that is a file and no device or pipe."""
    if not os.path.isfile(path):
        raise FileNotFoundError(errno.ENOENT, "there is no such file", path)
    return open(path, "rb")


def map_url(script: str) -> str | None:
    """The last `sourceMappingURL` of a script."""
    if "sourceMappingURL=" not in script:
        return None
    found = URL.findall(script)
    return found[-1] if found else None


def decode_data_url(url: str) -> bytes:
    """The bytes of a `data:` URL."""
    head, _, data = url[len("data:") :].partition(",")
    raw = urllib.parse.unquote_to_bytes(data)
    if not head.endswith(";base64"):
        return raw
    try:
        return base64.b64decode(raw, validate=True)
    except binascii.Error as error:
        raise MapError(f"its source map is not base64: {error}") from error


def read_map_bytes(url: str, script_path: str) -> tuple[bytes, str]:
    """The bytes of a map that a script names, and the folder that its sources are relative to."""
    folder = os.path.dirname(script_path)
    if url.startswith("data:"):
        return decode_data_url(url), folder
    if re.match(r"[a-z][a-z0-9+.-]*:", url):
        raise MapError(f"its source map {url} is not a file")
    path = os.path.join(folder, urllib.parse.unquote(url))
    try:
        with open_file(path) as file:
            given = file.read(LARGEST_FILE + 1)
    except OSError as error:
        raise MapError(f"its source map {path} can't be read: {error.strerror}") from error
    if len(given) > LARGEST_FILE:
        raise MapError(f"its source map {path} has more than {LARGEST_FILE:,} bytes")
    return given, os.path.dirname(path)


def source_paths(shape: dict[str, object], folder: str) -> list[str | None]:
    """The paths of a map's sources."""
    root = shape.get("sourceRoot")
    root = root if isinstance(root, str) else ""
    paths: list[str | None] = []
    sources = shape.get("sources")
    for source in sources if isinstance(sources, list) else []:
        if not isinstance(source, str):
            paths.append(None)
            continue
        name = root.rstrip("/") + "/" + source if root and not source.startswith("/") else source
        if name.startswith("file://"):
            name = urllib.parse.unquote(name[len("file://") :])
        is_url = re.match(r"[a-z][a-z0-9+.-]*://", name)
        paths.append(name if is_url else os.path.normpath(os.path.join(folder, name)))
    return paths


def read_segments(listing: bytes) -> dict[int, list[Segment]]:
    """The segments that `unmap` lists, by generated line, each line's by column."""
    lines: dict[int, list[Segment]] = {}
    for found in SEGMENT.finditer(listing):
        line, column, source = int(found[1]), int(found[2]), found[3]
        place = None if source is None else Place(int(found[4]), int(found[5]))
        segment = Segment(column, None if source is None else int(source), place)
        lines.setdefault(line, []).append(segment)
    for segments in lines.values():
        segments.sort(key=lambda it: it.column)
    return lines


def find_map(program: Program, script: str, script_path: str) -> SourceMap | None:
    """The map that a script ends in, or None where it has none."""
    url = map_url(script)
    if url is None:
        return None
    given, folder = read_map_bytes(url, script_path)
    given = given.partition(b"\n")[2] if given.startswith(XSSI_PREFIX) else given
    try:
        answer = program.ask("unmap", [], given)
    except NoSuchCommand as error:
        raise MapError("its source map was not read, since the program has no command `unmap`") from error
    except ProgramError as error:
        raise MapError(f"its source map was not read: {error}") from error
    if answer.status is not Status.CLEAN:
        said = answer.output.decode("utf-8", "replace").strip()
        raise MapError(f"its source map can't be read: {said}")
    try:
        shape = json.loads(given)
    except (ValueError, RecursionError) as error:
        raise MapError("its source map can't be read") from error
    contents = shape.get("sourcesContent")
    texts = [it if isinstance(it, str) else None for it in contents] if isinstance(contents, list) else []
    return SourceMap(read_segments(answer.output), source_paths(shape, folder), texts)
