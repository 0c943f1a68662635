#!/usr/bin/env python3
"""Stands for a program with the commands `record`, `replay` and `unmap`, made of the commands of one that lacks them.

Where the program REAL_JLINT has a command, that answers. Else a record is made of what `map` and `trace` list, without
the facts that coverage does not read, and `replay` answers the report lines of the script that a record was made of."""

from __future__ import annotations

import hashlib
import json
import os
import re
import subprocess
import sys

DIGITS = "ABCDEFGHIJKLMNOPQRSTUVWXYZabcdefghijklmnopqrstuvwxyz0123456789+/"
VALUES = {"undefined": "u", "null": "z", "true": "t", "false": "f", "NaN": "nNaN"}


def real(words: list[str], given: bytes) -> tuple[int, bytes]:
    done = subprocess.run([os.environ["REAL_JLINT"], *words], input=given, stdout=subprocess.PIPE, check=False)
    return done.returncode, done.stdout


def value_text(shown: str) -> str:
    """A value of a condition as a record writes it."""
    if shown.startswith("["):
        return "o1:" + shown[1:-1]
    return VALUES.get(shown, shown if shown.startswith('"') else "n" + shown)


def operation_line(line: str) -> str:
    id, kind, *facts = line.split(" ", 2)
    return f"{id} {kind} {value_text(facts[0])}" if kind == "Conditional" else f"{id} {kind}"


def record(words: list[str], given: bytes) -> tuple[int, bytes]:
    rows = real(["map"], given)[1].decode().splitlines()
    status, traced = real(["trace", *words], given)
    if status == 3:
        return status, traced
    operations = [it for it in traced.decode().splitlines() if it[:1].isdigit()]
    lines = ["jlint-record 1", f"rows {len(rows)}", *(it.split(" ", 1)[1] for it in rows), "off 0"]
    lines += [f"ops {len(operations)}", *map(operation_line, operations), "end"]
    text = "".join(it + "\n" for it in lines).encode()
    with open(kept_path(text), "wb") as file:
        file.write(real(["lint", *words], given)[1])
    return status, text


def kept_path(text: bytes) -> str:
    return os.path.join(os.environ["FAKE_FOLDER"], hashlib.sha256(text).hexdigest() + ".report")


def replay(given: bytes) -> tuple[int, bytes]:
    try:
        with open(kept_path(given), "rb") as file:
            lines = file.read().splitlines()
    except OSError:
        return 3, b"jlint: refused Record at line 1\n"
    count = int(re.search(rb"reports=(\d+)", lines[-1])[1])  # type: ignore[index]
    last = len(lines) - 1 - lines[-1].startswith(b"jlint: thrown")
    report = lines[last - count : last]
    return (1 if count else 0), b"\n".join([*report, b"jlint: replayed hooks=0 reports=%d" % count, b""])


def numbers(piece: str) -> list[int]:
    found, value, shift = [], 0, 0
    for character in piece:
        digit = DIGITS.index(character)
        value += (digit & 31) << shift
        shift += 5
        if not digit & 32:
            found.append(-(value >> 1) if value & 1 else value >> 1)
            value = shift = 0
    return found


def unmap(given: bytes) -> tuple[int, bytes]:
    try:
        mappings = json.loads(given)["mappings"]
    except (ValueError, KeyError):
        return 3, b"jlint: refused MapJson\n"
    out, totals = [], [0, 0, 0, 0]
    for line, group in enumerate(mappings.split(";"), 1):
        column = 0
        for piece in [it for it in group.split(",") if it]:
            step, *rest = numbers(piece)
            column += step
            totals = [total + (rest[i] if i < len(rest) else 0) for i, total in enumerate(totals)]
            said = f" {totals[0]} {totals[1] + 1}:{totals[2] + 1}" if rest else ""
            out.append(f"{line}:{column + 1}{said}" + (f" {totals[3]}" if len(rest) == 4 else ""))
    return 0, "".join(it + "\n" for it in out).encode()


def answer(words: list[str], given: bytes) -> tuple[int, bytes]:
    if os.environ.get("REAL_JLINT"):
        found = real(words, given)
        if found[0] != 2 or words[0] not in ("record", "replay", "unmap"):
            return found
    if words[0] == "unmap":
        return unmap(given)
    return replay(given) if words[0] == "replay" else record(words[1:], given)


if __name__ == "__main__":
    status, written = answer(sys.argv[1:], sys.stdin.buffer.read())
    sys.stdout.buffer.write(written)
    sys.exit(status)
