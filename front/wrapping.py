"""Puts a prelude, and the function that a module is, round a script, so that places in the script stay what they were.

All that is put before the script is on its first line, where columns are shifted and shifted back."""

from __future__ import annotations

import os
import re
from dataclasses import dataclass

from .gather import LARGEST
from .program import Program, ProgramError, Status
from .rules import TOP
from .source import Place, SourceText, utf16_length
from .tokens import is_strict

PRELUDES = os.path.join(TOP, "preludes")
AFTER_SCRIPT = "afterScript"
"""A prelude that declares a function of this name has it called after the script."""
STRICT = '"use strict";'
MODULE_HEAD = "commonjs(function (exports, require, module, __filename, __dirname) {"
MODULE_TAIL = "\n});"


@dataclass(frozen=True)
class Prelude:
    """The text of preludes on one line, and whether one has to be called after the script."""

    text: str = ""
    is_called_after: bool = False


def prelude_path(name: str) -> str:
    """The path of a prelude that is named by its path, or as `es5` for one of the repository's own."""
    own = os.path.join(PRELUDES, f"{name}.js")
    return own if re.fullmatch(r"\w+", name) and os.path.isfile(own) else name


def read_prelude(program: Program, names: list[str], is_module: bool) -> Prelude:
    """The preludes of these names, one after the other, with that of modules first where scripts are modules.

    `jlint print` makes the one line of each."""
    texts = []
    for name in ["commonjs", *names] if is_module else names:
        path = prelude_path(name)
        try:
            with open(path, "rb") as file:
                script = file.read(LARGEST + 1)
        except OSError as error:
            raise ProgramError(f"the prelude {path} can't be read: {error.strerror}") from error
        answer = program.run(["print"], script)
        if answer.status is not Status.CLEAN:
            said = answer.output.decode("utf-8", "replace").strip()
            raise ProgramError(f"the prelude {path} is not accepted: {said}")
        # Line feeds come only after `;`, `{` and `}` there, where nothing depends on them.
        texts.append(answer.output.decode("utf-8").replace("\n", ""))
    text = "".join(texts)
    return Prelude(text, f"function {AFTER_SCRIPT}(" in text)


class Wrapped:
    """A script with what is put before and after it."""

    def __init__(self, script: str, prelude: Prelude, is_module: bool) -> None:
        script = comment_hash_bang(script)
        head = prelude.text
        if head and not is_module and is_strict(script):
            # The directive prologue has to come first; the preludes are written so that they may be strict.
            head = STRICT + head
        head += MODULE_HEAD if is_module else ""
        tail = MODULE_TAIL if is_module else ""
        tail += f"\n{AFTER_SCRIPT}();" if prelude.is_called_after else ""
        self.source = SourceText(script)
        self.text = head + script + tail
        self.shift = utf16_length(head)
        self.last = self.source.end()

    def place_of(self, place: Place) -> Place | None:
        """The place in the script of a place in the whole, or None where that is in what was put round it."""
        if place.line == 1 and self.shift:
            place = Place(1, place.column - self.shift)
        return place if place.column > 0 and place <= self.last else None

    def nearest(self, place: Place) -> Place:
        """The place in the script that is nearest to a place in the whole."""
        return self.place_of(place) or (Place(1, 1) if place.line == 1 else self.last)


def comment_hash_bang(script: str) -> str:
    """A script whose first line, where that is `#!..`, is made a comment of the same length."""
    return "//" + script[2:] if script.startswith("#!") else script
