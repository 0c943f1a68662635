"""Finds the program jlint among what the kit has kept on this machine.

`rt ci` keeps what it proves of a crate under the sum of all that it read: the kit, the crate's files, and the libraries
below it as they were built. The sums are made here as `rt` makes them, lowest crate first, without building anything.
A kit that keeps nothing has no store."""

from __future__ import annotations

import contextlib
import hashlib
import importlib.machinery
import importlib.util
import io
import json
import os
import shutil
import sys
from typing import Any


def load_rt() -> Any:
    """The kit's `rt` as a module."""
    path = os.path.realpath(shutil.which("rt") or "rt")
    loader = importlib.machinery.SourceFileLoader("rattle_rt", path)
    spec = importlib.util.spec_from_loader("rattle_rt", loader)
    assert spec is not None
    module = importlib.util.module_from_spec(spec)
    sys.modules["rattle_rt"] = module
    loader.exec_module(module)
    return module


class KeptProgram:
    """What the kit has kept of the crates of a clone."""

    def __init__(self, top: str, program: str = "jlint") -> None:
        self.top, self.program = top, program
        try:
            self.rt = load_rt()
        except (OSError, SyntaxError, ImportError):
            self.rt = None
        self.has_store = all(hasattr(self.rt, it) for it in ("Kept", "ci_of", "own_sum", "STORE"))

    def find(self) -> str | None:
        """The path of the program that was proved of these sources, or None where there is none."""
        if not self.has_store:
            return None
        # `rt` speaks on standard output, which is the caller's for the path, and stops by SystemExit.
        said = io.StringIO()
        try:
            with contextlib.redirect_stdout(said), contextlib.redirect_stderr(said):
                return self.find_in_store()
        except (SystemExit, OSError, ValueError, KeyError, TypeError, AttributeError):
            return None

    def find_in_store(self) -> str | None:
        self.rt.Crate.allowed = self.rt.handles_of(self.top)
        crates = self.rt.crates_of(self.top)
        kept = self.rt.Kept(crates)
        if not kept.at:
            return None
        wanted = next(it for it in crates if it.name == self.program)
        below = {it.name for it in wanted.below()}
        for crate in crates:
            if crate.name in below:
                entry = self.entry(kept, crate)
                if entry is None:
                    return None
                kept.rlibs[crate.name] = library_sum(entry["files"])
        entry = self.entry(kept, wanted)
        return None if entry is None else self.program_in(kept, wanted, entry)

    def entry(self, kept: Any, crate: Any) -> dict[str, Any] | None:
        """What was kept of the proof of a crate, or None."""
        key = kept.key(crate)
        try:
            with open(f"{kept.place(crate, False, key)}/made.json", encoding="utf-8") as file:
                made = json.load(file)
        except OSError:
            return None
        return made if made["key"] == key else None

    def program_in(self, kept: Any, crate: Any, entry: dict[str, Any]) -> str | None:
        """The path of the kept program, if its bytes are those that were kept."""
        folder = kept.place(crate, False, entry["key"])
        for number, (name, due) in enumerate(entry["files"]):
            path = os.path.join(folder, str(number))
            if name == self.program and self.rt.rtlib.sum_of(path) == due:
                return path
        return None


def library_sum(files: list[list[str]]) -> str:
    """The sum of a library by which those above it are kept."""
    return hashlib.sha256(repr([(name, due) for name, due in files]).encode()).hexdigest()
