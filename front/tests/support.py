"""What the tests have in common."""

from __future__ import annotations

import os
import shutil
import subprocess
import sys
import tempfile
import unittest
from dataclasses import dataclass
from typing import Any, Callable

TOP = os.path.dirname(os.path.dirname(os.path.dirname(os.path.abspath(__file__))))
DATA = os.path.join(TOP, "front", "tests", "data")
JL = os.path.join(TOP, "jl")
FAKE = os.path.join(TOP, "front", "tests", "fake_program.py")


def built_program() -> str | None:
    """The program that the tests run, if there is one."""
    places = [os.path.join(TOP, "out", "jlint"), os.path.join(TOP, "crates", "jlint", "out", "jlint")]
    named = os.environ.get("JLINT")
    found = [it for it in ([named] if named else places) if os.access(it, os.X_OK)]
    return os.path.abspath(found[0]) if found else None


PROGRAM = built_program()
needs_program = unittest.skipUnless(PROGRAM, "no program: set JLINT, or build it by ./jlint")


def needs_tool(name: str) -> Callable[[Any], Any]:
    """Skips a test where a tool is not installed."""
    return unittest.skipUnless(shutil.which(name), f"{name} is not installed")


@dataclass(frozen=True)
class Ran:
    """What a run of `jl` wrote, and its status."""

    status: int
    out: str
    err: str


class FrontCase(unittest.TestCase):
    """A test with a folder of its own, in which `jl` is run."""

    def setUp(self) -> None:
        self.folder = tempfile.mkdtemp(prefix="jl-test-")
        self.addCleanup(shutil.rmtree, self.folder, ignore_errors=True)
        self.program = PROGRAM or "/nonexistent/jlint"

    def write(self, name: str, text: str | bytes) -> str:
        """Writes a file in the folder, and answers its name."""
        path = os.path.join(self.folder, name)
        os.makedirs(os.path.dirname(path), exist_ok=True)
        with open(path, "wb") as file:
            file.write(text.encode("utf-8") if isinstance(text, str) else text)
        return name

    def read(self, name: str) -> str:
        with open(os.path.join(self.folder, name), encoding="utf-8") as file:
            return file.read()

    def jl(self, *words: str, given: str | bytes = b"", **environment: str) -> Ran:
        """Runs `jl` with these words and this standard input."""
        done = subprocess.run(
            [sys.executable, JL, *words],
            input=given.encode("utf-8") if isinstance(given, str) else given,
            stdout=subprocess.PIPE,
            stderr=subprocess.PIPE,
            cwd=self.folder,
            env={**os.environ, "JLINT": self.program, **environment},
            check=False,
        )
        return Ran(done.returncode, done.stdout.decode("utf-8"), done.stderr.decode("utf-8", "replace"))

    def use_fake(self) -> None:
        """Has `jl` run a program that has the commands `record`, `replay` and `unmap` in any case."""
        self.program = FAKE
        os.environ.update(REAL_JLINT=PROGRAM or "", FAKE_FOLDER=self.folder)

    def tool(self, *words: str, **named: Any) -> subprocess.CompletedProcess[str]:
        """Runs a tool in the folder."""
        return subprocess.run(words, cwd=self.folder, capture_output=True, text=True, check=False, **named)
