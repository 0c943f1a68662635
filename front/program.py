"""Runs the program jlint: the one that the environment names by JLINT, or else the one that `./jlint` builds."""

from __future__ import annotations

import contextlib
import os
import signal
import subprocess
import sys
import threading
from dataclasses import dataclass
from enum import IntEnum
from typing import Sequence

from .rules import TOP


class Status(IntEnum):
    """The exit statuses of the program."""

    CLEAN = 0
    REPORTS = 1
    BAD_WORDS = 2
    REFUSED = 3
    THROWN = 4
    FAULT = 5
    SPENT = 6
    READ_FAULT = 7
    WRITE_FAULT = 8
    NO_MEMORY = 9


NO_ANSWER = {
    Status.READ_FAULT: "the program could not read the script",
    Status.WRITE_FAULT: "the program could not write its answer",
    Status.NO_MEMORY: "the program ran out of memory",
}


PIPE_HOLDS = 4_096
"""As much may be written into a pipe before anybody reads, on every system."""


class ProgramError(Exception):
    """The program can't be run, or gave no answer."""


class NoSuchCommand(ProgramError):
    """The program does not have a command."""


@dataclass(frozen=True)
class Answer:
    """The status and the bytes of an answer."""

    status: Status
    output: bytes


class Runs:
    """The runs that have not ended, so that they can be ended when this process is."""

    def __init__(self) -> None:
        self.lock = threading.Lock()
        self.running: set[subprocess.Popen[bytes]] = set()
        self.are_ended = False

    def start(self, command: Sequence[str]) -> subprocess.Popen[bytes]:
        """Begins a run, unless all are ended."""
        with self.lock:
            if self.are_ended:
                raise ProgramError("interrupted")
            process = subprocess.Popen(command, stdin=subprocess.PIPE, stdout=subprocess.PIPE)
            self.running.add(process)
            return process

    def forget(self, process: subprocess.Popen[bytes]) -> None:
        """Ends a run, where it has not ended, and lets go of its pipes."""
        if process.returncode is None:
            process.kill()
            process.wait()
        for stream in (process.stdin, process.stdout):
            if stream is not None:
                with contextlib.suppress(OSError):
                    stream.close()
        with self.lock:
            self.running.discard(process)

    def end_all(self) -> None:
        with self.lock:
            self.are_ended = True
            for process in self.running:
                process.kill()


RUNS = Runs()


@dataclass(frozen=True)
class Program:
    """The program at a path."""

    path: str
    seconds: float | None = None
    """How long a run may take."""

    def run(self, words: Sequence[str], script: bytes) -> Answer:
        """The answer of the program to these words and this script."""
        try:
            process = RUNS.start([self.path, *words])
        except OSError as error:
            raise ProgramError(f"{self.path} can't be run: {error.strerror}") from error
        try:
            output = self.converse(process, script)
        except subprocess.TimeoutExpired as error:
            raise ProgramError(f"no answer within {self.seconds:g} seconds (--timeout)") from error
        finally:
            RUNS.forget(process)
        return Answer(self.status_of(process.wait()), output)

    def converse(self, process: subprocess.Popen[bytes], script: bytes) -> bytes:
        """What the program writes to a script."""
        if len(script) > PIPE_HOLDS or self.seconds is not None:
            return process.communicate(script, self.seconds)[0]
        assert process.stdin is not None and process.stdout is not None
        # The pipe holds it all, so nothing can wait for anything else.
        with contextlib.suppress(BrokenPipeError), process.stdin:
            process.stdin.write(script)
        with process.stdout:
            output = process.stdout.read()
        process.wait()
        return output

    def status_of(self, number: int) -> Status:
        """The status of a run that gave an answer."""
        if number < 0:
            raise ProgramError(f"the program was killed by {signal_name(-number)}")
        try:
            status = Status(number)
        except ValueError:
            raise ProgramError(f"{self.path} ended with status {number}") from None
        if status in NO_ANSWER:
            raise ProgramError(NO_ANSWER[status])
        return status

    def ask(self, command: str, words: Sequence[str], script: bytes) -> Answer:
        """The answer of a command that an older program may not have."""
        answer = self.run([command, *words], script)
        if answer.status is Status.BAD_WORDS:
            raise NoSuchCommand(f"{self.path} has no command `{command}`")
        return answer


def signal_name(number: int) -> str:
    try:
        return signal.Signals(number).name
    except ValueError:
        return f"signal {number}"


def path_of(name: str) -> str:
    """The path of a program that is named by a path, or by a word that is looked up as a shell does."""
    if os.sep in name:
        return os.path.abspath(name)
    import shutil

    return shutil.which(name) or name


def find_program(seconds: float | None = None) -> Program:
    """The program to run; `./jlint` proves and builds it where that was not done."""
    named = os.environ.get("JLINT")
    if named:
        path = path_of(named)
        if not os.path.isfile(path) or not os.access(path, os.X_OK):
            raise ProgramError(f"{path} can't be run: JLINT names it, and it is no program")
        return Program(path, seconds)
    if os.environ.get("JLINT_UNPROVED"):
        return Program(os.path.join(TOP, "jlint"), seconds)
    builder = os.path.join(TOP, "tools", "program.py")
    if not os.path.isfile(builder):
        raise ProgramError("no program is named: set JLINT to the path of jlint")
    done = subprocess.run([sys.executable, builder], stdout=subprocess.PIPE, check=False)
    path = os.fsdecode(done.stdout).strip()
    if done.returncode or not path:
        raise ProgramError("the program is not built; set JLINT to the path of one that is")
    return Program(path, seconds)
