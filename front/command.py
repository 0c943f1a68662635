"""The top of `jl`: which command the words name, and the exit status."""

from __future__ import annotations

import importlib
import os
import signal
import sys
from types import FrameType
from typing import Callable, cast

from .formats.lines import on_one_line
from .gather import Unreadable
from .program import ProgramError

NOTHING_FOUND, FOUND, FAILED = 0, 1, 2

Command = Callable[[list[str]], int]
COMMANDS = {
    "rules": ("rules_command", "list_rules"),
    "explain": ("rules_command", "explain"),
    "offs": ("offs_command", "main"),
    "cover": ("cover_command", "main"),
}
LINT = ("lint_command", "main")


class Ended(BaseException):
    """A signal that ends the process. It is raised so that files that are being written are taken away."""

    def __init__(self, number: int) -> None:
        super().__init__(number)
        self.number = number


def on_signal(number: int, _frame: FrameType | None) -> None:
    raise Ended(number)


def complain(message: object) -> None:
    """Says on standard error what went wrong, if that is still there."""
    try:
        print(f"jl: {on_one_line(str(message))}", file=sys.stderr)
    except OSError:
        pass


def drop_standard_output() -> None:
    """Gives standard output up, so that Python does not complain of it at the end."""
    os.dup2(os.open(os.devnull, os.O_WRONLY), 1)


def load(name: tuple[str, str]) -> Command:
    """The function of a command. Only the module that is asked for is loaded, so that a run starts soon."""
    module, function = name
    return cast(Command, getattr(importlib.import_module(f".{module}", __package__), function))


def main(words: list[str]) -> int:
    """Does what the words say, and answers the exit status."""
    for number in (signal.SIGHUP, signal.SIGTERM):
        signal.signal(number, on_signal)
    if sys.stderr is None:
        sys.stderr = open(os.devnull, "w", encoding="utf-8")
    elif hasattr(sys.stderr, "reconfigure"):
        sys.stderr.reconfigure(errors="backslashreplace")
    is_command = bool(words) and words[0] in COMMANDS
    try:
        command = load(COMMANDS[words[0]] if is_command else LINT)
        return command(words[1:] if is_command else words)
    except (ProgramError, Unreadable) as error:
        complain(error)
    except BrokenPipeError:
        drop_standard_output()
    except OSError as error:
        complain(f"{error.filename}: {error.strerror}" if error.filename else error.strerror or error)
        drop_standard_output()
    except KeyboardInterrupt:
        complain("interrupted")
        return 128 + signal.SIGINT
    except Ended as error:
        return 128 + error.number
    return FAILED
