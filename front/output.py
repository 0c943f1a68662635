"""Writes answers: whole, or not at all."""

from __future__ import annotations

import contextlib
import errno
import os
import sys
import threading
from typing import Callable, TextIO

Writer = Callable[[TextIO], object]


def write_whole(path: str, write: Writer) -> None:
    """Writes a file beside its place and then renames it, so that nobody meets half of it."""
    folder = os.path.dirname(path) or "."
    if os.path.islink(path):
        path = os.path.realpath(path)
        folder = os.path.dirname(path)
    made = os.path.join(folder, f".{os.path.basename(path)[:40]}.{os.getpid()}.{threading.get_ident()}")
    try:
        with open(made, "x", encoding="utf-8", errors="backslashreplace", newline="\n") as file:
            write(file)
        if os.path.exists(path):
            os.chmod(made, os.stat(path).st_mode & 0o777)
        os.replace(made, path)
    except BaseException as error:
        with contextlib.suppress(OSError):
            os.remove(made)
        if isinstance(error, OSError) and error.errno is not None:
            raise type(error)(error.errno, error.strerror, path) from error
        raise


def write_standard(write: Writer) -> None:
    """Writes to standard output."""
    out = sys.stdout
    if out is None:
        raise OSError(errno.EBADF, "standard output is closed")
    if hasattr(out, "reconfigure"):
        out.reconfigure(encoding="utf-8", errors="backslashreplace", newline="\n")
    write(out)
    out.flush()


def write_answer(path: str | None, write: Writer) -> None:
    """Writes to a file, or to standard output where none is named."""
    if path is None or path == "-":
        write_standard(write)
    elif os.path.exists(path) and not os.path.isfile(path):
        # A device or a pipe can't be renamed onto.
        with open(path, "w", encoding="utf-8", errors="backslashreplace", newline="\n") as file:
            write(file)
    else:
        write_whole(path, write)
