"""What the clones of a machine share: the programs that were proved, and the folder in which that is kept."""

from __future__ import annotations

import contextlib
import fcntl
import hashlib
import os
import shutil
import subprocess
from typing import Callable, ContextManager, Iterator

from sources import sum_of

KEPT = 8
"""So many programs are kept, those that were made or taken last."""


def cache_folder() -> str:
    """Where all clones of this user keep what is proved."""
    named = os.environ.get("XDG_CACHE_HOME", "")
    # (a relative path there is to be passed over)
    return os.path.join(named if os.path.isabs(named) else os.path.expanduser("~/.cache"), "jlint")


def kit_version() -> str:
    """What `rt version` says, or nothing where it says nothing."""
    try:
        ran = subprocess.run(["rt", "version"], stdin=subprocess.DEVNULL, capture_output=True, check=False)
    except OSError:
        return ""
    return "" if ran.returncode else ran.stdout.decode(errors="replace").strip()


@contextlib.contextmanager
def locked(path: str, before_waiting: Callable[[], None] = lambda: None) -> Iterator[int]:
    """Holds the lock of this path, for which other processes wait. What gets its descriptor holds it too."""
    os.makedirs(os.path.dirname(path), exist_ok=True)
    with open(path, "w", encoding="utf-8") as lock:
        try:
            fcntl.flock(lock, fcntl.LOCK_EX | fcntl.LOCK_NB)
        except BlockingIOError:
            before_waiting()
            fcntl.flock(lock, fcntl.LOCK_EX)
        yield lock.fileno()


class SharedPrograms:
    """The programs that were proved on this machine.

    A file is named by a sum of the sources and the kit that its program was made from, and by its own sum. It is
    written aside and renamed, and looked at before it is taken: one that was cut short or changed is removed."""

    def __init__(self, contents: str) -> None:
        self.folder = os.path.join(cache_folder(), "programs")
        version = kit_version()
        self.key = hashlib.sha256(f"{contents} {version}".encode()).hexdigest() if version else ""

    def find(self) -> str | None:
        """The path of the program that was proved of these sources by this kit, or None where there is none."""
        if not self.key or not os.path.isdir(self.folder):
            return None
        try:
            with self.alone():
                return self.find_alone()
        except OSError:
            return None

    def find_alone(self) -> str | None:
        for name in os.listdir(self.folder) if self.is_ours() else []:
            path = os.path.join(self.folder, name)
            if name.startswith(f"{self.key}."):
                if name == f"{self.key}.{sum_of(path)}":
                    os.utime(path)
                    return path
                os.remove(path)
        return None

    def keep(self, program: str) -> None:
        """Keeps a program that was proved of these sources by this kit, and removes all but the last programs."""
        if not self.key:
            return
        os.makedirs(self.folder, mode=0o700, exist_ok=True)
        with self.alone():
            if not self.is_ours() or self.find_alone():
                return
            new = os.path.join(self.folder, f"new.{os.getpid()}")
            shutil.copyfile(program, new)
            os.chmod(new, 0o700)
            os.replace(new, os.path.join(self.folder, f"{self.key}.{sum_of(new)}"))
            paths = [os.path.join(self.folder, name) for name in os.listdir(self.folder)]
            for path in sorted(paths, key=os.path.getmtime)[:-KEPT]:
                os.remove(path)

    def alone(self) -> ContextManager[int]:
        """Waits until no other process looks at the programs, which takes no longer than a copy."""
        return locked(f"{self.folder}.lock")

    def is_ours(self) -> bool:
        """Whether no other user can write in the folder."""
        about = os.stat(self.folder)
        return about.st_uid == os.geteuid() and not about.st_mode & 0o022
