"""Runs the kit on the crates below the program, and says on standard error how far it is."""

from __future__ import annotations

import os
import re
import shutil
import subprocess
import sys
import threading
import time
from typing import Sequence

EVERY = 30.0
"""Seconds between two lines that say how far it is."""
PROVED = re.compile(rb"^(?:rt:|\s*[0-9.]+) (\w+) (?:proved\b|(is kept\b))", re.M)


def uses(top: str) -> dict[str, list[str]]:
    """The libraries that each crate of `crates.txt` uses."""
    found = {}
    with open(os.path.join(top, "crates.txt"), encoding="utf-8") as file:
        for line in file:
            name, colon, below = line.split("#")[0].partition(":")
            if colon:
                found[name.split()[0]] = below.split()
    return found


def with_below(top: str, name: str) -> set[str]:
    """A crate and all below it."""
    used, found, left = uses(top), set(), [name]
    while left:
        crate = left.pop()
        if crate in used and crate not in found:
            found.add(crate)
            left += used[crate]
    return found


def weight(top: str, crate: str) -> int:
    """How large a crate is, by which the time to its proof is reckoned."""
    total = 0
    for part in ("src", "specs", "proofs"):
        for folder, _, files in os.walk(os.path.join(top, "crates", crate, part)):
            total += sum(os.path.getsize(os.path.join(folder, name)) for name in files)
    return total


def without_ci() -> dict[str, str]:
    """The environment without `CI=true`, in which `rt ci NAME` refuses to run, lest it be taken for the gate.

    It is none here: the program is what is wanted, and the gate is `.ci/run`."""
    return {name: value for name, value in os.environ.items() if name != "CI"}


class Proving:
    """A run of the kit, and how far it is by what it has written to its log."""

    def __init__(self, top: str, log: str, program: str = "jlint") -> None:
        self.top, self.log = top, log
        self.weights = {it: weight(top, it) for it in with_below(top, program)}
        self.began = time.monotonic()
        self.is_terminal = sys.stderr.isatty()

    def run(self, command: list[str], cwd: str | None = None, held: Sequence[int] = ()) -> int:
        """The status of a command that proves, which holds locks as long as it runs, also where this was killed."""
        ended = threading.Event()
        speaker = threading.Thread(target=self.speak, args=(ended,), daemon=True)
        with open(self.log, "wb") as log:
            process = subprocess.Popen(
                command,
                cwd=cwd or self.top,
                env=without_ci(),
                stdin=subprocess.DEVNULL,
                stdout=log,
                stderr=subprocess.STDOUT,
                pass_fds=held,
            )
            speaker.start()
            try:
                return process.wait()
            except BaseException:
                process.terminate()
                process.wait()
                raise
            finally:
                ended.set()
                speaker.join()
                if self.is_terminal:
                    print("\r\x1b[K", end="", file=sys.stderr, flush=True)

    def speak(self, ended: threading.Event) -> None:
        """Says how far it is, on one line where that is a terminal."""
        while not ended.wait(EVERY):
            start, end = ("\r\x1b[K", "") if self.is_terminal else ("", "\n")
            print(f"{start}jlint: {self.progress()}", end=end, file=sys.stderr, flush=True)

    def progress(self) -> str:
        """How many crates are proved, how long that took, and about how long the others will take."""
        with open(self.log, "rb") as file:
            found = {name.decode(): bool(kept) for name, kept in PROVED.findall(file.read())}
        done = {it: kept for it, kept in found.items() if it in self.weights}
        minutes = (time.monotonic() - self.began) / 60
        said = f"{len(done)} of {len(self.weights)} crates, {minutes:.0f} min"
        proved = sum(self.weights[it] for it, kept in done.items() if not kept)
        left = sum(size for it, size in self.weights.items() if it not in done)
        if proved and left:
            said += f", about {minutes * left / proved:.0f} to go"
        return said


def prove_aside(top: str, log: str, copy: str, lock: int) -> str | None:
    """Proves and builds by a kit that keeps nothing, in a copy that stays and has this lock, and answers the program's
    path.

    The copy keeps the libraries that were proved, for the next call. Nothing in the clone is touched."""
    bring(top, copy)
    prove = [sys.executable, os.path.join(copy, "tools", "prove.py"), "--programs", "jlint"]
    made = os.path.join(copy, "crates", "jlint", "out", "jlint")
    return made if Proving(top, log).run(prove, copy, (lock,)) == 0 and os.path.exists(made) else None


def bring(top: str, copy: str) -> None:
    """Makes a copy's sources those of the clone. What was proved in the copy of crates that the clone has stays."""
    os.makedirs(os.path.join(copy, "crates"), exist_ok=True)
    os.makedirs(os.path.join(copy, ".git"), exist_ok=True)
    for name in ("crates.txt", "HANDLES"):
        if os.path.exists(os.path.join(top, name)):
            shutil.copy2(os.path.join(top, name), copy)
        elif os.path.exists(os.path.join(copy, name)):
            os.remove(os.path.join(copy, name))
    crates = with_below(top, "jlint")
    for name in set(os.listdir(os.path.join(copy, "crates"))) - crates:
        shutil.rmtree(os.path.join(copy, "crates", name))
    for part in ["tools", *(f"crates/{crate}/{part}" for crate in crates for part in ("src", "specs", "proofs", "c"))]:
        shutil.rmtree(os.path.join(copy, part), ignore_errors=True)
        if os.path.isdir(os.path.join(top, part)):
            shutil.copytree(os.path.join(top, part), os.path.join(copy, part))
