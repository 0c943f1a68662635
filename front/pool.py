"""Looks at many scripts side by side, in order, and says on a terminal how far it is."""

from __future__ import annotations

import os
import sys
from typing import Callable, Iterator, Sequence, TypeVar

from .program import RUNS

Item = TypeVar("Item")
Result = TypeVar("Result")


def processors() -> int:
    """How many processors this process may use."""
    if hasattr(os, "sched_getaffinity"):
        return len(os.sched_getaffinity(0))
    return os.cpu_count() or 1


class Progress:
    """One line on standard error that says how many scripts are done, where that is a terminal."""

    def __init__(self, total: int, is_shown: bool) -> None:
        self.total, self.done = total, 0
        self.is_shown = is_shown and total > 1 and sys.stderr.isatty()

    def step(self) -> None:
        self.done += 1
        if self.is_shown:
            sys.stderr.write(f"\r{self.done} of {self.total} files")
            sys.stderr.flush()

    def clear(self) -> None:
        if self.is_shown:
            sys.stderr.write("\r\x1b[K")
            sys.stderr.flush()


def map_in_order(
    call: Callable[[Item], Result], items: Sequence[Item], jobs: int, progress: Progress
) -> Iterator[Result]:
    """The results of the calls, in the order of the items. With one job the calls are made here, one by one."""
    try:
        if jobs == 1 or len(items) < 2:
            for item in items:
                yield call(item)
                progress.step()
            return
        # It takes a while to load, and one job does without it.
        from concurrent.futures import ThreadPoolExecutor

        with ThreadPoolExecutor(min(jobs, len(items))) as pool:
            try:
                for result in pool.map(call, items):
                    progress.step()
                    yield result
            except BaseException:
                pool.shutdown(wait=False, cancel_futures=True)
                RUNS.end_all()
                raise
    finally:
        progress.clear()
