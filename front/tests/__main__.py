"""Runs the tests: `python3 -m front.tests` at the top. Says at the end how many there were, and why some were skipped."""

from __future__ import annotations

import os
import sys
import unittest
from collections import Counter

from .support import TOP


def main() -> int:
    suite = unittest.defaultTestLoader.discover(os.path.dirname(os.path.abspath(__file__)), top_level_dir=TOP)
    result = unittest.TextTestRunner(stream=sys.stdout).run(suite)
    failed = len(result.failures) + len(result.errors)
    for reason, count in Counter(reason for _, reason in result.skipped).items():
        print(f"skipped {count}: {reason}")
    passed = result.testsRun - failed - len(result.skipped)
    print(f"front/tests: {passed} passed, {failed} failed, {len(result.skipped)} skipped")
    return 0 if result.wasSuccessful() else 1


if __name__ == "__main__":
    sys.exit(main())
