#!/usr/bin/env python3
"""Lints JavaScript files by the program jlint: `jl --help` says how."""
import os
import sys

sys.path.insert(0, os.path.dirname(os.path.realpath(__file__)))

from front.command import main  # noqa: E402  (the folder above has to be on the path first)

if __name__ == "__main__":
    sys.exit(main(sys.argv[1:]))
