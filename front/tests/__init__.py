"""Tests of the front end: `python3 -m front.tests` at the top.

Those that run the program take the one that the environment names by JLINT, or else one that is built in this clone,
and are skipped where there is none."""
