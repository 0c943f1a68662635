"""The words of the command line."""

from __future__ import annotations

import argparse
from typing import Callable, Sequence

from . import VERSION, formats
from .linting import DEFAULT_BUDGET
from .pool import processors
from .rules import BY_NAME

LARGEST_BUDGET = 1_000_000_000

DESCRIPTION = """Lints JavaScript (ECMA-262 edition 5.1) by running it: rewrites each script
so that its operations can be watched, runs it, and reports what is legal but is
probably a mistake. Folders are searched for .js files; `-` is standard input."""

EPILOGUE = """commands:
  jl rules                   list the rules
  jl explain RULE            the page of a rule
  jl offs FILE|FOLDER..      comments that look like `jlint-off` and switch nothing off
  jl cover FILE|FOLDER..     what ran: LCOV, Cobertura, or a page of annotated source

exit status:
  0  nothing was found, or no more report lines than --max-reports allows
  1  something was found
  2  wrong words, a file that can't be read, or a program that is missing or was killed
"""


class Parser(argparse.ArgumentParser):
    """Ends with status 2 where the words are wrong, and says so in one line."""

    def error(self, message: str) -> None:  # type: ignore[override]
        self.exit(2, f"{self.prog}: {message}; see {self.prog} --help\n")

    def parse_with_files(self, words: list[str]) -> argparse.Namespace:
        """The options that the words say, among which a file or folder has to be."""
        options = self.parse_args(words)
        if not options.files:
            self.error("no file is named")
        return options


LONGEST_NUMBER = 20
"""Python converts no text of thousands of digits."""


def whole(least: int, most: int) -> Callable[[str], int]:
    """Reads a whole number within bounds."""

    def read(text: str) -> int:
        is_number = text.isascii() and text.isdigit() and len(text) <= LONGEST_NUMBER
        if not is_number or not least <= int(text) <= most:
            shown = text if len(text) <= LONGEST_NUMBER else text[:LONGEST_NUMBER] + "…"
            raise argparse.ArgumentTypeError(f"{shown!r} is no whole number from {least} to {most}")
        return int(text)

    return read


def rule_names(text: str) -> str:
    """Names of rules with commas between them, none twice."""
    names = text.split(",")
    for name in names:
        if name not in BY_NAME:
            raise argparse.ArgumentTypeError(f"there is no rule {name!r}; `jl rules` lists them")
        if names.count(name) > 1:
            raise argparse.ArgumentTypeError(f"the rule {name} is named twice")
    return text


def path(text: str) -> str:
    """The path of a file, which is not empty."""
    if not text:
        raise argparse.ArgumentTypeError("a path is empty")
    return text


def percent(text: str) -> float:
    """A number from 0 to 100."""
    try:
        value = float(text)
    except ValueError:
        value = -1
    if not 0 <= value <= 100:
        raise argparse.ArgumentTypeError(f"{text!r} is no percentage")
    return value


def add_files(parser: Parser) -> None:
    """The words that say which scripts to look at, and how."""
    parser.add_argument(
        "files", nargs="*", type=path, metavar="FILE|FOLDER|-", help="scripts, folders of them, or standard input"
    )
    parser.add_argument("--ext", default=".js", metavar="LIST", help="what names of scripts in folders end in (.js)")
    parser.add_argument(
        "--ignore", action="append", default=[], metavar="PATTERN", help="pass over what matches it in a folder"
    )
    parser.add_argument(
        "--stdin-filename", default="<stdin>", metavar="PATH", help="what standard input is called in the report"
    )
    parser.add_argument(
        "--jobs",
        type=whole(1, 1024),
        default=processors(),
        metavar="N",
        help="how many scripts to look at side by side",
    )
    parser.add_argument(
        "--timeout", type=whole(1, 10**6), metavar="SECONDS", help="how long one run of the program may take"
    )


def add_run(parser: Parser) -> None:
    """The words that say how a script is run."""
    parser.add_argument(
        "--budget",
        type=whole(0, LARGEST_BUDGET),
        default=DEFAULT_BUDGET,
        metavar="N",
        help=f"the most steps of a script's run ({DEFAULT_BUDGET:,})",
    )
    parser.add_argument(
        "--prelude",
        action="append",
        default=[],
        metavar="FILE",
        help="run this before each script, on the same line: a file, or es5 or browser for those of preludes/",
    )
    parser.add_argument("--commonjs", action="store_true", help="run each script as a module with require and exports")


def add_output(parser: Parser) -> None:
    parser.add_argument("--output", "-o", type=path, metavar="FILE", help="write there, whole or not at all")


def lint_parser() -> Parser:
    """The words of `jl` without a command."""
    parser = Parser(
        "jl",
        usage="jl [OPTIONS] FILE|FOLDER|-..",
        description=DESCRIPTION,
        epilog=EPILOGUE,
        formatter_class=argparse.RawDescriptionHelpFormatter,
        allow_abbrev=False,
    )
    add_files(parser)
    parser.add_argument(
        "--format",
        "-f",
        choices=formats.NAMES,
        metavar="NAME",
        help=f"{', '.join(formats.NAMES)}; where none is named, stylish on a terminal and unix elsewhere",
    )
    parser.add_argument("--rules", type=rule_names, metavar="NAMES", help="report these rules alone, as a,b,c")
    add_run(parser)
    parser.add_argument(
        "--max-reports",
        type=whole(0, 10**9),
        default=0,
        metavar="N",
        help="end with status 0 where nothing but report lines was found, and no more than N",
    )
    add_output(parser)
    parser.add_argument("--cache", action="store_true", help="keep results, and take those of files that are the same")
    parser.add_argument(
        "--cache-location", default=".jl-cache", type=path, metavar="FOLDER", help="where (.jl-cache)"
    )
    colour = parser.add_mutually_exclusive_group()
    colour.add_argument("--color", dest="colour", action="store_true", default=None, help="colour, also to a file")
    colour.add_argument("--no-color", dest="colour", action="store_false", help="no colour")
    parser.add_argument("--no-progress", action="store_true", help="say nothing of how far it is")
    parser.add_argument("--version", action="version", version=f"jl {VERSION}")
    return parser


def offs_parser() -> Parser:
    """The words of `jl offs`."""
    parser = Parser(
        "jl offs",
        description="Lists comments that look like `jlint-off` and switch nothing off: ill-formed ones, names that no "
        "rule has, and those on whose line the rule does not hit. Status 1 where there is one.",
        allow_abbrev=False,
    )
    add_files(parser)
    add_run(parser)
    parser.add_argument("--forms", action="store_true", help="look at the comments alone, and run nothing")
    return parser


def cover_parser(format_names: Sequence[str]) -> Parser:
    """The words of `jl cover`, which has these formats."""
    parser = Parser(
        "jl cover",
        description="Runs scripts and writes what ran, from the operations that `jlint record` lists. Status 1 where "
        "less ran than --min-functions or --min-branches ask.",
        allow_abbrev=False,
    )
    add_files(parser)
    parser.add_argument(
        "--format",
        "-f",
        choices=format_names,
        default="lcov",
        metavar="NAME",
        help=f"{', '.join(format_names)}; lcov where none is named",
    )
    add_run(parser)
    parser.add_argument(
        "--record", type=path, metavar="FILE", help="take this record of the one script that is named, and run nothing"
    )
    parser.add_argument("--min-functions", type=percent, metavar="PERCENT", help="functions that were entered")
    parser.add_argument("--min-branches", type=percent, metavar="PERCENT", help="branches that were taken")
    add_output(parser)
    return parser
