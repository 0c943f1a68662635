"""A scanner that finds comments, texts and regular expressions in a script, to explain what the program answered.

It takes any text and never fails. Whether `/` begins a regular expression is decided by the token before it, which is
right but where a `)` or `}` ends a statement's head or a block."""

from __future__ import annotations

import re
from dataclasses import dataclass
from enum import Enum
from typing import Iterator


class TokenKind(Enum):
    LINE_COMMENT = "line comment"
    BLOCK_COMMENT = "block comment"
    STRING = "string"
    TEMPLATE = "template"
    NUMBER = "number"
    NAME = "name"
    REGEX = "regular expression"
    PUNCTUATOR = "punctuator"


@dataclass(frozen=True)
class Token:
    kind: TokenKind
    start: int
    text: str

    @property
    def end(self) -> int:
        return self.start + len(self.text)


PIECES = re.compile(
    r"""(?P<line_comment>//[^\n\r\u2028\u2029]*)
    |(?P<block_comment>/\*.*?(?:\*/|\Z))
    |(?P<string>"(?:\\(?:\r\n|.)|[^"\\\n\r])*(?:"|(?=[\n\r])|\Z)|'(?:\\(?:\r\n|.)|[^'\\\n\r])*(?:'|(?=[\n\r])|\Z))
    |(?P<template>`(?:\\.|[^`\\])*(?:`|\Z))
    |(?P<number>(?:0[xXbBoO][0-9A-Fa-f]+|(?:[0-9]+\.?[0-9]*|\.[0-9]+)(?:[eE][+-]?[0-9]+)?)\w*)
    |(?P<name>(?:[^\W\d]|[$\\])(?:[\w$\\\u200c\u200d])*)
    |(?P<punctuator>=>|\.\.\.|\?\?=?|\?\.(?!\d)|[!=]==?|<=|>=|&&|\|\||\+\+|--|>>>?=?|<<=?|[-+*/%&|^]=|[^\s\ufeff])""",
    re.S | re.X,
)
REGEX = re.compile(r"/(?![*/])(?:\\.|\[(?:\\.|[^\]\\\n\r])*\]|[^/\\\[\n\r])+/\w*")
# After these words an expression begins, so that a slash there begins a regular expression.
BEFORE_EXPRESSION = frozenset("return typeof instanceof in of new delete void throw case do else yield await".split())
COMMENTS = (TokenKind.LINE_COMMENT, TokenKind.BLOCK_COMMENT)


def expects_expression(before: Token | None) -> bool:
    """Whether an expression may begin after a token."""
    if before is None:
        return True
    if before.kind is TokenKind.NAME:
        return before.text in BEFORE_EXPRESSION
    return before.kind is TokenKind.PUNCTUATOR and before.text not in (")", "]", "}", "++", "--")


def tokens(text: str) -> Iterator[Token]:
    """The tokens and comments of a text, in order."""
    offset, before = 0, None
    while True:
        found = PIECES.search(text, offset)
        if found is None:
            return
        kind = TokenKind[(found.lastgroup or "").upper()]
        if kind is TokenKind.PUNCTUATOR and found.group()[0] == "/" and expects_expression(before):
            regex = REGEX.match(text, found.start())
            if regex is not None:
                found, kind = regex, TokenKind.REGEX
        token = Token(kind, found.start(), found.group())
        yield token
        offset = found.end()
        if kind not in COMMENTS:
            before = token


def is_strict(text: str) -> bool:
    """Whether a script's directive prologue (14.1) holds `use strict`."""
    for token in tokens(text):
        if token.kind in COMMENTS or token.text == ";":
            continue
        if token.kind is not TokenKind.STRING:
            return False
        if token.text[1:-1] == "use strict":
            return True
    return False
