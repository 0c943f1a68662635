"""Comments that look like `jlint-off` and switch nothing off."""

from __future__ import annotations

import re
from dataclasses import dataclass

from .findings import Finding
from .rules import BY_NAME
from .source import Place, SourceText
from .tokens import COMMENTS, Token, TokenKind, tokens

LOOKS_LIKE = re.compile(r"\bjlint[-_ ]?(?:off|disable|ignore)", re.I)
FORM = re.compile(r"// jlint-off(?P<next>-next)? (?P<names>[^ ]+) *")
WORD = "jlint-off"
MASKED = "jlint-0ff"
"""As long as the word, so that places stay, and no comment that switches rules off."""


@dataclass(frozen=True)
class Off:
    """A comment that switches rules off for a line."""

    place: Place
    line: int
    names: tuple[str, ...]


@dataclass(frozen=True)
class Idle:
    """A comment that switches nothing off, and why."""

    place: Place
    why: str


def why_ill_formed(comment: Token) -> str | None:
    """Why a comment switches nothing off, or None where it has the right form and names rules."""
    if comment.kind is TokenKind.BLOCK_COMMENT:
        return "only a // comment switches rules off"
    found = FORM.fullmatch(comment.text)
    if found is None:
        return why_no_form(comment.text)
    unknown = [it for it in found["names"].split(",") if it not in BY_NAME]
    if unknown:
        return f"no rule is called {', '.join(map(repr, unknown))}; `jl rules` lists them"
    return None


def why_no_form(text: str) -> str:
    """What is wrong with a comment that hasn't the form."""
    if not re.match(r"// jlint-off(-next)?(?![\w-])", text):
        return "the form is `// jlint-off NAMES` or `// jlint-off-next NAMES`, with one space after //"
    rest = re.sub(r"^// jlint-off(-next)?", "", text)
    if not rest.strip():
        return "it names no rule"
    if not re.match(r" [^ ]", rest):
        return "there is one space before the names"
    return "only spaces may follow the names, which have commas and no spaces between them"


def look_at(source: SourceText) -> tuple[list[Off], list[Idle]]:
    """The comments of a script that switch rules off, and those that only look like it."""
    offs: list[Off] = []
    idle: list[Idle] = []
    for token in tokens(source.text):
        if token.kind not in COMMENTS or not LOOKS_LIKE.search(token.text):
            continue
        place, why = source.place_of(token.start), why_ill_formed(token)
        found = FORM.fullmatch(token.text)
        if why is not None or found is None:
            idle.append(Idle(place, why or "it has not the form"))
        else:
            line = place.line + (1 if found["next"] else 0)
            offs.append(Off(place, line, tuple(found["names"].split(","))))
    return offs, idle


def masked(text: str) -> str:
    """A script of the same places in which no comment switches rules off."""
    parts, end = [], 0
    for token in tokens(text):
        if token.kind is TokenKind.LINE_COMMENT and WORD in token.text:
            parts += [text[end : token.start], token.text.replace(WORD, MASKED)]
            end = token.end
    return "".join(parts) + text[end:]


def unused(offs: list[Off], findings: list[Finding]) -> list[Idle]:
    """The names in comments whose rule does not hit on the comment's line, where the script is run without them."""
    hits = {(it.place.line, it.rule) for it in findings}
    idle = []
    for off in offs:
        names = [it for it in off.names if (off.line, it) not in hits]
        if names:
            idle.append(Idle(off.place, f"{', '.join(names)} does not hit on line {off.line}"))
    return idle
