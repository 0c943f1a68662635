"""Says in a sentence why a script is refused, and what to do about it.

The program answers with a word and a place. The text at that place is looked at here, by a scanner of this front end."""

from __future__ import annotations

from dataclasses import dataclass
from typing import Callable

from .answers import Refusal
from .source import Place, SourceText
from .tokens import COMMENTS, Token, TokenKind, tokens

TRANSPILE = (
    "transpile it to ES5 first, for instance by `tsc --target ES5 --allowJs` or Babel's preset-env, "
    "with an inline source map so that places stay those of this file"
)
SCRIPTS_PAGE = "docs/scripts.md"
ES2015_WORDS = {
    "let": "`let` is of ES2015",
    "const": "`const` is of ES2015",
    "class": "`class` is of ES2015",
    "extends": "`class` is of ES2015",
    "super": "`super` is of ES2015",
    "import": "`import` is of ES2015",
    "export": "`export` is of ES2015",
    "async": "`async` is of ES2017",
    "await": "`await` is of ES2017",
    "yield": "generators are of ES2015",
    "of": "`for .. of` is of ES2015",
    "=>": "arrow functions are of ES2015",
    "...": "`...` is of ES2015",
    "?.": "`?.` is of ES2020",
    "??": "`??` is of ES2020",
    "#": "private names are of ES2022",
}
BAD_INPUT = {
    "UnclosedText": "a string begins here and does not end on this line",
    "UnclosedComment": "a comment begins here and does not end",
    "BadEscape": "there is an escape here that edition 5.1 does not have",
    "BadNumber": "this number can't be read",
    "BadCharacter": "no token begins with this character",
    "LongText": "a name or string of more than 1,048,576 UTF-16 units begins here",
}
EARLY = {
    "return-outside": "`return` is outside a function; a module of node's can be linted with --commonjs",
    "break-outside": "`break` is outside a loop and `switch`, or its label encloses nothing here",
    "continue-outside": "`continue` is outside a loop, or its label is not that of a loop round it",
    "label-twice": "a label is inside a statement with the same label",
    "key-clash": "a key of an object literal is both a value and an accessor, or has two getters or setters",
    "strict-name": "strict code binds or assigns `eval` or `arguments`",
    "strict-word": "a reserved word of strict code is used as an identifier",
    "strict-param": "a strict function has two parameters of one name",
    "strict-key": "an object literal in strict code has a key twice",
    "strict-delete": "strict code deletes a name",
}
LEFT_OUT = {
    "JSON": "`--prelude es5` declares it",
    "parseFloat": "`--prelude es5` declares it for whole numbers",
    "eval": "code from strings can't be linted",
    "RegExp": "write `indexOf`, `slice` or `split` with a string",
    "Infinity": "numbers are whole; write a largest number of your own",
}
OTHERWISE = {
    "TooLong": "the script has more than 1,048,576 bytes, with what is put round it: lint its parts",
    "ReservedName": "`J$` is the name of the hooks and can't be one of the script's: rename it",
    "ReadBack": "the rewritten script was not read back",
}


@dataclass(frozen=True)
class Reason:
    """A sentence, and the place that it is about."""

    sentence: str
    place: Place


class Surroundings:
    """The tokens of a script round a refused place."""

    def __init__(self, source: SourceText, place: Place) -> None:
        self.source, self.offset = source, source.offset_of(place)
        self.here: Token | None = None
        self.before: Token | None = None
        self.first_regex: Token | None = None
        for token in tokens(source.text):
            if token.start > self.offset:
                break
            if token.kind in COMMENTS:
                continue
            if token.kind is TokenKind.REGEX and self.first_regex is None:
                self.first_regex = token
            if token.end > self.offset:
                self.here = token
                break
            self.before = token

    def word(self) -> str:
        return self.here.text if self.here else ""

    def word_before(self) -> str:
        return self.before.text if self.before else ""


def explain(refusal: Refusal, source: SourceText) -> Reason:
    """The reason of a refusal of a script; a place without line is the script's first."""
    place = refusal.place or Place(1, 1)
    by_kind: dict[str, Callable[[Refusal, SourceText, Place], Reason]] = {
        "BadInput": explain_syntax,
        "Unreadable": explain_syntax,
        "Early": lambda it, _text, at: Reason(EARLY.get(it.detail or "", f"an early error: {it.detail}"), at),
        "LeftOut": explain_left_out,
    }
    if refusal.kind in by_kind:
        return by_kind[refusal.kind](refusal, source, place)
    return Reason(OTHERWISE.get(refusal.kind, refusal.words), place)


def explain_left_out(refusal: Refusal, _source: SourceText, place: Place) -> Reason:
    """A global name of the standard that scripts do not have."""
    name = refusal.detail or ""
    remedy = LEFT_OUT.get(name, "declare it in the script or in a prelude of your own (--prelude FILE)")
    return Reason(f"`{name}` is left out of what jlint can run: {remedy}", place)


def explain_syntax(refusal: Refusal, source: SourceText, place: Place) -> Reason:
    """A token that can't be formed, or that no program continues with."""
    around = Surroundings(source, place)
    regex = around.first_regex
    if regex is not None:
        # A regular expression is always refused, and its parts are read as other tokens, so it is the cause.
        return Reason(
            "a regular expression begins here, which jlint can't run: write `indexOf`, `slice` or `split` with a "
            f"string, or see {SCRIPTS_PAGE}",
            source.place_of(regex.start),
        )
    newer = newer_syntax(around)
    if newer is not None:
        return Reason(newer.sentence, source.place_of(newer.token.start) if newer.token else place)
    return Reason(bad_input(refusal, around) or unreadable(around), place)


@dataclass(frozen=True)
class Newer:
    """A sentence on syntax of a later edition, and the token that shows it where that is at the place."""

    sentence: str
    token: Token | None


def newer_syntax(around: Surroundings) -> Newer | None:
    """Which later edition the syntax at a place is of."""
    word, before = around.word(), around.word_before()
    if around.here is not None and around.here.kind is TokenKind.TEMPLATE:
        return Newer(f"template literals are of ES2015: {TRANSPILE}", around.here)
    for candidate, token in ((word, around.here), (before, None)):
        if candidate in ES2015_WORDS:
            return Newer(f"{ES2015_WORDS[candidate]}: {TRANSPILE}", token)
    return None


def bad_input(refusal: Refusal, around: Surroundings) -> str | None:
    """Why no token can be formed at a place."""
    if refusal.kind != "BadInput":
        return None
    word = around.word()
    if refusal.detail == "BadNumber":
        if "." in word or "e" in word.lower().replace("0x", ""):
            return "this number is no whole number, or is too large: count in the smallest unit"
        if word[:1] == "0" and word[1:2].isdigit():
            return "octal numbers are not of edition 5.1: write them as decimal or hexadecimal ones"
        if word[:2].lower() in ("0b", "0o"):
            return f"binary and octal literals are of ES2015: {TRANSPILE}"
        if word.endswith("n"):
            return "BigInts are of ES2020, and numbers here are whole ones up to 9007199254740991"
        return "this number can't be read, or is past 9007199254740991"
    return BAD_INPUT.get(refusal.detail or "", refusal.words)


def unreadable(around: Surroundings) -> str:
    """Why no program is read at a token."""
    word, before = around.word(), around.word_before()
    if not word:
        return "the script ends too early: is a bracket open? (or it is nested more than 200 levels deep)"
    if word == "with":
        return "`with` is left out of what jlint can run: name the object before each of its members"
    if word in (")", "]", "}") and before == ",":
        return f"edition 5.1 has no trailing comma here: take it away, or {TRANSPILE}"
    if word in ("(", "{") and before in ("get", "set", "static"):
        return f"this form of a method is of ES2015: {TRANSPILE}"
    if word in (",", "}") and around.before is not None and around.before.kind is TokenKind.NAME:
        return f"`{word}` is not allowed here; shorthand properties and destructuring are of ES2015: {TRANSPILE}"
    if word == "function":
        return "a function can't be declared inside a block: move it out, or write `var f = function ..`"
    shown = word if len(word) <= 30 else word[:30] + "…"
    return f"`{shown}` is not allowed here, or the script is nested more than 200 levels deep"
