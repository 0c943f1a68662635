"""The twenty rules: their numbers, names, and the sentence that a report line is shown with."""

from __future__ import annotations

import os
from dataclasses import dataclass

TOP = os.path.dirname(os.path.dirname(os.path.realpath(__file__)))


@dataclass(frozen=True)
class Rule:
    number: int
    name: str
    sentence: str

    @property
    def page(self) -> str:
        """The path of the rule's page."""
        return os.path.join(TOP, "docs", "rules", f"{self.name}.md")


SENTENCES = (
    ("nan-made", "this makes NaN of operands that are not NaN"),
    ("undefined-joined", "+ joins undefined to a string"),
    ("object-joined", "an operand of + is an object"),
    ("undefined-key", "a property is used under the name undefined"),
    ("put-on-primitive", "a property is put on a value that is no object"),
    ("wrapped-condition", "a Boolean, Number or String object is tested, which is always true"),
    ("loose-equal", "== or != compares values of two types"),
    ("odd-compare", "a relation compares what are neither two numbers nor two strings"),
    ("typeof-text", "typeof is compared with a string that it never gives"),
    ("bits-of-nothing", "an operator on bits has an operand that is undefined or NaN"),
    ("shadow-write", "this put hides a property that the object inherits"),
    ("mixed-new", "this function is called both with new and without it"),
    ("object-prototype-write", "a property is put on Object.prototype"),
    ("odd-prototype", "the prototype of a function is set to a value that is no object"),
    ("late-prototype", "the prototype of a function is set after it made an object"),
    ("for-in-array", "for-in visits the keys of an array"),
    ("extra-arguments", "the function has fewer parameters than this call has arguments"),
    ("wrapper-made", "new makes a String, Number or Boolean object"),
    ("no-radix", "parseInt is called without a radix"),
    ("global-this", "inside a function a property is put on the global object"),
)
RULES = tuple(Rule(number, name, sentence) for number, (name, sentence) in enumerate(SENTENCES, 1))
BY_NAME = {rule.name: rule for rule in RULES}
