"""Writes texts into XML 1.0, which allows few control characters."""

from __future__ import annotations

import re
from xml.sax.saxutils import escape, quoteattr

NOT_ALLOWED = re.compile("[^\t\n\r\u0020-\ud7ff\ue000-\ufffd\U00010000-\U0010ffff]")


def allowed(text: str) -> str:
    """A text with an escape for each character that XML does not allow."""
    return NOT_ALLOWED.sub(lambda it: f"\\u{ord(it.group()):04x}", text)


def content(text: str) -> str:
    return escape(allowed(text))


def attribute(value: object) -> str:
    """A value with quotes round it. Line ends and tabs are kept by references."""
    return quoteattr(allowed(str(value)), {"\n": "&#10;", "\r": "&#13;", "\t": "&#9;"})
