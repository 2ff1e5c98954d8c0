"""Tokens of Turtle 1.1 with their places. Where a text goes on otherwise, its tokens end."""

import re
from collections.abc import Iterator
from typing import NamedTuple

_BASE = (
    "A-Za-z\u00c0-\u00d6\u00d8-\u00f6\u00f8-\u02ff\u0370-\u037d\u037f-\u1fff\u200c-\u200d\u2070-\u218f"
    "\u2c00-\u2fef\u3001-\ud7ff\uf900-\ufdcf\ufdf0-\ufffd\U00010000-\U000effff"
)
_FIRST = _BASE + "_"
_CHARS = _FIRST + "0-9\u00b7\u0300-\u036f\u203f-\u2040-"
_ESCAPED = r"%[0-9A-Fa-f]{2}|\\[_~.\-!$&'()*+,;=/?#@%]"
_PREFIX = rf"[{_BASE}](?:[{_CHARS}.]*[{_CHARS}])?"
_LOCAL = rf"(?:[{_FIRST}:0-9]|{_ESCAPED})(?:(?:[{_CHARS}.:]|{_ESCAPED})*(?:[{_CHARS}:]|{_ESCAPED}))?"
_NAME = rf"(?:{_PREFIX})?:(?:{_LOCAL})?"
_SKIP = r"(?:[ \t\r\n]+|\#[^\r\n]*+)*+"


def _long(quote: str) -> str:
    """A string between three of these quotes: of itself it has at most two in a row, and none at its end."""
    return rf"{quote * 3}[^{quote}\\]*(?:(?:\\.|{quote}{{1,2}}(?!{quote}))[^{quote}\\]*)*{quote * 3}"


def _short(quote: str) -> str:
    return rf"{quote}(?!{quote}{quote})[^{quote}\\]*(?:\\.[^{quote}\\]*)*{quote}"


_STRING = "|".join((_long('"'), _long("'"), _short('"'), _short("'")))
_TAG = r"@[A-Za-z]+(?:-[A-Za-z0-9]+)*"
_DIGITS = r"[0-9]+"
# Each kind is tried before those that begin alike and are shorter. A string has its tag or datatype behind
# it.
_KINDS = {
    "iri": r"<[^>]*>",
    "string": rf"(?:{_STRING})(?:{_SKIP}(?:{_TAG}|\^\^{_SKIP}(?:<[^>]*>|{_NAME})))?",
    "label": rf"_:[{_FIRST}0-9](?:[{_CHARS}.]*[{_CHARS}])?",
    "name": _NAME,
    "double": rf"[+-]?(?:{_DIGITS}\.[0-9]*|\.?{_DIGITS})[eE][+-]?{_DIGITS}",
    "decimal": rf"[+-]?[0-9]*\.{_DIGITS}",
    "integer": rf"[+-]?{_DIGITS}",
    "directive": r"@(?:prefix|base)\b|(?i:prefix|base)\b",
    "word": r"true|false|a",
    "sign": r"[.;,\[\]()]",
}
_TOKEN = re.compile(
    _SKIP + "(?:" + "|".join(f"(?P<{kind}>{form})" for kind, form in _KINDS.items()) + ")", re.DOTALL
)
_PARTS = re.compile(
    rf"(?P<string>{_STRING})(?:{_SKIP}(?:@(?P<tag>[A-Za-z0-9-]+)|\^\^{_SKIP}(?P<type>.+)))?", re.DOTALL
)
SKIPPED = re.compile(_SKIP)
LOCAL = re.compile(rf"(?:{_LOCAL})?")

_SIGNS = {"t": "\t", "b": "\b", "n": "\n", "r": "\r", "f": "\f"}
_ESCAPE = re.compile(r"\\(?:u([0-9A-Fa-f]{4})|U([0-9A-Fa-f]{8})|(.))", re.DOTALL)


class Token(NamedTuple):
    """A token: its kind, where it begins and ends, and what stands there."""

    kind: str
    start: int
    end: int
    text: str


def tokens(text: str) -> Iterator[Token]:
    """The tokens of a text, as far as tokens stand there."""
    end = int(text.startswith("\ufeff"))
    for found in _TOKEN.finditer(text, end):
        if found.start() != end or found.lastgroup is None:
            return
        end = found.end()
        kind = found.lastgroup
        yield Token(kind, found.start(kind), end, found[kind])


def _meant(escape: re.Match[str]) -> str:
    if escape[3]:
        return _SIGNS.get(escape[3], escape[3])
    number = int(escape[1] or escape[2], 16)
    return chr(number) if number < 0x110000 else "\ufffd"


def string_parts(token: str) -> tuple[str, str | None, str | None]:
    """What a string says, its language tag, and its datatype as that is written."""
    found = _PARTS.fullmatch(token)
    assert found, "it is a token of the kind string"
    said = found["string"]
    width = 3 if said[:3] in ('"""', "'''") else 1
    said = said[width:-width]
    return _ESCAPE.sub(_meant, said) if "\\" in said else said, found["tag"], found["type"]
