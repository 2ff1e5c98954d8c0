"""Texts that strangers wrote, as they may stand on a terminal, on a page and in a file."""

import unicodedata


def plain(text: str, kept: str = "\u200c\u200d") -> str:
    """A text without characters that do something to a terminal, or to the order in which it is read: these
    are shown as escapes."""
    if text.isprintable():
        return text
    return "".join(it if it in kept or _is_shown(it) else _escaped(it) for it in text)


def _is_shown(character: str) -> bool:
    return character.isprintable() or unicodedata.category(character) in ("Zs", "Co", "Cn")


def _escaped(character: str) -> str:
    number = ord(character)
    return f"\\u{number:04X}" if number < 0x10000 else f"\\U{number:08X}"


def width(text: str) -> int:
    """How many columns of a terminal a text takes."""
    return sum(
        0 if unicodedata.combining(it) else 2 if unicodedata.east_asian_width(it) in "WF" else 1
        for it in text
    )
