"""Labels for new blank nodes. The program takes no label that the data text does not have, and forgets none
that it has had: so spare ones are stated in that text once, and removed before all edits."""

import os
from collections.abc import Sequence

from .documents import Source, Text

_STATES = "<urn:shacl-keep:spare>"


class Stock:
    """So many spare labels, which are none of the data's."""

    def __init__(self, data: Sequence[Source], spare: int) -> None:
        word = "spare"
        while spare and len(data) == 1 and word in _text_of(data[0]):
            word += "x"
        labels = [f"{word}{number}" for number in range(spare + spare % 2)]
        self._pairs = list(zip(labels[::2], labels[1::2]))
        self.names = [f"d-{label}" for label in reversed(labels)]  # as the program calls them

    @property
    def stated(self) -> list[str]:
        """The lines of the text that state them."""
        return [f"_:{one} {_STATES} _:{other} ." for one, other in self._pairs]

    @property
    def removed(self) -> list[str]:
        """The lines of a script that remove what these state."""
        return [f"remove _:d-{one} {_STATES} _:d-{other} ." for one, other in self._pairs]


def _text_of(source: Source) -> str:
    """A text whose labels the spare ones must not be. A graph has labels of its own kind."""
    if isinstance(source, Text):
        return source.text
    if isinstance(source, (str, os.PathLike)):
        with open(source, encoding="utf-8", errors="replace") as file:
            return file.read()
    return ""
