"""How terms are spelled for people: IRIs by the prefixes of the texts, blank nodes without labels with their
places, and nothing that a terminal would take for a command."""

import functools
import re

from .plain import plain
from .spelled import XSD, read_literal
from .texts import Place, TurtleText
from .triples import TYPE
from .turtle import LOCAL

_PIECE = re.compile(r'"[^"\\]*(?:\\.[^"\\]*)*"|<([^>]*)>|_:(?:[at]|d-\d+-a)-\d+')
# Literals that Turtle writes without quotes.
_BARE = re.compile(
    rf'"(?:([+-]?[0-9]+)"\^\^<{XSD}integer>|([+-]?[0-9]*\.[0-9]+)"\^\^<{XSD}decimal>'
    rf'|(true|false)"\^\^<{XSD}boolean>)'
)


class Names:
    """The names that the shapes text and the data texts give; there may be none."""

    def __init__(self, shapes: TurtleText | None = None, data: tuple[TurtleText, ...] = ()) -> None:
        self.shapes, self.data = shapes, data
        self.term = functools.lru_cache(100_000)(self._term)

    @functools.cached_property
    def prefixes(self) -> dict[str, str]:
        """The namespaces by their prefixes. Where both texts have a prefix, it is that of the shapes."""
        found: dict[str, str] = {}
        for text in (self.shapes, *self.data):
            for name, iri in (text.prefixes if text else {}).items():
                if iri:
                    found.setdefault(name, iri)
        return found

    @functools.cached_property
    def _spaces(self) -> list[tuple[str, str]]:
        """Pairs of a namespace and its prefix, the longest namespaces first."""
        spaces: dict[str, str] = {}
        for name, iri in self.prefixes.items():
            spaces.setdefault(iri, name)
        return sorted(spaces.items(), key=lambda it: -len(it[0]))

    def iri(self, iri: str) -> str:
        """An IRI by a prefix, or in full."""
        for space, name in self._spaces:
            if iri.startswith(space) and LOCAL.fullmatch(iri, len(space)):
                return name + iri[len(space) :]
        return f"<{iri}>"

    def place(self, node: str) -> Place | None:
        """Where a blank node without a label stands, if that is known."""
        for text in (self.shapes, *self.data):
            if text and node.startswith(text.scope.number):
                return text.place_of_node(node)
        return None

    def _piece(self, found: re.Match[str]) -> str:
        if found[1] is not None:
            return self.iri(found[1])
        place = self.place(found[0]) if found[0].startswith("_:") else None
        return f"{found[0]} ({place})" if place else found[0]

    def _term(self, spelled: str) -> str:
        """A term or a path, for people. What stands in quotes stays as it is."""
        bare = _BARE.fullmatch(spelled)
        return plain(next(filter(None, bare.groups())) if bare else _PIECE.sub(self._piece, spelled))

    def triple(self, spelled: tuple[str, str, str]) -> str:
        """A triple as in Turtle."""
        subject, verb, term = spelled
        return f"{self.term(subject)} {'a' if verb == TYPE else self.term(verb)} {self.term(term)} ."


def message(spelled: str) -> tuple[list[str], str | None]:
    """The lines of a message, and its language, or None."""
    literal = read_literal(spelled)
    lines = re.split(r"\r\n|\r|\n", literal.text)
    return [plain(line, kept="\t\u200c\u200d") for line in lines], literal.language
