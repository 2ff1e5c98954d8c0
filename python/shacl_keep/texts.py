"""The files of a run, and places in them by file, line and column. Lines and columns count from 1, columns
count characters, and a byte order mark is none."""

import bisect
import functools
import os
import stat
from collections.abc import Iterator
from typing import NamedTuple

from .plain import plain, width
from .triples import NotRead, Reader, Scope, Triple

SHOWN = 96  # characters of a line that are shown round a place


class Place(NamedTuple):
    """A place in a file, with the line as it stands there."""

    name: str
    line: int
    column: int
    source: str

    def __str__(self) -> str:
        return f"{plain(self.name)}:{self.line}:{self.column}"


def excerpt(place: Place) -> list[str]:
    """The part of its line round a place, and a line whose mark stands below it."""
    source, at = place.source, place.column - 1
    start = max(0, min(at - SHOWN // 2, len(source) - SHOWN))
    front = ("…" if start else "") + plain(source[start:at].replace("\t", " "))
    end = plain(source[at : start + SHOWN].replace("\t", " ")) + ("…" if start + SHOWN < len(source) else "")
    return [front + end, " " * width(front) + "^"]


class Text:
    """A file of the run. What is no file, as a pipe, is not read, since the program reads it."""

    def __init__(self, name: str) -> None:
        self.name = name

    @functools.cached_property
    def written(self) -> bytes | None:
        """The bytes of the file, or None where it is none, or cannot be read."""
        try:
            if stat.S_ISREG(os.stat(self.name).st_mode):
                with open(self.name, "rb") as file:
                    return file.read()
        except OSError:
            pass
        return None

    @functools.cached_property
    def said(self) -> str:
        """Its characters."""
        return (self.written or b"").decode("utf-8", "replace")

    @functools.cached_property
    def _starts(self) -> list[int]:
        """Where its lines begin."""
        starts, at = [1 if self.said.startswith("\ufeff") else 0], self.said.find("\n")
        while at >= 0:
            starts.append(at + 1)
            at = self.said.find("\n", at + 1)
        return starts

    def place_at(self, at: int) -> Place:
        """The place of a character."""
        line = max(bisect.bisect_right(self._starts, at), 1)
        start = self._starts[line - 1]
        end = self.said.find("\n", start)
        source = self.said[start : len(self.said) if end < 0 else end].removesuffix("\r")
        return Place(self.name, line, max(at - start, 0) + 1, source)

    def place_of_byte(self, byte: int) -> Place | None:
        """The place of a byte, or None where the text is not at hand."""
        if self.written is None or byte > len(self.written):
            return None
        return self.place_at(len(self.written[:byte].decode("utf-8", "replace")))

    def place_in_line(self, number: int, byte: int) -> Place | None:
        """The place of a byte of a line."""
        source = self.line(number)
        if source is None or byte > len(source):
            return None
        column = len(source[:byte].decode("utf-8", "replace")) + 1
        return Place(self.name, number, column, source.decode("utf-8", "replace").removesuffix("\r"))

    @functools.cached_property
    def _lines(self) -> list[bytes]:
        return (self.written or b"").split(b"\n")

    def line(self, number: int) -> bytes | None:
        """The bytes of a line, counted from 1, or None where the text has none."""
        if self.written is None or not 1 <= number <= len(self._lines):
            return None
        return self._lines[number - 1]


class TurtleText(Text):
    """A file of Turtle, with places of what it states."""

    def __init__(self, name: str, scope: Scope, base: str) -> None:
        super().__init__(name)
        self.scope, self.base = scope, base

    def reader(self) -> Reader:
        """What reads it from its start."""
        return Reader(self.said, self.base, self.scope)

    def triples(self) -> Iterator[Triple]:
        """Its triples, as far as it can be read."""
        try:
            yield from self.reader()
        except NotRead:
            return

    @functools.cached_property
    def prefixes(self) -> dict[str, str]:
        """The namespaces of its prefixes, each with its colon, in order. One that is set again is there as it
        was set first."""
        return self.reader().directives()

    @functools.cached_property
    def _nodes(self) -> tuple[Reader, Iterator[Triple]]:
        reader = self.reader()
        return reader, iter(reader)

    def place_of_number(self, number: int) -> Place | None:
        """The place of a blank node without a label, by its number, or None where the text has none. The text
        is read no further than to what was asked for."""
        reader, triples = self._nodes
        try:
            while len(reader.nodes) < number and next(triples, None) is not None:
                pass
        except NotRead:
            pass
        return self.place_at(reader.nodes[number - 1]) if len(reader.nodes) >= number else None

    def place_of_node(self, node: str) -> Place | None:
        """The place of a blank node without a label, or of the first statement about another node."""
        if node.startswith(self.scope.number):
            return self.place_of_number(int(node.removeprefix(self.scope.number)))
        at = next((triple.start for triple in self.triples() if triple.subject == node), None)
        return None if at is None else self.place_at(at)
