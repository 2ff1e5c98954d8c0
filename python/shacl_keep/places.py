"""Where results stand: at the triple of their value, else at the first triple of their focus node, else at
their shape.

Places are looked up in a source of triples, each with the places at which its subject and its object are
written. `TurtleText` reads them from the text; what else reads the text may take its place. All results are
told first, and then the text is read once, so that the time is that of the text and the results."""

import re
from collections.abc import Iterable, Iterator, Sequence
from typing import NamedTuple, Protocol

from .report import Detail, Words
from .spelled import IRI
from .texts import Place
from .triples import Triple
from .walks import Walks

_PREDICATE = re.compile(IRI)
_INVERSE = re.compile(rf"\(\^({IRI})\)")


class Source(Protocol):
    """A text whose triples can be gone over, in order, with their places; and what these places are."""

    def triples(self) -> Iterator[Triple]:
        ...

    def place_at(self, at: int) -> Place:
        ...


class Found(NamedTuple):
    """A source, and a place in it."""

    source: Source
    at: int

    def place(self) -> Place:
        return self.source.place_at(self.at)


def _is_walked(words: Words) -> bool:
    """Whether a result has a value that is no object, or subject, of the focus node itself."""
    return words.value != "-" and words.path.startswith("(") and not _INVERSE.fullmatch(words.path)


def _value_key(words: Words) -> int | None:
    """What a result's value is found by: its triple, where the path is a predicate, or one backwards. Keys
    are hashes, since those of a million results take little memory."""
    if words.value == "-":
        return None
    if _PREDICATE.fullmatch(words.path):
        return hash((words.focus, words.path, words.value))
    inverse = _INVERSE.fullmatch(words.path)
    return hash((words.value, inverse[1], words.focus)) if inverse else None


class ResultPlaces:
    """The places of these results in these data texts, and of their shapes in the shapes texts."""

    def __init__(self, results: Iterable[Detail], data: Sequence[Source], shapes: Sequence[Source]) -> None:
        self._values: dict[int, Found | None] = {}
        self._subjects: dict[str, Found | None] = {}
        self._objects: dict[str, Found | None] = {}
        self._shapes: dict[str, Found | None] = {}
        walked: set[str] = set()
        for words in (result.words for result in results) if data or shapes else ():
            self._subjects[words.focus] = self._objects[words.focus] = self._shapes[words.shape] = None
            key = _value_key(words)
            if key is not None:
                self._values[key] = None
            elif _is_walked(words):
                walked.add(words.path)
        self._walks = Walks(walked)
        self._ends: list[Found] = []
        for source in data:
            self._read_data(source)
        for source in shapes:
            self._read_shapes(source)

    def _read_data(self, source: Source) -> None:
        values, subjects, objects = self._values, self._subjects, self._objects
        for triple in source.triples():
            subject, term = triple.subject, triple.object.term
            if subject in subjects and subjects[subject] is None:
                subjects[subject] = Found(source, triple.start)
            if term in objects and objects[term] is None:
                objects[term] = Found(source, triple.object.start)
            if subject in subjects or term in subjects:
                key = hash((subject, triple.verb.term, term))
                if key in values and values[key] is None:
                    values[key] = Found(source, triple.object.start)
            if self._walks.wants(triple.verb.term):
                self._walks.add(subject, triple.verb.term, term, len(self._ends))
                self._ends.append(Found(source, triple.object.start))

    def _read_shapes(self, source: Source) -> None:
        for triple in source.triples():
            if triple.subject in self._shapes and self._shapes[triple.subject] is None:
                self._shapes[triple.subject] = Found(source, triple.start)

    def _value(self, words: Words) -> Found | None:
        """Where the triple of the value stands."""
        key = _value_key(words)
        if key is not None:
            return self._values.get(key)
        at = self._walks.place(words.focus, words.path, words.value) if _is_walked(words) else None
        return None if at is None else self._ends[at]

    def place(self, result: Detail) -> Place | None:
        """Where a result stands, or None where neither its data nor its shape is in a text at hand."""
        words = result.words
        found = (
            self._value(words)
            or self._subjects.get(words.focus)
            or self._objects.get(words.focus)
            or self._shapes.get(words.shape)
        )
        return found.place() if found else None

    def place_of_shape(self, result: Detail) -> Place | None:
        """Where its shape stands."""
        found = self._shapes.get(result.words.shape)
        return found.place() if found else None
