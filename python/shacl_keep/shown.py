"""A run as it is shown: what it wrote, its texts, and what is to be known beside it."""

import functools
from collections.abc import Iterator
from dataclasses import dataclass, field
from typing import NamedTuple

from .causes import cause, demand
from .gathering import Part
from .names import Names, message
from .places import ResultPlaces
from .plain import plain
from .refused_texts import advice, doubles
from .report import Event, Fault, Refused, Result, stream
from .running import Written
from .sayings import Texts
from .texts import Place


class Problem(NamedTuple):
    """A fault, a refused line, or a run that failed: its name, in a sentence, and where it is as far as that
    is known: a place, or else a file."""

    name: str
    said: str
    place: Place | None = None
    file: str | None = None


@dataclass(frozen=True)
class Shown:
    """What is shown. `parts` has no more results of a report than a terminal shows, and the counts of all.
    `failure` says why a run failed that could not say so itself."""

    written: Written
    parts: list[Part]
    texts: Texts
    names: Names
    status: int
    warnings: list[str] = field(default_factory=list)
    failure: str | None = None

    def events(self) -> Iterator[Event]:
        """What was written, from the first line on."""
        return stream(self.written.lines())

    def results(self) -> Iterator[Result]:
        """The results of all reports."""
        return (event for event in self.events() if isinstance(event, Result))

    @functools.cached_property
    def places(self) -> ResultPlaces:
        """Where the results stand. The output and the texts are read for it, once each."""
        shapes = (self.texts.shapes,) if self.texts.shapes else ()
        return ResultPlaces(self.results(), self.texts.data, shapes)

    @property
    def file(self) -> str | None:
        """The name of the first data file, for what has no place."""
        return self.texts.data[0].name if self.texts.data else None

    def message(self, result: Result) -> str:
        """What a result says in one line: its messages, or what its constraint asks for."""
        said = [" ".join(message(it)[0]) for it in result.spelled_messages]
        return " / ".join(said) or demand(result.component)

    def sentence(self, result: Result) -> str:
        """The node, the path and the value of a result, and what it says of them."""
        words = result.words
        terms = [self.names.term(it) for it in (words.focus, words.path, words.value) if it != "-"]
        return f"{' '.join(terms)}: {self.message(result)}"

    def problems(self, part: Event) -> Iterator[Problem]:
        """What a fault, or a refused line, is about."""
        if isinstance(part, Refused):
            script = self.texts.script
            place = script.place_in_line(part.line, part.at or 0) if script else None
            said = cause(part.name) if place else f"line {part.line}: {cause(part.name)}"
            yield Problem(part.name, said, place, script.name if script else None)
        elif isinstance(part, Fault):
            yield from self._faults(part)

    def _faults(self, fault: Fault) -> Iterator[Problem]:
        """A fault; of a refused literal all of its kind."""
        if fault.name == "FloatLiteral":
            found = [it.place for text in self.texts.turtle(fault.role) for it in doubles(text)]
            if found:
                yield from (Problem(fault.name, cause(fault.name), place, place.name) for place in found)
                return
        said = [cause(fault.name)]
        for word, term in (("shape", fault.shape), ("predicate", fault.predicate), ("term", fault.term)):
            if term:
                said.append(f"{word} {self.names.term(str(term))}")
        place, file = self.texts.place_of_fault(fault), None
        for text in self.texts.role(fault.role):
            file = file or text.name
            said += [" ".join(line.split()) for line in advice(fault, text)]
        if fault.at is not None and not place:
            said.append(f"byte {fault.at}")
        yield Problem(fault.name, "; ".join(said), place, plain(file) if file else None)

    def failures(self) -> Iterator[Problem]:
        """Why the run failed, where it could not say so itself."""
        if self.failure:
            yield Problem("Failure", self.failure, None, self.file)
