"""A graph of rdflib whose report is always current."""

import os
from collections import Counter
from collections.abc import Callable, Iterable, Iterator, Sequence
from contextlib import contextmanager
from types import TracebackType
from typing import Any, NamedTuple, Self

from rdflib import XSD, Graph
from rdflib import Literal as GraphLiteral
from rdflib.plugins.stores.memory import Memory
from rdflib.term import Node as GraphNode

from ..documents import Text
from ..errors import LineRefused, NoSpare
from ..report import Change, Count, Loaded, Report
from ..session import EDITS, AnySource, Session, Sources, listed
from .reports import GraphResult, graph_results, results_graph
from .terms import GraphTerms, GraphTriple, check_triple


class Edit(NamedTuple):
    """An edit that was made to the store. The program is not told of one that `is_hidden`: the same triple is
    there in the other of the two forms that rdflib has of a literal of xsd:string."""

    word: str
    triple: GraphTriple
    is_hidden: bool


def _twin(triple: GraphTriple) -> GraphTriple | None:
    """The triple that is the same for all but rdflib, if there is one."""
    subject, predicate, value = triple
    if not isinstance(value, GraphLiteral) or value.language is not None:
        return None
    if value.datatype not in (None, XSD.string):
        return None
    datatype = XSD.string if value.datatype is None else None
    return subject, predicate, GraphLiteral(str(value), datatype=datatype)


class RecordingStore(Memory):
    """rdflib's own store, which tells each edit that changed something."""

    def __init__(self, told: Callable[[list[Edit]], None]) -> None:
        super().__init__()
        self._told = told

    def has(self, triple: GraphTriple) -> bool:
        return next(self.triples(triple), None) is not None

    def add(self, triple: GraphTriple, context: Any, quoted: bool = False) -> None:
        if not self.has(triple):
            super().add(triple, context, quoted)
            self._told([Edit("insert", triple, False)])

    def remove(self, triple: Any, context: Any = None) -> None:
        gone = [found for found, _ in self.triples(triple)]
        super().remove(triple, context)
        if gone:
            self._told([Edit("remove", one, self._has_twin(one)) for one in gone])

    def _has_twin(self, triple: GraphTriple) -> bool:
        twin = _twin(triple)
        return twin is not None and self.has(twin)

    def take_back(self, edits: Sequence[Edit], context: Graph) -> None:
        """Makes edits undone, without telling of it."""
        for word, triple, _ in reversed(edits):
            if word == "insert":
                super().remove(triple, context)
            else:
                super().add(triple, context)


def snapshot(sources: Sources) -> list[AnySource]:
    """Sources as they are now, whatever becomes of the files and graphs."""
    return [_copy(source) for source in listed(sources)]


def _copy(source: AnySource) -> AnySource:
    if isinstance(source, Graph):
        copy = Graph()
        copy += source
        return copy
    if isinstance(source, (str, os.PathLike)):
        with open(source, "rb") as file:
            return Text(file.read().decode())
    return source


class Seen(NamedTuple):
    """The results that came and went while a `with` statement ran; filled when it ends."""

    came: list[GraphResult]
    went: list[GraphResult]


class KeptGraph(Graph):
    """An rdflib graph that is validated by shapes, with a report that is current after each change: an
    `add`, a `remove`, an `update` by SPARQL, a `parse`, or all that a `with graph.group():` holds. Each of
    these is one change, of all or of nothing: what the program refuses, as a literal of xsd:double, raises
    LineRefused or TextRefused, and what rdflib fails at raises its own error, and the graph is then as it
    was before.

    A change costs what rdflib takes for it, some 0.2 ms, and what the pairs of a shape and a focus node cost
    that it touches. One that is large beside the graph loads the whole graph anew, and so does a new blank
    node when the spare names are used up; then there are twice as many."""

    def __init__(
        self,
        shapes: Sources,
        triples: Iterable[GraphTriple] = (),
        *,
        base: str = "file:///",
        spare: int = 1000,
        timeout: float | None = None,
        **others: Any,
    ) -> None:
        """A graph with these triples, as those of another graph. `shapes` are what a Session takes; `others`
        are arguments of rdflib's Graph. Raises what a Session raises."""
        self._edits: list[Edit] | None = None  # those of the change that is open
        self._recording = RecordingStore(self._recorded)
        super().__init__(store=self._recording, **others)
        if isinstance(triples, Graph):
            for prefix, namespace in triples.namespaces():
                self.bind(prefix, namespace)
        for triple in triples:
            check_triple(triple)
            Memory.add(self._recording, triple, self)
        self._spare, self._base, self._timeout = spare, base, timeout
        self._session = self._opened(shapes)
        self._shapes = snapshot(shapes)
        self.change: Change | None = None  # the last one

    # ---- the session

    def _opened(self, shapes: Sources) -> Session:
        """A session over the graph as it is now."""
        return Session(shapes, self, spare=self._spare, base=self._base, timeout=self._timeout)

    def _open_anew(self) -> Change:
        """Loads the graph as it is now, in the place of the session of before, which stays where that
        fails."""
        session = self._opened(self._shapes)
        self._session.close()
        self._session = session
        return Change(True, session.count.pairs)

    @property
    def _terms(self) -> GraphTerms:
        terms = self._session.terms
        assert isinstance(terms, GraphTerms)
        return terms

    # ---- changes

    def _recorded(self, edits: list[Edit]) -> None:
        """Is told of edits to the store. Outside of a change they are one by themselves."""
        if self._edits is not None:
            self._edits.extend(edits)
            return
        with self.group():
            assert self._edits is not None
            self._edits.extend(edits)

    @contextmanager
    def group(self) -> Iterator[Self]:
        """Makes all changes of the `with` statement one change."""
        if self._edits is not None:
            yield self  # it is part of a larger one
            return
        self._edits = []
        try:
            yield self
            self._change(self._edits)
        except BaseException:
            self._recording.take_back(self._edits, self)
            raise
        finally:
            self._edits = None

    def _change(self, edits: Sequence[Edit]) -> None:
        if not edits:
            return
        for edit in edits:
            check_triple(edit.triple)
        if len(edits) > EDITS and 2 * len(edits) > len(self):
            self.change = self._open_anew()
            return
        shown = [edit for edit in edits if not edit.is_hidden]
        try:
            lines = [self._session.line(edit.word, *edit.triple) for edit in shown]
        except NoSpare:
            self._spare *= 2
            self.change = self._open_anew()
            return
        try:
            self.change = self._session.make(lines)
        except LineRefused as refused:
            # What is too long for a line is none for a text.
            if refused.name != "LineTooLong":
                raise
            self.change = self._open_anew()

    def addN(self, quads: Iterable[Any]) -> Self:
        with self.group():
            super().addN(quads)
        return self

    def set(self, triple: Any) -> Self:
        with self.group():
            super().set(triple)
        return self

    def __isub__(self, other: Any) -> Self:
        with self.group():
            super().__isub__(other)
        return self

    def update(self, *words: Any, **others: Any) -> None:
        """An update by SPARQL, as one change."""
        with self.group():
            super().update(*words, **others)

    def parse(self, *words: Any, **others: Any) -> Graph:
        """Reads into the graph, as one change."""
        with self.group():
            super().parse(*words, **others)
        return self

    def load_shapes(self, shapes: Sources) -> Loaded:
        """Takes other shapes, and evaluates what they ask otherwise."""
        loaded = self._session.load_shapes(shapes)
        self._shapes = snapshot(shapes)
        return loaded

    # ---- what is known

    @property
    def report(self) -> Report:
        """The report of the graph as it is now, in plain data."""
        return self._session.report

    @property
    def results(self) -> tuple[GraphResult, ...]:
        """The results of the graph as it is now. Blank nodes are those of the graph."""
        return graph_results(self.report.results, self._terms)

    @property
    def report_graph(self) -> Graph:
        """The report as a graph, in the terms of SHACL's section 3."""
        return results_graph(self.results, self.conforms)

    @property
    def conforms(self) -> bool:
        """Whether there is no result now, of whatever severity."""
        return self._session.conforms

    @property
    def count(self) -> Count:
        """How many triples, pairs of a shape and a focus node, and results there are now. A literal that
        rdflib has twice, with xsd:string and without a datatype, counts once."""
        return self._session.count

    @property
    def process(self) -> int:
        """The number of the program's process."""
        return self._session.process

    def slice(self, shape: GraphNode, node: GraphNode) -> list[GraphTriple]:
        """The triples on which the results of a shape at a node rest."""
        terms = self._terms
        triples = self._session.slice(shape, node).triples
        return [(terms.node(s), terms.node(p), terms.node(o)) for s, p, o in triples]

    @contextmanager
    def watch(self) -> Iterator[Seen]:
        """Tells which results come and which go while the `with` statement runs: they are in the lists when
        it ends. It costs reading the report twice."""
        seen, before = Seen([], []), self._named()
        try:
            yield seen
        finally:
            after = self._named()
            seen.came.extend((after - before).elements())
            seen.went.extend((before - after).elements())

    def _named(self) -> Counter[GraphResult]:
        return Counter(self.results)

    def close(self, commit_pending_transaction: bool = False) -> None:
        """Ends the program. The graph stays; what would change it raises Closed."""
        self._session.close()

    def __enter__(self) -> Self:
        return self

    def __exit__(
        self, kind: type[BaseException] | None, error: BaseException | None, trace: TracebackType | None
    ) -> None:
        self.close()
