"""Terms of rdflib, as the program spells them, and the way back: a blank node of a report is the very one of
the graph that was given."""

import re
from collections.abc import Callable, Iterable, Iterator, Sequence
from contextlib import contextmanager
from typing import cast

import rdflib
from rdflib import BNode, Graph, URIRef
from rdflib import Literal as GraphLiteral
from rdflib.term import Node as GraphNode

from ..documents import Source
from ..spelled import XSD_STRING, Blank, Iri, Literal, NotSpelled, Term, spell

# A triple of an rdflib graph.
GraphTriple = tuple[GraphNode, GraphNode, GraphNode]


@contextmanager
def exact_literals() -> Iterator[None]:
    """While it lasts, rdflib keeps the lexical forms of the literals that it makes, as those of a file that
    it reads. That is a switch of rdflib's for the whole process, which is as it was afterwards: no other
    thread should read by rdflib meanwhile."""
    before = rdflib.NORMALIZE_LITERALS
    rdflib.NORMALIZE_LITERALS = False
    try:
        yield
    finally:
        rdflib.NORMALIZE_LITERALS = before


def literal_of(literal: GraphLiteral) -> Literal:
    """A literal of rdflib as plain data, by its lexical form."""
    if literal.language is not None:
        return Literal(str(literal), language=literal.language.lower())
    return Literal(str(literal), str(literal.datatype or XSD_STRING))


class Names:
    """Blank nodes by the names that the program has for them, as `d-b7`. `front` is what stands before the
    labels of the text that is written here."""

    def __init__(self, front: str) -> None:
        self.front = front
        self.names: dict[BNode, str] = {}
        self.nodes: dict[str, BNode] = {}
        self.literals: dict[str, GraphLiteral] = {}

    def bind(self, node: BNode, name: str) -> None:
        self.names[node] = name
        self.nodes[name] = node

    def label(self, node: BNode) -> str:
        """The label of a node in the text, which is a new one if it has none."""
        name = self.names.get(node)
        if name is None:
            name = f"{self.front}b{len(self.names)}"
            self.bind(node, name)
        return name.removeprefix(self.front)

    def node(self, name: str) -> BNode:
        """The node that the program calls so. One of a file is a new one, which is the same ever after."""
        node = self.nodes.get(name)
        if node is None:
            node = BNode()
            self.bind(node, name)
        return node

    def literal(self, literal: GraphLiteral) -> str:
        """A literal as it is spelled. Where rdflib has another one that is spelled alike, this one is
        kept."""
        spelled = spell(literal_of(literal))
        if literal.datatype is not None and str(literal.datatype) == XSD_STRING:
            self.literals[spelled] = literal
        elif literal.language is not None and not literal.language.islower():
            self.literals[spelled] = literal
        return spelled


class GraphText:
    """Graphs of rdflib, written as one text."""

    def __init__(self, graphs: Sequence[Iterable[GraphTriple]], names: Names) -> None:
        self._graphs, self._names = graphs, names

    def _word(self, term: GraphNode) -> str:
        if isinstance(term, BNode):
            return f"_:{self._names.label(term)}"
        return self._names.literal(term) if isinstance(term, GraphLiteral) else spelled_iri(term)

    def lines(self) -> Iterator[str]:
        """A line for each triple. Raises NotSpelled for what is no triple of RDF."""
        word = self._word
        for graph in self._graphs:
            for triple in graph:
                check_triple(triple)
                subject, predicate, value = triple
                yield f"{word(subject)} {word(predicate)} {word(value)} ."


def spelled_iri(term: object) -> str:
    if not isinstance(term, URIRef):
        raise NotSpelled(f"this is no term of RDF: {term!r}")
    return spell(Iri(str(term)))


def check_triple(triple: GraphTriple) -> None:
    """Raises NotSpelled where terms do not make a triple of RDF."""
    subject, predicate, _ = triple
    if not isinstance(subject, (URIRef, BNode)):
        raise NotSpelled(f"this is no subject of a triple of RDF: {subject!r}")
    if not isinstance(predicate, URIRef):
        raise NotSpelled(f"this is no predicate of a triple of RDF: {predicate!r}")


class GraphTerms:
    """The terms of a session over graphs of rdflib."""

    def __init__(self) -> None:
        self.data, self.shapes = Names("d-"), Names("s-")

    def take(self, role: str, sources: Sequence[object]) -> list[Source]:
        """Sources of shapes or data in which all graphs of rdflib are one text, since they share their blank
        nodes. The names are those of these sources from now on."""
        graphs = [source for source in sources if isinstance(source, Graph)]
        others = cast(list[Source], [source for source in sources if not isinstance(source, Graph)])
        scope = "s" if role == "shapes" else "d"
        names = Names(f"{scope}-1-d-" if graphs and others else f"{scope}-")
        if role == "shapes":
            self.shapes = names
        else:
            self.data = names
        return [GraphText(graphs, names), *others] if graphs else others

    def spelled(self, term: object, new: Callable[[], Blank]) -> str:
        """A term of the data as a line has it. A new blank node takes a spare name."""
        if isinstance(term, GraphLiteral):
            return self.data.literal(term)
        if not isinstance(term, BNode):
            return spelled_iri(term)
        name = self.data.names.get(term)
        if name is None:
            name = new().name
            self.data.bind(term, name)
        return f"_:{name}"

    def spelled_shape(self, shape: object) -> str:
        """A shape as a line has it."""
        if not isinstance(shape, BNode):
            return spelled_iri(shape)
        name = self.shapes.names.get(shape)
        if name is None:
            raise NotSpelled(f"this blank node is none of the shapes': {shape!r}")
        return f"_:{name}"

    def node(self, term: Term) -> GraphNode:
        """A term of a report as rdflib has it."""
        if isinstance(term, Iri):
            return URIRef(term.value)
        if isinstance(term, Blank):
            names = self.data if term.name.startswith(("d-", "a-")) else self.shapes
            return names.node(term.name)
        return self.literal(term)

    def literal(self, literal: Literal) -> GraphLiteral:
        """A literal of a report as the data has it: rdflib knows two for xsd:string, and the case of tags."""
        spelled = str(literal)
        for names in (self.data, self.shapes):
            if spelled in names.literals:
                return names.literals[spelled]
        datatype = None if literal.language or literal.datatype == XSD_STRING else URIRef(literal.datatype)
        return GraphLiteral(literal.text, lang=literal.language, datatype=datatype, normalize=False)
