"""Reports as rdflib has them: results with its terms, a graph in the terms of SHACL's section 3, and a
text."""

from collections.abc import Iterable
from dataclasses import dataclass

from rdflib import RDF, BNode, Graph, Namespace, URIRef
from rdflib import Literal as GraphLiteral
from rdflib.collection import Collection
from rdflib.term import Node as GraphNode

from ..paths import Alternative, Inverse, OneOrMore, Path, Sequence, ZeroOrMore, ZeroOrOne, sparql
from ..plain import plain
from ..report import SH as SHACL
from ..report import Detail, Report, Result
from ..spelled import Iri
from .terms import GraphTerms

SH = Namespace(SHACL)
_STEPS: dict[type[Path], URIRef] = {
    Inverse: SH.inversePath,
    ZeroOrMore: SH.zeroOrMorePath,
    OneOrMore: SH.oneOrMorePath,
    ZeroOrOne: SH.zeroOrOnePath,
}


@dataclass(frozen=True, slots=True)
class GraphResult:
    """A result, or a detail of one, in the terms of rdflib. `path` is plain data of `shacl_keep.paths`."""

    component: URIRef
    severity: URIRef
    shape: GraphNode
    focus: GraphNode
    path: Path | None
    value: GraphNode | None
    messages: tuple[GraphLiteral, ...]
    details: tuple["GraphResult", ...]


def graph_result(result: Detail, terms: GraphTerms) -> GraphResult:
    """A result in the terms of rdflib."""
    value = result.value
    messages, details = (result.messages, result.details) if isinstance(result, Result) else ((), ())
    return GraphResult(
        SH[f"{result.component}ConstraintComponent"],
        URIRef(result.severity.value),
        terms.node(result.shape),
        terms.node(result.focus),
        result.path,
        None if value is None else terms.node(value),
        tuple(map(terms.literal, messages)),
        tuple(graph_result(detail, terms) for detail in details),
    )


def graph_results(results: Iterable[Result], terms: GraphTerms) -> tuple[GraphResult, ...]:
    """Results in the terms of rdflib."""
    return tuple(graph_result(result, terms) for result in results)


# ---- as a graph


def _path_node(path: Path, graph: Graph) -> GraphNode:
    """The node that stands for a path, whose triples are added."""
    if isinstance(path, Iri):
        return URIRef(path.value)
    if isinstance(path, (Sequence, Alternative)):
        cells = BNode()
        Collection(graph, cells, [_path_node(each, graph) for each in path.paths])
        if isinstance(path, Sequence):
            return cells
        inner: GraphNode = cells
    else:
        inner = _path_node(path.path, graph)
    node = BNode()
    graph.add((node, _STEPS.get(type(path), SH.alternativePath), inner))
    return node


def _put(result: GraphResult, parent: GraphNode, link: URIRef, graph: Graph) -> None:
    """Adds a result, and its details, to the graph."""
    node = BNode()
    add = graph.add
    add((parent, link, node))
    add((node, RDF.type, SH.ValidationResult))
    add((node, SH.focusNode, result.focus))
    add((node, SH.sourceShape, result.shape))
    add((node, SH.sourceConstraintComponent, result.component))
    add((node, SH.resultSeverity, result.severity))
    if result.path is not None:
        add((node, SH.resultPath, _path_node(result.path, graph)))
    if result.value is not None:
        add((node, SH.value, result.value))
    for message in result.messages:
        add((node, SH.resultMessage, message))
    for detail in result.details:
        _put(detail, node, SH.detail, graph)


def results_graph(results: Iterable[GraphResult], conforms: bool) -> Graph:
    """A report as a graph. Some ten triples a result, and 0.1 ms."""
    graph = Graph()
    graph.bind("sh", SH)
    report = BNode()
    graph.add((report, RDF.type, SH.ValidationReport))
    graph.add((report, SH.conforms, GraphLiteral(conforms)))
    for result in results:
        _put(result, report, SH.result, graph)
    return graph


# ---- as a text


def _lines(result: Result) -> Iterable[str]:
    name = result.severity.value.removeprefix(SHACL)
    yield f"Constraint {name} in {result.component}ConstraintComponent:"
    yield f"\tSeverity: {result.severity}"
    yield f"\tSource Shape: {result.shape}"
    yield f"\tFocus Node: {result.focus}"
    if result.path is not None:
        yield f"\tResult Path: {sparql(result.path)}"
    if result.value is not None:
        yield f"\tValue Node: {result.value}"
    for message in result.messages:
        yield f"\tMessage: {message.text}"


def results_text(report: Report, conforms: bool) -> str:
    """A report for people. Characters that would do something to a terminal are shown as escapes."""
    lines = ["Validation Report", f"Conforms: {conforms}"]
    if report.results:
        lines.append(f"Results ({len(report.results)}):")
    for result in report.results:
        lines.extend(plain(line, kept="\t\u200c\u200d") for line in _lines(result))
    return "".join(f"{line}\n" for line in lines)
