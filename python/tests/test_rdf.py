"""`validate` and reports for rdflib: nothing is lost or renamed on the way."""

import re
from collections.abc import Iterator
from pathlib import Path

import pytest
import rdflib
from hypothesis import given, settings
from hypothesis import strategies as st
from rdflib import RDF, XSD, BNode, Graph, Namespace, URIRef
from rdflib import Literal as GraphLiteral
from rdflib.compare import isomorphic
from rdflib.term import Node as GraphNode

from conftest import EXAMPLES
from kept_texts import DATA, SHAPES
from made import iris, literals
from shacl_keep.documents import Text
from shacl_keep.errors import TextRefused
from shacl_keep.process import Program
from shacl_keep.rdf import GraphTerms, NotInCore, exact_literals, graph_results, results_graph, validate
from shacl_keep.session import Session
from shacl_keep.spelled import Iri, Literal, NotSpelled

SH = Namespace("http://www.w3.org/ns/shacl#")
EX = Namespace("http://example.org/")


def read(text: str) -> Graph:
    graph = Graph()
    with exact_literals():
        graph.parse(data=text, format="turtle")
    return graph


def graph_of(*triples: tuple[GraphNode, GraphNode, GraphNode]) -> Graph:
    graph = Graph()
    for triple in triples:
        graph.add(triple)
    return graph


def reported(graph: Graph | bytes, predicate: URIRef) -> set[GraphNode]:
    assert isinstance(graph, Graph)
    return set(graph.objects(None, predicate))


# Each value of ex:p is at fault.
ALL = read(
    """@prefix sh: <http://www.w3.org/ns/shacl#> .
<ex:S> sh:targetSubjectsOf <http://example.org/p> ; sh:path <http://example.org/p> ; sh:in () .
"""
)


# ---- joins


def test_blank_nodes_of_the_report_are_those_of_the_graphs() -> None:
    data, shapes = read(DATA), read(SHAPES)
    conforms, report, _ = validate(data, shapes)
    assert not conforms and isinstance(report, Graph)
    shape_nodes = {node for node in reported(report, SH.sourceShape) if isinstance(node, BNode)}
    focus_nodes = {node for node in reported(report, SH.focusNode) if isinstance(node, BNode)}
    assert shape_nodes <= set(shapes.subjects()) and focus_nodes <= set(data.all_nodes())
    extra = read("@prefix ex: <http://example.org/> . ex:paint ex:needs [ a ex:Task ] , [ a ex:Task ] .")
    _, report, _ = validate(data + extra, shapes)
    nodes = {node for node in reported(report, SH.focusNode) if isinstance(node, BNode)}
    assert len(nodes) == 2 and nodes <= set((data + extra).all_nodes())


@pytest.mark.parametrize("name", sorted(file.parent.name for file in EXAMPLES.glob("*/data.ttl")))
def test_the_graph_is_what_the_program_writes_in_turtle(name: str, tmp_path: Path) -> None:
    import subprocess

    from shacl_keep.programs import program_path

    files = [EXAMPLES / name / role for role in ("shapes.ttl", "data.ttl")]
    written = subprocess.run(
        [program_path(), "--format", "turtle", *files], stdout=subprocess.PIPE, check=False
    )
    with exact_literals():
        due = Graph().parse(data=written.stdout, format="turtle")
    _, graph, _ = validate(files[1], files[0])
    assert isinstance(graph, Graph)
    # Labels are made up by rdflib in one of the two, so that only the form of blank nodes can be compared.
    assert isomorphic(without_names(graph), without_names(due))


def without_names(graph: Graph) -> Graph:
    """The graph with one IRI for each blank node that is no part of the report itself."""
    inner = set(graph.subjects())
    plain = Graph()
    for subject, predicate, value in graph:
        is_named = isinstance(value, BNode) and (value not in inner or predicate == SH.sourceShape)
        plain.add((subject, predicate, EX.blank if is_named else value))
    return plain


@given(st.lists(literals, min_size=1, max_size=5))
def test_literals_come_back_as_they_are(several: list[Literal]) -> None:
    values = [value for value in several if value.datatype not in (str(XSD.double), str(XSD.float))]
    data = Graph()
    for value in values:
        datatype = None if value.language else URIRef(value.datatype)
        data.add(
            (EX.a, EX.p, GraphLiteral(value.text, lang=value.language, datatype=datatype, normalize=False))
        )
    _, report, _ = validate(data, ALL)
    assert reported(report, SH.value) == set(data.objects())


@pytest.mark.parametrize(
    "value",
    [GraphLiteral("01", datatype=XSD.integer, normalize=False), GraphLiteral("x", datatype=XSD.integer)]
    + [GraphLiteral("a"), GraphLiteral("a", datatype=XSD.string), GraphLiteral("a", lang="en-GB")]
    + [
        GraphLiteral('\u2028\r\n\x85\t\\"'),
        GraphLiteral(True),
        GraphLiteral(5),
        BNode("x y<z"),
        EX["é\u2028"],
    ],
)
def test_values_come_back_as_they_are(value: GraphNode) -> None:
    _, report, _ = validate(graph_of((EX.a, EX.p, value)), ALL)
    (found,) = reported(report, SH.value)
    assert found == value and str(found) == str(value)
    assert getattr(found, "datatype", None) == getattr(value, "datatype", None)


def test_the_switch_of_rdflib_is_as_it_was() -> None:
    assert rdflib.NORMALIZE_LITERALS
    with exact_literals():
        assert GraphLiteral("01", datatype=XSD.integer) == GraphLiteral(
            "01", datatype=XSD.integer, normalize=False
        )
    assert rdflib.NORMALIZE_LITERALS
    assert str(GraphLiteral("01", datatype=XSD.integer)) == "1"
    _, report, _ = validate(
        Text('<ex:a> <http://example.org/p> "01"^^<http://www.w3.org/2001/XMLSchema#integer> .'), ALL
    )
    assert [str(value) for value in reported(report, SH.value)] == ["01"]


# ---- graphs that are none


@pytest.mark.parametrize(
    "triple",
    [(GraphLiteral("a"), EX.p, EX.o), (EX.a, BNode(), EX.o), (EX.a, EX.p, rdflib.Variable("v"))]
    + [
        (URIRef("here"), EX.p, EX.o),
        (EX.a, EX.p, URIRef("http://e/a b")),
        (EX.a, EX.p, GraphLiteral("\ud800")),
    ]
    + [(EX.a, EX.p, GraphLiteral("a", datatype=URIRef("no iri")))],
)
def test_what_no_text_can_hold(triple: tuple[GraphNode, GraphNode, GraphNode]) -> None:
    with pytest.raises(NotSpelled):
        validate(graph_of(triple), ALL)


def test_a_value_that_is_refused_is_named() -> None:
    data = graph_of((EX.a, EX.p, GraphLiteral(1.5)), *((EX.b, EX.q, GraphLiteral(n)) for n in range(5_000)))
    with pytest.raises(TextRefused) as caught:
        validate(data, ALL)
    assert (caught.value.role, caught.value.name) == ("data", "FloatLiteral")
    assert (
        caught.value.source
        == '<http://example.org/a> <http://example.org/p> "1.5"^^<' + str(XSD.double) + "> ."
    )


# ---- arguments


SEVERE = """@prefix sh: <http://www.w3.org/ns/shacl#> . @prefix ex: <http://example.org/> .
ex:I sh:targetNode ex:a ; sh:path ex:p ; sh:minCount 1 ; sh:severity sh:Info .
ex:J sh:targetNode ex:a ; sh:path ex:p ; sh:minCount 1 ; sh:severity sh:Warning .
ex:K sh:targetNode ex:a ; sh:path ex:p ; sh:minCount 1 {} .
"""


@pytest.mark.parametrize(
    "others, asked, conforms, count",
    [
        ("", {}, False, 3),
        ("", {"allow_infos": True}, False, 3),
        ("", {"allow_warnings": True}, False, 3),
        ("; sh:deactivated true", {"allow_warnings": True}, True, 2),
        ("; sh:deactivated true", {"allow_infos": True}, False, 2),
        ("; sh:severity sh:Info", {"allow_infos": True}, False, 3),
        ("", {"abort_on_first": True}, False, 1),
        ("", {"abort_on_first": True, "allow_infos": True}, False, 2),
        ("", {"abort_on_first": True, "allow_warnings": True}, False, 3),
        ("; sh:deactivated true", {"abort_on_first": True, "allow_warnings": True}, True, 2),
    ],
)
def test_what_is_allowed(others: str, asked: dict[str, bool], conforms: bool, count: int) -> None:
    found, report, text = validate(Text(""), Text(SEVERE.format(others)), **asked)  # type: ignore[arg-type]
    assert found == conforms
    assert isinstance(report, Graph)
    assert list(report.objects(None, SH.conforms)) == [GraphLiteral(conforms)]
    assert len(list(report.objects(None, SH.result))) == count
    assert text.startswith(f"Validation Report\nConforms: {conforms}\nResults ({count}):\n")


@pytest.mark.parametrize(
    "asked",
    [{"inference": "rdfs"}, {"advanced": True}, {"js": True}, {"ont_graph": Graph()}, {"meta_shacl": True}]
    + [{"do_owl_imports": True}, {"iterate_rules": True}, {"focus_nodes": ["ex:a"]}, {"debug": True}],
)
def test_what_core_has_not_is_refused(asked: dict[str, object]) -> None:
    if isinstance(asked.get("ont_graph"), Graph):
        asked = {"ont_graph": graph_of((EX.a, EX.p, EX.b))}
    (name,) = asked
    with pytest.raises(NotInCore, match=name) as caught:
        validate(read(DATA), read(SHAPES), **asked)  # type: ignore[arg-type]
    assert caught.value.name == name


def test_arguments_that_ask_for_nothing() -> None:
    conforms, _, _ = validate(
        read(DATA), shacl_graph=read(SHAPES), inference="none", advanced=False, inplace=True
    )
    assert not conforms
    with pytest.raises(TypeError, match="no_such"):
        validate(read(DATA), read(SHAPES), no_such=1)


def test_the_data_may_be_the_shapes_too() -> None:
    both = read(DATA + SHAPES.replace("@prefix", "\n@prefix"))
    conforms, report, _ = validate(both)
    assert not conforms
    assert {node for node in reported(report, SH.sourceShape) if isinstance(node, BNode)} <= set(
        both.subjects()
    )


def sources(tmp_path: Path) -> Iterator[object]:
    data = read(DATA)
    yield from (data, DATA, DATA.encode(), Text(DATA))
    for name, form in (
        ("data.ttl", "turtle"),
        ("data.nt", "nt"),
        ("data.rdf", "xml"),
        ("data.jsonld", "json-ld"),
    ):
        data.serialize(tmp_path / name, format=form)
        yield from (tmp_path / name, str(tmp_path / name))


def test_all_kinds_of_graphs(tmp_path: Path) -> None:
    for source in sources(tmp_path):
        conforms, report, _ = validate(source, SHAPES)  # type: ignore[arg-type]
        assert not conforms and isinstance(report, Graph)
        assert len(list(report.objects(None, SH.result))) == 3, source


def test_nothing_is_fetched() -> None:
    with pytest.raises(ValueError, match="not fetched"):
        validate("http://example.org/data.ttl", read(SHAPES))
    with pytest.raises(FileNotFoundError):
        validate("no_such.ttl", read(SHAPES))


def test_a_report_as_bytes() -> None:
    _, written, _ = validate(read(DATA), read(SHAPES), serialize_report_graph="nt")
    assert isinstance(written, bytes) and b"ValidationReport" in written
    _, written, _ = validate(read(DATA), read(SHAPES), serialize_report_graph=True)
    assert isinstance(written, bytes) and b"sh:ValidationReport" in written


def test_nothing_of_a_text_reaches_a_terminal() -> None:
    data = graph_of((EX.a, EX.p, GraphLiteral("\x1b[31m\u202e\u2028\n")))
    _, _, text = validate(data, ALL)
    assert not re.search("[\x1b\u202e\u2028]", text)
    assert "\\u001B" in text


# ---- sessions over graphs


def test_a_session_over_graphs() -> None:
    data, shapes = read(DATA), read(SHAPES)
    (ann,) = data.subjects(RDF.type, EX.Person)
    with Session(shapes, data, spare=10) as session:
        assert session.terms is not None
        new = BNode()
        session.remove(ann, RDF.type, EX.Person)
        session.insert(EX.sand, EX.owner, new)
        found = graph_results(session.results, session.terms)
        assert {result.value for result in found} >= {ann, new}
        # A shape without a name is one of the shapes' nodes, and known by that.
        with pytest.raises(NotSpelled):
            session.slice(BNode(), EX.sand)
        assert session.load_shapes(shapes).evaluated == 0
        graph = results_graph(found, session.conforms)
        assert len(list(graph.objects(None, SH.result))) == session.count.results


def test_graphs_share_their_blank_nodes_and_files_do_not() -> None:
    shared = BNode()
    one, two = graph_of((EX.a, EX.p, shared)), graph_of((shared, EX.p, EX.b))
    terms = GraphTerms()
    with Session(ALL, [one, two, Text("_:x <http://example.org/p> _:y .")], terms=terms) as session:
        found = graph_results(session.results, terms)
        assert {(EX.a, shared), (shared, EX.b)} < {(result.focus, result.value) for result in found}
        assert len(found) == 3


@settings(max_examples=10)
@given(st.lists(iris, min_size=1, max_size=3))
def test_iris_come_back_as_they_are(several: list[Iri]) -> None:
    data = graph_of(*((URIRef(iri.value), EX.p, URIRef(iri.value)) for iri in several))
    _, report, _ = validate(data, ALL)
    assert reported(report, SH.value) == set(data.objects())
