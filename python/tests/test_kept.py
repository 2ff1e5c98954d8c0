"""A kept graph: its report is always that of the graph as rdflib has it, and a change is made whole or
not."""

import gc
import time
from collections import Counter
from pathlib import Path

import pytest
from hypothesis import given, settings
from hypothesis import strategies as st
from rdflib import RDF, XSD, BNode, Graph, Namespace, URIRef
from rdflib import Literal as GraphLiteral
from rdflib.term import Node as GraphNode

from kept_texts import DATA, SHAPES
from shacl_keep.documents import Text
from shacl_keep.errors import Closed, LineRefused, TextRefused
from shacl_keep.rdf import GraphResult, GraphTerms, KeptGraph, exact_literals, graph_results
from shacl_keep.session import Session
from shacl_keep.spelled import NotSpelled

EX = Namespace("http://example.org/")
SH = Namespace("http://www.w3.org/ns/shacl#")
PREFIX = "PREFIX ex: <http://example.org/> "


def data() -> Graph:
    graph = Graph()
    graph.parse(data=DATA, format="turtle")
    return graph


def fresh(graph: Graph) -> Counter[GraphResult]:
    """The results of a run of its own over the graph, whose blank nodes it shares."""
    copy, terms = Graph(), GraphTerms()
    copy += graph
    with Session(Text(SHAPES), copy, terms=terms) as session:
        return Counter(graph_results(session.results, terms))


def shapes_of(results: Counter[GraphResult]) -> Counter[tuple[object, ...]]:
    """Results without their shapes, which are blank nodes of two readings of the shapes' text."""
    return Counter(
        (it.component, it.severity, it.focus, it.path, it.value, it.messages) for it in results.elements()
    )


def is_current(graph: KeptGraph) -> bool:
    return shapes_of(Counter(graph.results)) == shapes_of(fresh(graph))


UPDATES = [
    'INSERT DATA { ex:wait a ex:Task ; ex:title "Wait" ; ex:owner [ a ex:Person ; ex:knows [] ] }',
    "DELETE WHERE { ?task ex:title ?title }",
    'DELETE { ?task ex:title ?title } INSERT { ?task ex:title "Go" } WHERE { ?task ex:title ?title }',
    "INSERT { ?task ex:owner ?person } WHERE { ?task a ex:Task . ?person a ex:Person }",
    "DELETE { ?p a ex:Person } WHERE { ?p a ex:Person }",
    "DELETE DATA { ex:paint ex:needs ex:sand } ; INSERT DATA { ex:sand ex:needs ex:paint , ex:sand }",
    "INSERT { ?task ex:owner [ ex:knows ?task ] } WHERE { ?task a ex:Task }",
    "INSERT DATA { ex:paint a ex:Person } ; DELETE DATA { ex:paint a ex:Person }",
    "CLEAR DEFAULT",
]


@settings(max_examples=8)
@given(st.lists(st.sampled_from(UPDATES), min_size=1, max_size=10))
def test_random_updates_beside_fresh_runs(updates: list[str]) -> None:
    plain = data()
    with KeptGraph(Text(SHAPES), plain) as graph:
        for update in updates:
            graph.update(PREFIX + update)
        assert graph.count.triples == len(graph)
        assert is_current(graph)


@pytest.mark.parametrize("update", UPDATES)
def test_an_update_is_one_change(update: str) -> None:
    with KeptGraph(Text(SHAPES), data()) as graph:
        before = Counter(graph.results)
        with graph.watch() as seen:
            graph.update(PREFIX + update)
        assert is_current(graph)
        assert before - Counter(seen.went) + Counter(seen.came) == Counter(graph.results)


def test_what_came_and_what_went() -> None:
    with KeptGraph(Text(SHAPES), data()) as graph, graph.watch() as seen:
        graph.update(PREFIX + 'DELETE DATA { ex:sand ex:title "Sand" }')
        assert not seen.came and not seen.went
    assert [result.component for result in seen.came] == [SH.MinCountConstraintComponent]
    assert [result.component for result in seen.went] == [SH.MaxLengthConstraintComponent]


# ---- all ways to change a graph


def test_each_way_to_change_a_graph(tmp_path: Path) -> None:
    (tmp_path / "more.ttl").write_text("<ex:a> a <http://example.org/Task> ; <http://example.org/owner> [] .")
    task = (EX.wait, RDF.type, EX.Task)
    with KeptGraph(Text(SHAPES), data()) as graph:
        graph.add(task)
        assert is_current(graph) and graph.change and graph.change.evaluated == 1
        graph.add(task)
        graph.set((EX.wait, EX.title, GraphLiteral("Go")))
        graph.set((EX.wait, EX.title, GraphLiteral("Went")))
        assert is_current(graph)
        more = Graph().parse(tmp_path / "more.ttl")
        graph += more
        assert is_current(graph)
        graph -= more
        graph.parse(tmp_path / "more.ttl")
        graph.addN([(EX.a, EX.p, BNode(), graph), (EX.a, EX.p, BNode(), Graph())])
        assert is_current(graph)
        graph.store.add((EX.b, RDF.type, EX.Task), graph)
        graph.remove((None, EX.owner, None))
        assert is_current(graph)
        with graph.group():
            graph.add((EX.c, RDF.type, EX.Task))
            graph.remove(task)
        assert is_current(graph) and graph.change.evaluated == 1
        graph.remove((None, None, None))
        assert len(graph) == 0 and graph.count.triples == 0 and graph.conforms
        graph += data()
        assert is_current(graph)
        assert len(graph + more) == len(graph) + len(more)


def test_a_graph_that_is_read_is_a_plain_one() -> None:
    with KeptGraph(Text(SHAPES), data()) as graph:
        found = list(graph.query(PREFIX + "SELECT ?t WHERE { ?t a ex:Task } ORDER BY ?t"))
        assert [row[0] for row in found] == [EX.paint, EX.sand]
        assert set(graph) == set(graph.triples((None, None, None))) and (EX.paint, RDF.type, EX.Task) in graph
        assert "ex:" in graph.serialize(format="turtle")


# ---- what is refused


REFUSED: list[tuple[GraphNode, type[Exception]]] = [
    (GraphLiteral(1.5), LineRefused),
    (GraphLiteral("1" * 50, datatype=XSD.integer), LineRefused),
    (URIRef("here"), NotSpelled),
    (GraphLiteral("\ud800"), NotSpelled),
]


@pytest.mark.parametrize("value, error", REFUSED)
def test_what_is_refused_leaves_the_graph_as_it_was(value: GraphNode, error: type[Exception]) -> None:
    with KeptGraph(Text(SHAPES), data()) as graph:
        before, results = set(graph), graph.results
        with pytest.raises(error):
            graph.add((EX.a, EX.p, value))
        with pytest.raises(error), graph.group():
            graph.remove((EX.paint, None, None))
            graph.add((EX.a, EX.p, BNode()))
            graph.add((EX.a, EX.p, value))
        assert set(graph) == before and graph.results == results
        graph.add((EX.wait, RDF.type, EX.Task))
        assert is_current(graph)


@pytest.mark.parametrize(
    "update",
    ["DELETE WHERE { ?s ?p ?o } ; INSERT DATA { ex:a ex:p 1.5e0 }", "INSERT DATA { ex:a ex:p 1 , 2 , 1e400 }"]
    + ["CLEAR DEFAULT ; LOAD <file:///no/such/file>"],
)
def test_an_update_that_fails_leaves_the_graph_as_it_was(update: str) -> None:
    with KeptGraph(Text(SHAPES), data()) as graph:
        before, results = set(graph), graph.results
        with pytest.raises(Exception):
            graph.update(PREFIX + update)
        assert set(graph) == before and graph.results == results
        graph.update(PREFIX + UPDATES[0])
        assert is_current(graph)


def test_a_graph_that_is_refused_at_first() -> None:
    wrong = data()
    wrong.add((EX.a, EX.p, GraphLiteral(1.5)))
    with pytest.raises(TextRefused, match="1.5"):
        KeptGraph(Text(SHAPES), wrong)
    with pytest.raises(TextRefused) as caught:
        KeptGraph(Text("<ex:a> <ex:b> ."), data())
    assert caught.value.role == "shapes"


# ---- terms that rdflib has, and others have not


def test_a_string_that_rdflib_has_twice() -> None:
    plain, typed = GraphLiteral("Go"), GraphLiteral("Go", datatype=XSD.string)
    with KeptGraph(Text(SHAPES), data()) as graph:
        graph.remove((EX.sand, EX.title, None))
        graph.add((EX.sand, EX.title, plain))
        graph.add((EX.sand, EX.title, typed))
        assert is_current(graph)
        for value in (typed, plain):
            graph.remove((EX.sand, EX.title, value))
            assert is_current(graph), value
        with graph.group():
            graph.add((EX.sand, EX.title, typed))
            graph.add((EX.sand, EX.title, plain))
            graph.remove((EX.sand, EX.title, typed))
        assert is_current(graph)
        graph.update(PREFIX + "DELETE WHERE { ex:sand ex:title ?title }")
        assert is_current(graph)


def test_lexical_forms_are_kept() -> None:
    with exact_literals():
        graph = KeptGraph(
            Text(SHAPES), Graph().parse(data=DATA + 'ex:sand ex:owner "007"^^<%s> .' % XSD.integer)
        )
    with graph:
        assert "007" in {str(result.value) for result in graph.results}


def test_a_literal_that_is_too_long_for_a_line() -> None:
    with KeptGraph(Text(SHAPES), data()) as graph:
        graph.add((EX.sand, EX.title, GraphLiteral("x" * 70_000)))
        assert is_current(graph)
        assert max(len(str(result.value)) for result in graph.results) == 70_000


def test_more_new_blank_nodes_than_there_are_spare_names() -> None:
    with KeptGraph(Text(SHAPES), data(), spare=4) as graph:
        for _ in range(25):
            graph.add((EX.sand, EX.owner, BNode()))
            assert graph.count.triples == len(graph)
        assert is_current(graph)
        with pytest.raises(LineRefused), graph.group():
            graph.add((EX.sand, EX.owner, BNode()))
            graph.add((EX.sand, EX.owner, GraphLiteral(1.5)))
        assert is_current(graph)


def test_new_blank_nodes_and_a_value_that_is_refused_while_names_run_out() -> None:
    with KeptGraph(Text(SHAPES), data(), spare=2) as graph:
        before = set(graph)
        with pytest.raises(TextRefused), graph.group():
            for _ in range(5):
                graph.add((EX.sand, EX.owner, BNode()))
            graph.add((EX.sand, EX.owner, GraphLiteral(1.5)))
        assert set(graph) == before and is_current(graph)


def test_a_change_that_is_large_beside_the_graph() -> None:
    with KeptGraph(Text(SHAPES), data()) as graph:
        with graph.group():
            for number in range(12_000):
                graph.add((EX.n, EX.p, GraphLiteral(number)))
        assert graph.count.triples == len(graph) and is_current(graph)
        before = set(graph)
        with pytest.raises(TextRefused), graph.group():
            for number in range(15_000):
                graph.add((EX.m, EX.p, GraphLiteral(number)))
            graph.add((EX.m, EX.p, GraphLiteral(1.5)))
        assert set(graph) == before and is_current(graph)


# ---- shapes, slices, the end


def test_other_shapes_stay_in_force() -> None:
    shapes = Graph().parse(data=SHAPES, format="turtle")
    with KeptGraph(shapes, data(), spare=2) as graph:
        assert is_current(graph)
        # Neither does a change to the shapes' graph reach the kept one, nor does that lose other shapes.
        shapes.remove((None, None, None))
        for _ in range(5):
            graph.add((EX.sand, EX.owner, BNode()))
        assert is_current(graph)
        graph.load_shapes(Text(""))
        for _ in range(9):
            graph.add((EX.sand, EX.owner, BNode()))
        assert graph.conforms and graph.count.pairs == 0


def test_slices_and_the_report_as_a_graph() -> None:
    with KeptGraph(Text(SHAPES), data()) as graph:
        (ann,) = graph.subjects(RDF.type, EX.Person)
        assert (EX.paint, EX.owner, ann) in graph.slice(EX.Task, EX.paint)
        assert set(graph.slice(EX.Task, EX.paint)) <= set(graph)
        assert len(list(graph.report_graph.objects(None, None))) > 10


def test_a_graph_that_was_closed() -> None:
    graph = KeptGraph(Text(SHAPES), data())
    before = set(graph)
    graph.close()
    with pytest.raises(Closed):
        graph.add((EX.a, EX.p, EX.b))
    assert set(graph) == before


def test_a_graph_that_nobody_has_any_more_ends_its_program() -> None:
    graph = KeptGraph(Text(SHAPES), data())
    process = graph.process
    del graph
    gc.collect()
    for _ in range(200):
        if not Path(f"/proc/{process}").exists():
            return
        time.sleep(0.05)
    assert not Path(f"/proc/{process}").exists()
