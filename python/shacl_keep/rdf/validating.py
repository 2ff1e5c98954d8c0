"""`validate`, with the names of pySHACL's arguments."""

import os
from collections.abc import Mapping, Sequence
from typing import TypeAlias

from rdflib import Graph
from rdflib.util import guess_format

from ..documents import Text
from ..report import Head, Report, Result
from ..session import Session
from .reports import graph_results, results_graph, results_text
from .terms import GraphTerms, exact_literals

GraphLike: TypeAlias = Graph | str | os.PathLike[str] | bytes | Text

# Formats that the program reads itself.
_TURTLE = ("turtle", "ttl", "nt", "ntriples", "text/turtle", "application/n-triples")
# What pySHACL also has, and this has not, with what it would do.
_OTHERS: Mapping[str, str] = {
    "ont_graph": "mixes an ontology into the data; add its triples to the data graph before",
    "advanced": "evaluates SHACL Advanced Features",
    "inference": "infers triples; let a reasoner add them to the data graph before",
    "js": "evaluates SHACL-JS",
    "sparql_mode": "asks an endpoint",
    "iterate_rules": "evaluates rules of SHACL Advanced Features",
    "do_owl_imports": "loads what owl:imports names; add its triples to the graphs before",
    "meta_shacl": "validates the shapes graph by shapes; "
    "the program itself refuses shapes that are ill-formed",
    "max_validation_depth": "bounds a depth, which the program does on its own",
    "check_dash_result": "compares with results that the data expects",
    "check_sht_result": "compares with results that the data expects",
    "debug": "writes a log",
    "focus_nodes": "validates some nodes only",
    "use_shapes": "evaluates some shapes only",
}


class NotInCore(ValueError):
    """An argument of pySHACL's asks for what is not there."""

    def __init__(self, name: str) -> None:
        super().__init__(
            f"{name} {_OTHERS[name]}: shacl_keep validates by SHACL Core, and does no less in silence"
        )
        self.name = name


def _refuse_others(others: Mapping[str, object]) -> None:
    for name, value in others.items():
        if name not in _OTHERS:
            raise TypeError(f"validate() got an unexpected keyword argument {name!r}")
        if value and value != "none":
            raise NotInCore(name)


def _parsed(source: str | os.PathLike[str] | bytes | Text, form: str) -> Graph:
    """What rdflib reads of a source, with literals as they are written there."""
    graph = Graph()
    with exact_literals():
        if isinstance(source, Text):
            graph.parse(data=source.text, format=form)
        elif isinstance(source, bytes):
            graph.parse(data=source, format=form)
        else:
            with open(source, "rb") as file:
                graph.parse(file, format=form, publicID=f"file://{os.path.abspath(source)}")
    return graph


def source_of(given: GraphLike, form: str | None) -> Graph | str | Text:
    """What was given, as a session takes it: a graph, the name of a file of Turtle, or a text of it. A str
    is a text where it has a line feed, and else the name of a file; bytes are a text."""
    if isinstance(given, Graph):
        return given
    if isinstance(given, str) and "\n" in given:
        given = Text(given)
    if isinstance(given, (str, os.PathLike)):
        name = os.fspath(given)
        if name.startswith(("http://", "https://")):
            raise ValueError(
                f"{name} is not fetched: this opens no connections; give it as a file or as a graph"
            )
        form = form or guess_format(name) or "turtle"
        return name if form.lower() in _TURTLE else _parsed(name, form)
    if (form or "turtle").lower() not in _TURTLE:
        return _parsed(given, form or "turtle")
    return Text(given.decode()) if isinstance(given, bytes) else given


def _failures(results: Sequence[Result], allowed: Sequence[str]) -> list[int]:
    """Where the results stand that make the data not conform."""
    return [at for at, result in enumerate(results) if result.words.severity not in allowed]


def validate(
    data_graph: GraphLike,
    shacl_graph: GraphLike | None = None,
    *,
    data_graph_format: str | None = None,
    shacl_graph_format: str | None = None,
    abort_on_first: bool = False,
    allow_infos: bool = False,
    allow_warnings: bool = False,
    inplace: bool = False,
    serialize_report_graph: bool | str = False,
    base: str = "file:///",
    **others: object,
) -> tuple[bool, Graph | bytes, str]:
    """Validates once: whether the data conforms, the report as a graph, and as a text.

    A graph is one of rdflib, the name of a file, or a text; files of Turtle are read by the program alone.
    Without shapes the data graph is also the shapes graph. Blank nodes of the report are those of the graphs
    that are given. With `allow_infos`, results of sh:Info do not make the data fail; with `allow_warnings`
    none of sh:Info and sh:Warning. With `abort_on_first` the report ends with the first result that makes
    the data fail. `serialize_report_graph` gives the graph as bytes, in Turtle or in the format that it
    names. Neither graph is ever changed, so that `inplace` says nothing.

    Raises NotInCore for arguments of pySHACL's that ask for what SHACL Core has not, and what a Session
    raises. It costs what the program takes, some 10 µs for a triple of a graph of rdflib, and 0.1 ms for each
    result."""
    _refuse_others(others)
    data = source_of(data_graph, data_graph_format)
    shapes = data if shacl_graph is None else source_of(shacl_graph, shacl_graph_format)
    terms = GraphTerms()
    with Session(shapes, data, base=base, terms=terms) as session:
        report = session.report
    allowed = ["Info"] * (allow_infos or allow_warnings) + ["Warning"] * allow_warnings
    failures = _failures(report.results, allowed)
    if abort_on_first and failures:
        kept = report.results[: failures[0] + 1]
        report = Report(Head(False, len(kept)), kept)
    graph = results_graph(graph_results(report.results, terms), not failures)
    text = results_text(report, not failures)
    if serialize_report_graph:
        form = serialize_report_graph if isinstance(serialize_report_graph, str) else "turtle"
        return not failures, graph.serialize(format=form, encoding="utf-8"), text
    return not failures, graph, text
