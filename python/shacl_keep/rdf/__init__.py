"""shacl_keep for those who work with rdflib (Debian's package python3-rdflib): `validate`, called as
pySHACL's; `KeptGraph`, a graph whose report is always current; reports as graphs; and sessions over graphs,
whose blank nodes are in the report what they are in the graph.

rdflib changes some literals when it reads them: "01"^^xsd:integer becomes "1", and a date of XML Schema
another spelling of itself. What it has changed cannot be got back. `exact_literals` keeps it from that."""

try:
    import rdflib as _rdflib
except ImportError as error:
    raise ImportError("shacl_keep.rdf needs rdflib: install python3-rdflib, or shacl_keep[rdf]") from error

from .kept import KeptGraph
from .reports import GraphResult, graph_results, results_graph, results_text
from .terms import GraphTerms, exact_literals
from .validating import NotInCore, validate

__all__ = [
    "GraphResult",
    "GraphTerms",
    "KeptGraph",
    "NotInCore",
    "exact_literals",
    "graph_results",
    "results_graph",
    "results_text",
    "validate",
]
