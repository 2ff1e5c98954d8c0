"""SHACL Core, with a report that stays current while the data is edited: the proved program shacl_keep,
called from Python. What most users need is here; the rest is in modules:

| module | what it holds |
|---|---|
| `spelled`, `paths` | terms and property paths, as the program spells them |
| `report` | reports, answers and faults as plain data, and the reader of their lines |
| `process`, `programs` | one running program, and where it is found |
| `session`, `history`, `stock` | a session: edits, groups, undo, and a report that is always current |
| `documents`, `texts` | several files as one graph, and the places in a text |
| `rdf` | the faces for rdflib: `validate`, and `KeptGraph` |
| `places`, `walks`, `turtle`, `triples` | where in the texts a result stands |
| `formats`, `names`, `sayings` | reports for people and for tools: docs/FORMATS.md |
| `spreading` | shapes in parts, and their reports joined |
| `commands` | what `shacl_show` and `shacl_split` do |
"""

from .documents import Text
from .errors import Ended, KeepError, Killed, LineRefused, NotRun, TextRefused, TimedOut
from .session import Session
from .spelled import Blank, Iri, Literal

__all__ = [
    "Blank",
    "Ended",
    "Iri",
    "KeepError",
    "Killed",
    "LineRefused",
    "Literal",
    "NotRun",
    "Session",
    "Text",
    "TextRefused",
    "TimedOut",
]
