"""JSON: all that a run wrote. docs/FORMATS.md has its members, which stay as they are within a version."""

import json
from collections.abc import Iterator
from dataclasses import asdict
from typing import Any

from ..paths import read_path, sparql
from ..report import (
    Change,
    Count,
    Detail,
    Event,
    Fault,
    Grouped,
    Head,
    Loaded,
    Notice,
    Other,
    Refused,
    Result,
)
from ..report import SH, SliceHead, Stated
from ..shown import Problem, Shown
from ..spelled import Blank, Iri, Literal, Term, read_term
from ..texts import Place
from .severities import severity_iri

VERSION = 1
_KINDS: dict[type, str] = {
    Change: "change",
    Loaded: "shapes",
    Grouped: "group",
    Count: "count",
    Refused: "refused",
    Fault: "fault",
    Notice: "notice",
    Other: "other",
}


def _term(term: Term) -> dict[str, str]:
    """A term as in the JSON of SPARQL's results."""
    match term:
        case Iri(value):
            return {"type": "uri", "value": value}
        case Blank(name):
            return {"type": "bnode", "value": name}
        case Literal(text, datatype, language):
            more = {"xml:lang": language} if language else {"datatype": datatype}
            return {"type": "literal", "value": text, **more}


def _spelled(spelled: str) -> dict[str, str] | None:
    return None if spelled == "-" else _term(read_term(spelled))


def _place(place: Place | None) -> dict[str, object] | None:
    return {"file": place.name, "line": place.line, "column": place.column} if place else None


def _detail(detail: Detail) -> dict[str, object]:
    words = detail.words
    return {
        "component": f"{SH}{words.component}ConstraintComponent",
        "severity": severity_iri(words.severity),
        "shape": _spelled(words.shape),
        "focus": _spelled(words.focus),
        "path": None if words.path == "-" else sparql(read_path(words.path)),
        "value": _spelled(words.value),
    }


def _result(result: Result, shown: Shown) -> dict[str, object]:
    messages = [{"text": it.text, "language": it.language} for it in result.messages]
    return {
        **_detail(result),
        "messages": messages,
        "details": [_detail(it) for it in result.details],
        "place": _place(shown.places.place(result)),
    }


def _problem(problem: Problem) -> dict[str, object]:
    return {"name": problem.name, "said": problem.said, "place": _place(problem.place)}


def _answer(event: Event, shown: Shown) -> dict[str, object]:
    """The members of an answer."""
    members: dict[str, Any] = asdict(event)
    if isinstance(event, (Fault, Refused)):
        members |= {"problems": [_problem(it) for it in shown.problems(event)]}
    if isinstance(event, Fault):
        terms = {"shape": event.shape, "predicate": event.predicate, "term": event.term}
        members |= {name: term and _term(term) for name, term in terms.items()}
    elif isinstance(event, Refused):
        del members["line"]
    return members


def _item(event: Result | Stated, shown: Shown) -> object:
    """A result of a report, or a triple of a slice."""
    if isinstance(event, Result):
        return _result(event, shown)
    return dict(zip(("subject", "predicate", "object"), map(_term, event.triple)))


def _opening(event: Head | SliceHead, line: int | None) -> str:
    """The first members of a report, or of a slice, up to its list."""
    if isinstance(event, Head):
        members = {"kind": "report", "line": line, "conforms": event.conforms, "told": event.told}
        return json.dumps(members)[:-1] + ', "results": ['
    return json.dumps({"kind": "slice", "line": line, "told": event.told})[:-1] + ', "triples": ['


def _parts(shown: Shown) -> Iterator[str]:
    """The parts, each on lines of its own, and each result on one."""
    is_open, before = False, ""
    events = shown.events()
    numbers = shown.texts.lines_answered()
    for event in events:
        if isinstance(event, (Result, Stated)):
            yield before + json.dumps(_item(event, shown))
            before = ",\n  "
            continue
        line = numbers(event)
        yield ("\n ]}" if is_open else "") + (",\n " if before else "\n ")
        is_open = isinstance(event, (Head, SliceHead))
        if isinstance(event, (Head, SliceHead)):
            yield _opening(event, line)
            before = "\n  "
        else:
            yield json.dumps({"kind": _KINDS[type(event)], "line": line, **_answer(event, shown)})
            before = ",\n "
    yield "\n ]}" if is_open else ""


def pieces(shown: Shown) -> Iterator[str]:
    """The document, piece by piece."""
    texts = shown.texts
    files = {
        "shapes": texts.shapes.name if texts.shapes else None,
        "data": [text.name for text in texts.data],
        "script": texts.script.name if texts.script else None,
    }
    yield f'{{"version": {VERSION},\n"files": {json.dumps(files)},\n"parts": ['
    yield from _parts(shown)
    yield f'],\n"warnings": {json.dumps(shown.warnings)},\n"failure": {json.dumps(shown.failure)},\n'
    yield f'"status": {shown.status}}}\n'
