"""SARIF 2.1.0: a result for each result of the reports, fault and refused line, with the constraint
components, and the codes of faults, as rules. The order of members is one in which a document of any length
is written piece by piece."""

import json
import os
from collections.abc import Iterator
from typing import Any
from urllib.parse import quote

from ..causes import cause, demand
from ..plain import plain
from ..report import Result
from ..shown import Problem, Shown
from ..texts import Place
from .severities import level, severity_iri

SCHEMA = "https://docs.oasis-open.org/sarif/sarif/v2.1.0/errata01/os/schemas/sarif-schema-2.1.0.json"
_LEVELS = {"violation": "error", "warning": "warning", "info": "note"}


def _uri(name: str) -> str:
    """The reference of a file: relative where its name is, so that it is found from where the run was
    made."""
    path = quote(os.fsencode(name))
    return f"file://{path}" if os.path.isabs(name) else path if ":" not in path.split("/")[0] else f"./{path}"


def _location(place: Place | None, file: str | None) -> dict[str, Any]:
    uri = _uri(place.name if place else file or "")
    physical: dict[str, Any] = {"artifactLocation": {"uri": uri}}
    if place:
        physical["region"] = {"startLine": place.line, "startColumn": place.column}
    return {"physicalLocation": physical}


def _result(result: Result, shown: Shown) -> dict[str, Any]:
    words, term = result.words, shown.names.term
    place, shape = shown.places.place(result), shown.places.place_of_shape(result)
    made: dict[str, Any] = {
        "ruleId": words.component,
        "level": _LEVELS[level(words.severity)],
        "message": {"text": shown.sentence(result)},
        "properties": {
            "severity": severity_iri(words.severity),
            "shape": term(words.shape),
            "focusNode": term(words.focus),
        },
    }
    if place or shown.file:
        node = {"fullyQualifiedName": term(words.focus), "kind": "object"}
        made["locations"] = [{**_location(place, shown.file), "logicalLocations": [node]}]
    if shape:
        said = {"text": f"the shape {term(words.shape)}"}
        made["relatedLocations"] = [{"id": 1, **_location(shape, None), "message": said}]
    return made


def _problem(problem: Problem) -> dict[str, Any]:
    made: dict[str, Any] = {"ruleId": problem.name, "level": "error", "message": {"text": problem.said}}
    if problem.place or problem.file:
        made["locations"] = [_location(problem.place, problem.file)]
    return made


def _results(shown: Shown) -> Iterator[dict[str, Any]]:
    for event in shown.events():
        if isinstance(event, Result):
            yield _result(event, shown)
        else:
            yield from map(_problem, shown.problems(event))
    yield from map(_problem, shown.failures())


def _rule(name: str, is_fault: bool) -> dict[str, Any]:
    said = cause(name) if is_fault else demand(name)
    return {"id": name, "shortDescription": {"text": f"{said[0].upper()}{said[1:]}."}}


def _invocation(shown: Shown) -> dict[str, Any]:
    """How the run ended, and what was warned of."""
    made: dict[str, Any] = {"executionSuccessful": shown.status in (0, 1), "exitCode": shown.status}
    if shown.warnings:
        made["toolExecutionNotifications"] = [
            {"level": "warning", "message": {"text": plain(it)}} for it in shown.warnings
        ]
    return made


def pieces(shown: Shown, version: str) -> Iterator[str]:
    """The document, piece by piece, of a program of this version."""
    yield f'{{"$schema": "{SCHEMA}", "version": "2.1.0", "runs": [{{\n'
    yield f'"columnKind": "unicodeCodePoints", "invocations": [{json.dumps(_invocation(shown))}],\n'
    yield '"results": ['
    rules: dict[str, bool] = {}
    before = "\n "
    for made in _results(shown):
        rules[made["ruleId"]] = "properties" not in made
        yield before + json.dumps(made)
        before = ",\n "
    driver: dict[str, Any] = {"name": "shacl_keep", "version": version}
    driver["rules"] = [_rule(name, is_fault) for name, is_fault in sorted(rules.items())]
    yield f'],\n"tool": {json.dumps({"driver": driver})}}}]}}\n'
