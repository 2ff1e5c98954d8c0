"""The part of the published schema of SARIF 2.1.0 that the package writes: the same names, types, bounds and
values, with no further members allowed, as there."""

from typing import Any


def _object(required: str = "", **members: Any) -> dict[str, Any]:
    return {
        "type": "object",
        "properties": members,
        "required": required.split(),
        "additionalProperties": False,
    }


def _list(items: Any, unique: bool = False) -> dict[str, Any]:
    return {"type": "array", "items": items, "uniqueItems": unique, "minItems": 0}


_TEXT: dict[str, Any] = {"type": "string"}
_COUNT = {"type": "integer", "minimum": 1}
_LEVEL = {"enum": ["none", "note", "warning", "error"]}
_MESSAGE = _object(text=_TEXT, markdown=_TEXT, id=_TEXT, arguments=_list(_TEXT))
_LOCATION = _object(
    id={"type": "integer", "minimum": -1},
    physicalLocation=_object(
        "artifactLocation",
        artifactLocation=_object(uri={"type": "string", "format": "uri-reference"}, uriBaseId=_TEXT),
        region=_object(startLine=_COUNT, startColumn=_COUNT, endLine=_COUNT, endColumn=_COUNT),
    ),
    logicalLocations=_list(_object(fullyQualifiedName=_TEXT, name=_TEXT, kind=_TEXT), unique=True),
    message=_MESSAGE,
)
_RESULT = _object(
    "message",
    ruleId=_TEXT,
    level=_LEVEL,
    message=_MESSAGE,
    locations=_list(_LOCATION),
    relatedLocations=_list(_LOCATION, unique=True),
    properties={"type": "object"},
)
_RULE = _object("id", id=_TEXT, name=_TEXT, shortDescription=_object("text", text=_TEXT))
_INVOCATION = _object(
    "executionSuccessful",
    executionSuccessful={"type": "boolean"},
    exitCode={"type": "integer"},
    toolExecutionNotifications=_list(_object("message", level=_LEVEL, message=_MESSAGE)),
)
_RUN = _object(
    "tool",
    tool=_object(
        "driver", driver=_object("name", name=_TEXT, version=_TEXT, rules=_list(_RULE, unique=True))
    ),
    invocations=_list(_INVOCATION),
    columnKind={"enum": ["utf16CodeUnits", "unicodeCodePoints"]},
    results=_list(_RESULT),
)
SCHEMA: dict[str, Any] = {
    "$schema": "http://json-schema.org/draft-07/schema#",
    **_object(
        "version runs",
        **{
            "$schema": {"type": "string", "format": "uri"},
            "version": {"enum": ["2.1.0"]},
            "runs": _list(_RUN),
        },
    ),
}
