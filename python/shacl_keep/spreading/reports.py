"""The report of a whole shapes text, from the reports of its parts over the same data."""

import re
from collections.abc import Sequence
from typing import NamedTuple

_HEAD = re.compile(
    rb"(notice: \d+ sh:sparql triples ignored\n)?report conforms=(?:true|false) results=(\d+)\n"
)
_LINES = (b"result ", b"message ", b"detail ")


class NotJoined(Exception):
    """Why reports cannot be joined."""


class Written(NamedTuple):
    """A report in lines: its notice, how many results it tells of, and the lines behind its head."""

    notice: bytes
    told: int
    body: bytes


def report_of(name: str, whole: bytes) -> Written:
    """The report that a file of this name has; raises NotJoined where it has none, or not the whole of
    one."""
    head = _HEAD.match(whole)
    if not head:
        raise NotJoined(f"{name} is no report in lines")
    body = whole[head.end() :]
    lines = body.split(b"\n")
    if lines.pop() or sum(line.startswith(b"result ") for line in lines) < int(head[2]):
        raise NotJoined(f"{name} is cut off")
    if not all(line.startswith(_LINES) for line in lines):
        raise NotJoined(f"{name} has more than one report")
    return Written(head[1] or b"", int(head[2]), body)


def joined(reports: Sequence[Written]) -> list[bytes]:
    """The pieces of the report that these make, in their order; raises NotJoined where their notices
    differ."""
    if len({report.notice for report in reports}) > 1:
        raise NotJoined("the reports are not of one shapes text: their notices differ")
    told = sum(report.told for report in reports)
    conforms = "false" if told else "true"
    head = reports[0].notice + f"report conforms={conforms} results={told}\n".encode()
    return [head, *(report.body for report in reports)]
