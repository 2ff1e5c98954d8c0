"""CSV (RFC 4180): a row for each result of the reports, with the columns of docs/FORMATS.md. No cell is
taken for a formula: before what a spreadsheet would read as one stands an apostrophe."""

import csv
import io
import re
from collections.abc import Iterable, Iterator

from ..names import message
from ..plain import plain
from ..report import Head, Result
from ..shown import Shown

COLUMNS = (
    "report",
    "severity",
    "component",
    "focus node",
    "path",
    "value",
    "shape",
    "messages",
    "file",
    "line",
    "column",
)
_MARK = "\ufeff"  # by which spreadsheets know UTF-8
# What begins a formula, also behind white space; a number alone is none.
_FORMULA = re.compile(r"\s*[=+\-@\t\r\n\uff0b\uff0d\uff1d\uff20]")
_NUMBER = re.compile(r"[+-]?[0-9]*\.?[0-9]+")


def cell(text: str) -> str:
    """A text as a cell that is no formula."""
    text = plain(text, kept="\n\u200c\u200d")
    return f"'{text}" if _FORMULA.match(text) and not _NUMBER.fullmatch(text) else text


def _line(cells: Iterable[str]) -> str:
    out = io.StringIO()
    csv.writer(out).writerow(cells)
    return out.getvalue()


def _row(result: Result, report: int, shown: Shown) -> str:
    words, term, place = result.words, shown.names.term, shown.places.place(result)
    messages = "\n".join("\n".join(message(it)[0]) for it in result.spelled_messages)
    terms = [term(it) if it != "-" else "" for it in (words.focus, words.path, words.value, words.shape)]
    where = [place.name, str(place.line), str(place.column)] if place else ["", "", ""]
    cells = [str(report), term(words.severity), words.component, *terms, messages, *where]
    return _line(map(cell, cells))


def pieces(shown: Shown, skipped: int = 0) -> Iterator[str]:
    """The rows, without so many of the first results of each report."""
    yield _MARK + _line(COLUMNS)
    report = number = 0
    for event in shown.events():
        if isinstance(event, Head):
            report, number = report + 1, 0
        elif isinstance(event, Result):
            number += 1
            if number > skipped:
                yield _row(event, report, shown)
