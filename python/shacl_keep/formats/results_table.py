"""The table of a report's results on a page, by focus node. A long one is cut into pieces, of which a browser
lays out those that are looked at."""

from collections.abc import Iterable, Iterator

from ..gathering import by_focus
from ..names import Names
from ..report import Detail, Result
from .html import badge, element, headings, paragraph, region, term

_COLUMNS = ("Severity", "Component", "Path", "Value", "Shape", "Messages and details")
_PIECE = 200  # rows of a piece


def _pieces_of(results: Iterable[Result]) -> Iterator[list[tuple[str, list[Result]]]]:
    """The results by focus node, cut into pieces: lists of pairs of a focus node and results of it."""
    piece: list[tuple[str, list[Result]]] = []
    room = _PIECE
    for focus, group in by_focus(results).items():
        while group:
            piece.append((focus, group[:room]))
            group, room = group[room:], room - len(group[:room])
            if not room:
                yield piece
                piece, room = [], _PIECE
    if piece:
        yield piece


class ResultsTable:
    """Writes the results of a report. `numbers` has a number for each shape, by which the filter finds it."""

    def __init__(self, names: Names, numbers: dict[str, int]) -> None:
        self.names, self.numbers = names, numbers

    def _detail(self, detail: Detail) -> str:
        words = detail.words
        facts = (("at", words.focus), ("path", words.path), ("value", words.value), ("shape", words.shape))
        said = " ".join(f"{word} {term(spelled, self.names)}" for word, spelled in facts if spelled != "-")
        return element("li", f"{badge(self.names.term(words.severity))} {detail.component} {said}")

    def _row(self, result: Result) -> str:
        words = result.words
        severity = self.names.term(words.severity)
        said = "\n".join(map(paragraph, result.spelled_messages))
        if result.details:
            said += element("ul", "\n".join(map(self._detail, result.details)), class_="details")
        terms = ("" if it == "-" else term(it, self.names) for it in (words.path, words.value, words.shape))
        cells = "".join(element("td", it) for it in (badge(severity), result.component, *terms, said))
        number = self.numbers[words.shape]
        return element("tr", cells, class_="result", data_severity=severity, data_shape=number)

    def _node(self, focus: str, results: list[Result]) -> str:
        head = element("th", term(focus, self.names), scope="rowgroup", colspan=len(_COLUMNS))
        return element("tbody", "\n".join([element("tr", head, class_="node"), *map(self._row, results)]))

    def _piece(self, groups: list[tuple[str, list[Result]]], first: int, last: int) -> str:
        """The results with these numbers, as a table of their own."""
        columns = "".join(f'<col class="{it.split()[0].lower()}">' for it in _COLUMNS)
        caption = element("caption", f"Results {first} to {last}")
        bodies = [self._node(focus, results) for focus, results in groups]
        parts = [caption, element("colgroup", columns), headings(_COLUMNS), *bodies]
        table = element("table", "\n".join(parts), class_="results")
        return element("div", table, class_="piece first" if first == 1 else "piece")

    def html(self, results: Iterable[Result]) -> str:
        """The whole table, with its heading."""
        pieces, before = [], 0
        for groups in _pieces_of(results):
            count = sum(len(group) for _, group in groups)
            pieces.append(self._piece(groups, before + 1, before + count))
            before += count
        heading = element("h3", "Results by focus node")
        return heading + region("wide", "Results by focus node", "\n".join(pieces))
