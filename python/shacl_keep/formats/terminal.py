"""Reports and answers as lines for a terminal."""

import os
from collections.abc import Iterable, Iterator
from typing import TextIO

from ..gathering import Gathered, Part, by_focus, ordered
from ..names import Names, message
from ..report import SEVERITIES, Detail, Result
from ..sayings import Block, Texts, block_of, summary

_COLOURS = {
    "Violation": "31;1",
    "Warning": "33;1",
    "Info": "36;1",
    "node": "1",
    "fault": "31",
    "faint": "2",
    "conforms": "32;1",
}


def wants_colour(stream: TextIO) -> bool:
    """Whether what is written to a stream is to have colours."""
    return stream.isatty() and not os.environ.get("NO_COLOR") and os.environ.get("TERM") != "dumb"


class Terminal:
    """Writes parts as lines."""

    def __init__(self, texts: Texts, names: Names, is_coloured: bool = False) -> None:
        self.texts, self.names, self.is_coloured = texts, names, is_coloured

    def _paint(self, kind: str, text: str) -> str:
        colour = _COLOURS.get(kind)
        return f"\033[{colour}m{text}\033[0m" if self.is_coloured and colour else text

    def _severity(self, spelled: str, width: int) -> str:
        name = self.names.term(spelled)
        return self._paint(spelled, name) + " " * (width - len(name))

    def _facts(self, result: Detail, with_node: bool = False) -> str:
        """What a result says of its shape and its nodes, each behind its word."""
        words = result.words
        facts = (
            ("node", words.focus if with_node else "-"),
            ("path", words.path),
            ("value", words.value),
            ("shape", words.shape),
        )
        return "  ".join(
            f"{self._paint('faint', word)} {self.names.term(said)}" for word, said in facts if said != "-"
        )

    def _result_lines(self, result: Result, widths: tuple[int, int]) -> Iterator[str]:
        severity, component = widths
        said = self._severity(result.words.severity, severity)
        yield f"  {said}  {result.component:{component}}  {self._facts(result)}"
        indent = " " * (severity + 4)
        for spelled in result.spelled_messages:
            lines, tag = message(spelled)
            lines[-1] += self._paint("faint", f"  ({tag})") if tag else ""
            yield from (indent + line for line in lines)
        for detail in result.details:
            said = self._severity(detail.words.severity, 0)
            facts = self._facts(detail, with_node=True)
            yield f"{indent}{self._paint('faint', 'detail')}  {said}  {detail.component}  {facts}"

    def _node_lines(self, focus: str, results: list[Result], width: int) -> Iterator[str]:
        """A focus node and its results."""
        yield self._paint("node", self.names.term(focus))
        component = max(len(result.component) for result in results)
        for result in results:
            yield from self._result_lines(result, (width, component))

    def _count_lines(self, report: Gathered) -> Iterator[str]:
        """The counts by severity and by shape."""
        tally = report.tally
        counts = [(self.names.term(it), count) for it, count in ordered(tally.severities, SEVERITIES)]
        kind = "conforms" if report.report.conforms else "node"
        yield self._paint(kind, summary(report, counts))
        by_shape = ordered(tally.shapes)
        width = len(str(by_shape[0][1])) if by_shape else 0
        for shape, count in by_shape:
            yield f"  {count:{width}}  {self.names.term(shape)}"

    def _report_lines(self, report: Gathered) -> Iterator[str]:
        width = max((len(self.names.term(it.words.severity)) for it in report.results), default=0)
        for focus, results in by_focus(report.results).items():
            yield from self._node_lines(focus, results, width)
            yield ""
        if report.left:
            yield f"{report.left} more results are not shown; --format csv or json writes all"
        yield from self._count_lines(report)

    def _block_lines(self, block: Block) -> Iterator[str]:
        if block.head:
            yield self._paint(block.kind, block.head)
        yield from (("    " if block.head else "") + line for line in block.lines)

    def _report_head(self, number: int | None, count: int) -> list[str]:
        """What stands before a report that is not the first."""
        return [self.texts.command(number) or f"report {count}"] if count > 1 else []

    def lines(self, parts: Iterable[Part], with_results: bool = True) -> Iterator[str]:
        """The lines of all parts in their order. A report stands between empty lines."""
        reports, before = 0, None
        line_of = self.texts.lines_answered()
        for part in parts:
            number = line_of(part)
            if before is not None and isinstance(part, Gathered) | isinstance(before, Gathered):
                yield ""
            if isinstance(part, Gathered):
                reports += 1
                yield from self._report_head(number, reports)
                yield from self._report_lines(part) if with_results else self._count_lines(part)
            else:
                yield from self._block_lines(block_of(part, number, self.texts, self.names))
            before = part
