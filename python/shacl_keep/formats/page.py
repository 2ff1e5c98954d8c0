"""Reports and answers as one page of HTML that needs nothing else: style and script stand in it. Without
scripts its tables are read as they are; with them a filter hides rows, and headings sort them."""

import base64
import hashlib
import os
from collections import Counter
from collections.abc import Iterator, Sequence
from html import escape
from importlib.resources import files

from ..gathering import Gathered, Part, ordered, reports_of
from ..names import Names
from ..plain import plain
from ..report import SEVERITIES
from ..sayings import Block, Texts, block_of, many, summary
from .html import badge, element, headings, region, term
from .results_table import ResultsTable


def _own_file(name: str) -> str:
    return files(__package__).joinpath(name).read_text("utf-8")


class Page:
    """The page of these parts. `rest` is the name of the file that has the results which the page leaves
    out, where it leaves any out."""

    def __init__(
        self,
        parts: Sequence[Part],
        texts: Texts,
        names: Names,
        notices: Sequence[str],
        rest: str | None = None,
    ) -> None:
        self.parts, self.texts, self.names, self.notices, self.rest = parts, texts, names, notices, rest
        results = [result.words for report in reports_of(parts) for result in report.results]
        severities = Counter(names.term(it.severity) for it in results)
        self.severities = [it for it, _ in ordered(severities, SEVERITIES)]
        self.shapes = [it for it, _ in ordered(Counter(it.shape for it in results))]
        self.table = ResultsTable(names, {shape: number for number, shape in enumerate(self.shapes)})

    # ---- the bars

    def _bar(self, shape: str, severity: str, share: float, count: int) -> str:
        kind = severity if severity in SEVERITIES else "Other"
        bar = element("div", "", class_=f"bar {kind}", style=f"width:{100 * share:.1f}%")
        cells = (
            element("th", term(shape, self.names), scope="row"),
            element("td", str(count), class_="number"),
            element("td", bar, class_="drawn", aria_hidden="true"),
        )
        return element("tr", "".join(cells))

    def _bars(self, report: Gathered) -> str:
        """How many results each shape has, drawn in the colour of its severity."""
        counts = ordered(report.tally.shapes)
        rows = [
            self._bar(shape, report.tally.severity_of[shape], count / counts[0][1], count)
            for shape, count in counts
        ]
        head = headings(("Shape", "Results"), element("td", "", aria_hidden="true"))
        table = element("table", "\n".join([head, element("tbody", "\n".join(rows))]), class_="bars")
        return element("h3", "Results by shape") + region("some", "Results by shape", table)

    # ---- the parts of the page

    def _left_out(self, report: Gathered) -> str:
        said = f"{many(report.left, 'more result')} of this report: not on this page"
        said += f", but in {plain(self.rest)}" if self.rest else ""
        return element("p", escape(said), class_="block notice", role="note")

    def _report(self, report: Gathered, command: str | None, name: str) -> str:
        counts = [(self.names.term(it), count) for it, count in ordered(report.tally.severities, SEVERITIES)]
        kind = "conforms" if report.report.conforms else None
        inner = [element("h2", escape(summary(report, counts)), id=name, class_=kind)]
        if command:
            inner.append(element("p", element("code", escape(command))))
        if report.results:
            inner.append(self._bars(report))
        if report.left:
            inner.append(self._left_out(report))
        if report.results:
            inner.append(self.table.html(report.results))
        return element("section", "\n".join(inner), aria_labelledby=name)

    def _block(self, block: Block) -> str:
        head = element("p", escape(block.head), class_="head") if block.head else ""
        lines = element("pre", escape("\n".join(block.lines))) if block.lines else ""
        return element("div", head + lines, class_=f"block {block.kind}")

    def _sections(self) -> Iterator[str]:
        """All parts in their order."""
        reports = 0
        line_of = self.texts.lines_answered()
        for part in self.parts:
            number = line_of(part)
            if isinstance(part, Gathered):
                reports += 1
                command = self.texts.command(number) if reports > 1 else None
                yield self._report(part, command, f"report-{reports}")
            else:
                yield self._block(block_of(part, number, self.texts, self.names))

    def _filter(self) -> str:
        """What the rows are filtered by. It needs the script, which shows it."""
        box = '<input type="checkbox" name="severity" value="{}" checked> '
        boxes = "\n".join(element("label", box.format(escape(it)) + badge(it)) for it in self.severities)
        shapes = (
            element("option", escape(self.names.term(shape)), value=number)
            for number, shape in enumerate(self.shapes)
        )
        options = "\n".join(['<option value="">all shapes</option>', *shapes])
        search = '<input type="search" id="text" autocomplete="off" spellcheck="false">'
        inner = [
            element("h2", "Filter", id="filter-title"),
            element("fieldset", element("legend", "Severity") + boxes),
            element("p", element("label", "Shape", for_="shape") + element("select", options, id="shape")),
            element("p", element("label", "Text", for_="text") + search),
            element("p", '<button type="reset">Show all again</button>'),
            element("p", "", id="told", role="status", aria_live="polite"),
        ]
        return '<form id="filter" aria-labelledby="filter-title" hidden>' + "\n".join(inner) + "</form>"

    def _prefixes(self) -> str:
        pairs = self.names.prefixes.items()
        if not pairs:
            return ""
        rows = "\n".join(
            element(name, element("code", escape(plain(said))))
            for pair in pairs
            for name, said in zip(("dt", "dd"), pair)
        )
        return element("details", element("summary", "Prefixes") + element("dl", rows))

    def _head(self) -> str:
        """The heading: what was validated, and what is to be known beside it."""
        inner = [element("h1", "SHACL report")]
        roles = [
            f"{role} {element('code', escape(plain(text.name)))}"
            for role in ("shapes", "data", "script")
            for text in self.texts.role(role)
        ]
        if roles:
            inner.append(element("p", ", ".join(roles)))
        reports = reports_of(self.parts)
        if len(reports) > 1:
            inner.append(element("p", many(len(reports), "report")))
        inner += [element("p", escape(it), class_="block notice", role="note") for it in self.notices]
        return element("header", "\n".join(inner))

    def _title(self) -> str:
        data = [plain(os.path.basename(text.name)) for text in self.texts.data]
        return "SHACL report" + (f" of {', '.join(data)}" if data else "")

    def _body(self, script: str) -> str:
        main = "\n".join(self._sections())
        if self.shapes:
            note = element("noscript", element("p", "The filter needs scripts. All results stand below."))
            main = "\n".join([self._filter(), note, main])
        parts = [self._head(), element("main", main), element("footer", self._prefixes())]
        return "\n".join([*parts, f"<script>{script}</script>"])

    def html(self) -> str:
        """The whole page. It forbids itself to load anything, and to run any script but its own."""
        script = _own_file("page.js")
        known = base64.b64encode(hashlib.sha256(script.encode()).digest()).decode()
        policy = f"default-src 'none'; style-src 'unsafe-inline'; script-src 'sha256-{known}'"
        lines = [
            "<!DOCTYPE html>",
            '<html lang="en">',
            "<head>",
            '<meta charset="utf-8">',
            f'<meta http-equiv="Content-Security-Policy" content="{policy}">',
            '<meta name="viewport" content="width=device-width, initial-scale=1">',
            element("title", escape(self._title())),
            f"<style>\n{_own_file('page.css')}</style>",
            "</head>",
            f"<body>\n{self._body(script)}\n</body>",
            "</html>",
            "",
        ]
        return "\n".join(lines)
