"""shacl_show: runs the program and shows its report, or shows a report in lines that is piped in."""

import argparse
import functools
import os
import sys
from collections.abc import Callable, Iterable, Iterator, Sequence
from typing import NoReturn

from .. import documents, running
from ..errors import KeepError, TextRefused
from ..formats import csv, github, json, junit, lines, sarif
from ..formats.page import Page
from ..formats.severities import LEVELS, fails
from ..formats.terminal import Terminal, wants_colour
from ..gathering import Gathered, Part, are_cut, gathered, reports_of, was_evaluated
from ..names import Names
from ..plain import plain
from ..report import Change, Count, Fault, Loaded, Refused
from ..sayings import SHOWN, Texts
from ..shown import Shown
from ..texts import Text, TurtleText
from ..triples import DATA, SHAPES, joined_scope
from ..version import version

_ON_A_PAGE = 10_000  # results of a report that a page has
_FORMATS = ("text", "html", "json", "csv", "sarif", "junit", "github", "lines")
_ABOUT = """\
Runs shacl_keep over shapes and data in Turtle, and a script of edits where there is one, and shows its
report: results by focus node, and how many there are of each severity and shape. IRIs are written by the
prefixes of the texts; faults, refused lines and blank nodes without labels have their places,
FILE:LINE:COLUMN. Without files it reads a report in lines from its standard input, and writes IRIs in full. A
run is shown when it has ended."""
_STATUS = """\
Behind -- each word is a file. The status is that of shacl_keep: 0 where the data conforms, 1 where it does
not, 2 for words that cannot be read, 3 for a text that is refused, 4, 5 and 6 for an input, an output or
memory that failed, 7 for a refused line of the script. Of a report that is piped in it is 0, 1, 3 for a
fault, or 7. Colours are left out where NO_COLOR is set. SHACL_KEEP names another program than the one of this
package. docs/FORMATS.md has the formats."""


class NotWritten(Exception):
    """Why what is shown could not be written, and where to."""

    def __init__(self, name: str, why: str) -> None:
        super().__init__(f"{name}: {why}")


def _say(*sentences: object) -> None:
    for said in sentences:
        print(f"shacl_show: {said}", file=sys.stderr)


# ---- the words


def _parser() -> argparse.ArgumentParser:
    parser = argparse.ArgumentParser(
        prog="shacl_show",
        usage="shacl_show [OPTION]... [--] SHAPES DATA [SCRIPT]\n"
        "       shacl_keep SHAPES DATA [SCRIPT] | shacl_show [OPTION]...",
        description=_ABOUT,
        epilog=_STATUS,
        allow_abbrev=False,
        formatter_class=argparse.RawDescriptionHelpFormatter,
    )
    parser.add_argument("files", nargs="*", metavar="FILE", help=argparse.SUPPRESS)
    parser.add_argument(
        "--data",
        action="append",
        default=[],
        metavar="FILE",
        help="another data file; each is a document of its own, with its base, its prefixes and its labels",
    )
    parser.add_argument("--format", choices=_FORMATS, default="text", help="how the report is written")
    parser.add_argument("--output", metavar="FILE", help="writes it to FILE")
    parser.add_argument(
        "--html",
        metavar="FILE",
        help="writes the report to FILE besides, as a page; the terminal gets the counts alone then",
    )
    parser.add_argument(
        "--fail-on",
        choices=(*LEVELS, "never"),
        help="of the statuses 0 and 1, gives 1 where the last report has a result as bad as this",
    )
    parser.add_argument(
        "--base",
        metavar="IRI",
        help="the IRI over which references are resolved, passed on to shacl_keep (file:///)",
    )
    parser.add_argument("--version", action="version", version=f"shacl_show {version()}")
    return parser


class _Asked(argparse.Namespace):
    """What the words ask for."""

    files: list[str]
    data: list[str]
    format: str
    output: str | None
    html: str | None
    fail_on: str | None
    base: str
    has_base: bool

    @property
    def shapes(self) -> str:
        return self.files[0]

    @property
    def data_files(self) -> list[str]:
        return [*self.files[1:2], *self.data]

    @property
    def script(self) -> str | None:
        return self.files[2] if len(self.files) == 3 else None


def _asked(words: Sequence[str]) -> _Asked:
    """What the words ask for; ends the process with 2 where they cannot be read."""
    parser = _parser()
    asked = _Asked()
    parser.parse_intermixed_args(words, asked)
    asked.has_base = asked.base is not None
    asked.base = asked.base or "file:///"
    if "" in (asked.html, asked.output):
        parser.error("a file to be written has an empty name")
    if not asked.files and asked.data:
        parser.error("there is data, and there are no shapes")
    if not asked.files and sys.stdin.isatty():
        parser.error("there are no files, and nothing is piped in")
    if len(asked.files) > 3 or asked.files and not asked.data_files:
        parser.error("the words should be SHAPES DATA, and perhaps SCRIPT")
    return asked


# ---- what is written


def _write(pieces: Iterable[str], name: str | None) -> None:
    """Writes to a file, or else to the standard output, unless whoever reads that has enough."""
    try:
        if name:
            with open(name, "w", encoding="utf-8", errors="backslashreplace", newline="") as file:
                file.writelines(pieces)
            return
        for piece in pieces:
            sys.stdout.buffer.write(piece.encode("utf-8", "backslashreplace"))
        sys.stdout.buffer.flush()
    except OSError as error:
        if name:
            raise NotWritten(plain(name), error.strerror or str(error)) from error
        # What is left is not tried once more when Python ends.
        os.dup2(os.open(os.devnull, os.O_WRONLY), sys.stdout.fileno())
        if not isinstance(error, BrokenPipeError):
            raise NotWritten("the output could not be written", error.strerror or str(error)) from error


def _text(shown: Shown, asked: _Asked) -> Iterator[str]:
    terminal = Terminal(shown.texts, shown.names, not asked.output and wants_colour(sys.stdout))
    return (f"{line}\n" for line in terminal.lines(shown.parts, with_results=not asked.html))


def _page(shown: Shown, name: str | None) -> None:
    """Writes the page, and beside it what it leaves out."""
    parts = gathered(shown.written.lines(), _ON_A_PAGE)
    rest = None
    if name and any(report.left for report in reports_of(parts)):
        rest = f"{os.path.splitext(name)[0]}.rest.csv"
        _write(csv.pieces(shown, _ON_A_PAGE), rest)
    notices = [*shown.warnings, *([shown.failure] if shown.failure else [])]
    page = Page(parts, shown.texts, shown.names, notices, rest and os.path.basename(rest))
    _write([page.html()], name)


def _pieces(shown: Shown, asked: _Asked) -> Iterator[str]:
    """What is written in the format that is asked for, but for pages."""
    match asked.format:
        case "json":
            return json.pieces(shown)
        case "csv":
            return csv.pieces(shown)
        case "sarif":
            return sarif.pieces(shown, version())
        case "junit":
            return junit.pieces(shown, asked.fail_on or LEVELS[-1])
        case "github":
            return github.pieces(shown)
        case "lines":
            return lines.pieces(shown)
    return _text(shown, asked)


def _show(shown: Shown, asked: _Asked) -> None:
    """Writes all that is asked for, and says what is to be known beside it."""
    if asked.format == "html":
        _page(shown, asked.output)
    else:
        _write(_pieces(shown, asked), asked.output)
    _say(*(f"warning: {said}" for said in shown.warnings))
    if shown.failure:
        _say(shown.failure)
    if asked.html:
        _page(shown, asked.html)


# ---- the runs


def _piped_status(parts: list[Part]) -> int:
    """The status of the run that wrote them, as far as they tell it: by a fault, with which a run ends, by a
    refused line, or by the last report or count of results. Where they tell none of these it is 2."""
    for kind, status in ((Fault, 3), (Refused, 7)):
        if any(isinstance(part, kind) for part in parts):
            return status
    for part in reversed(parts):
        if isinstance(part, Gathered):
            return int(not part.report.conforms)
        if isinstance(part, Count):
            return int(part.results != 0)
    return 2


def _status(shown: Shown, threshold: str | None) -> int:
    """The status by the results of the last report. Where the graph is another one behind that, of which only
    the program's status is known, each result counts."""
    if shown.status not in (0, 1) or threshold is None:
        return shown.status
    if threshold == "never":
        return 0
    for part in reversed(shown.parts):
        match part:
            case Gathered():
                return int(any(fails(severity, threshold) for severity in part.tally.severities))
            case Change(True, _) | Loaded():
                return shown.status
    return shown.status


def _warnings(parts: list[Part], texts: Texts, pairs: Callable[[], int | None]) -> Iterator[str]:
    """What a reader of the parts should know beside them. `pairs` tells how many pairs there were at
    first."""
    yield from are_cut(parts)
    if reports_of(parts) and not was_evaluated(parts) and pairs() == 0:
        yield running.no_pairs([*texts.role("shapes"), *texts.data])


def _piped(asked: _Asked) -> int:
    written = running.piped(sys.stdin.buffer)
    parts = gathered(written.lines(), SHOWN)
    status = _piped_status(parts)
    if status == 2:
        _say("what is piped in is no report in lines")
        return 2
    has_count = any(isinstance(part, Count) for part in parts)
    warnings = list(_warnings(parts, Texts(), lambda: 0 if has_count else None))
    shown = Shown(written, parts, Texts(), Names(), status, warnings)
    _show(shown, asked)
    return _status(shown, asked.fail_on)


def _refused(asked: _Asked, refusal: TextRefused) -> int:
    """Shows the fault of one of several data texts."""
    fault, name = refusal.fault, refusal.source or asked.data_files[0]
    place = "" if fault.at is None else f" at {fault.at}"
    written = running.as_written(f"fault {fault.role}: {fault.code} {fault.name}{place}\n")
    texts = Texts(data=(TurtleText(name, DATA, asked.base),))
    _show(Shown(written, gathered(written.lines(), 0), texts, Names(data=texts.data), 3), asked)
    return 3


def _texts(asked: _Asked) -> Texts:
    """The files, with the names that blank nodes have in the report."""
    names = asked.data_files
    scopes = [DATA] if len(names) == 1 else [joined_scope(number + 1) for number in range(len(names))]
    data = tuple(TurtleText(name, scope, asked.base) for name, scope in zip(names, scopes))
    script = Text(asked.script) if asked.script else None
    return Texts(TurtleText(asked.shapes, SHAPES, asked.base), data, script)


def _run(asked: _Asked, data: str) -> int:
    """Runs the program, where the data has this name, and shows what it wrote."""
    words = ["--", asked.shapes, data, *([asked.script] if asked.script else [])]
    written, status = running.ended([*(["--base", asked.base] if asked.has_base else []), *words])
    if status == 2:
        _say("these words cannot be read; --help tells which can")
        return 2
    texts, parts = _texts(asked), gathered(written.lines(), SHOWN)
    failure = running.why_failed(status, [asked.shapes, *asked.data_files], asked.script)
    pairs = functools.partial(running.pairs_at_first, asked.shapes, data, asked.base)
    warnings = list(_warnings(parts, texts, pairs))
    status = 128 - status if status < 0 else status
    shown = Shown(written, parts, texts, Names(texts.shapes, texts.data), status, warnings, failure)
    _show(shown, asked)
    return _status(shown, asked.fail_on)


def _run_files(asked: _Asked) -> int:
    """Runs the program over one data file, or over several that are joined."""
    names = asked.data_files
    if len(names) == 1:
        return _run(asked, names[0])
    try:
        document = documents.document("data", names, asked.base)
    except TextRefused as refusal:
        return _refused(asked, refusal)
    except OSError as error:
        _say(f"{plain(str(error.filename))}: {error.strerror}")
        return 4
    with document:
        for descriptor in document.descriptors:
            os.set_inheritable(descriptor, True)
        return _run(asked, document.word)


def run(words: Sequence[str]) -> int:
    """Does what the words ask for, and gives the status."""
    asked = _asked(words)
    try:
        return _run_files(asked) if asked.files else _piped(asked)
    except KeepError as error:
        _say(error)
        return 127
    except NotWritten as error:
        _say(error)
        return 5
    except MemoryError:
        _say("memory was wanting")
        return 6
    except KeyboardInterrupt:
        return 130


def main() -> NoReturn:
    """The command."""
    sys.exit(run(sys.argv[1:]))
