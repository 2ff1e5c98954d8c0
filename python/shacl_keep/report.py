"""Reports, answers and faults in lines, as shacl_keep writes them: plain frozen data, and the one reader.

`stream` gives what lines say as they come, so that a report of any length is read in little memory;
`parts_of` gathers whole reports and slices. A result keeps its line, and reads its terms when they are asked
for."""

import codecs
import re
from collections import Counter
from collections.abc import Callable, Iterable, Iterator
from dataclasses import dataclass
from typing import NamedTuple, TypeAlias

from .paths import Path, read_path
from .spelled import IRI, LITERAL, NODE, TERM, Iri, Literal, Node, Term, Triple
from .spelled import read_literal, read_node, read_term, words_of

SH = "http://www.w3.org/ns/shacl#"
SEVERITIES = ("Violation", "Warning", "Info")


class Words(NamedTuple):
    """The words of a result, as they are spelled. Where there is no path, or no value, the word is `-`."""

    component: str
    severity: str
    shape: str
    focus: str
    path: str
    value: str


@dataclass(frozen=True, slots=True)
class Detail:
    """A result that stands behind another one, of sh:node, and says what that rests on."""

    spelled: str  # its six words, parted by spaces

    @property
    def words(self) -> Words:
        """All its words at once, which costs less than its terms one by one."""
        return Words(*words_of(self.spelled))

    @property
    def component(self) -> str:
        """The name of its constraint component, as `MinCount`."""
        return self.spelled.split(" ", 1)[0]

    @property
    def severity(self) -> Iri:
        """sh:Violation, sh:Warning, sh:Info, or what the shape has for sh:severity."""
        said = self.spelled.split(" ", 2)[1]
        return Iri(SH + said) if said in SEVERITIES else Iri(said[1:-1])

    @property
    def shape(self) -> Node:
        """The source shape."""
        return read_node(self.spelled.split(" ", 3)[2])

    @property
    def focus(self) -> Term:
        """The focus node."""
        return read_term(self.words.focus)

    @property
    def path(self) -> Path | None:
        """The path of the source shape, or None where that is a node shape."""
        said = self.words.path
        return None if said == "-" else read_path(said)

    @property
    def value(self) -> Term | None:
        """The value node at fault, or None where there is no single one."""
        said = self.words.value
        return None if said == "-" else read_term(said)


@dataclass(frozen=True, slots=True)
class Result(Detail):
    """A result of a report, with the messages of its source shape as they are spelled, and its details."""

    spelled_messages: tuple[str, ...] = ()
    details: tuple[Detail, ...] = ()

    @property
    def messages(self) -> tuple[Literal, ...]:
        """The values of sh:message at the source shape."""
        return tuple(map(read_literal, self.spelled_messages))

    @property
    def lines(self) -> Iterator[str]:
        """Its lines, as the program wrote them."""
        yield f"result {self.spelled}"
        yield from (f"message {said}" for said in self.spelled_messages)
        yield from (f"detail {detail.spelled}" for detail in self.details)


@dataclass(frozen=True, slots=True)
class Head:
    """The first line of a report: whether the data conforms, and how many results the report tells of."""

    conforms: bool
    told: int

    def __str__(self) -> str:
        return f"report conforms={str(self.conforms).lower()} results={self.told}"


@dataclass(frozen=True, slots=True)
class Report:
    """A report. Where it is cut off it has fewer results than its head tells of."""

    head: Head
    results: tuple[Result, ...]

    @property
    def conforms(self) -> bool:
        return self.head.conforms

    @property
    def is_whole(self) -> bool:
        return self.head.told == len(self.results)

    @property
    def lines(self) -> Iterator[str]:
        """Its lines, as the program wrote them."""
        yield str(self.head)
        for result in self.results:
            yield from result.lines


@dataclass(frozen=True, slots=True)
class Change:
    """The answer to an edit, to the end of a group, to undo and to redo: whether the graph was changed, and
    how many pairs of a shape and a focus node were evaluated for it."""

    changed: bool
    evaluated: int


@dataclass(frozen=True, slots=True)
class Loaded:
    """Other shapes are in force, and so many pairs were evaluated for it."""

    evaluated: int


@dataclass(frozen=True, slots=True)
class Grouped:
    """What came of a line about a group: it has `begun`, the edit is `queued`, or all is `abandoned`."""

    said: str


@dataclass(frozen=True, slots=True)
class Count:
    """How many triples the data has, how many pairs of a shape and a focus node, and how many results."""

    triples: int
    pairs: int
    results: int


@dataclass(frozen=True, slots=True)
class SliceHead:
    """The first line of a slice: how many triples stand behind it."""

    told: int


@dataclass(frozen=True, slots=True)
class Stated:
    """A triple of a slice."""

    spelled: str  # its three words, parted by spaces

    @property
    def triple(self) -> Triple:
        subject, predicate, value = words_of(self.spelled)
        return read_node(subject), Iri(predicate[1:-1]), read_term(value)


@dataclass(frozen=True, slots=True)
class Slice:
    """The triples on which the results of a pair rest. Where it is cut off it has fewer than it tells of."""

    told: int
    stated: tuple[Stated, ...]

    @property
    def triples(self) -> tuple[Triple, ...]:
        return tuple(one.triple for one in self.stated)

    @property
    def is_whole(self) -> bool:
        return self.told == len(self.stated)


@dataclass(frozen=True, slots=True)
class Fault:
    """Why a text is refused. `role` is shapes, data or script; `at` counts bytes from 0, where the fault has
    a place; faults of shapes name the shape, and perhaps a predicate and a term."""

    role: str
    code: int
    name: str
    at: int | None = None
    shape: Node | None = None
    predicate: Iri | None = None
    term: Term | None = None


@dataclass(frozen=True, slots=True)
class Refused:
    """Why a line of a script is refused. `line` is its number from 1; `at` counts bytes of it from 0."""

    line: int
    code: int
    name: str
    at: int | None = None


@dataclass(frozen=True, slots=True)
class Notice:
    """What the program tells beside its answers."""

    said: str


@dataclass(frozen=True, slots=True)
class Other:
    """A line of none of the forms that the program writes."""

    line: str


Answer: TypeAlias = Change | Loaded | Grouped | Count | Fault | Refused | Notice | Other
Event: TypeAlias = Head | Result | SliceHead | Stated | Answer
Part: TypeAlias = Report | Slice | Answer

# ---- the reader

_OUTCOME = rf"\w+ (?:\w+|{IRI}) {NODE} {TERM} [^ ]+ (?:-|{TERM})"
_RESULT = re.compile(_OUTCOME)
_HEAD = re.compile(r"report conforms=(true|false) results=(\d+)")
_MESSAGE = re.compile(LITERAL)
_TRIPLE = re.compile(rf"{NODE} {IRI} {TERM}")
_OK = re.compile(r"ok (?:(changed|unchanged|shapes) evaluated (\d+)|(begun|queued|abandoned))")
_COUNT = re.compile(r"count triples=(\d+) pairs=(\d+) results=(\d+)")
_REFUSED = re.compile(r"refused line (\d+): (\d+) (\w+)(?: at (\d+))?")
_SLICE = re.compile(r"slice triples=(\d+)")
_FAULT = re.compile(
    rf"fault (\w+): (\d+) (\w+)(?: at (\d+))?(?: shape ({NODE}))?(?: predicate ({IRI}) term ({TERM}))?"
)
_NOTICE = re.compile(r"notice: (.*)", re.DOTALL)


def _number(digits: str | None) -> int | None:
    return None if digits is None else int(digits)


def _ok(found: re.Match[str]) -> Answer:
    said, evaluated, grouped = found.groups()
    if grouped:
        return Grouped(grouped)
    return Loaded(int(evaluated)) if said == "shapes" else Change(said == "changed", int(evaluated))


def _fault(found: re.Match[str]) -> Fault:
    role, code, name, at, shape, predicate, term = found.groups()
    return Fault(
        role,
        int(code),
        name,
        _number(at),
        read_node(shape) if shape else None,
        Iri(predicate[1:-1]) if predicate else None,
        read_term(term) if term else None,
    )


# What a line is, by its first word.
_Made: TypeAlias = Callable[[re.Match[str]], Head | SliceHead | Answer]
_ANSWERS: dict[str, tuple[re.Pattern[str], _Made]] = {
    "report": (_HEAD, lambda found: Head(found[1] == "true", int(found[2]))),
    "ok": (_OK, _ok),
    "count": (_COUNT, lambda found: Count(*map(int, found.groups()))),
    "refused": (_REFUSED, lambda found: Refused(int(found[1]), int(found[2]), found[3], _number(found[4]))),
    "slice": (_SLICE, lambda found: SliceHead(int(found[1]))),
    "fault": (_FAULT, _fault),
    "notice:": (_NOTICE, lambda found: Notice(found[1])),
}
_NONE = (re.compile(r"(?!)"), lambda found: Other(found[0]))


def answer_of(line: str) -> Head | SliceHead | Answer:
    """What a line says that is one by itself, or begins a report or a slice."""
    pattern, made = _ANSWERS.get(line.split(" ", 1)[0], _NONE)
    found = pattern.fullmatch(line)
    return made(found) if found else Other(line)


class Lines:
    """The lines of what comes in pieces of bytes. Only a line feed ends a line. What stands behind the last
    one is no whole line: when all was read it is in `tail`."""

    def __init__(self, pieces: Iterable[bytes]) -> None:
        self.tail = ""
        self._pieces = pieces

    def __iter__(self) -> Iterator[str]:
        decode = codecs.getincrementaldecoder("utf-8")("replace").decode
        tail = ""
        for piece in self._pieces:
            *lines, rest = decode(piece).split("\n")
            if lines:
                yield tail + lines[0]
                yield from lines[1:]
                tail = rest
            else:
                tail += rest
        self.tail = tail + decode(b"", True)


def stream(lines: Iterable[str]) -> Iterator[Event]:
    """What lines say, as they come: the head of a report, and behind it its results, each when the line
    behind its messages and details was read; the head of a slice, and behind it its triples; all answers and
    faults. A line of no form of the program's is an Other."""
    begun = ""  # the first word of what goes on
    spelled, messages, details = "", list[str](), list[Detail]()  # of the result that goes on, if one does
    for line in lines:
        word, _, rest = line.partition(" ")
        if spelled and word == "message" and _MESSAGE.fullmatch(rest):
            messages.append(rest)
        elif spelled and word == "detail" and _RESULT.fullmatch(rest):
            details.append(Detail(rest))
        else:
            if spelled:
                yield Result(spelled, tuple(messages), tuple(details))
                spelled = ""
            if begun == "report" and word == "result" and _RESULT.fullmatch(rest):
                spelled, messages, details = rest, [], []
            elif begun == "slice" and word == "triple" and _TRIPLE.fullmatch(rest):
                yield Stated(rest)
            else:
                begun = word
                yield answer_of(line)
    if spelled:
        yield Result(spelled, tuple(messages), tuple(details))


def parts_of(lines: Iterable[str]) -> Iterator[Part]:
    """The same with each report and each slice as a whole, which is kept in memory until it is read."""
    begun: Head | SliceHead | None = None
    results: list[Result] = []
    stated: list[Stated] = []

    def gathered() -> Iterator[Part]:
        if isinstance(begun, Head):
            yield Report(begun, tuple(results))
        elif begun:
            yield Slice(begun.told, tuple(stated))
        results.clear()
        stated.clear()

    for event in stream(lines):
        if isinstance(event, Result):
            results.append(event)
        elif isinstance(event, Stated):
            stated.append(event)
        else:
            yield from gathered()
            begun = event if isinstance(event, (Head, SliceHead)) else None
            if not isinstance(event, (Head, SliceHead)):
                yield event
    yield from gathered()


# ---- two reports


class Difference(NamedTuple):
    """The results that came and those that went between two reports, each as often as it did."""

    came: tuple[Result, ...]
    went: tuple[Result, ...]


def difference(before: Report, after: Report) -> Difference:
    """What differs from one report to another, in the order of the reports. Time and memory are those of
    reading both once."""
    came, went = Counter(after.results), Counter(before.results)
    came, went = came - went, went - came
    return Difference(tuple(came.elements()), tuple(went.elements()))
