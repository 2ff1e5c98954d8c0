"""What is said to people of what is no report: answers of a script, refused lines, faults and notices."""

import re
from typing import NamedTuple

from .causes import cause
from .gathering import Gathered, Part
from .names import Names
from .plain import plain
from .refused_texts import advice, doubles
from .report import Change, Count, Fault, Grouped, Head, Loaded, Notice, Other, Refused, Slice, SliceHead
from .spelled import words_of
from .texts import Place, Text, TurtleText, excerpt

SHOWN = 1000  # results, or refused literals, that a terminal shows
_BLANK = re.compile(rb"(?:[ \t\r]+|#[^\r]*)*")
_GROUPED = {"begun": "a group is open", "queued": "waits in the group", "abandoned": "the group is given up"}


class Block(NamedTuple):
    """What is said of a part: its kind (answer, fault or notice), perhaps a first line, and lines."""

    kind: str
    head: str | None
    lines: list[str]


def many(count: int, one: str, more: str | None = None) -> str:
    """A number of things."""
    return f"{count} {one if count == 1 else more or one + 's'}"


def summary(report: Gathered, counts: list[tuple[str, int]]) -> str:
    """How many results there are, at how many nodes, and of which severities."""
    if report.report.conforms:
        return "the data conforms: no results"
    kinds = ", ".join(f"{count} {severity}" for severity, count in counts)
    return f"{many(report.tally.total, 'result')} at {many(report.tally.nodes, 'node')}: {kinds}"


class Texts(NamedTuple):
    """The files of the run, as far as there are any, and the names that they give."""

    shapes: TurtleText | None = None
    data: tuple[TurtleText, ...] = ()
    script: Text | None = None

    def role(self, role: str) -> tuple[Text, ...]:
        """The texts of a role."""
        if role == "data":
            return self.data
        text = {"shapes": self.shapes, "script": self.script}.get(role)
        return (text,) if text else ()

    def name(self, role: str) -> str:
        """The names of the files of a role, or the role."""
        return ", ".join(plain(text.name) for text in self.role(role)) or role

    def turtle(self, role: str) -> tuple[TurtleText, ...]:
        """The texts of a role that are Turtle."""
        return tuple(text for text in self.role(role) if isinstance(text, TurtleText))

    def lines_answered(self) -> "LinesAnswered":
        """What tells, part by part, which lines of the script were answered."""
        return LinesAnswered(self.script)

    def command(self, number: int | None) -> str | None:
        """A line of the script, with its place."""
        line = self.script.line(number) if number and self.script else None
        if line is None:
            return None
        said = plain(line.decode("utf-8", "replace").strip().replace("\t", " "))
        return f"{self.name('script')}:{number}: {said}"

    def place_of_fault(self, fault: Fault) -> Place | None:
        """Where a fault stands: at its byte, or at its shape."""
        for text in self.role(fault.role):
            place = text.place_of_byte(fault.at) if fault.at is not None else None
            if fault.shape and isinstance(text, TurtleText):
                place = text.place_of_node(str(fault.shape))
            if place:
                return place
        return None


class LinesAnswered:
    """Which line of the script each part answers, where it is asked for all of them in their order."""

    def __init__(self, script: Text | None) -> None:
        self._script, self._last, self._is_first = script, 0, True

    def __call__(self, part: Part | Head | SliceHead) -> int | None:
        """The number of the line, or None where it answers none."""
        if isinstance(part, (Gathered, Head)) and self._is_first:
            self._is_first = False
            return None
        if isinstance(part, Refused):
            self._last = part.line
        elif self._script and not isinstance(part, (Fault, Notice, Other)):
            self._last = self._next(self._script)
        else:
            return None
        return self._last

    def _next(self, script: Text) -> int:
        """The number of the next line that is answered."""
        number = self._last + 1
        while (line := script.line(number)) is not None and _BLANK.fullmatch(line):
            number += 1
        return number


def fault_block(fault: Fault, texts: Texts, names: Names) -> Block:
    """A text that is refused: the place, why, and the line with a mark; or the shape and what it has."""
    place = texts.place_of_fault(fault)
    where = str(place) if place else texts.name(fault.role)
    if fault.at is not None and not place:
        where += f": byte {fault.at}"
    lines = excerpt(place) if place else []
    for word, term in (("shape", fault.shape), ("predicate", fault.predicate), ("term", fault.term)):
        if term:
            lines.append(f"{word:9}  {names.term(str(term))}")
    for text in texts.role(fault.role):
        lines += advice(fault, text)
    if fault.name == "FloatLiteral":
        lines += _all_doubles(texts.turtle(fault.role))
    return Block("fault", f"{where}: {fault.name}: {cause(fault.name)}", lines)


def _all_doubles(texts: tuple[TurtleText, ...]) -> list[str]:
    """The literals that are refused, where there is more than one."""
    found = [double for text in texts for double in doubles(text)]
    if len(found) < 2:
        return []
    shown = [f"  {it.place}  {plain(it.said)}" for it in found[:SHOWN]]
    left = len(found) - len(shown)
    more = [f"  and {left} more; --format lines tells all"] if left else []
    return [f"{len(found)} literals of the text are refused for this:", *shown, *more]


def refused_block(refused: Refused, texts: Texts) -> Block:
    """A line that is refused: the place, why, and the line, with a mark where the place is a column."""
    script = texts.script
    place = script.place_in_line(refused.line, refused.at or 0) if script else None
    where = f"{texts.name('script')}:{refused.line}"
    if refused.at is not None:
        where = str(place) if place else f"{where}: byte {refused.at}"
    lines = excerpt(place)[: 1 if refused.at is None else 2] if place else []
    return Block("fault", f"{where}: {refused.name}: {cause(refused.name)}", lines)


def _answer_lines(part: Change | Loaded | Grouped | Count | Slice, names: Names) -> list[str]:
    match part:
        case Change(changed, evaluated):
            said = "changed" if changed else "unchanged"
            return [f"{said}, {many(evaluated, 'pair')} evaluated"]
        case Loaded(evaluated):
            return [f"other shapes, {many(evaluated, 'pair')} evaluated"]
        case Grouped(said):
            return [_GROUPED[said]]
        case Count(triples, pairs, results):
            return [", ".join((many(triples, "triple"), many(pairs, "pair"), many(results, "result")))]
        case Slice():
            lines = [f"{many(len(part.stated), 'triple')} that the results rest on"]
            for stated in part.stated:
                subject, verb, term = words_of(stated.spelled)
                lines.append("  " + names.triple((subject, verb, term)))
            return lines


def block_of(part: Part, number: int | None, texts: Texts, names: Names) -> Block:
    """What is said of a part that is no report, and answers this line of the script."""
    match part:
        case Fault():
            return fault_block(part, texts, names)
        case Refused():
            return refused_block(part, texts)
        case Notice(said):
            return Block("notice", f"notice: {plain(said)}", [])
        case Other(line):
            return Block("notice", plain(line), [])
        case Gathered():
            raise TypeError("a report is shown as one")
    return Block("answer", texts.command(number), _answer_lines(part, names))
