"""What a run wrote, in parts, with no more results of a report in memory than are shown. All of them are
counted."""

from collections import Counter
from collections.abc import Iterable, Iterator
from dataclasses import dataclass, field
from typing import TypeAlias

from .report import Answer, Change, Count, Loaded, Report, Result, Slice, parts_of
from .spelled import words_of


@dataclass(slots=True)
class Tally:
    """How many results a report has in all, by severity and by shape, and at how many focus nodes."""

    total: int = 0
    severities: Counter[str] = field(default_factory=Counter)
    shapes: Counter[str] = field(default_factory=Counter)
    severity_of: dict[str, str] = field(default_factory=dict)
    _nodes: set[int] = field(default_factory=set)  # hashes of focus nodes, which take little memory

    def add(self, line: str) -> None:
        """Counts a line of a result."""
        words = line.split(" ", 5)
        if len(words) < 6:
            return
        _, _, severity, shape, focus, _ = words
        if focus.startswith('"'):
            focus = words_of(line)[4]
        self.total += 1
        self.severities[severity] += 1
        self.shapes[shape] += 1
        self.severity_of[shape] = severity
        self._nodes.add(hash(focus))

    @property
    def nodes(self) -> int:
        """How many focus nodes there are."""
        return len(self._nodes)


@dataclass(frozen=True, slots=True)
class Gathered:
    """A report: the first of its results, and the counts of all."""

    report: Report
    tally: Tally

    @property
    def results(self) -> tuple[Result, ...]:
        return self.report.results

    @property
    def left(self) -> int:
        """How many results are counted, and not there."""
        return self.tally.total - len(self.results)


Part: TypeAlias = Gathered | Slice | Answer


class _Thinned:
    """Lines without the results of a report that are past a limit, which are counted."""

    def __init__(self, lines: Iterable[str], limit: int) -> None:
        self.lines, self.limit = lines, limit
        self.tallies: list[Tally] = []

    def __iter__(self) -> Iterator[str]:
        tally, is_past = Tally(), False
        for line in self.lines:
            if line.startswith("result "):
                tally.add(line)
                is_past = tally.total > self.limit
            elif not line.startswith(("message ", "detail ")):
                is_past = False
                if line.startswith("report "):
                    tally = Tally()
                    self.tallies.append(tally)
            if not is_past:
                yield line


def gathered(lines: Iterable[str], limit: int) -> list[Part]:
    """The parts of what was written, in their order. Of each report at most so many results are kept."""
    thinned = _Thinned(lines, limit)
    parts: list[Part] = []
    reports = 0
    for part in parts_of(thinned):
        if isinstance(part, Report):
            parts.append(Gathered(part, thinned.tallies[reports]))
            reports += 1
        else:
            parts.append(part)
    return parts


def reports_of(parts: Iterable[Part]) -> list[Gathered]:
    """The reports among the parts."""
    return [part for part in parts if isinstance(part, Gathered)]


def was_evaluated(parts: Iterable[Part]) -> bool:
    """Whether these parts show that a pair of a shape and a node was evaluated."""
    for part in parts:
        match part:
            case Gathered(report) if report.head.told:
                return True
            case Change(_, evaluated) | Loaded(evaluated) if evaluated:
                return True
            case Count(_, pairs, _) if pairs:
                return True
    return False


def are_cut(parts: Iterable[Part]) -> Iterator[str]:
    """Of each report and slice that is not whole, what it tells of and what it has."""
    for part in parts:
        if isinstance(part, Gathered) and part.report.head.told != part.tally.total:
            yield f"the report tells of {part.report.head.told} results, and {part.tally.total} are there"
        if isinstance(part, Slice) and not part.is_whole:
            yield f"the slice tells of {part.told} triples, and {len(part.stated)} are there"


def by_focus(results: Iterable[Result]) -> dict[str, list[Result]]:
    """The results of each focus node, as they come."""
    groups: dict[str, list[Result]] = {}
    for result in results:
        groups.setdefault(result.words.focus, []).append(result)
    return groups


def ordered(counts: Counter[str], first: tuple[str, ...] = ()) -> list[tuple[str, int]]:
    """The counts of these first, and behind them the greatest."""
    place = {value: at for at, value in enumerate(first)}
    return sorted(counts.items(), key=lambda it: (place.get(it[0], len(first)), -it[1]))
