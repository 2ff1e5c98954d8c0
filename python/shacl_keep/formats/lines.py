"""Lines that editors read, `FILE:LINE:COLUMN: severity: message [component shape]`: those of results, faults,
refused lines and failures."""

from collections.abc import Iterator

from ..plain import plain
from ..report import Result
from ..shown import Problem, Shown
from ..texts import Place
from .severities import level

# What compilers say, and what editors know.
_WORDS = {"violation": "error", "warning": "warning", "info": "info"}


def _where(place: Place | None, file: str | None) -> str:
    if place:
        return f"{place}: "
    return f"{plain(file)}:1:1: " if file else ""


def _problem(problem: Problem) -> str:
    return f"{_where(problem.place, problem.file)}error: {problem.said} [{problem.name}]\n"


def pieces(shown: Shown) -> Iterator[str]:
    """The lines."""
    for event in shown.events():
        if isinstance(event, Result):
            words = event.words
            kind = f"[{words.component} {shown.names.term(words.shape)}]"
            where = _where(shown.places.place(event), shown.file)
            yield f"{where}{_WORDS[level(words.severity)]}: {shown.sentence(event)} {kind}\n"
        else:
            yield from map(_problem, shown.problems(event))
    yield from map(_problem, shown.failures())
