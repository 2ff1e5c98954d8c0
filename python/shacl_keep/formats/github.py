"""Commands of GitHub Actions that make annotations: `::error file=F,line=L,col=C,title=T::MESSAGE`."""

from collections.abc import Iterator

from ..plain import plain
from ..report import Result
from ..shown import Problem, Shown
from ..texts import Place
from .severities import level

_WORDS = {"violation": "error", "warning": "warning", "info": "notice"}
_MESSAGE = str.maketrans({"%": "%25", "\r": "%0D", "\n": "%0A"})
_PROPERTY = str.maketrans({"%": "%25", "\r": "%0D", "\n": "%0A", ":": "%3A", ",": "%2C"})


def _command(word: str, place: Place | None, file: str | None, title: str, said: str) -> str:
    properties: dict[str, str] = {}
    if place or file:
        properties["file"] = plain(place.name if place else file or "")
    if place:
        properties |= {"line": str(place.line), "col": str(place.column)}
    properties["title"] = title
    listed = ",".join(f"{name}={value.translate(_PROPERTY)}" for name, value in properties.items())
    return f"::{word} {listed}::{said.translate(_MESSAGE)}\n"


def _problem(problem: Problem) -> str:
    return _command("error", problem.place, problem.file, problem.name, problem.said)


def pieces(shown: Shown) -> Iterator[str]:
    """The commands, one a line."""
    for event in shown.events():
        if isinstance(event, Result):
            words = event.words
            title = f"{words.component} {shown.names.term(words.shape)}"
            word = _WORDS[level(words.severity)]
            yield _command(word, shown.places.place(event), shown.file, title, shown.sentence(event))
        else:
            yield from map(_problem, shown.problems(event))
    yield from map(_problem, shown.failures())
