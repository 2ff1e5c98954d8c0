"""By which triple a path leads to a value, for places alone: what the values of a path are, the program
says."""

from collections.abc import Iterable
from typing import TypeAlias

from .paths import Alternative, Inverse, OneOrMore, Path, Sequence, ZeroOrMore, ZeroOrOne, read_path
from .spelled import Iri

# Nodes, each with the place of the triple that led to it; none for where a path begins.
Reached: TypeAlias = dict[str, int | None]
_Edges: TypeAlias = dict[tuple[str, str], list[tuple[str, int]]]


def predicates_of(path: Path) -> set[str]:
    """The predicates of a path, as they are spelled."""
    match path:
        case Iri():
            return {str(path)}
        case Sequence(paths) | Alternative(paths):
            return set().union(*map(predicates_of, paths))
    return predicates_of(path.path)


def _inverted(path: Path) -> Path:
    """The path backwards."""
    match path:
        case Iri():
            return Inverse(path)
        case Inverse(inner):
            return inner
        case Sequence(paths):
            return Sequence(tuple(map(_inverted, reversed(paths))))
        case Alternative(paths):
            return Alternative(tuple(map(_inverted, paths)))
    return type(path)(_inverted(path.path))


class Walks:
    """Walks along these paths over triples that are told one by one. All of them together take no more steps
    than there are triples, times ten, and a million: past that no walk leads anywhere."""

    def __init__(self, paths: Iterable[str]) -> None:
        self._predicates = set().union(*(predicates_of(read_path(path)) for path in paths))
        self._forward: _Edges = {}
        self._backward: _Edges = {}
        self._known: dict[tuple[str, str], Reached] = {}
        self._left = 1_000_000

    def wants(self, verb: str) -> bool:
        """Whether a walk may lead along this predicate."""
        return verb in self._predicates

    def add(self, subject: str, verb: str, term: str, at: int) -> None:
        """A triple, with the place of its object."""
        self._forward.setdefault((verb, subject), []).append((term, at))
        self._backward.setdefault((verb, term), []).append((subject, at))
        self._left += 10

    def place(self, focus: str, path: str, value: str) -> int | None:
        """The place of the triple by which a path leads to a value first, or None where there is none."""
        key = (focus, path)
        if key not in self._known:
            self._known[key] = self._reached(read_path(path), {focus: None})
        return self._known[key].get(value)

    def _reached(self, path: Path, starts: Reached) -> Reached:
        match path:
            case Iri():
                return self._step(self._forward, str(path), starts)
            case Inverse(Iri() as inner):
                return self._step(self._backward, str(inner), starts)
            case Inverse(inner):
                return self._reached(_inverted(inner), starts)
            case Sequence(paths):
                for each in paths:
                    starts = self._reached(each, starts)
                return starts
            case Alternative(paths):
                return _joined(self._reached(each, starts) for each in paths)
            case ZeroOrOne(inner):
                return _joined((starts, self._reached(inner, starts)))
            case ZeroOrMore(inner):
                return _joined((starts, self._closure(inner, starts)))
            case OneOrMore(inner):
                return self._closure(inner, starts)

    def _step(self, edges: _Edges, predicate: str, starts: Reached) -> Reached:
        found: Reached = {}
        for node in starts:
            nexts = edges.get((predicate, node), ())
            self._left -= 1 + len(nexts)
            if self._left < 0:
                break
            for other, at in nexts:
                found.setdefault(other, at)
        return found

    def _closure(self, path: Path, starts: Reached) -> Reached:
        """What is reached by the path once or more often."""
        found: Reached = {}
        last = starts
        while last and self._left > 0:
            last = {node: at for node, at in self._reached(path, last).items() if node not in found}
            found.update(last)
        return found


def _joined(parts: Iterable[Reached]) -> Reached:
    """The nodes of all parts, with their places in the first of these."""
    found: Reached = {}
    for part in parts:
        for node, at in part.items():
            found.setdefault(node, at)
    return found
