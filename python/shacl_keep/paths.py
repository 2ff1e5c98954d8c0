"""Property paths: what stands in a line, `(<ex:p>/(<ex:q>*))`, as plain data, and as text of SPARQL."""

import functools
import re
from dataclasses import dataclass
from typing import TypeAlias

from .spelled import IRI, Iri, NotSpelled


@dataclass(frozen=True, slots=True)
class Inverse:
    """sh:inversePath"""

    path: "Path"

    def __str__(self) -> str:
        return f"(^{self.path})"


@dataclass(frozen=True, slots=True)
class ZeroOrMore:
    """sh:zeroOrMorePath"""

    path: "Path"

    def __str__(self) -> str:
        return f"({self.path}*)"


@dataclass(frozen=True, slots=True)
class OneOrMore:
    """sh:oneOrMorePath"""

    path: "Path"

    def __str__(self) -> str:
        return f"({self.path}+)"


@dataclass(frozen=True, slots=True)
class ZeroOrOne:
    """sh:zeroOrOnePath"""

    path: "Path"

    def __str__(self) -> str:
        return f"({self.path}?)"


@dataclass(frozen=True, slots=True)
class Sequence:
    """A list of paths, one behind the other."""

    paths: tuple["Path", ...]

    def __str__(self) -> str:
        return f"({'/'.join(map(str, self.paths))})"


@dataclass(frozen=True, slots=True)
class Alternative:
    """sh:alternativePath"""

    paths: tuple["Path", ...]

    def __str__(self) -> str:
        return f"({'|'.join(map(str, self.paths))})"


# An IRI is the path of its triples.
Path: TypeAlias = Iri | Inverse | ZeroOrMore | OneOrMore | ZeroOrOne | Sequence | Alternative
Closure: TypeAlias = ZeroOrMore | OneOrMore | ZeroOrOne
CLOSURES: dict[str, type[Closure]] = {"*": ZeroOrMore, "+": OneOrMore, "?": ZeroOrOne}
SIGNS: dict[type[Closure], str] = {kind: sign for sign, kind in CLOSURES.items()}

_TOKEN = re.compile(rf"({IRI})|[()^*+?/|]")


class _Reader:
    """Goes over the tokens of a spelled path."""

    def __init__(self, spelled: str) -> None:
        self.spelled, self.at = spelled, 0

    def token(self) -> str:
        found = _TOKEN.match(self.spelled, self.at)
        if not found:
            raise NotSpelled(f"this spells no path: {self.spelled!r}")
        self.at = found.end()
        return found[0]

    def due(self, token: str) -> None:
        if self.token() != token:
            raise NotSpelled(f"this spells no path: {self.spelled!r}")

    def step(self) -> Path:
        token = self.token()
        if token.startswith("<"):
            return Iri(token[1:-1])
        if token != "(":
            raise NotSpelled(f"this spells no path: {self.spelled!r}")
        if self.spelled.startswith("^", self.at):
            self.at += 1
            inner = self.step()
            self.due(")")
            return Inverse(inner)
        return self.joined(self.step())

    def joined(self, first: Path) -> Path:
        """The path in brackets that begins with this one."""
        sign = self.token()
        if sign in CLOSURES:
            self.due(")")
            return CLOSURES[sign](first)
        paths, token = [first], sign
        while token == sign and sign in "/|":
            paths.append(self.step())
            token = self.token()
        if token != ")" or len(paths) == 1:
            raise NotSpelled(f"this spells no path: {self.spelled!r}")
        return Sequence(tuple(paths)) if sign == "/" else Alternative(tuple(paths))


@functools.lru_cache(10_000)
def read_path(spelled: str) -> Path:
    """The path that is spelled so; raises NotSpelled where there is none. `str(path)` spells it again."""
    reader = _Reader(spelled)
    path = reader.step()
    if reader.at < len(spelled):
        raise NotSpelled(f"this spells no path: {spelled!r}")
    return path


def _within(path: Path, *bare: type[Path]) -> str:
    """The text of a path in another one, in which paths of these kinds need no brackets."""
    return sparql(path) if isinstance(path, (Iri, *bare)) else f"({sparql(path)})"


def sparql(path: Path) -> str:
    """The path as a property path of SPARQL 1.1, with no more brackets than it needs."""
    match path:
        case Iri():
            return str(path)
        case Inverse(inner):
            return f"^{_within(inner, ZeroOrMore, OneOrMore, ZeroOrOne)}"
        case Sequence(paths):
            return "/".join(_within(each, Inverse, ZeroOrMore, OneOrMore, ZeroOrOne) for each in paths)
        case Alternative(paths):
            return "|".join(_within(each, Inverse, Sequence, *SIGNS) for each in paths)
    return _within(path.path) + SIGNS[type(path)]
