"""The triples that a text of Turtle states, in order, with the places of their words. Terms are spelled as
the program spells them in a report. Texts that the program takes are read as it reads them."""

import re
from collections.abc import Iterator
from typing import NamedTuple

from .iris import resolved, unescaped
from .spelled import RDF, XSD, XSD_STRING, Literal
from .turtle import SKIPPED, Token, string_parts, tokens

TYPE = f"<{RDF}type>"
FIRST, REST, NIL = f"<{RDF}first>", f"<{RDF}rest>", f"<{RDF}nil>"
FLOATS = (f"^^<{XSD}double>", f"^^<{XSD}float>")


class NotRead(Exception):
    """Where a text cannot be read, and why."""

    def __init__(self, line: int, why: str) -> None:
        super().__init__(f"line {line}: {why}")
        self.line, self.why = line, why


class Word(NamedTuple):
    """A term with the place where it is written, by characters of the text."""

    start: int
    end: int
    term: str


class Triple(NamedTuple):
    """A triple. Its subject begins at `start`, where a blank node without a label has its bracket."""

    start: int
    subject: str
    verb: Word
    object: Word


class _Frame:
    """What is open: a statement, brackets or a list, with its subject and verb as far as they were read. The
    subject of a list is the latest of its cells."""

    __slots__ = ("start", "subject", "verb", "is_list")

    def __init__(self, start: int = -1, subject: str | None = None, is_list: bool = False) -> None:
        self.start, self.subject, self.is_list = start, subject, is_list
        self.verb: Word | None = None


class Scope(NamedTuple):
    """How the program spells the blank nodes of a text: those with a label, and those without."""

    label: str
    number: str


DATA, SHAPES = Scope("_:d-", "_:a-"), Scope("_:s-", "_:t-")


def joined_scope(number: int) -> Scope:
    """The same of one of several data texts that are joined, by its number from 1."""
    return Scope(f"_:d-{number}-d-", f"_:d-{number}-a-")


def is_float(term: str) -> bool:
    """Whether a term is a literal of xsd:double or xsd:float, which the program refuses."""
    return term.endswith(FLOATS) and term.startswith('"')


class Reader:
    """Reads a text from its start to its end: `for triple in reader`. What it has come by so far is known
    besides: `spaces`, the namespaces of prefixes as they were set first, and `nodes`, where blank nodes
    without labels stand. A text that is no Turtle raises NotRead where it goes wrong."""

    def __init__(self, text: str, base: str, scope: Scope = DATA) -> None:
        self.text, self.base, self.scope = text, base, scope
        self.spaces: dict[str, str] = {}
        self.nodes: list[int] = []
        self._now: dict[str, str] = {}
        self._names: dict[str, str] = {}
        self._frames = [_Frame()]
        self._directive: list[str] | None = None
        self._found: list[Triple] = []

    def fail(self, at: int, why: str) -> NotRead:
        """What is raised at a place."""
        return NotRead(self.text.count("\n", 0, at) + 1, why)

    def __iter__(self) -> Iterator[Triple]:
        end = int(self.text.startswith("\ufeff"))
        for token in tokens(self.text):
            end = token.end
            self._take(token)
            if self._found:
                yield from self._found
                self._found.clear()
        skipped = SKIPPED.match(self.text, end)
        end = skipped.end() if skipped else end
        if end < len(self.text):
            raise self.fail(end, "what stands here cannot be read")
        if len(self._frames) > 1 or self._frames[0].subject or self._directive:
            raise self.fail(end, "the text ends within a statement")

    def directives(self) -> dict[str, str]:
        """The namespaces of all prefixes; it reads no further than to the last of them."""
        last = max((found.end() for found in re.finditer(r"(?i:prefix)[ \t\r\n#]", self.text)), default=0)
        for token in tokens(self.text):
            if token.start >= last and self._directive is None:
                break
            try:
                self._take(token)
            except NotRead:
                break
            self._found.clear()
        return self.spaces

    # ---- one token

    def _take(self, token: Token) -> None:
        """One token, in the words of Turtle 1.1, section 7.3."""
        if self._directive is not None:
            self._direct(token)
        elif token.kind == "sign":
            self._sign(token)
        elif token.kind == "directive":
            if len(self._frames) > 1 or self._frames[0].subject:
                raise self.fail(token.start, f"{token.text} stands within a statement")
            self._directive = [token.text.lower().lstrip("@")]
        else:
            self._member(token.start)
            self._place(self._frames[-1], Word(token.start, token.end, self._term(token)))

    def _direct(self, token: Token) -> None:
        """A token of a directive, which ends with an IRI. A dot behind it is one of an empty statement."""
        assert self._directive is not None
        self._directive.append(token.text)
        if token.kind != "iri":
            return
        space = resolved(self.base, unescaped(token.text[1:-1]))
        if self._directive[0] == "base":
            self.base = space
        else:
            self._now[self._directive[1]] = space
            self.spaces.setdefault(self._directive[1], space)
        self._names.clear()
        self._directive = None

    def _sign(self, token: Token) -> None:
        frame = self._frames[-1]
        if token.text == ";":
            frame.verb = None
        elif token.text == "[":
            self._member(token.start)
            node = self._new_node(token.start)
            self._place(frame, Word(token.start, token.end, node))
            self._frames.append(_Frame(token.start, node))
        elif token.text == "(":
            self._member(token.start)
            self._frames.append(_Frame(token.start, is_list=True))
        elif token.text != ",":
            self._close(token)

    def _close(self, token: Token) -> None:
        frame = self._frames.pop()
        if (token.text == ".") == bool(self._frames) or (token.text == ")") != frame.is_list:
            raise self.fail(token.start, f"there is nothing that {token.text} could end here")
        if token.text == ".":
            self._frames.append(_Frame())
        elif token.text == ")" and frame.subject is None:
            self._place(self._frames[-1], Word(frame.start, token.end, NIL))
        elif token.text == ")" and frame.subject is not None:
            end = Word(token.start, token.end, NIL)
            self._found.append(Triple(frame.start, frame.subject, Word(-1, -1, REST), end))

    # ---- terms in their places

    def _member(self, at: int) -> None:
        """A term begins. In a list it has a cell, of which the first stands for the list, and at its
        bracket."""
        frame = self._frames[-1]
        if not frame.is_list:
            return
        if frame.subject is None:
            frame.subject = self._new_node(frame.start)
            self._place(self._frames[-2], Word(frame.start, frame.start + 1, frame.subject))
        else:
            cell = Word(at, at, self._new_node(at))
            self._found.append(Triple(frame.start, frame.subject, Word(-1, -1, REST), cell))
            frame.start, frame.subject = at, cell.term

    def _place(self, frame: _Frame, word: Word) -> None:
        """A term takes the next place that is free: that of a subject, of a verb or of an object."""
        if frame.is_list:
            assert frame.subject is not None, "the cell was made before"
            self._found.append(Triple(frame.start, frame.subject, Word(-1, -1, FIRST), word))
        elif frame.subject is not None and frame.verb is not None:
            self._found.append(Triple(frame.start, frame.subject, frame.verb, word))
        elif word.term.startswith('"'):
            raise self.fail(word.start, "a literal is no subject, and no predicate")
        elif frame.subject is not None:
            frame.verb = word
        else:
            frame.start, frame.subject = word.start, word.term

    def _new_node(self, at: int) -> str:
        self.nodes.append(at)
        return f"{self.scope.number}{len(self.nodes)}"

    def _term(self, token: Token) -> str:
        """What a token stands for."""
        kind, text = token.kind, token.text
        if kind == "name" or kind == "iri":
            known = self._names.get(text)
            if known is None:
                known = self._names[text] = f"<{self._iri(token.start, text)}>"
            return known
        if kind == "string":
            said, tag, datatype = string_parts(text)
            datatype = XSD_STRING if datatype is None else self._iri(token.start, datatype)
            return str(Literal(said, datatype, tag and tag.lower()))
        if kind == "label":
            return self.scope.label + text[2:]
        if text == "a":
            return TYPE
        return f'"{text}"^^<{XSD}{"boolean" if kind == "word" else kind}>'

    def _iri(self, at: int, text: str) -> str:
        if text.startswith("<"):
            return resolved(self.base, unescaped(text[1:-1]))
        prefix, colon, local = text.partition(":")
        if prefix + colon not in self._now:
            raise self.fail(at, f"no prefix is set for {text}")
        return self._now[prefix + colon] + re.sub(r"\\(.)", r"\1", local)
