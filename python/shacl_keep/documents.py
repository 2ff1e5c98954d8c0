"""Texts as they are given to the program: a file as it is, or one text that is made of several.

Each of several texts is read by itself, by the proved reader, so that its base, its prefixes and its labels
are its own: a label of one and the same label of another are two blank nodes. What the reader writes of
each, a line for each triple, is joined, with labels that tell the text: the node that is `_:d-x` in the
second text by itself is `_:d-2-d-x` in the whole. `Joined.origin` tells the way back."""

import os
import re
import stat
import subprocess
import tempfile
from collections.abc import Iterator, Sequence
from dataclasses import dataclass
from types import TracebackType
from typing import IO, Protocol, Self, TypeAlias

from .errors import Ended, NotRun, TextRefused
from .programs import triples_path
from .report import Fault

# Codes that the reader of one text may give.
_CODES = (
    "NotUtf8 Syntax UnknownPrefix BadIri FloatLiteral WideValue TooDeep TooManyTriples TooManyTerms "
    "TextTooLong"
).split()
_LONGEST = 268_435_456  # bytes of a text
_PIECE = 1 << 20
# A blank node of a line: its subject, or its object, which stands before the dot. A literal ends with a
# quote, a tag or a datatype.
_BLANK = re.compile(rb'^_:(?=[da]-)|(?<= )_:(?=[da]-[^ "]+ \.$)', re.MULTILINE)
_FAULT = re.compile(rb"fault (\d+) at (\d+)\n")
_ORIGIN = re.compile(r"[ds]-(\d+)-([da])-(.*)", re.DOTALL)


@dataclass(frozen=True, slots=True)
class Text:
    """A text of Turtle that is given as it is, where a word would be the name of a file."""

    text: str


class Written(Protocol):
    """What can write itself as a text of lines like `<ex:a> <ex:b> <ex:c> .`"""

    def lines(self) -> Iterator[str]:
        """The lines, without line feeds. Blank nodes have labels of its own."""


# The name of a file, a text, or a graph of rdflib, which is here what writes itself.
Source: TypeAlias = str | os.PathLike[str] | Text | Written


def name_of(source: Source) -> str | None:
    """The name of the file that a source is, if it is one."""
    return os.fspath(source) if isinstance(source, (str, os.PathLike)) else None


class Document:
    """A text that the program can open: its name there, and the open file that it may be."""

    def __init__(self, word: str, file: IO[bytes] | None = None) -> None:
        self.word, self.file = word, file

    @property
    def descriptors(self) -> list[int]:
        return [self.file.fileno()] if self.file else []

    def __enter__(self) -> Self:
        return self

    def __exit__(
        self, kind: type[BaseException] | None, error: BaseException | None, trace: TracebackType | None
    ) -> None:
        if self.file:
            self.file.close()

    def line_at(self, at: int) -> str | None:
        """The line round a byte, where the text was made here."""
        if not self.file:
            return None
        size = 1 << 16
        start = max(0, at - size)
        around = os.pread(self.file.fileno(), 2 * size, start)
        front, back = around[: at - start], around[at - start :]
        line = front[front.rfind(b"\n") + 1 :] + back.split(b"\n", 1)[0]
        return line.decode("utf-8", "replace")


def _checked(name: str) -> str:
    """The name of a file, as the program takes it. Raises the OSError that opening it raises."""
    if stat.S_ISREG(os.stat(name).st_mode):
        with open(name, "rb"):
            pass
    return os.path.join(".", name) if name.startswith("-") else name


def _made(pieces: Iterator[bytes]) -> Document:
    """A text of these pieces, in a file that has no name, and so is gone with its last user."""
    file = tempfile.TemporaryFile()
    file.writelines(pieces)
    file.flush()
    return Document(f"/dev/fd/{file.fileno()}", file)


def _encoded(lines: Iterator[str]) -> Iterator[bytes]:
    for line in lines:
        yield line.encode() + b"\n"


def _pieces(file: IO[bytes]) -> Iterator[bytes]:
    while piece := file.read(_PIECE):
        yield piece


def _content(source: Source) -> Iterator[bytes]:
    """The bytes of a source."""
    if isinstance(source, Text):
        yield source.text.encode()
    elif isinstance(source, (str, os.PathLike)):
        with open(source, "rb") as file:
            yield from _pieces(file)
    else:
        yield from _encoded(source.lines())


# ---- several texts


def _whole_lines(file: IO[bytes]) -> Iterator[bytes]:
    """What a file has, in pieces that end where a line ends."""
    rest = b""
    for piece in _pieces(file):
        end = piece.rfind(b"\n") + 1
        yield rest + piece[:end]
        rest = piece[end:]
    yield rest


def _fault(role: str, source: Source, code: int, at: int | None) -> TextRefused:
    return TextRefused(Fault(role, code, _CODES[code - 1], at), name_of(source))


def _stated(role: str, number: int, source: Source, base: str) -> Iterator[bytes]:
    """The triples of one of several texts, as lines whose labels tell its number."""
    with document_of(source) as document:
        if os.stat(document.file.fileno() if document.file else document.word).st_size > _LONGEST:
            raise _fault(role, source, 10, None)
        yield from _read(role, number, source, document, base)


def _read(role: str, number: int, source: Source, document: Document, base: str) -> Iterator[bytes]:
    """What the proved reader writes of a document."""
    words = [triples_path(), base, document.word]
    label = b"_:%d-" % number
    try:
        child = subprocess.Popen(words, stdout=subprocess.PIPE, pass_fds=document.descriptors)
    except OSError as error:
        raise NotRun(words[0], error.strerror or str(error)) from error
    with child:
        assert child.stdout
        try:
            for piece in _whole_lines(child.stdout):
                fault = _FAULT.fullmatch(piece)
                if fault:
                    raise _fault(role, source, int(fault[1]), int(fault[2]))
                yield _BLANK.sub(label, piece)
        except BaseException:
            child.kill()
            raise
    if child.returncode:
        raise Ended(child.returncode, f"what reads {name_of(source) or role} failed")


@dataclass(frozen=True, slots=True)
class Origin:
    """Where a blank node of a joined text comes from: the number of the text, from 1, and the name that the
    program has for the node where it reads that text by itself."""

    number: int
    name: str


def origin(name: str) -> Origin | None:
    """Where a blank node of a joined text comes from, by its name, as `d-2-d-x`; None where that is none."""
    found = _ORIGIN.fullmatch(name)
    if not found:
        return None
    scope = found[2] if name.startswith("d") else {"d": "s", "a": "t"}[found[2]]
    return Origin(int(found[1]), f"{scope}-{found[3]}")


def joined_name(number: int, name: str) -> str:
    """The other way: how the program calls a node of the text with this number, where the texts are
    joined."""
    scope, _, label = name.partition("-")
    role, read = {"d": ("d", "d"), "a": ("d", "a"), "s": ("s", "d"), "t": ("s", "a")}[scope]
    return f"{role}-{number}-{read}-{label}"


def document_of(source: Source) -> Document:
    """A source as one text, unchanged: a file by its name, and all else in a file without one. Raises OSError
    where a file cannot be opened, and NotSpelled where a graph has a term that no text can hold."""
    if isinstance(source, (str, os.PathLike)):
        return Document(_checked(os.fspath(source)))
    return _made(_content(source))


def document(role: str, sources: Sequence[Source], base: str, more: Sequence[str] = ()) -> Document:
    """Sources as one text, with more lines behind it. One source stays as it is; several are joined, which
    reads each of them once more. `role` is shapes or data. Raises TextRefused where one of several has a
    fault, and what `document_of` raises."""
    behind = _encoded(iter(more))
    if len(sources) == 1:
        return _behind(sources[0], more) if more else document_of(sources[0])

    def pieces() -> Iterator[bytes]:
        for number, source in enumerate(sources, 1):
            yield from _stated(role, number, source, base)
        yield from behind

    return _made(pieces())


def _behind(source: Source, more: Sequence[str]) -> Document:
    def pieces() -> Iterator[bytes]:
        yield from _content(source)
        yield b"\n"
        yield from _encoded(iter(more))

    return _made(pieces())
