"""What is found out about a text that the program has refused: what it is where it is no Turtle, and by which
command it becomes Turtle; and all its literals of xsd:double and xsd:float, not only the first."""

import os
import re
import shlex
from collections.abc import Iterator
from typing import NamedTuple

from .plain import plain
from .report import Fault
from .texts import Place, Text, TurtleText
from .triples import is_float
from .turtle import tokens

_LOOKED_AT = 1 << 16  # bytes at the start of a text that tell what it is
_RDFPIPE = "python3 -m rdflib.tools.rdfpipe"


class Kind(NamedTuple):
    """What a text is, the command that makes Turtle of it, and the ending of its name then."""

    name: str
    command: str
    ending: str

    def advice(self, name: str) -> list[str]:
        """The sentence that says so, and the command over a file of this name."""
        made = os.path.splitext(name)[0]
        made += ("" if made.endswith(self.ending) else self.ending) if self.ending else ""
        made = f"converted{self.ending}" if made == name or not made else made
        command = f"{self.command} {shlex.quote(name)} > {shlex.quote(made)}"
        return [f"this is {self.name}, and no Turtle; it becomes Turtle by", f"  {plain(command)}"]


_PACKED = (
    (b"\x1f\x8b", Kind("packed by gzip", "gzip -dc", "")),
    (b"BZh", Kind("packed by bzip2", "bzip2 -dc", "")),
    (b"\xfd7zXZ\x00", Kind("packed by xz", "xz -dc", "")),
    (b"(\xb5/\xfd", Kind("packed by zstd", "zstd -dc", "")),
    (b"PK\x03\x04", Kind("packed by zip", "unzip -p", "")),
)
_JSON_LD = Kind("JSON-LD", f"{_RDFPIPE} -i json-ld -o turtle", ".ttl")
_RDF_XML = Kind("RDF/XML", "rapper -q -i rdfxml -o ntriples", ".nt")
_TRIG = Kind("TriG, with named graphs", "rapper -q -i trig -o ntriples", ".nt")
_QUADS = Kind("N-Quads, with named graphs", "rapper -q -i nquads -o ntriples", ".nt")
_JSON = re.compile(r"\s*(?:\{\s*[\"}]|\[\s*[{\]])")
_XML = re.compile(r"\s*<(?:\?xml\s|!DOCTYPE\s|!--|(?:[A-Za-z][\w.-]*:)?RDF[\s>])")
_GRAPH = re.compile(r"\s*(?:GRAPH\b\s*|\})", re.IGNORECASE)


def kind_of(written: bytes) -> Kind | None:
    """What a text is by its first bytes, if it is one of the kinds that are known and no Turtle."""
    for magic, kind in _PACKED:
        if written.startswith(magic):
            return kind
    said = written[:_LOOKED_AT].decode("utf-8", "replace").removeprefix("\ufeff")
    if _JSON.match(said):
        return _JSON_LD
    if _XML.match(said):
        return _RDF_XML
    return _kind_with_graphs(said)


def _kind_with_graphs(said: str) -> Kind | None:
    """TriG has a brace where Turtle has none; N-Quads have a fourth word."""
    end, run = 0, 0
    for token in tokens(said):
        run = 0 if token.kind == "sign" else run + 1
        if run == 4 and token.kind in ("iri", "label") and said[token.end : token.end + 3].strip() == ".":
            return _QUADS
        end = token.end
    rest = said[end:].lstrip()
    return _TRIG if rest.startswith("{") or _GRAPH.match(rest) else None


def advice(fault: Fault, text: Text) -> list[str]:
    """What a text is that was refused as no Turtle, and what makes Turtle of it; nothing where that is not
    known."""
    if fault.name not in ("Syntax", "NotUtf8", "UnknownPrefix") or not text.written:
        return []
    kind = kind_of(text.written)
    return kind.advice(text.name) if kind else []


class Double(NamedTuple):
    """A literal that is refused: where it stands, and how it is written."""

    place: Place
    said: str


def doubles(text: TurtleText) -> Iterator[Double]:
    """The literals of xsd:double and xsd:float of a text, as far as it can be read."""
    for triple in text.triples():
        word = triple.object
        if is_float(word.term):
            yield Double(text.place_at(word.start), text.said[word.start : word.end])
