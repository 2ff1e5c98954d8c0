"""Terms as shacl_keep spells them in its lines: one reader and one writer, and both are exact.

An IRI stands between angle brackets. A blank node is `_:` and its name: `d-x` or `s-x` by its label in the
data or the shapes, `a-1` or `t-1` by its number where it has no label. A literal stands in double quotes,
with `\\"`, `\\\\`, `\\n` and `\\r` for what may not stand there, then its language tag, or its datatype
unless that is xsd:string. Nothing but a line feed ends a line: U+2028, a form feed and the like stand in
literals as they are."""

import re
from dataclasses import dataclass
from typing import TypeAlias

XSD = "http://www.w3.org/2001/XMLSchema#"
XSD_STRING = XSD + "string"
RDF = "http://www.w3.org/1999/02/22-rdf-syntax-ns#"
LANG_STRING = RDF + "langString"

# The patterns of spelled terms, for the patterns of lines.
IRI = r"<[^\x00- <>]*>"
BLANK = r"_:[^\x00- <>\"]+"
QUOTED = r'"[^"\\\n\r]*(?:\\["\\nr][^"\\\n\r]*)*"'
LITERAL = rf"{QUOTED}(?:@[A-Za-z0-9-]+|\^\^{IRI})?"
NODE = rf"(?:{IRI}|{BLANK})"
TERM = rf"(?:{IRI}|{BLANK}|{LITERAL})"

_IRI = re.compile(IRI)
_BLANK = re.compile(BLANK)
_LITERAL = re.compile(rf"({QUOTED})(?:@([A-Za-z0-9-]+)|\^\^({IRI}))?")
_WORD = re.compile(rf"{LITERAL}|[^ ]+")
_ESCAPE = re.compile(r"\\(.)")
_READ = {"n": "\n", "r": "\r", '"': '"', "\\": "\\"}
_WRITTEN = str.maketrans({"\n": "\\n", "\r": "\\r", '"': '\\"', "\\": "\\\\"})

# What can be written as a reference, or a tag, of Turtle.
_ABSOLUTE = re.compile(r"[A-Za-z][A-Za-z0-9+.-]*:[^\x00- <>\"{}|^`\\\ud800-\udfff]*")
_NAME = re.compile(r"[^\x00- <>\"\ud800-\udfff]+")
_TAG = re.compile(r"[A-Za-z]+(?:-[A-Za-z0-9]+)*")
_SURROGATE = re.compile(r"[\ud800-\udfff]")


class NotSpelled(ValueError):
    """A term that no line can hold, or a text that spells no term."""


@dataclass(frozen=True, slots=True)
class Iri:
    """An absolute IRI, without its brackets."""

    value: str

    def __str__(self) -> str:
        return f"<{self.value}>"


@dataclass(frozen=True, slots=True)
class Blank:
    """A blank node by the name that the program has for it, as `d-x` or `a-1`."""

    name: str

    def __str__(self) -> str:
        return f"_:{self.name}"


@dataclass(frozen=True, slots=True)
class Literal:
    """A literal: its lexical form, and the IRI of its datatype. With a language that is rdf:langString."""

    text: str
    datatype: str = XSD_STRING
    language: str | None = None

    def __post_init__(self) -> None:
        if self.language is not None:
            object.__setattr__(self, "datatype", LANG_STRING)

    def __str__(self) -> str:
        quoted = f'"{self.text.translate(_WRITTEN)}"'
        if self.language is not None:
            return f"{quoted}@{self.language}"
        return quoted if self.datatype == XSD_STRING else f"{quoted}^^<{self.datatype}>"


Term: TypeAlias = Iri | Blank | Literal
Node: TypeAlias = Iri | Blank
Triple: TypeAlias = tuple[Node, Iri, Term]


# ---- the reader


def read_literal(spelled: str) -> Literal:
    """The literal that is spelled so; raises NotSpelled where there is none."""
    found = _LITERAL.fullmatch(spelled)
    if not found:
        raise NotSpelled(f"this spells no literal: {spelled!r}")
    quoted, language, datatype = found.groups()
    text: str = quoted[1:-1]
    if "\\" in text:
        text = _ESCAPE.sub(lambda escape: _READ[escape[1]], text)
    return Literal(text, datatype[1:-1] if datatype else XSD_STRING, language)


def read_node(spelled: str) -> Node:
    """The IRI or blank node that is spelled so; raises NotSpelled where there is none."""
    if _IRI.fullmatch(spelled):
        return Iri(spelled[1:-1])
    if _BLANK.fullmatch(spelled):
        return Blank(spelled[2:])
    raise NotSpelled(f"this spells no IRI and no blank node: {spelled!r}")


def read_term(spelled: str) -> Term:
    """The term that is spelled so; raises NotSpelled where there is none."""
    return read_literal(spelled) if spelled.startswith('"') else read_node(spelled)


def words_of(line: str) -> list[str]:
    """The words of a line, which are parted by single spaces. Only a literal has spaces in it."""
    return line.split(" ") if '"' not in line else _WORD.findall(line)


# ---- the writer


def _spelled_literal(literal: Literal) -> str:
    if literal.language is not None and not _TAG.fullmatch(literal.language):
        raise NotSpelled(f"this is no language tag: {literal.language!r}")
    if literal.language is None and not _ABSOLUTE.fullmatch(literal.datatype):
        raise NotSpelled(f"this datatype is no absolute IRI: {literal.datatype!r}")
    if _SURROGATE.search(literal.text):
        raise NotSpelled(f"this literal has half of a surrogate pair, which UTF-8 has not: {literal.text!r}")
    return str(literal)


def spell(term: Term) -> str:
    """The term as a line or a text of Turtle may have it. Raises NotSpelled for what neither can hold: an IRI
    that is not absolute or has a character that no IRI has, a language tag that is none, a lone surrogate.
    `str(term)` gives the same, unchecked."""
    if isinstance(term, Literal):
        return _spelled_literal(term)
    if isinstance(term, Iri):
        if not _ABSOLUTE.fullmatch(term.value):
            raise NotSpelled(f"this is no absolute IRI: {term.value!r}")
    elif not _NAME.fullmatch(term.name):
        raise NotSpelled(f"this is no name of a blank node: {term.name!r}")
    return str(term)


def spell_triple(triple: Triple) -> str:
    """The triple with its dot, as a line of a script or of a text has it."""
    subject, predicate, value = triple
    return f"{spell(subject)} {spell(predicate)} {spell(value)} ."
