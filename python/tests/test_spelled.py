"""Terms and paths: what is written is read again, and what is none is refused."""

import pytest
from hypothesis import given
from hypothesis import strategies as st

from made import all_paths, blanks, iris, literals, terms
from shacl_keep.paths import Alternative, Inverse, OneOrMore, Path, Sequence, ZeroOrMore, ZeroOrOne
from shacl_keep.paths import read_path, sparql
from shacl_keep.spelled import LANG_STRING, XSD, Blank, Iri, Literal, Node, NotSpelled, Term
from shacl_keep.spelled import read_term, spell, spell_triple, words_of

P, Q, R = Iri("ex:p"), Iri("ex:q"), Iri("ex:r")


@given(terms)
def test_a_term_is_read_as_it_was_written(term: Term) -> None:
    assert read_term(spell(term)) == term
    assert "\n" not in spell(term) and "\r" not in spell(term)


@given(st.lists(terms, min_size=1, max_size=6))
def test_a_line_has_the_words_that_were_joined(several: list[Term]) -> None:
    words = list(map(spell, several))
    assert words_of(" ".join(words)) == words


@given(iris | blanks, iris, terms)
def test_a_triple_is_read_as_it_was_written(subject: Node, predicate: Iri, value: Term) -> None:
    *words, dot = words_of(spell_triple((subject, predicate, value)))
    assert [read_term(word) for word in words] == [subject, predicate, value]
    assert dot == "."


@given(literals)
def test_a_language_says_the_datatype(literal: Literal) -> None:
    assert (literal.language is None) or literal.datatype == LANG_STRING


@pytest.mark.parametrize(
    "spelled, term",
    [
        ('"a\\"b\\\\c\\nd\\re"', Literal('a"b\\c\nd\re')),
        ('"\u2028\x85\t"@en-GB', Literal("\u2028\x85\t", language="en-GB")),
        (f'"01"^^<{XSD}integer>', Literal("01", XSD + "integer")),
        ('""', Literal("")),
        ("<ex:\u2028>", Iri("ex:\u2028")),
        ("_:d-x.y", Blank("d-x.y")),
    ],
)
def test_spellings(spelled: str, term: Term) -> None:
    assert read_term(spelled) == term
    assert spell(term) == spelled


@pytest.mark.parametrize(
    "spelled",
    [
        "",
        "x",
        "<a",
        "a>",
        "<a b>",
        "<a>b>",
        "_:",
        "_: x",
        '"',
        '"a',
        'a"',
        '"a"b"',
        '"a\\"',
        '"a\\t"',
        '"a\nb"',
    ]
    + ['"a"@', '"a"@en_GB', '"a"^^ex:x', '"a"^^<x', '"a" ', '"a"@en "b"', "<ex:a> <ex:b>", '"a"\n', "_:a\n"],
)
def test_what_spells_no_term_is_refused(spelled: str) -> None:
    with pytest.raises(NotSpelled):
        read_term(spelled)


@pytest.mark.parametrize(
    "term",
    [Iri("relative"), Iri(""), Iri("ex:a b"), Iri("ex:<"), Iri("ex:\n"), Iri("ex:{}"), Iri("ex:\ud800")]
    + [Blank(""), Blank("a b"), Blank("a\nb"), Literal("a", language="en_GB"), Literal("a", language="")]
    + [Literal("a", "integer"), Literal("\udfff"), Literal("a", "ex:a> <ex:b")],
)
def test_a_term_that_no_line_can_hold_is_refused(term: Term) -> None:
    with pytest.raises(NotSpelled):
        spell(term)


@given(all_paths)
def test_a_path_is_read_as_it_was_written(path: Path) -> None:
    assert read_path(str(path)) == path


@pytest.mark.parametrize(
    "path, line, query",
    [
        (P, "<ex:p>", "<ex:p>"),
        (Inverse(P), "(^<ex:p>)", "^<ex:p>"),
        (Inverse(Inverse(P)), "(^(^<ex:p>))", "^(^<ex:p>)"),
        (Inverse(ZeroOrMore(P)), "(^(<ex:p>*))", "^<ex:p>*"),
        (ZeroOrMore(Inverse(P)), "((^<ex:p>)*)", "(^<ex:p>)*"),
        (OneOrMore(ZeroOrOne(P)), "((<ex:p>?)+)", "(<ex:p>?)+"),
        (Sequence((P, Inverse(Q))), "(<ex:p>/(^<ex:q>))", "<ex:p>/^<ex:q>"),
        (Sequence((P, Sequence((Q, R)))), "(<ex:p>/(<ex:q>/<ex:r>))", "<ex:p>/(<ex:q>/<ex:r>)"),
        (Sequence((P, Alternative((Q, R)))), "(<ex:p>/(<ex:q>|<ex:r>))", "<ex:p>/(<ex:q>|<ex:r>)"),
        (Alternative((Sequence((P, Q)), R)), "((<ex:p>/<ex:q>)|<ex:r>)", "<ex:p>/<ex:q>|<ex:r>"),
        (ZeroOrOne(Alternative((P, Q))), "((<ex:p>|<ex:q>)?)", "(<ex:p>|<ex:q>)?"),
    ],
)
def test_paths_in_lines_and_in_sparql(path: Path, line: str, query: str) -> None:
    assert str(path) == line
    assert read_path(line) == path
    assert sparql(path) == query


@pytest.mark.parametrize(
    "spelled",
    ["", "-", "ex:p", "<ex:p", "(<ex:p>)", "(<ex:p>/)", "(<ex:p>/<ex:q>|<ex:r>)", "(^<ex:p>", "<ex:p>*"]
    + ["(<ex:p>*)*", "<ex:p><ex:q>", "(<ex:p>*<ex:q>)", "(/<ex:p>)", "()"],
)
def test_what_spells_no_path_is_refused(spelled: str) -> None:
    with pytest.raises(NotSpelled):
        read_path(spelled)
