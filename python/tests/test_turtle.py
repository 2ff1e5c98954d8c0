"""The reader of Turtle states what the proved reader does, and tells where it stands."""

import subprocess
from pathlib import Path

import pytest
from commands import write
from conftest import TOP

from shacl_keep.iris import resolved
from shacl_keep.programs import triples_path
from shacl_keep.refused_texts import doubles
from shacl_keep.texts import TurtleText
from shacl_keep.triples import DATA, NotRead, Reader

BASE = "http://b/x/y"
TEXTS = sorted((TOP / "examples").glob("*/*.ttl")) + sorted((TOP / "bench").glob("*.ttl"))
# Each form of Turtle, with what looks like another.
HARD = (
    "\ufeff# a comment\n"
    r"""@prefix : <http://e/n/> . @prefix e: <http://e/> .@base <sub/> .
PREFIX p.q: <#> baSe <../T/>
:a e:p <r> , <#f>, <?q>, <//h/../i>, <>, e:,:b\,c ,:%41.b, p.q:z.z ;; a e:C;.
[] e:p ( ) . [ e:q "a\"\\\n" ] e:r [ ] , [ e:q ( 1 [ e:s ( ( ) ( :x ) ) ] "two"@en-GB ) ] .
( :a [ ] ) e:p true,false , -1.50,+01 , .5 , '''it''s "long" ''' , 'x'^^e:t .
"""
    r'''_:l.1 e:p _:l.1,_:2 , "x" ^^ # behind
  <http://www.w3.org/2001/XMLSchema#string> , "x"@EN , """""\t\u00e9\U0001F600 "" """ .
:a<http://e/p><http://e/o>. <http://e/\u0061> e:p 7.:b e:p 7 .
'''
)


def stated(file: Path) -> list[str]:
    """The triples of a file, by the proved reader."""
    words = [triples_path(), BASE, str(file)]
    return sorted(
        set(subprocess.run(words, stdout=subprocess.PIPE, check=True).stdout.decode().split("\n")[:-1])
    )


def read(file: Path) -> list[str]:
    """The same by the reader of the package."""
    triples = TurtleText(str(file), DATA, BASE).reader()
    return sorted({f"{it.subject} {it.verb.term} {it.object.term} ." for it in triples})


@pytest.mark.parametrize("file", TEXTS, ids=lambda file: f"{file.parent.name}/{file.name}")
def test_a_text_states_what_the_proved_reader_reads(file: Path) -> None:
    assert read(file) == stated(file)


def test_a_hard_text_states_what_the_proved_reader_reads(tmp_path: Path) -> None:
    write(tmp_path, {"hard.ttl": HARD})
    assert read(tmp_path / "hard.ttl") == stated(tmp_path / "hard.ttl")


def test_words_stand_where_they_are_written() -> None:
    text = '@prefix e: <http://e/> .\ne:a e:p e:b , "c"@en ; e:q [ e:r ( 1 ) ] .\n'
    found = [
        (text[it.start], it.verb.term[-2], text[it.object.start : it.object.end]) for it in Reader(text, BASE)
    ]
    assert found[:4] == [("e", "p", "e:b"), ("e", "p", '"c"@en'), ("e", "q", "["), ("[", "r", "(")]
    assert found[4:] == [("(", "t", "1"), ("(", "t", ")")]


@pytest.mark.parametrize(
    ("text", "line"),
    [
        ("<a> <b> <c> .\n<a> <b", 2),
        ("<a> <b> <c> .\n\n<a> <b> <c>", 3),
        ("<a> <b> <c> ] .", 1),
        ("<a>\n<b> ( <c> .", 2),
        ("x:a <b> <c> .", 1),
        ('"a" <b> <c> .', 1),
        ("<a> @prefix <c> .", 1),
        ("{ <a> <b> <c> }", 1),
    ],
)
def test_what_is_no_turtle_is_told(text: str, line: int) -> None:
    with pytest.raises(NotRead) as told:
        list(Reader(text, BASE))
    assert told.value.line == line


def test_all_doubles_are_found(tmp_path: Path) -> None:
    text = (
        "@prefix x: <http://www.w3.org/2001/XMLSchema#> .\n<a> <b> 1e0 , 1.5E-3 , 1.0 , ( .5e1 ) ;\n"
        ' <c> "x"^^x:float , "y"^^<http://www.w3.org/2001/XMLSchema#double> , "1e0" .\n<d> <e> 2.e3 .\n'
    )
    write(tmp_path, {"d.ttl": text})
    found = [
        (it.place.line, it.place.column, it.said)
        for it in doubles(TurtleText(str(tmp_path / "d.ttl"), DATA, BASE))
    ]
    assert found == [
        (2, 9, "1e0"),
        (2, 15, "1.5E-3"),
        (2, 32, ".5e1"),
        (3, 6, '"x"^^x:float'),
        (3, 21, '"y"^^<http://www.w3.org/2001/XMLSchema#double>'),
        (4, 9, "2.e3"),
    ]


@pytest.mark.parametrize(
    ("reference", "due"),
    [
        # RFC 3986, section 5.4, over its base.
        ("g:h", "g:h"),
        ("g", "http://a/b/c/g"),
        ("./g", "http://a/b/c/g"),
        ("g/", "http://a/b/c/g/"),
        ("/g", "http://a/g"),
        ("//g", "http://g"),
        ("?y", "http://a/b/c/d;p?y"),
        ("g?y", "http://a/b/c/g?y"),
        ("#s", "http://a/b/c/d;p?q#s"),
        (";x", "http://a/b/c/;x"),
        ("", "http://a/b/c/d;p?q"),
        (".", "http://a/b/c/"),
        ("..", "http://a/b/"),
        ("../g", "http://a/b/g"),
        ("../../../g", "http://a/g"),
        ("/./g", "http://a/g"),
        ("g;x=1/../y", "http://a/b/c/y"),
    ],
)
def test_references_are_resolved(reference: str, due: str) -> None:
    assert resolved("http://a/b/c/d;p?q", reference) == due
