"""Several texts that are one graph: each is a document of its own, and blank nodes can be told apart."""

import os
from pathlib import Path

import pytest
from hypothesis import given
from hypothesis import strategies as st

from made import names
from shacl_keep.documents import Text, document, joined_name, origin
from shacl_keep.errors import NotRun, TextRefused
from shacl_keep.session import Session
from shacl_keep.spelled import Blank, Iri, Literal

SHAPES = Text(
    """@prefix sh: <http://www.w3.org/ns/shacl#> .
<ex:Once> sh:targetSubjectsOf <ex:name> ; sh:path <ex:name> ; sh:maxCount 1 .
<ex:Names> sh:targetObjectsOf <ex:knows> ; sh:path <ex:name> ; sh:maxLength 0 .
"""
)
# The first leaves a base and a prefix behind, and both have a label and a node without one.
ONE = '@base <http://one/> . @prefix p: <ex:> . <a> p:knows _:x , [ p:name "in one" ] . _:x p:name "x1" .'
TWO = '@prefix p: <ex:> . <a> p:knows _:x , [ p:name "in two" ] . _:x p:name "x2" .'


def joined(*texts: str) -> list[str]:
    with document("data", list(map(Text, texts)), "file:///") as made:
        assert made.file
        return os.pread(made.file.fileno(), 100_000, 0).decode().split("\n")[:-1]


def test_each_text_is_a_document_of_its_own() -> None:
    assert joined(ONE, TWO) == [
        "<http://one/a> <ex:knows> _:1-d-x .",
        "<http://one/a> <ex:knows> _:1-a-1 .",
        '_:1-a-1 <ex:name> "in one" .',
        '_:1-d-x <ex:name> "x1" .',
        "<file:///a> <ex:knows> _:2-d-x .",
        "<file:///a> <ex:knows> _:2-a-1 .",
        '_:2-a-1 <ex:name> "in two" .',
        '_:2-d-x <ex:name> "x2" .',
    ]


def test_a_prefix_of_one_text_is_not_set_in_another(tmp_path: Path) -> None:
    names = [tmp_path / "one.ttl", tmp_path / "two.ttl"]
    names[0].write_text(ONE)
    names[1].write_text('<a> p:knows "nobody" .')
    with pytest.raises(TextRefused) as caught:
        Session(SHAPES, names)
    refused = caught.value
    assert (refused.role, refused.name, refused.at) == ("data", "UnknownPrefix", 4)
    assert refused.source == str(names[1])


def test_labels_of_different_texts_are_different_nodes() -> None:
    with Session(SHAPES, [Text(ONE), Text(TWO)]) as session:
        found = {(result.focus, result.value) for result in session.results}
        assert found == {
            (Blank("d-1-d-x"), Literal("x1")),
            (Blank("d-1-a-1"), Literal("in one")),
            (Blank("d-2-d-x"), Literal("x2")),
            (Blank("d-2-a-1"), Literal("in two")),
        }
        # They are nodes like others: an edit finds them.
        assert session.insert(Blank("d-2-d-x"), Iri("ex:name"), Literal("again")).changed
        assert "Once" in str([result.shape for result in session.results])


def test_a_triple_of_two_texts_is_one() -> None:
    with Session(SHAPES, [Text("<ex:a> <ex:b> 1 ."), Text("<ex:a> <ex:b> 1 , 2 .")]) as session:
        assert session.count.triples == 2


def test_what_looks_like_a_label_in_a_literal_stays() -> None:
    said = ["_:d-x .", "a _:a-1 .", "\n_:d-y <p> _:a-2 .\n", '"_:d-x', "_:d-x"]
    lines = joined(
        "<ex:a> <ex:b> " + " , ".join(str(Literal(text)) for text in said) + " .",
        '<ex:a> <ex:b> "_:d-x ."@en .',
    )
    values = [str(Literal(text)) for text in said] + ['"_:d-x ."@en']
    assert lines == [f"<ex:a> <ex:b> {value} ." for value in values]


def test_hostile_characters_stay() -> None:
    text = "\u2028\x85\x0b\x0c\x00\u202e\x1b[0m \t"
    lines = joined(f"<ex:\u2028> <ex:b> {Literal(text)} .", "")
    assert lines == [f"<ex:\u2028> <ex:b> {Literal(text)} ."]


def test_shapes_of_several_texts() -> None:
    more = Text(
        "@prefix sh: <http://www.w3.org/ns/shacl#> . [] sh:targetNode <ex:a> ; sh:property _:x ."
        " _:x sh:path <ex:b> ; sh:minCount 1 ."
    )
    with Session([SHAPES, more], Text("")) as session:
        (result,) = session.results
        assert result.shape == Blank("s-2-d-x")


@given(st.integers(1, 99), st.sampled_from("dsat"), names)
def test_the_way_back_from_a_name(number: int, scope: str, label: str) -> None:
    found = origin(joined_name(number, f"{scope}-{label}"))
    assert found is not None and (found.number, found.name) == (number, f"{scope}-{label}")


@pytest.mark.parametrize("name", ["d-x", "a-1", "d-b7", "d-1-x", "d-x-d-y", "t-1"])
def test_a_name_of_a_single_text_has_no_origin(name: str) -> None:
    assert origin(name) is None


def test_files_that_cannot_be_opened(tmp_path: Path) -> None:
    with pytest.raises(FileNotFoundError):
        Session(SHAPES, tmp_path / "none.ttl")
    with pytest.raises(FileNotFoundError):
        Session(SHAPES, [Text(""), tmp_path / "none.ttl"])
    with pytest.raises(FileNotFoundError):
        Session("", Text(""))


@pytest.mark.parametrize("name", ["-", "--base", "a b.ttl", "é\u2028.ttl", "'\".ttl"])
def test_odd_names_of_files(tmp_path: Path, monkeypatch: pytest.MonkeyPatch, name: str) -> None:
    monkeypatch.chdir(tmp_path)
    Path(name).write_text("<ex:a> <ex:b> <ex:c> .")
    with Session(SHAPES, name) as session:
        assert session.count.triples == 1
        Path(name).write_text(SHAPES.text)
        assert session.load_shapes(name).evaluated == 0
    Path(name).write_text("<ex:a> <ex:b> <ex:c> .")
    with Session(SHAPES, [name, Text("<ex:d> <ex:e> <ex:f> .")]) as session:
        assert session.count.triples == 2


def test_the_reader_of_several_texts_is_not_there(monkeypatch: pytest.MonkeyPatch) -> None:
    monkeypatch.setenv("SHACL_KEEP_TRIPLES", "/nowhere/ttl_triples")
    with pytest.raises(NotRun) as caught:
        Session(SHAPES, [Text(""), Text("")])
    assert caught.value.program == "/nowhere/ttl_triples"


def test_a_pipe_is_read_once(tmp_path: Path) -> None:
    reading, writing = os.pipe()
    os.write(writing, b"<ex:a> <ex:b> <ex:c> .")
    os.close(writing)
    with open(reading, "rb"):
        with Session(SHAPES, [f"/proc/{os.getpid()}/fd/{reading}"]) as session:
            assert session.count.triples == 1
