"""The reader of reports, answers and faults, over reports of the examples and over generated ones."""

from collections.abc import Iterator
from pathlib import Path as File

import pytest
from hypothesis import given
from hypothesis import strategies as st

from made import all_paths, iris, literals, nodes, terms
from shacl_keep.paths import Inverse
from shacl_keep.report import Change, Count, Detail, Fault, Grouped, Head, Lines, Loaded, Notice, Other, Part
from shacl_keep.report import Refused, Report, Result, Slice, difference, parts_of, stream
from shacl_keep.spelled import Blank, Iri, Literal, Triple, spell

COMPONENTS = st.sampled_from(["MinCount", "Node", "Datatype"])
SEVERITIES = st.sampled_from(["Violation", "Warning", "Info"]) | iris.map(spell)


@st.composite
def outcomes(draw: st.DrawFn) -> str:
    path, value = draw(st.none() | all_paths), draw(st.none() | terms)
    words = [draw(COMPONENTS), draw(SEVERITIES), spell(draw(nodes)), spell(draw(terms))]
    return " ".join([*words, str(path or "-"), "-" if value is None else spell(value)])


results = st.builds(
    Result,
    outcomes(),
    st.lists(literals.map(spell), max_size=2).map(tuple),
    st.lists(outcomes().map(Detail), max_size=2).map(tuple),
)
reports = st.lists(results, max_size=4).map(
    lambda several: Report(Head(not several, len(several)), tuple(several))
)


LIBRARY = """report conforms=false results=2
result Node Violation <lib:Home> <lib:ben> (^<lib:address>) _:a-1
message "One line\\nand \u2028another"@en
detail MinCount <ex:Grave> _:t-22 _:a-1 <lib:city> -
result Pattern Warning _:s-x "a b" - "a b"
"""


def bytes_of(lines: list[str]) -> bytes:
    return "".join(f"{line}\n" for line in lines).encode()


def pieces(written: bytes, size: int) -> list[bytes]:
    return [written[at : at + size] for at in range(0, len(written), size)]


@given(st.lists(reports, max_size=3), st.integers(1, 40))
def test_reports_are_read_as_they_were_written(several: list[Report], size: int) -> None:
    lines = [line for report in several for line in report.lines]
    assert list(parts_of(Lines(pieces(bytes_of(lines), size)))) == several


def test_a_report_that_is_cut_is_not_whole() -> None:
    written = LIBRARY.encode()
    last = written.rindex(b"result ")
    for end in range(len(written)):
        lines = Lines([written[:end]])
        parts = list(parts_of(lines))
        assert lines.tail or written[:end].endswith(b"\n") or not end
        assert not any(isinstance(part, Report) and part.is_whole for part in parts), written[last:end]


def test_each_example_is_read_without_a_rest(examples: File) -> None:
    seen = 0
    for expected in sorted(examples.glob("*/expected")):
        text = expected.read_bytes()
        parts = list(parts_of(Lines([text])))
        # What stands behind the output is the status of the run.
        others = [part for part in parts if isinstance(part, Other)]
        assert all(other.line.startswith("status ") for other in others), others
        seen += sum(isinstance(part, Report) for part in parts)
    assert seen > 10


def test_the_parts_of_a_result() -> None:
    (report,) = parts_of(Lines([LIBRARY.encode()]))
    assert isinstance(report, Report) and not report.conforms and report.is_whole
    node, pattern = report.results
    assert (node.component, node.severity) == ("Node", Iri("http://www.w3.org/ns/shacl#Violation"))
    assert (node.shape, node.focus, node.value) == (Iri("lib:Home"), Iri("lib:ben"), Blank("a-1"))
    assert node.path == Inverse(Iri("lib:address"))
    assert node.messages == (Literal("One line\nand \u2028another", language="en"),)
    (detail,) = node.details
    assert (detail.severity, detail.shape, detail.value) == (Iri("ex:Grave"), Blank("t-22"), None)
    assert (pattern.focus, pattern.path, pattern.value) == (Literal("a b"), None, Literal("a b"))
    assert pattern.words.focus == '"a b"'
    assert "".join(f"{line}\n" for line in report.lines) == LIBRARY


@given(st.lists(st.tuples(nodes, iris, terms), max_size=4))
def test_slices(triples: list[Triple]) -> None:
    stated = [" ".join(map(spell, triple)) for triple in triples]
    lines = [f"slice triples={len(stated)}", *(f"triple {words}" for words in stated), "ok begun"]
    piece, begun = parts_of(lines)
    assert isinstance(piece, Slice) and piece.is_whole
    assert piece.triples == tuple(triples)
    assert begun == Grouped("begun")


@pytest.mark.parametrize(
    "line, part",
    [
        ("ok changed evaluated 12", Change(True, 12)),
        ("ok unchanged evaluated 0", Change(False, 0)),
        ("ok shapes evaluated 3", Loaded(3)),
        ("ok begun", Grouped("begun")),
        ("count triples=3 pairs=2 results=1", Count(3, 2, 1)),
        ("refused line 4: 42 GroupOpen", Refused(4, 42, "GroupOpen")),
        ("refused line 6: 53 UnknownPrefix at 7", Refused(6, 53, "UnknownPrefix", 7)),
        ("fault data: 5 FloatLiteral at 235", Fault("data", 5, "FloatLiteral", 235)),
        ("fault data: 10 TextTooLong", Fault("data", 10, "TextTooLong")),
        ("fault shapes: 30 Recursive shape _:s-x", Fault("shapes", 30, "Recursive", shape=Blank("s-x"))),
        (
            'fault shapes: 22 WrongKind shape <ex:S> predicate <ex:p> term "a b"',
            Fault("shapes", 22, "WrongKind", None, Iri("ex:S"), Iri("ex:p"), Literal("a b")),
        ),
        ("notice: 1 sh:sparql triples ignored", Notice("1 sh:sparql triples ignored")),
        ("usage: shacl_keep SHAPES DATA", Other("usage: shacl_keep SHAPES DATA")),
        ("result Class Violation <ex:S> <ex:a> - -", Other("result Class Violation <ex:S> <ex:a> - -")),
        ("ok changed evaluated 12 ", Other("ok changed evaluated 12 ")),
        ("ok changed", Other("ok changed")),
        ("", Other("")),
    ],
)
def test_answers(line: str, part: Part) -> None:
    assert list(parts_of([line])) == [part]


def test_a_result_that_is_none_ends_the_report() -> None:
    lines = [
        "report conforms=false results=1",
        "result MinCount Violation <ex:S> <ex:a> <ex:p>",
        "message no",
    ]
    head, *others = stream(lines)
    assert head == Head(False, 1)
    assert others == [Other(line) for line in lines[1:]]


def test_a_stream_gives_results_before_the_end_comes() -> None:
    def endless() -> Iterator[str]:
        yield "report conforms=false results=1000000000"
        while True:
            yield "result MinCount Violation <ex:S> <ex:a> <ex:p> -"

    events = stream(endless())
    assert next(events) == Head(False, 1_000_000_000)
    assert isinstance(next(events), Result)


# Few results, so that some come and go several times.
FEW = st.lists(
    st.sampled_from("abc").map(lambda name: Result(f"Class Info _:s-x <ex:{name}> - -")), max_size=5
)


@given(FEW, FEW, FEW)
def test_what_came_and_what_went(kept: list[Result], went: list[Result], came: list[Result]) -> None:
    before, after = (Report(Head(False, 0), (*kept, *more)) for more in (went, came))
    found = difference(before, after)
    assert sorted([*before.results, *found.came], key=str) == sorted([*after.results, *found.went], key=str)
    assert not set(found.came) & set(found.went)


@given(st.lists(st.text(max_size=8).map(lambda text: text.replace("\n", "")), max_size=5), st.integers(1, 5))
def test_only_a_line_feed_ends_a_line(texts: list[str], size: int) -> None:
    clean = [text.encode("utf-8", "ignore").decode() for text in texts]
    lines = Lines(pieces(bytes_of(clean) + b"rest", size))
    assert list(lines) == clean
    assert lines.tail == "rest"
