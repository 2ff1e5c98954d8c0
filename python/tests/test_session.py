"""Sessions: each report is that of a fresh run over the data as it is then, and a change is made whole or
not."""

import os
import signal
import threading
from collections.abc import Callable
from pathlib import Path

import pytest
from hypothesis import given, settings
from hypothesis import strategies as st

from kept_texts import DATA, PREFIXES, SHAPES
from shacl_keep.documents import Text
from shacl_keep.errors import Closed, Killed, LineRefused, NoSpare, TextRefused
from shacl_keep.report import Change, Report
from shacl_keep.session import Session
from shacl_keep.spelled import RDF, XSD, Blank, Iri, Literal, NotSpelled, Triple, spell_triple

EX = "http://example.org/"
A = Iri(RDF + "type")
DOUBLE = Literal("1e0", XSD + "double")


def ex(name: str) -> Iri:
    return Iri(EX + name)


def session_of(data: str = DATA, **how: int) -> Session:
    return Session(Text(SHAPES), Text(data), timeout=60, spare=how.get("spare", 0))


def fresh(triples: set[Triple], shapes: str = SHAPES) -> Report:
    """The report of a run of its own. Its text has the labels that the program called the nodes by."""
    text = "".join(f"{spell_triple(triple)}\n" for triple in triples).replace("_:d-", "_:")
    with Session(Text(shapes), Text(text), timeout=60) as session:
        return session.report


TRIPLES: set[Triple] = {
    (ex("paint"), A, ex("Task")),
    (ex("paint"), ex("title"), Literal("Paint")),
    (ex("paint"), ex("owner"), Blank("d-ann")),
    (ex("paint"), ex("needs"), ex("sand")),
    (ex("sand"), A, ex("Task")),
    (ex("sand"), ex("title"), Literal("Sand")),
    (Blank("d-ann"), A, ex("Person")),
    (Blank("d-ann"), ex("knows"), Blank("d-bob")),
}

tasks = st.sampled_from([ex("paint"), ex("sand"), ex("wait")])
people = st.sampled_from([Blank("d-ann"), Blank("d-bob"), ex("cleo")])
titles = st.sampled_from(["Paint", "Go", "", '\u2028\n"', "a\\b"]).map(Literal)
triples = st.one_of(
    st.tuples(tasks, st.just(A), st.just(ex("Task"))),
    st.tuples(people, st.just(A), st.just(ex("Person"))),
    st.tuples(tasks, st.just(ex("title")), titles | st.just(Literal("Go", language="en"))),
    st.tuples(tasks, st.just(ex("owner")), people | titles),
    st.tuples(tasks, st.just(ex("needs")), tasks),
    st.tuples(people, st.just(ex("knows")), people),
    st.tuples(people, st.just(ex("name")), titles),
)
edits = st.tuples(st.sampled_from(["insert", "insert", "remove"]), triples)


def edited(before: set[Triple], made: list[tuple[str, Triple]]) -> set[Triple]:
    after = set(before)
    for word, triple in made:
        if word == "insert":
            after.add(triple)
        else:
            after.discard(triple)
    return after


def make(session: Session, made: list[tuple[str, Triple]]) -> Change:
    """Makes edits: one by itself, and several as a group."""
    if len(made) == 1:
        ((word, triple),) = made
        return (session.insert if word == "insert" else session.remove)(*triple)
    with session.group() as group:
        for word, triple in made:
            (group.insert if word == "insert" else group.remove)(*triple)
    assert group.change
    return group.change


groups = st.lists(edits, min_size=1, max_size=4)
turns = st.sampled_from(["undo", "redo"])
steps: st.SearchStrategy[list[list[tuple[str, Triple]] | str]] = st.lists(
    groups | turns, min_size=10, max_size=40
)


@settings(max_examples=12)
@given(steps)
def test_random_edits_beside_fresh_runs(several: list[list[tuple[str, Triple]] | str]) -> None:
    graphs, at = [TRIPLES], 0
    with session_of() as session:
        assert session.report == fresh(TRIPLES)
        for number, step in enumerate(several):
            if isinstance(step, str):
                by = -1 if step == "undo" else 1
                if not 0 <= at + by < len(graphs):
                    with pytest.raises(LineRefused):
                        getattr(session, step)()
                    continue
                getattr(session, step)()
                at += by
            else:
                after = edited(graphs[at], step)
                assert make(session, step).changed == (after != graphs[at])
                if after != graphs[at]:
                    graphs[at + 1 :] = [after]
                    at += 1
            assert session.count.triples == len(graphs[at])
            assert session.conforms == session.report.conforms
            if number % 10 == 9:
                assert session.report == fresh(graphs[at])


def test_a_group_is_made_when_it_ends() -> None:
    with session_of() as session:
        before = session.report
        with session.group() as group:
            group.remove(ex("paint"), ex("title"), Literal("Paint"))
            group.insert(ex("paint"), ex("title"), Literal("Go"))
            assert session.report == before and len(group) == 2 and group.change is None
            edit: Callable[[], Change] = lambda: session.insert(ex("a"), A, ex("b"))
            for call in (session.undo, session.redo, edit):
                with pytest.raises(LineRefused) as caught:
                    call()
                assert (caught.value.code, caught.value.name) == (42, "GroupOpen")
        assert group.change and group.change.changed and group.change.evaluated == 1
        assert session.report == fresh(
            edited(
                TRIPLES,
                [
                    ("remove", (ex("paint"), ex("title"), Literal("Paint"))),
                    ("insert", (ex("paint"), ex("title"), Literal("Go"))),
                ],
            )
        )


def test_an_exception_ends_a_group_with_nothing_made() -> None:
    with session_of() as session:
        with pytest.raises(ZeroDivisionError), session.group() as group:
            group.insert(ex("paint"), ex("title"), Literal("Go"))
            raise ZeroDivisionError
        assert session.count.triples == len(TRIPLES)
        assert session.insert(ex("paint"), ex("title"), Literal("Go")).changed


@pytest.mark.parametrize("size", [0, 5, 9_999, 10_000, 25_000])
def test_a_group_that_is_refused_changes_nothing(size: int) -> None:
    with session_of() as session:
        session.insert(ex("wait"), A, ex("Task"))
        before = session.report
        with pytest.raises(LineRefused) as caught, session.group() as group:
            for number in range(size):
                group.insert(ex(f"n{number}"), A, ex("Task"))
            group.insert(ex("paint"), ex("cost"), DOUBLE)
        assert (caught.value.role, caught.value.code, caught.value.name) == ("script", 55, "FloatLiteral")
        assert caught.value.at == caught.value.line.index('"1e0"')
        assert session.report == before
        with pytest.raises(LineRefused):
            session.redo()
        assert session.undo().changed
        assert session.report == fresh(TRIPLES)


def test_a_large_group_is_taken_back_as_one() -> None:
    with session_of() as session:
        before = session.report
        session.insert(ex("wait"), A, ex("Task"))
        with session.group() as group:
            for number in range(35_000):
                group.insert(ex(f"n{number}"), ex("p"), Literal(str(number)))
        assert session.count.triples == len(TRIPLES) + 35_001
        session.undo()
        assert session.count.triples == len(TRIPLES) + 1
        session.redo()
        assert session.count.triples == len(TRIPLES) + 35_001
        session.undo()
        session.undo()
        assert session.report == before


def test_a_group_past_all_limits() -> None:
    with session_of() as session, pytest.raises(ValueError, match="1,000,000 edits at most"):
        session.make(["remove <ex:a> <ex:b> <ex:c> ."] * 1_000_001)


@pytest.mark.parametrize("spare", [0, 10])
def test_a_hundred_changes_can_be_taken_back(spare: int) -> None:
    with session_of(spare=spare) as session:
        for number in range(105):
            session.insert(ex("n"), ex("p"), Literal(str(number)))
        for _ in range(100):
            session.undo()
        with pytest.raises(LineRefused, match="NothingToUndo"):
            session.undo()
        assert session.count.triples == len(TRIPLES) + 5
        for _ in range(100):
            session.redo()
        with pytest.raises(LineRefused, match="NothingToRedo"):
            session.redo()


def test_what_changes_nothing_is_no_change() -> None:
    with session_of() as session:
        session.insert(ex("n"), ex("p"), ex("o"))
        assert session.undo() == Change(True, 0)
        assert session.insert(ex("sand"), A, ex("Task")) == Change(False, 0)
        with session.group() as group:
            group.insert(ex("sand"), A, ex("Task"))
            group.insert(ex("m"), ex("p"), ex("o"))
            group.remove(ex("m"), ex("p"), ex("o"))
        assert group.change == Change(False, 0)
        with session.group() as empty:
            pass
        assert empty.change == Change(False, 0)
        assert session.redo() == Change(True, 0)


# ---- blank nodes


def test_spare_names_for_new_blank_nodes() -> None:
    with session_of(spare=3) as session:
        assert session.report == fresh(TRIPLES)
        with pytest.raises(LineRefused, match="NothingToUndo"):
            session.undo()
        new = [session.blank() for _ in range(4)]
        assert len(set(new)) == 4
        for node in new:
            assert session.insert(ex("paint"), ex("owner"), node).evaluated == 1
        assert {result.value for result in session.results} >= set(new)
        with pytest.raises(NoSpare):
            session.blank()


def test_spare_names_are_none_of_the_text() -> None:
    with session_of(DATA + '_:spare0 ex:p _:spare1 , "spare" .', spare=4) as session:
        assert session.blank() == Blank("d-sparex0")
        assert session.count.triples == len(TRIPLES) + 2


def test_a_fault_has_its_place_beside_spare_names() -> None:
    for text in (
        "<ex:a> <ex:b>",
        "<ex:a>",
        '<ex:a> <ex:b> """',
        "@prefix a:",
        "<ex:a> <ex:b> <ex:c> ;",
        "[",
        "#",
    ):
        found = []
        for spare in (0, 4):
            try:
                with Session(Text(SHAPES), Text(text), spare=spare) as session:
                    found.append(str(session.count.triples))
            except TextRefused as refused:
                found.append(f"{refused.name} {refused.at}")
        assert found[0] == found[1], text


# ---- other shapes, slices, terms


def test_other_shapes() -> None:
    other = SHAPES.replace("sh:maxLength 3", "sh:maxLength 30")
    with session_of() as session:
        assert session.load_shapes(Text(other)).evaluated == 2
        assert session.report == fresh(TRIPLES, other)
        session.remove(ex("sand"), A, ex("Task"))
        assert session.load_shapes(Text(SHAPES)).evaluated == 1
        session.undo()
        assert session.report == fresh(TRIPLES)


@pytest.mark.parametrize(
    "text, name, at",
    [("ex:a ex:b 1 .", "UnknownPrefix", 0), ("<ex:a> .", "Syntax", 0), ("\xff", "Syntax", 0)]
    + [(PREFIXES + 'ex:S sh:path ex:p ; sh:minCount "x" .', "WrongKind", None)]
    + [(PREFIXES + "ex:S sh:node ex:S .", "Recursive", None)]
    + [(PREFIXES + 'ex:S sh:path ex:p ; sh:pattern "(" .', "BadPattern", None)]
    + [
        (
            PREFIXES + 'ex:S sh:path ex:p ; sh:pattern "' + "(a{1000}){1000}" * 9 + '" .',
            "PatternRefused",
            None,
        )
    ],
)
def test_shapes_that_are_refused_leave_the_session_as_it_is(text: str, name: str, at: int | None) -> None:
    with session_of() as session:
        before = session.report
        with pytest.raises(TextRefused) as caught:
            session.load_shapes(Text(text))
        assert (caught.value.role, caught.value.name, caught.value.at) == ("shapes", name, at)
        assert session.report == before
        assert session.insert(ex("wait"), A, ex("Task")).evaluated == 1


def test_slices() -> None:
    with session_of() as session:
        piece = session.slice(ex("Task"), ex("sand"))
        assert set(piece.triples) == {
            (ex("sand"), ex("title"), Literal("Sand")),
            (ex("paint"), ex("needs"), ex("sand")),
        }
        with pytest.raises(LineRefused) as caught:
            session.slice(ex("Title"), ex("sand"))
        assert (caught.value.code, caught.value.name) == (45, "NoPair")


@pytest.mark.parametrize(
    "value", [Iri("here"), Iri("ex:a b"), Literal("\ud800"), Literal("a", language="a_b")]
)
def test_a_term_that_no_line_can_hold(value: Iri | Literal) -> None:
    with session_of() as session:
        with pytest.raises(NotSpelled):
            session.insert(ex("a"), ex("b"), value)
        assert session.count.triples == len(TRIPLES)


def test_what_the_program_refuses() -> None:
    with session_of() as session:
        for value, name in (
            (Blank("d-nobody"), "UnknownBlank"),
            (Literal("1" * 40, XSD + "integer"), "WideValue"),
            (Literal("x" * 70_000), "LineTooLong"),
        ):
            with pytest.raises(LineRefused) as caught:
                session.insert(ex("a"), ex("b"), value)
            assert caught.value.name == name
        with pytest.raises(TypeError):
            session.insert("ex:a", ex("b"), ex("c"))
        assert session.count.triples == len(TRIPLES)


def test_notices() -> None:
    with Session(Text(PREFIXES + "ex:S sh:sparql [] ."), Text("")) as session:
        assert session.notices == ("1 sh:sparql triples ignored",)


# ---- the end


STEPS: list[Callable[[Session], object]] = [
    lambda session: session.insert(ex("a"), ex("b"), ex("c")),
    lambda session: session.make(
        [session.line("insert", ex("a"), ex("b"), Literal(str(n))) for n in range(20_000)]
    ),
    lambda session: session.undo(),
    lambda session: session.redo(),
    lambda session: session.report,
    lambda session: session.slice(ex("Task"), ex("sand")),
    lambda session: session.load_shapes(Text(SHAPES)),
    lambda session: session.count,
]


@pytest.mark.parametrize("step", range(len(STEPS)))
def test_a_kill_before_each_step(step: int) -> None:
    with session_of() as session:
        for before in STEPS[:step]:
            before(session)
        os.kill(session.process, signal.SIGKILL)
        with pytest.raises((Killed, Closed)):
            STEPS[step](session)
            session.insert(ex("n"), ex("b"), ex("c"))


def test_several_threads() -> None:
    with session_of() as session:

        def work(number: int) -> None:
            for at in range(50):
                session.insert(ex(f"n{number}"), ex("p"), Literal(str(at)))
                with session.group() as group:
                    group.insert(ex(f"n{number}"), ex("q"), Literal(str(at)))
                    group.insert(ex(f"n{number}"), ex("r"), Literal(str(at)))

        threads = [threading.Thread(target=work, args=(number,)) for number in range(4)]
        for thread in threads:
            thread.start()
        for thread in threads:
            thread.join()
        assert session.count.triples == len(TRIPLES) + 600


def test_a_session_of_files(tmp_path: Path, monkeypatch: pytest.MonkeyPatch) -> None:
    (tmp_path / "shapes.ttl").write_text(SHAPES)
    (tmp_path / "data.ttl").write_text(DATA)
    monkeypatch.chdir(tmp_path)
    with Session("shapes.ttl", Path("data.ttl")) as session:
        monkeypatch.chdir("/")
        assert session.report == fresh(TRIPLES)
        assert session.load_shapes(tmp_path / "shapes.ttl").evaluated == 0
    with pytest.raises(Closed):
        session.insert(ex("a"), ex("b"), ex("c"))
