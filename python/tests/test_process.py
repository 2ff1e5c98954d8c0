"""One running program: nothing blocks, nothing is left behind, and each way to fail has its exception."""

import gc
import os
import signal
import subprocess
import sys
import threading
import time
from collections.abc import Callable, Iterator
from pathlib import Path

import pytest

from hypothesis import given
from hypothesis import strategies as st

import shacl_keep
from conftest import EXAMPLES
from kept_texts import DATA, SHAPES
from shacl_keep.errors import Closed, Ended, KeepError, Killed, NoAnswer, NotRead, NotRun, PipeBroken
from shacl_keep.errors import TextRefused, TimedOut
from shacl_keep.process import Program
from shacl_keep.report import Change, Count, Grouped, Refused, Report, Slice


@pytest.fixture
def texts(tmp_path: Path) -> tuple[str, str]:
    """The files of shapes and data."""
    shapes, data = tmp_path / "shapes.ttl", tmp_path / "data.ttl"
    shapes.write_text(SHAPES)
    data.write_text(DATA)
    return str(shapes), str(data)


@pytest.fixture
def program(texts: tuple[str, str]) -> Iterator[Program]:
    with Program(*texts, timeout=60) as running:
        yield running


def insert(number: int) -> str:
    return f"insert <http://example.org/n{number}> <http://example.org/p> {number} ."


def example() -> tuple[str, str]:
    return str(EXAMPLES / "first" / "shapes.ttl"), str(EXAMPLES / "first" / "data.ttl")


def script(folder: Path, text: str) -> str:
    """A program that does what a script of the shell says."""
    file = folder / "program"
    file.write_text(f"#!/bin/sh\n{text}\n")
    file.chmod(0o755)
    return str(file)


def is_gone(process: int) -> bool:
    """Whether a process has ended, within ten seconds."""
    for _ in range(200):
        try:
            state = Path(f"/proc/{process}/stat").read_text().rsplit(")", 1)[1].split()[0]
        except OSError:
            return True
        if state == "Z":
            return True
        time.sleep(0.05)
    return False


def test_each_line_has_its_answer(program: Program) -> None:
    report, count = program.first()
    assert not report.conforms and len(report.results) == count.results > 0
    lines = ["count", "", "# a comment", " \t", "# b\r", "begin", insert(1), "undo", "commit", "report"]
    lines += [
        "report twice",
        "open the door",
        "\x0c",
        "\u2028",
        "slice ex:Task ex:sand",
        "slice ex:No ex:sand",
        "count",
    ]
    answers = program.ask(lines)
    assert answers[:5] == [count, None, None, None, None]
    assert answers[5:7] == [Grouped("begun"), Grouped("queued")]
    assert isinstance(answers[7], Refused) and answers[7].name == "GroupOpen"
    assert answers[8] == Change(True, 0)
    assert answers[9] == report
    assert answers[10:14] == [Refused(number, 52, "LineSyntax") for number in range(11, 15)]
    assert isinstance(answers[14], Slice) and answers[14].is_whole
    assert isinstance(answers[15], Refused) and answers[15].code == 45
    assert answers[16] == Count(count.triples + 1, count.pairs, count.results)


# What lines are blank, and so have no answer, is for the program to say.
LINES = st.lists(st.text(st.sampled_from("# \t\r\x0c\x85\u2028x")), max_size=30)


@given(LINES)
def test_no_line_of_blanks_and_comments_leads_astray(lines: list[str]) -> None:
    with Program(*example()) as program:
        _, count = program.first()
        assert program.ask([*lines, "count"])[-1] == count
        assert program.ask(["count"]) == [count]


def test_twenty_thousand_lines_in_one_call(program: Program) -> None:
    program.first()
    answers = program.ask(list(map(insert, range(20_000))))
    assert answers == [Change(True, 0)] * 20_000
    assert program.ask(["report"] * 300).count(program.ask(["report"])[0]) == 300


def test_a_line_has_no_line_feed(program: Program) -> None:
    program.first()
    with pytest.raises(ValueError, match="line feed"):
        program.ask(["count\ncount"])
    assert isinstance(program.ask(["count"])[0], Count)


def test_the_status_is_that_of_the_program(texts: tuple[str, str]) -> None:
    with Program(*texts) as program:
        program.first()
        assert program.status is None
    assert program.status == 1
    with pytest.raises(Closed):
        program.ask(["count"])


def test_what_is_not_read_is_no_hindrance_at_the_end(texts: tuple[str, str]) -> None:
    with Program(*texts) as program:
        program._send(b"report\n" * 20_000)
    assert program.status == 1


# ---- texts that are refused, or not read


@pytest.mark.parametrize("role", ["shapes", "data"])
def test_a_text_that_is_refused(texts: tuple[str, str], role: str) -> None:
    file = Path(texts[role == "data"])
    file.write_text(file.read_text() + "ex:a ex:b 1.0e0 .\n")
    with pytest.raises(TextRefused) as caught, Program(*texts) as program:
        program.first()
    refused = caught.value
    assert (refused.role, refused.code, refused.name) == (role, 5, "FloatLiteral")
    assert refused.at == file.read_text().index("1.0e0")
    assert program.status == 3


def test_a_text_that_is_refused_while_many_lines_are_sent(texts: tuple[str, str]) -> None:
    Path(texts[1]).write_text("ex:a ex:b 1 .")
    with pytest.raises(TextRefused) as caught, Program(*texts) as program:
        program.ask(list(map(insert, range(20_000))))
    assert caught.value.name == "UnknownPrefix"


def test_a_file_that_is_not_there(texts: tuple[str, str]) -> None:
    with pytest.raises(NotRead) as caught, Program(texts[0], "/nowhere") as program:
        program.first()
    assert caught.value.status == 4
    assert "/nowhere" in caught.value.files


def test_a_base_that_is_none(texts: tuple[str, str]) -> None:
    with pytest.raises(Ended, match="base") as caught, Program(*texts, base="here") as program:
        program.first()
    assert caught.value.status == 2


# ---- programs that fail


def test_a_program_that_is_not_there(texts: tuple[str, str]) -> None:
    with pytest.raises(NotRun) as caught:
        Program(*texts, program="/nowhere/shacl_keep")
    assert (caught.value.program, caught.value.why) == ("/nowhere/shacl_keep", "No such file or directory")


STEPS: list[Callable[[Program], object]] = [
    lambda program: program.first(),
    lambda program: program.ask([insert(1)]),
    lambda program: program.ask(["begin", insert(2)]),
    lambda program: program.ask(["commit"]),
    lambda program: program.ask(["report", "count"]),
    lambda program: program.ask(list(map(insert, range(20_000)))),
]


@pytest.mark.parametrize("step", range(len(STEPS)))
def test_a_kill_before_each_step(program: Program, step: int) -> None:
    for before in STEPS[:step]:
        before(program)
    os.kill(program.process, signal.SIGKILL)
    with pytest.raises(Killed) as caught:
        STEPS[step](program)
    assert (caught.value.signal, caught.value.status) == (9, -9)
    with pytest.raises(Closed):
        program.ask(["count"])


def test_a_kill_while_lines_are_answered(program: Program) -> None:
    program.first()
    killer = threading.Timer(0.05, os.kill, (program.process, signal.SIGKILL))
    killer.start()
    with pytest.raises(Killed):
        while True:
            program.ask(list(map(insert, range(5_000))))
    killer.join()


def test_a_program_that_is_silent(texts: tuple[str, str]) -> None:
    with pytest.raises(TimedOut), Program(*texts, timeout=0.5) as program:
        program.first()
        os.kill(program.process, signal.SIGSTOP)
        program.ask(["count"])
    assert program.status == -9


def test_a_program_that_takes_no_more_lines(texts: tuple[str, str]) -> None:
    with pytest.raises(TimedOut), Program(*texts, timeout=0.5) as program:
        program.first()
        os.kill(program.process, signal.SIGSTOP)
        program.ask(list(map(insert, range(20_000))))
    assert program.status == -9


def test_a_program_that_closes_its_input(tmp_path: Path, monkeypatch: pytest.MonkeyPatch) -> None:
    monkeypatch.setattr("shacl_keep.process._PATIENCE", 0.5)
    closing = script(tmp_path, "exec 0<&-; exec sleep 60")
    program = Program("shapes", "data", program=closing)
    time.sleep(0.3)
    with pytest.raises(PipeBroken):
        program.first()
    assert program.status == -9


def test_a_program_that_ends_within_its_report(tmp_path: Path) -> None:
    ending = script(
        tmp_path, "echo report conforms=false results=2; echo result MinCount Info _:s-x _:d-y - -"
    )
    with pytest.raises(Ended) as caught, Program("shapes", "data", program=ending) as program:
        program.first()
    assert caught.value.status == 0


def test_a_program_of_another_kind(tmp_path: Path, monkeypatch: pytest.MonkeyPatch) -> None:
    monkeypatch.setattr("shacl_keep.process._PATIENCE", 0.5)
    with pytest.raises(NoAnswer) as caught, Program(
        "a", "b", program=script(tmp_path, "exec cat")
    ) as program:
        program.ask(["open the door"])
    assert caught.value.answer == "open the door"
    with pytest.raises(KeepError), Program("a", "b", program=script(tmp_path, "exec yes")) as program:
        program.first()


# ---- nothing is left behind


def test_a_program_that_nobody_has_any_more_is_ended(texts: tuple[str, str]) -> None:
    program = Program(*texts)
    program.first()
    process = program.process
    del program
    gc.collect()
    assert is_gone(process)


PARENT = """
import os, sys
from shacl_keep.process import Program
program = Program(*sys.argv[1:3])
program.first()
print(program.process, flush=True)
os.kill(os.getpid(), 9)
"""


def test_a_program_ends_with_its_parent(texts: tuple[str, str]) -> None:
    found = dict(os.environ, PYTHONPATH=str(Path(shacl_keep.__file__).parents[1]))
    parent = subprocess.run(
        [sys.executable, "-c", PARENT, *texts], env=found, stdout=subprocess.PIPE, check=False, timeout=60
    )
    assert parent.returncode == -9
    assert is_gone(int(parent.stdout))


def test_neither_files_nor_threads_are_left(texts: tuple[str, str]) -> None:
    def used() -> tuple[int, int]:
        return len(os.listdir("/proc/self/fd")), threading.active_count()

    before = used()
    for _ in range(5):
        with Program(*texts) as program:
            report, _ = program.first()
            assert isinstance(report, Report)
    for _ in range(100):
        if used() == before:
            return
        time.sleep(0.05)
    assert used() == before
