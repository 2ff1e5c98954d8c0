"""Every format over every example, and over texts that are hostile, read by the tools that it is for."""

import csv
import io
import json
import re
from html.parser import HTMLParser
from pathlib import Path
from typing import Any

import jsonschema
import junitparser
import pytest
from commands import FORMATS, PREFIXES, Ended, example_words, keep, show, write
from sarif_schema import SCHEMA

from shacl_keep.report import Result, stream

LINE = re.compile(r"(.+?):(\d+):(\d+): (error|warning|info): (.*) \[(.+)\]")
COMMAND = re.compile(
    r"::(error|warning|notice) (?:file=([^:,]+)(?:,line=(\d+),col=(\d+))?,)?title=([^:,]+)::(.*)"
)
WORDS = example_words()
over_examples = pytest.mark.parametrize("words", WORDS, ids=[words[0].split("/")[1] for words in WORDS])
# Characters that do something to a terminal, to a page, to a command, or to a formula.
WILD = "</script><img src=x onerror=alert(1)> \x1b[31m \u202e \x9b ::error:: %0A ]]> & =1+1"
HOSTILE = {
    "shapes.ttl": PREFIXES + 'e:S sh:targetSubjectsOf e:p ; sh:path e:p ; sh:maxLength 0 ; sh:message """'
    "=cmd|' /C calc'!A0\n@second,::warning::\n\u202elast\x1b]0;title\x07" + '"""@en .\n',
    "data.ttl": PREFIXES
    + f'e:a e:p """{WILD}""" , "-2+3", "+1", "@x" .\n<http://e/%0A::error::,x=y> e:p "\\r\\n" .\n',
}
# What may not stand in a text for people: all controls but the line feed, and turns of direction.
RAW = re.compile("[\x00-\x09\x0b-\x1f\x7f-\x9f\u202a-\u202e\u2066-\u2069\u2028]")


def results(words: list[str], folder: Path | None = None) -> list[Result]:
    """The results that the program writes."""
    ran = keep(*words, folder=folder) if folder else keep(*words)
    return [event for event in stream(ran.out.split("\n")[:-1]) if isinstance(event, Result)]


@pytest.fixture
def hostile(tmp_path: Path) -> Path:
    write(tmp_path, HOSTILE)
    return tmp_path


@over_examples
@pytest.mark.parametrize("name", FORMATS)
def test_the_status_is_that_of_the_program(name: str, words: list[str]) -> None:
    assert show("--format", name, *words).status == keep(*words).status


# ---- JSON


@over_examples
def test_json_has_all_that_was_written(words: list[str]) -> None:
    made = json.loads(show("--format", "json", *words).out)
    events = [event for event in stream(keep(*words).out.split("\n")[:-1])]
    found = [result for part in made["parts"] if part["kind"] == "report" for result in part["results"]]
    due = [event for event in events if isinstance(event, Result)]
    assert len(found) == len(due)
    for result, event in zip(found, due):
        assert result["component"].endswith(f"#{event.component}ConstraintComponent")
        assert result["severity"] == event.severity.value
        assert len(result["details"]) == len(event.details)
        assert [it["text"] for it in result["messages"]] == [it.text for it in event.messages]
        assert (result["value"] is None) == (event.value is None)
        assert Path(result["place"]["file"]).name in ("data.ttl", "shapes.ttl")
    heads = [type(event).__name__ for event in events if type(event).__name__ not in ("Result", "Stated")]
    assert len(made["parts"]) == len(heads)


def test_json_tells_which_lines_were_answered() -> None:
    words = next(it for it in WORDS if "refused_line" in it[0])
    made = json.loads(show("--format", "json", *words).out)
    lines = Path(words[2]).read_text() if Path(words[2]).exists() else ""
    numbers = [part["line"] for part in made["parts"] if part["line"]]
    assert numbers == sorted(numbers) and made["status"] == 7
    refused = next(part for part in made["parts"] if part["kind"] == "refused")
    assert refused["problems"][0]["place"]["line"] == refused["line"]
    assert not lines or refused["line"] <= lines.count("\n")


def test_json_keeps_hostile_texts(hostile: Path) -> None:
    ran = show("--format", "json", "shapes.ttl", "data.ttl", folder=hostile)
    assert ran.out.isascii()
    found = json.loads(ran.out)["parts"][0]["results"]
    assert {it["value"]["value"] for it in found} == {WILD, "-2+3", "+1", "@x", "\r\n"}
    assert [it.language for it in results(["shapes.ttl", "data.ttl"], hostile)[0].messages] == ["en"]


# ---- CSV


def rows(ran: Ended) -> list[list[str]]:
    assert ran.out.startswith("\ufeff") and ran.out.endswith("\r\n")
    return list(csv.reader(io.StringIO(ran.out[1:], newline="")))


@over_examples
def test_csv_has_a_row_for_each_result(words: list[str]) -> None:
    head, *found = rows(show("--format", "csv", *words))
    due = results(words)
    assert [row[2] for row in found] == [result.component for result in due]
    assert all(len(row) == len(head) == 11 for row in found)
    assert all(row[8] and int(row[9]) > 0 and int(row[10]) > 0 for row in found)


def test_no_cell_is_a_formula(hostile: Path) -> None:
    found = rows(show("--format", "csv", "shapes.ttl", "data.ttl", folder=hostile))
    cells = [cell for row in found for cell in row]
    assert not any(re.match(r"\s*[=+@\t\r]|\s*-(?![0-9.]+$)", cell) for cell in cells)
    assert not any(RAW.search(cell) for cell in cells)
    assert any(cell.startswith("'=cmd|") for cell in cells)


# ---- SARIF


def sarif_of(ran: Ended) -> Any:
    assert ran.out.isascii()
    made = json.loads(ran.out)
    jsonschema.Draft7Validator.check_schema(SCHEMA)
    jsonschema.Draft7Validator(SCHEMA, format_checker=jsonschema.FormatChecker()).validate(made)
    return made["runs"][0]


@over_examples
def test_sarif_is_as_its_schema_says(words: list[str]) -> None:
    run = sarif_of(show("--format", "sarif", *words))
    due = results(words)
    found = [it for it in run["results"] if "properties" in it]
    assert [it["ruleId"] for it in found] == [result.component for result in due]
    assert {it["ruleId"] for it in run["results"]} == {it["id"] for it in run["tool"]["driver"]["rules"]}
    assert all(it["locations"] and it["relatedLocations"] for it in found)


def test_sarif_of_hostile_texts_and_of_a_fault(hostile: Path) -> None:
    assert len(sarif_of(show("--format", "sarif", "shapes.ttl", "data.ttl", folder=hostile))["results"]) == 5
    write(hostile, {"a b%é.ttl": "<e:a> <e:b> 1e0, 2e0 .\n"})
    run = sarif_of(show("--format", "sarif", "shapes.ttl", "a b%é.ttl", folder=hostile))
    assert [it["ruleId"] for it in run["results"]] == ["FloatLiteral", "FloatLiteral"]
    places = [it["locations"][0]["physicalLocation"] for it in run["results"]]
    assert [it["region"]["startColumn"] for it in places] == [13, 18]
    assert places[0]["artifactLocation"]["uri"] == "a%20b%25%C3%A9.ttl"
    assert run["invocations"] == [{"executionSuccessful": False, "exitCode": 3}]


# ---- JUnit


def junit_of(ran: Ended, folder: Path) -> Any:
    write(folder, {"junit.xml": ran.out})
    return junitparser.JUnitXml.fromfile(str(folder / "junit.xml"))


@over_examples
def test_junit_has_a_case_for_each_result(words: list[str], tmp_path: Path) -> None:
    ran = show("--format", "junit", *words)
    made = junit_of(ran, tmp_path)
    cases = [case for suite in made for case in suite]
    failures = [case for case in cases if any(isinstance(it, junitparser.Failure) for it in case.result)]
    assert len(failures) == len(results(words)) == made.failures
    assert made.tests == len(cases) and made.errors == (1 if ran.status == 7 else 0)


def test_junit_fails_what_counts(tmp_path: Path) -> None:
    made = junit_of(show("--format", "junit", "--fail-on", "violation", *WORDS[3][:2]), tmp_path)
    assert (made.tests, made.failures, made.errors) == (26, 20, 0)


def test_junit_of_hostile_texts(hostile: Path) -> None:
    ran = show("--format", "junit", "shapes.ttl", "data.ttl", folder=hostile)
    assert not RAW.search(ran.out)
    assert junit_of(ran, hostile).failures == 5


# ---- lines of editors and of workflows


@over_examples
def test_lines_and_commands_have_all_results(words: list[str]) -> None:
    due = results(words)
    lines = show("--format", "lines", *words).out.split("\n")[:-1]
    commands = show("--format", "github", *words).out.split("\n")[:-1]
    found = [LINE.fullmatch(line) for line in lines]
    annotated = [COMMAND.fullmatch(line) for line in commands]
    assert all(found) and all(annotated) and len(found) == len(annotated)
    kinds = [it[6].split()[0] for it in found if it and " " in it[6]]
    assert kinds == [result.component for result in due]
    assert [(it[1], it[2]) for it in found if it] == [(it[2], it[3]) for it in annotated if it]


def test_lines_of_hostile_texts(hostile: Path) -> None:
    for name in ("lines", "github"):
        ran = show("--format", name, "shapes.ttl", "data.ttl", folder=hostile)
        lines = ran.out.split("\n")[:-1]
        assert len(lines) == 5 and not RAW.search(ran.out.replace("\n", ""))
        form = LINE if name == "lines" else COMMAND
        assert all(form.fullmatch(line) for line in lines)


# ---- texts for people


class Elements(HTMLParser):
    """The elements of a page, with their attributes."""

    def __init__(self, text: str) -> None:
        super().__init__()
        self.found: list[tuple[str, dict[str, str | None]]] = []
        self.feed(text)

    def handle_starttag(self, tag: str, attrs: list[tuple[str, str | None]]) -> None:
        self.found.append((tag, dict(attrs)))


def test_pages_and_terminals_of_hostile_texts_and_names(tmp_path: Path) -> None:
    name = "\u202e<img src=x>\x1b[31m.ttl"
    prefix = "@prefix \u200cx: <http://e/\u202e> .\n"
    write(tmp_path, {"shapes.ttl": HOSTILE["shapes.ttl"], name: prefix + HOSTILE["data.ttl"]})
    page = show("--format", "html", "shapes.ttl", name, folder=tmp_path)
    tags = [tag for tag, _ in Elements(page.out).found]
    assert page.status == 1 and tags.count("script") == 1 and "img" not in tags
    assert not RAW.search(page.out.replace("\n", ""))
    write(tmp_path, {name: "<e:a> a 1e0 .\n"})
    for words in (
        ["shapes.ttl", name],
        ["shapes.ttl", name + "x"],
        ["--output", f"no/{name}", "shapes.ttl", name],
    ):
        ran = show(*words, folder=tmp_path)
        assert not RAW.search((ran.out + ran.err).replace("\n", "")) and "\\u202E" in ran.out + ran.err
