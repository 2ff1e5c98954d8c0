"""shacl_show: its options, the places of results, texts that are refused, and long reports."""

import csv
import gzip
import io
import json
import os
import re
import subprocess
from pathlib import Path

import pytest
from commands import PREFIXES, Ended, ended, keep, show, write
from conftest import TOP

from shacl_keep.places import ResultPlaces
from shacl_keep.report import Result
from shacl_keep.texts import TurtleText
from shacl_keep.triples import DATA
from shacl_keep.version import version

LIBRARY = ("examples/library/shapes.ttl", "examples/library/data.ttl")
SHAPES = PREFIXES + "e:S sh:targetSubjectsOf e:p ; sh:path e:p ; sh:maxLength 0 ; sh:severity sh:{} .\n"


def places(ran: Ended) -> list[str]:
    """Where lines say that results stand."""
    return [re.split(r": (?:error|warning|info): ", line)[0] for line in ran.out.split("\n")[:-1]]


# ---- the status


@pytest.mark.parametrize(
    ("severity", "due"),
    [
        ("Violation", {"violation": 1, "warning": 1, "info": 1, "never": 0}),
        ("Warning", {"violation": 0, "warning": 1, "info": 1, "never": 0}),
        ("Info", {"violation": 0, "warning": 0, "info": 1, "never": 0}),
        ("Own", {"violation": 1, "warning": 1, "info": 1, "never": 0}),
    ],
)
def test_results_of_a_severity_fail_the_run(severity: str, due: dict[str, int], tmp_path: Path) -> None:
    write(tmp_path, {"shapes.ttl": SHAPES.format(severity), "data.ttl": '<http://e/a> <http://e/p> "x" .\n'})
    words = ("shapes.ttl", "data.ttl")
    piped = keep(*words, folder=tmp_path).out
    for level, status in due.items():
        assert show("--fail-on", level, *words, folder=tmp_path).status == status
        assert show(f"--fail-on={level}", piped=piped).status == status
    assert show(*words, folder=tmp_path).status == 1


def test_refused_texts_and_lines_keep_their_statuses(tmp_path: Path) -> None:
    write(
        tmp_path,
        {"shapes.ttl": SHAPES.format("Info"), "data.ttl": "<a> <b> 1e0 .\n", "script.txt": "dance\n"},
    )
    assert show("--fail-on", "never", "shapes.ttl", "data.ttl", folder=tmp_path).status == 3
    assert show("--fail-on", "never", "shapes.ttl", "shapes.ttl", "script.txt", folder=tmp_path).status == 7


def test_a_changed_graph_behind_the_last_report_counts_by_the_program(tmp_path: Path) -> None:
    script = 'insert <http://e/a> <http://e/p> "x" .\n'
    write(tmp_path, {"shapes.ttl": SHAPES.format("Info"), "data.ttl": "", "script.txt": script})
    words = ("--fail-on", "violation", "shapes.ttl", "data.ttl", "script.txt")
    assert show(*words, folder=tmp_path).status == 1
    write(tmp_path, {"script.txt": script + "report\n"})
    assert show(*words, folder=tmp_path).status == 0


def test_versions_and_words_that_cannot_be_read() -> None:
    for name in ("shacl_show", "shacl_split"):
        assert ended(name, "--version") == (f"{name} {version()}\n", "", 0)
    for words in (
        ("--form", "json"),
        ("--data", "x"),
        ("a", "b", "c", "d"),
        ("--fail-on", "all", "a", "b"),
        ("a",),
    ):
        ran = show(*words, piped="")
        assert ran.status == 2 and "shacl_show: error: " in ran.err and "Traceback" not in ran.err
    ran = show("--output", "no/file", *LIBRARY)
    assert ran.status == 5 and ran.err == "shacl_show: no/file: No such file or directory\n"


# ---- several files, and places


def test_each_data_file_is_a_document_of_its_own(tmp_path: Path) -> None:
    shapes = PREFIXES + "e:S sh:targetObjectsOf e:p ; sh:path e:q ; sh:maxCount 1 ; sh:minCount 1 .\n"
    one = "@base <http://b/> . @prefix x: <http://e/> .\n<s> x:p _:n , [ x:q 1 , 2 ] .\n_:n x:q 1 .\n"
    two = "@prefix x: <http://e/> . # its own base\n_:n x:q 2 , 3 .\n<s> x:p _:n , [ ] .\n"
    write(tmp_path, {"shapes.ttl": shapes, "one.ttl": one, "two.ttl": two})
    files = ("shapes.ttl", "--data", "one.ttl", "--data=two.ttl")
    assert places(show("--format", "lines", *files, folder=tmp_path)) == [
        "one.ttl:2:15",
        "two.ttl:3:15",
        "two.ttl:2:1",
    ]
    assert (
        show("--format", "lines", "shapes.ttl", "one.ttl", "--data", "two.ttl", folder=tmp_path).out
        == show("--format", "lines", *files, folder=tmp_path).out
    )
    shown = show(*files, folder=tmp_path)
    assert "_:d-1-a-1 (one.ttl:2:15)\n" in shown.out and shown.out.count("_:d-2-d-n\n") == 1
    write(tmp_path, {"two.ttl": "<s> x:p 1 .\n"})
    ran = show(*files, folder=tmp_path)
    assert ran.out.startswith("two.ttl:1:5: UnknownPrefix: ") and ran.status == 3
    assert show(*files[:3], "--data", "none.ttl", folder=tmp_path) == (
        "",
        "shacl_show: none.ttl: No such file or directory\n",
        4,
    )


def test_results_stand_at_their_values_nodes_or_shapes(tmp_path: Path) -> None:
    shapes = PREFIXES + (
        "e:S sh:targetNode e:a , e:none ; sh:property [ sh:path e:p ; sh:maxLength 0 ] ;\n"
        "  sh:property [ sh:path [ sh:inversePath e:p ] ; sh:nodeKind sh:Literal ] ,\n"
        "    [ sh:path e:q ; sh:minCount 1 ] .\n"
        "e:O sh:targetObjectsOf e:p ; sh:nodeKind sh:BlankNode .\n"
    )
    data = '@prefix e: <http://e/> .\ne:b e:p e:a , "l" .\ne:a e:r 1 ; e:p "x" ,\n  "y"@EN , [ e:p "z" ] .\n'
    write(tmp_path, {"shapes.ttl": shapes, "data.ttl": data})
    ran = show("--format", "lines", "shapes.ttl", "data.ttl", folder=tmp_path)
    found = {
        (place, line.rsplit("[", 1)[1].split()[0]) for place, line in zip(places(ran), ran.out.split("\n"))
    }
    assert ("data.ttl:3:17", "MaxLength") in found and ("data.ttl:4:3", "MaxLength") in found
    assert ("data.ttl:2:9", "NodeKind") in found  # the triple of the value of an inverse path
    assert ("data.ttl:3:1", "MinCount") in found  # the focus node's first triple
    assert ("shapes.ttl:5:5", "MinCount") in found  # of a node that is nowhere in the data
    assert ("data.ttl:2:15", "NodeKind") in found  # of a literal that is a focus node


def test_values_of_longer_paths_stand_at_the_last_triple(tmp_path: Path) -> None:
    shapes = PREFIXES + "".join(
        f"e:S{at} sh:targetNode e:a ; sh:path {path} ; sh:in ( e:a ) .\n"
        for at, path in enumerate(
            (
                "( e:p e:q )",
                "( [ sh:inversePath e:r ] e:q )",
                "[ sh:inversePath ( e:q e:r ) ]",
                "[ sh:oneOrMorePath e:n ]",
                "( [ sh:zeroOrMorePath e:n ] [ sh:alternativePath ( e:x e:y ) ] )",
                "[ sh:inversePath [ sh:zeroOrMorePath e:back ] ]",
                "[ sh:zeroOrOnePath e:maybe ]",
            )
        )
    )
    data = """@prefix e: <http://e/> .
e:other e:q "deep" , e:far .
e:a e:p [ e:q "deep" ] ; e:n e:b ; e:maybe e:last .
e:m e:r e:a ; e:q "seen" .
e:up e:q e:w . e:w e:r e:a .
e:b e:n e:c . e:c e:y 7 ; e:n e:a .
e:z e:back e:y . e:y e:back e:a .
"""
    write(tmp_path, {"shapes.ttl": shapes, "data.ttl": data})
    found = json.loads(show("--format", "json", "shapes.ttl", "data.ttl", folder=tmp_path).out)
    stood = {
        (it["shape"]["value"][-1], it["value"]["value"].rsplit("/")[-1]): (
            it["place"]["line"],
            it["place"]["column"],
        )
        for it in found["parts"][0]["results"]
    }
    assert stood == {
        ("0", "deep"): (3, 15),
        ("1", "seen"): (4, 19),
        ("2", "up"): (5, 10),
        ("3", "b"): (3, 30),
        ("3", "c"): (6, 9),
        ("4", "7"): (6, 23),
        ("5", "z"): (7, 12),
        ("5", "y"): (7, 29),
        ("6", "last"): (3, 44),
    }


def test_walks_have_an_end(tmp_path: Path) -> None:
    """Each of many nodes reaches all others along a ring, which would take as many steps as their square."""
    count = 3000
    ring = "".join(f"<e:{at}> <e:next> <e:{(at + 1) % count}> .\n" for at in range(count))
    write(tmp_path, {"data.ttl": ring})
    text = TurtleText(str(tmp_path / "data.ttl"), DATA, "file:///")
    words = (f"In Violation <e:S> <e:{at}> (<e:next>+) <e:{at}>" for at in range(count))
    results = [Result(said) for said in words]
    places_of = ResultPlaces(results, [text], [])
    lines = [place.line for place in map(places_of.place, results) if place]
    assert lines[0] == count and lines[1:3] == [1, 2] and lines[-1] == count


# ---- texts that are refused


def test_all_doubles_are_told(tmp_path: Path) -> None:
    write(
        tmp_path,
        {"shapes.ttl": SHAPES.format("Info"), "data.ttl": "<a> <b> 1e0 ,\n 2e0 .\n<c> <d> 3.0E1 .\n"},
    )
    words = ("shapes.ttl", "data.ttl")
    assert show(*words, folder=tmp_path).out.split("\n")[3:] == [
        "    3 literals of the text are refused for this:",
        "      data.ttl:1:9  1e0",
        "      data.ttl:2:2  2e0",
        "      data.ttl:3:9  3.0E1",
        "",
    ]
    assert places(show("--format", "lines", *words, folder=tmp_path)) == [
        "data.ttl:1:9",
        "data.ttl:2:2",
        "data.ttl:3:9",
    ]


TURTLE = "<http://e/a> <http://e/p> <http://e/b> .\n"
OTHERS: dict[str, tuple[str, bytes, str]] = {
    "data.ttl.gz": ("packed by gzip", gzip.compress(TURTLE.encode()), "gzip -dc data.ttl.gz > data.ttl"),
    "data.jsonld": (
        "JSON-LD",
        b'{ "@context": { "p": { "@id": "http://e/p", "@type": "@id" } },\n'
        b' "@id": "http://e/a", "p": "http://e/b" }',
        "python3 -m rdflib.tools.rdfpipe -i json-ld -o turtle data.jsonld > data.ttl",
    ),
    "the data.rdf": (
        "RDF/XML",
        b'<?xml version="1.0"?>\n'
        b'<rdf:RDF xmlns:rdf="http://www.w3.org/1999/02/22-rdf-syntax-ns#" xmlns:e="http://e/">'
        b'<rdf:Description rdf:about="http://e/a"><e:p rdf:resource="http://e/b"/></rdf:Description>'
        b"</rdf:RDF>",
        "rapper -q -i rdfxml -o ntriples 'the data.rdf' > 'the data.nt'",
    ),
    "data.trig": (
        "TriG, with named graphs",
        b"@prefix e: <http://e/> .\ne:g { e:a e:p e:b . }\n",
        "rapper -q -i trig -o ntriples data.trig > data.nt",
    ),
    "data.nq": (
        "N-Quads, with named graphs",
        b"<http://e/a> <http://e/p> <http://e/b> <http://e/g> .\n",
        "rapper -q -i nquads -o ntriples data.nq > data.nt",
    ),
}


@pytest.mark.parametrize("name", OTHERS)
def test_what_is_no_turtle_is_named_with_the_command_that_converts_it(name: str, tmp_path: Path) -> None:
    kind, content, command = OTHERS[name]
    write(tmp_path, {"shapes.ttl": SHAPES.format("Info"), name: content})
    ran = show("shapes.ttl", name, folder=tmp_path)
    assert ran.status == 3
    assert f"    this is {kind}, and no Turtle; it becomes Turtle by\n      {command}\n" in ran.out
    if subprocess.run(
        ["sh", "-c", f"command -v {command.split()[0]}"], capture_output=True, check=False
    ).returncode:
        pytest.skip(f"{command.split()[0]} is not installed")
    path = "/usr/bin" + os.pathsep + os.environ["PATH"]
    done = subprocess.run(["sh", "-c", command], cwd=tmp_path, env={**os.environ, "PATH": path}, check=False)
    made = tmp_path / command.split(" > ")[1].strip("'")
    words = ("--format", "json", "shapes.ttl", made.name)
    assert done.returncode == 0 and json.loads(show(*words, folder=tmp_path).out)["parts"][0]["told"] == 1


def test_turtle_with_a_fault_is_not_called_something_else(tmp_path: Path) -> None:
    for text in ("<a> <b> .\n", "[ <a> <b> ] <c> .\n", "<a> <b> <c> <d> <e> .\n", "e:a e:b e:c .\n", "\n"):
        write(tmp_path, {"shapes.ttl": SHAPES.format("Info"), "data.ttl": text})
        assert "this is" not in show("shapes.ttl", "data.ttl", folder=tmp_path).out


# ---- long reports


def many(count: int) -> str:
    """A report of so many results."""
    lines = [f"report conforms=false results={count}"]
    for at in range(count):
        lines.append(f'result MaxLength Warning <e:S{at % 7}> <e:n{at // 3}> <e:p> "=v{at}"')
        lines.append('message "too long"@en')
    return "".join(f"{line}\n" for line in lines)


def test_a_terminal_shows_the_first_thousand_results_and_counts_all() -> None:
    shown = show(piped=many(3000)).out
    assert shown.count("\n  Warning  MaxLength") == 1000
    assert "2000 more results are not shown; --format csv or json writes all\n" in shown
    assert "3000 results at 1000 nodes: 3000 Warning\n  429  <e:S0>\n" in shown


def test_a_page_names_what_it_leaves_out_and_writes_it_beside(tmp_path: Path) -> None:
    ran = show("--html", "page.html", folder=tmp_path, piped=many(10_500))
    page = (tmp_path / "page.html").read_text("utf-8")
    assert ran.out.startswith("10500 results at 3500 nodes") and page.count('class="result"') == 10_000
    assert "500 more results of this report: not on this page, but in page.rest.csv" in page
    with open(tmp_path / "page.rest.csv", encoding="utf-8-sig", newline="") as file:
        rest = list(csv.reader(file))[1:]
    assert [row[5] for row in rest] == [f'"=v{at}"' for at in range(10_000, 10_500)]


def test_all_results_are_written_for_tools() -> None:
    made = json.loads(show("--format", "json", piped=many(2500)).out)
    assert [it["value"]["value"] for it in made["parts"][0]["results"]] == [f"=v{at}" for at in range(2500)]
    rows = list(csv.reader(io.StringIO(show("--format", "csv", piped=many(2500)).out, newline="")))
    assert len(rows) == 2501


# ---- the page that says it


def shown_in(page: str) -> list[tuple[str, str]]:
    """The commands of a page, each with what stands below it."""
    text = (TOP / "docs" / page).read_text("utf-8")
    return re.findall(r"```sh\n(.*?)\n```\n\n```\n(.*?)```\n", text, re.DOTALL)


SHOWN = shown_in("FORMATS.md")


@pytest.mark.parametrize(("command", "due"), SHOWN, ids=[command.split()[2] for command, _ in SHOWN])
def test_the_page_shows_what_comes(command: str, due: str) -> None:
    path = f"{TOP / 'bin'}{os.pathsep}{os.environ['PATH']}"
    ran = subprocess.run(
        ["sh", "-c", command], cwd=TOP, env={**os.environ, "PATH": path}, stdout=subprocess.PIPE, check=False
    )
    assert ran.stdout.decode() == due.replace('"VERSION"', f'"{version()}"')
