#!/usr/bin/env python3
"""Runs the program over the W3C's tests of SHACL Core, or of Turtle, and compares what it writes with what is
expected. Run it at the top of the repository, where the program was built; serdi (Debian's package serdi)
reads the manifests, the expected reports, and the reports in Turtle.

    bench/w3c.py FOLDER           how many tests of each folder agree, and those that do not, with why
    bench/w3c.py --edits FOLDER   tests of SHACL by edits: a script takes each triple of the data out and puts
                                  it in again, and each report is compared with that of a run of its own
    bench/w3c.py --program PATH [--edits] FOLDER
                                  the same by another program

FOLDER has the `manifest.ttl` to begin with. Debian's source package rdf4j (`apt-get source --download-only
rdf4j`, with a line of deb-src; its file rdf4j_3.7.7+ds.orig.tar.xz is enough) has both suites, below its
folder `testsuites`:

    shacl/src/main/resources/data-shapes-test-suite/tests/core
    rio/src/main/resources/testcases/turtle/tests-ttl-w3c-20170126

Of a test of SHACL compared are sh:conforms; of each result the focus node, path, value, source shape,
component and severity; and the report in Turtle as a graph, up to the names of blank nodes. sh:detail is left
aside, which no test expects, and so are messages where none are expected. A test of Turtle that states
triples is compared with its N-Triples, language tags without case: the triples come out of the program as the
results of a closed shape. A text that should not be read has to be refused, and one that should has to be
accepted.
"""
import os
import re
import subprocess
import sys
import tempfile
from collections import Counter, defaultdict
from typing import NamedTuple
from urllib.parse import unquote, urlparse

import nodes
from built import PROGRAM
from shacl_keep.spelled import words_of

TURTLE_HOME = "http://www.w3.org/2013/TurtleTests/"
MF = "<http://www.w3.org/2001/sw/DataAccess/tests/test-manifest#"
SHT = "<http://www.w3.org/ns/shacl-test#"
RDFT = "<http://www.w3.org/ns/rdftest#"
SH = "<http://www.w3.org/ns/shacl#"
RDF = "<http://www.w3.org/1999/02/22-rdf-syntax-ns#"
PARTS = ["focusNode", "resultPath", "value", "sourceShape", "sourceConstraintComponent", "resultSeverity"]
NAMES = ["focus node", "path", "value", "source shape", "component", "severity"]
STEPS = {
    "inversePath": "(^{})",
    "zeroOrMorePath": "({}*)",
    "oneOrMorePath": "({}+)",
    "zeroOrOnePath": "({}?)",
}
TAG = re.compile(r'(?<=")@[A-Za-z0-9-]+$')


class Test(NamedTuple):
    """A test: its name, folder and kind, the files it is run over, its manifest's graph and its result."""
    name: str
    folder: str
    kind: str
    files: list
    graph: dict
    result: str


class Answer(NamedTuple):
    """What the program wrote, and its status."""
    text: str
    status: int


def run(*words):
    ended = subprocess.run([PROGRAM, *words], stdout=subprocess.PIPE, check=False)
    return Answer(ended.stdout.decode(), ended.returncode)


def read(path, base):
    """The triples of a text of Turtle, as serdi reads them."""
    read_by = ["serdi", "-o", "ntriples", path, base]
    return nodes.graph_of(subprocess.run(read_by, stdout=subprocess.PIPE, check=True).stdout.decode())


def indexed(triples):
    """The objects of each subject and predicate."""
    found = defaultdict(lambda: defaultdict(list))
    for subject, predicate, value in triples:
        found[subject][predicate].append(value)
    return found


def one(graph, subject, predicate):
    """The object of a subject and a predicate, or `-`."""
    return (graph[subject][predicate] or ["-"])[0]


def url_of(path):
    return "file://" + os.path.abspath(path)


def path_of(said):
    return unquote(urlparse(said[1:-1]).path)


def tests_of(manifest):
    """The tests of a manifest, and of those that it includes."""
    graph = indexed(read(manifest, url_of(manifest)))
    here = f"<{url_of(manifest)}>"
    for found in sorted(graph[here][MF + "include>"]):
        yield from tests_of(path_of(found))
    folder = os.path.basename(os.path.dirname(os.path.abspath(manifest)))
    for node in sorted(graph):
        kind = one(graph, node, RDF + "type>")
        action = one(graph, node, MF + "action>")
        if kind == SHT + "Validate>":
            files = [path_of(one(graph, action, SHT + role)) for role in ("shapesGraph>", "dataGraph>")]
        elif kind.startswith(RDFT + "TestTurtle"):
            files = [path_of(action)]
        else:
            continue
        name = re.split("[/#]", node[1:-1])[-1]
        yield Test(name, folder, kind, files, graph, one(graph, node, MF + "result>"))


# SHACL

def words_of(test, *more):
    return ["--base", url_of(test.files[0]), *more, *test.files]


def spelled(graph, node):
    """A path as lines have it."""
    if not node.startswith("_:"):
        return node
    if graph[node][RDF + "first>"]:
        return "(" + "/".join(spelled(graph, part) for part in members(graph, node)) + ")"
    for name, form in STEPS.items():
        for inner in graph[node][f"{SH}{name}>"]:
            return form.format(spelled(graph, inner))
    parts = members(graph, one(graph, node, SH + "alternativePath>"))
    return "(" + "|".join(spelled(graph, part) for part in parts) + ")"


def members(graph, cell):
    while graph[cell][RDF + "first>"]:
        yield one(graph, cell, RDF + "first>")
        cell = one(graph, cell, RDF + "rest>")


def lower(term):
    return TAG.sub(lambda tag: tag.group().lower(), term)


def lowered(triples):
    return {tuple(lower(term) for term in triple) for triple in triples}


def nameless(term):
    return "_:" if term.startswith("_:") else lower(term)


def expected_results(test):
    """The six fields of each result that a test expects. Blank nodes have no names."""
    for result in test.graph[test.result][SH + "result>"]:
        fields = [one(test.graph, result, f"{SH}{part}>") for part in PARTS]
        fields[1] = spelled(test.graph, fields[1])
        yield tuple(nameless(field) for field in fields)


def our_results(text):
    """The same of a report in lines."""
    for line in text.split("\n"):
        if line.startswith("result "):
            name, severity, shape, focus, path, value = words_of(line)[1:]
            if severity in ("Violation", "Warning", "Info"):
                severity = f"{SH}{severity}>"
            fields = [focus, path, value, shape, f"{SH}{name}ConstraintComponent>", severity]
            yield tuple(nameless(nodes.term_of(field)) for field in fields)


def report_graph(graph, report, left):
    """The triples of a report, with paths that are blank nodes, and without the predicates that are left."""
    due, seen, triples = [report], set(), set()
    while due:
        subject = due.pop()
        if subject in seen:
            continue
        seen.add(subject)
        for predicate, values in list(graph[subject].items()):
            if predicate in left:
                continue
            triples.update((lower(subject), predicate, lower(value)) for value in values)
            inside = predicate not in (f"{SH}{part}>" for part in PARTS if part != "resultPath")
            due += [value for value in values if inside and value.startswith("_:")]
    return triples


def has_messages(graph, report):
    return any(graph[result][SH + "resultMessage>"] for result in graph[report][SH + "result>"])


def graphs_differ(test, folder):
    """What tells the report in Turtle from the one that is expected, or nothing."""
    out = os.path.join(folder, "report.ttl")
    with open(out, "w", encoding="utf-8", newline="") as written:
        written.write(run(*words_of(test, "--format", "turtle")).text)
    ours = indexed(read(out, url_of(out)))
    root = next(node for node in list(ours) if SH + "ValidationReport>" in ours[node][RDF + "type>"])
    left = [SH + "detail>"]
    if not has_messages(test.graph, test.result):
        left.append(SH + "resultMessage>")
    return nodes.difference(report_graph(ours, root, left), report_graph(test.graph, test.result, left))


def fields_differ(ours, due):
    """The first results that only one side has."""
    here, there = sorted((ours - due).elements()), sorted((due - ours).elements())
    if len(here) != len(there):
        return f"{ours.total()} results here, {due.total()} there"
    for mine, theirs in zip(here, there):
        for name, have, want in zip(NAMES, mine, theirs):
            if have != want:
                return f"the {name} of a result is {have} here, {want} there"
    return ""


def shacl_differs(test, folder):
    """Why a test of SHACL does not agree, or nothing."""
    answer = run(*words_of(test))
    if answer.status not in (0, 1):
        return f"is refused: {answer.text.strip()}"
    here = answer.text.split("conforms=")[1].split(" ")[0]
    there = one(test.graph, test.result, SH + "conforms>").split('"')[1]
    if here != there:
        return f"conforms={here} here, {there} there"
    different = fields_differ(Counter(our_results(answer.text)), Counter(expected_results(test)))
    return different or graphs_differ(test, folder)


# Turtle, and the triples of a text

def triples_of(path, base, predicates, folder):
    """The triples of a text as the program spells them: those of all subjects of the predicates, or none
    where a count tells of others."""
    shapes, script = os.path.join(folder, "closed.ttl"), os.path.join(folder, "count.txt")
    with open(shapes, "w", encoding="utf-8", newline="") as out:
        for predicate in predicates:
            out.write(f"<urn:all> {SH}targetSubjectsOf> {predicate} .\n")
        out.write(f"<urn:all> {SH}closed> true .\n")
    with open(script, "w", encoding="utf-8") as out:
        out.write("count\n")
    answer = run("--base", base, shapes, path, script)
    triples = []
    for line in answer.text.split("\n"):
        if line.startswith("result Closed "):
            triples.append(" ".join(words_of(line)[4:]) + " .")
    if answer.status in (0, 1) and f"count triples={len(triples)} " not in answer.text:
        return answer, None
    return answer, triples


def turtle_differs(test, folder):
    """Why a test of Turtle does not agree, or nothing."""
    path, base = test.files[0], TURTLE_HOME + os.path.basename(test.files[0])
    evaluated = test.kind == RDFT + "TestTurtleEval>"
    due = set()
    if evaluated:
        with open(path_of(test.result), encoding="utf-8", newline="") as text:
            due = nodes.graph_of(text.read())
    answer, triples = triples_of(path, base, {predicate for _, predicate, _ in due}, folder)
    refused = answer.status == 3 and answer.text.startswith("fault data: ")
    if "Negative" in test.kind:
        return "" if refused else "is accepted"
    if refused:
        return f"is refused: {answer.text.strip()}"
    if not evaluated:
        return "" if answer.status in (0, 1) else f"ends with {answer.status}"
    if triples is None:
        return "has triples with other predicates"
    return nodes.difference(lowered(nodes.graph_of("\n".join(triples))), lowered(due))


# Edits

def reports_of(text):
    """The reports of an output, each as its results with the lines behind them, in any order."""
    reports = []
    for line in text.split("\n"):
        if line.startswith("report "):
            reports.append([line])
        elif line.startswith("result "):
            reports[-1].append(line)
        elif line.startswith(("message ", "detail ")):
            reports[-1][-1] += "\n" + line
    return reports


def renamed(line):
    """A line in which blank nodes of the data are called as in the text whose names became labels."""
    return "\n".join(
        " ".join(re.sub("^_:d-", "_:", part) for part in words_of(piece)) for piece in line.split("\n")
    )


def fresh_report(test, triples, folder):
    """The report of a run over these triples."""
    path = os.path.join(folder, "fresh.nt")
    with open(path, "w", encoding="utf-8", newline="") as out:
        out.write("\n".join(triples) + "\n")
    text = run("--base", url_of(test.files[0]), test.files[0], path).text
    return sorted(renamed(line) for line in reports_of(text)[0])


def edits_of(test, folder):
    """How many triples a test's data has, the pairs that its edits evaluated, and the reports that differ."""
    shapes, data = test.files
    base = url_of(shapes)
    predicates = {predicate for _, predicate, _ in read(data, base)}
    _, triples = triples_of(data, base, predicates, folder)
    script = os.path.join(folder, "script.txt")
    with open(script, "w", encoding="utf-8", newline="") as out:
        for triple in triples:
            out.write(f"remove {triple}\nreport\ninsert {triple}\nreport\n")
    answer = run(*words_of(test), script)
    evaluated = [int(found) for found in re.findall("^ok changed evaluated ([0-9]+)$", answer.text, re.M)]
    first, *reports = reports_of(answer.text)
    wrong = 0 if len(reports) == len(evaluated) == 2 * len(triples) else 1
    for place, (without, again) in enumerate(zip(reports[::2], reports[1::2])):
        due = fresh_report(test, triples[:place] + triples[place + 1 :], folder)
        wrong += (sorted(without) != due) + (again != first)
    return Counter(tests=1, triples=len(triples), edits=len(evaluated), pairs=sum(evaluated), wrong=wrong)


# Tables

def compare_tests(tests, folder):
    agreed, met, bad = Counter(), Counter(), []
    for test in tests:
        differs = shacl_differs if test.kind == SHT + "Validate>" else turtle_differs
        why = differs(test, folder)
        group = test.folder if test.kind == SHT + "Validate>" else test.kind.removeprefix(RDFT)[:-1]
        met[group] += 1
        agreed[group] += not why
        if why:
            bad.append(f"{group}/{test.name}: {why}")
    print("| folder | tests | agree |\n|---|---|---|")
    for group in sorted(met):
        print(f"| {group} | {met[group]} | {agreed[group]} |")
    print(f"| all | {met.total()} | {agreed.total()} |\n")
    print("\n".join(bad))


def compare_edits(tests, folder):
    sums = defaultdict(Counter)
    print("| folder | tests | triples | edits | pairs evaluated | reports that differ |\n|" + "---|" * 6)
    for test in tests:
        found = edits_of(test, folder)
        sums[test.folder] += found
        sums["all"] += found
        if found["wrong"]:
            print(f"{test.folder}/{test.name}: {found['wrong']} reports differ")
    for group in [*sorted(sums.keys() - {"all"}), "all"]:
        row = [str(sums[group][name]) for name in ("tests", "triples", "edits", "pairs", "wrong")]
        print(f"| {group} | " + " | ".join(row) + " |")


def main():
    global PROGRAM
    words = sys.argv[1:]
    if words[:1] == ["--program"]:
        PROGRAM, words = words[1], words[2:]
    compare = compare_tests
    if words[:1] == ["--edits"]:
        compare, words = compare_edits, words[1:]
    if len(words) != 1:
        sys.exit(__doc__)
    with tempfile.TemporaryDirectory() as folder:
        compare(list(tests_of(os.path.join(words[0], "manifest.ttl"))), folder)


if __name__ == "__main__":
    main()
