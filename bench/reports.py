#!/usr/bin/env python3
"""Measures reports of many results: one property shape, and data that breaks it at each of its nodes, in
seconds, peak memory and the length of the report. Run it at the top of the repository, on a quiet machine.

    bench/reports.py [--format lines|turtle] [COUNT ..]
                        reports of so many results (10000, 100000 and 1000000 where no count is given)
    bench/reports.py --test
                        tries what reads a report, on reports that stand here

A run whose report tells or has another number of results is named beside its row. Where no format is given,
the program is run without one, and writes lines.
"""
import os
import subprocess
import sys
import tempfile
import time

from built import PROGRAM


SHAPES = """@prefix sh: <http://www.w3.org/ns/shacl#> .
@prefix e: <http://e/> .
e:Named a sh:NodeShape ;
  sh:targetClass e:Person ;
  sh:property [ sh:path e:name ; sh:minCount 1 ; sh:message "no name"@en ] .
"""

LINES = """report conforms=false results=2
result MinCount Violation _:t-1 <http://e/p0> <http://e/name> -
message "no name"@en
result MinCount Violation _:t-1 <http://e/p1> <http://e/name> -
message "no name"@en
"""

TURTLE = """@prefix sh: <http://www.w3.org/ns/shacl#> .
[] a sh:ValidationReport ;
  sh:conforms false ;
  sh:result [
    a sh:ValidationResult ;
    sh:focusNode <http://e/p0> ;
    sh:resultPath <http://e/name>
  ] ;
  sh:result [
    a sh:ValidationResult ;
    sh:focusNode <http://e/p1> ;
    sh:resultPath <http://e/name>
  ] .
"""


def data(count):
    """The lines of a data text: so many persons without a name."""
    yield "@prefix e: <http://e/> .\n"
    for number in range(count):
        yield f"e:p{number} a e:Person .\n"


def results_in_lines(lines):
    """How many results a report in lines has, or none where its head tells another number."""
    told, found = None, 0
    for line in lines:
        if line.startswith("report "):
            told = int(line.split("results=")[1])
        found += line.startswith("result ")
    return found if told == found else None


def results_in_turtle(lines):
    """How many results a report in Turtle has, or none where it says otherwise that it conforms."""
    conforms, found = None, 0
    for line in lines:
        words = line.split()
        if words[:1] == ["sh:conforms"]:
            conforms = words[1] == "true"
        found += words[:2] == ["sh:result", "["]
    return found if conforms == (found == 0) else None


COUNTERS = {"lines": results_in_lines, "turtle": results_in_turtle}


def try_counters():
    """Reads the reports above, and others that are cut."""
    cases = [
        ("lines", LINES, 2),
        ("lines", LINES[: LINES.rindex("result ")], None),
        ("lines", "report conforms=true results=0\n", 0),
        ("turtle", TURTLE, 2),
        ("turtle", TURTLE[: TURTLE.rindex("  sh:result [")], 1),
        ("turtle", TURTLE[: TURTLE.index("  sh:result [")], None),
        ("turtle", "[] a sh:ValidationReport ;\n  sh:conforms true .\n", 0),
    ]
    for form, text, wanted in cases:
        found = COUNTERS[form](text.splitlines())
        assert found == wanted, (form, text, found)


def run(words, out):
    """Runs a command, and gives its seconds and its peak memory in MB."""
    began = time.time()
    with open(out, "wb") as written:
        child = subprocess.Popen(words, stdout=written, stderr=subprocess.DEVNULL)
        _, _, used = os.wait4(child.pid, 0)
    return time.time() - began, used.ru_maxrss / 1024


def measure(folder, asked, form, count):
    """A row: what a report of so many results takes."""
    names = [os.path.join(folder, name) for name in ("shapes.ttl", "data.ttl", "out")]
    shapes, texts, out = names
    with open(shapes, "w", encoding="utf-8") as written:
        written.write(SHAPES)
    with open(texts, "w", encoding="utf-8") as written:
        written.writelines(data(count))
    seconds, peak = run([PROGRAM, *asked, shapes, texts], out)
    with open(out, encoding="utf-8") as lines:
        found = COUNTERS[form](lines)
    note = "" if found == count else f" (found {found})"
    size = os.path.getsize(out) / 1e6
    return f"| {count}{note} | {size:.1f} | {seconds:.2f} | {peak:.0f} |"


def main():
    words = sys.argv[1:]
    if words == ["--test"]:
        try_counters()
        return
    asked, form = [], "lines"
    if words[:1] == ["--format"]:
        asked, form, words = words[:2], words[1], words[2:]
    print("| results | report, MB | s | peak MB |")
    print("|---" * 4 + "|")
    with tempfile.TemporaryDirectory() as folder:
        for count in [int(word) for word in words] or [10_000, 100_000, 1_000_000]:
            print(measure(folder, asked, form, count), flush=True)


main()
