#!/usr/bin/env python3
"""Shapes that change while a script goes on. Run it at the top of the repository.

    bench/swaps.py [check [SCRIPTS [LINES]]]    generated scripts (100 of 60 lines) of edits, groups,
                              undo and other shapes, beside another reading: each report is that of a run of
                              the shapes in force over the graph, written out, and each text of shapes
                              evaluates the pairs that were none of a shape stated alike. Ends with 1 at the
                              first script that is answered otherwise, and prints it.
    bench/swaps.py cost [SHAPES [TRIPLES]]      1000 texts in turn in which one of so many shapes (1000)
                              changes, over so many triples (100000); and as many that are refused
"""
import os
import random
import re
import subprocess
import sys
import tempfile

from changes import NODES, Reading, lines_of, triple
from edits import PREFIXES, write
from built import PROGRAM
from load import run

# What each shape may state; the names of others stand in it as they are.
STATED = {
    "e:S": ["sh:property e:P", "sh:property e:P , e:Q", "sh:property e:Q ; sh:node e:N", "sh:not e:L"],
    "e:T": ["sh:path e:q ; sh:node e:N", "sh:path e:q ; sh:maxCount 1",
            "sh:path ( e:q e:p ) ; sh:minCount 1"],
    "e:U": ["sh:or ( e:L e:N )", "sh:xone ( e:N e:L )", "sh:closed true ; sh:property e:P"],
    "e:P": ["sh:path e:p ; sh:minCount 1", "sh:path e:p ; sh:maxCount 1", "sh:path e:r ; sh:minCount 1"],
    "e:Q": ["sh:path [ sh:zeroOrMorePath e:q ] ; sh:class e:C", "sh:path e:q ; sh:class e:D"],
    "e:N": ["sh:property e:P", "sh:property [ sh:path [ sh:inversePath e:q ] ; sh:maxCount 1 ]"],
    "e:L": ["sh:minLength 2", "sh:minLength 11", "sh:nodeKind sh:IRI ; sh:deactivated true"],
}
FAULTS = ["e:S sh:in e:x .", "e:S sh:not e:S .", "e:S sh:path .", "e:S e:p"]
TARGETED = ("e:S", "e:T", "e:U")
NAME = re.compile(r"e:[A-Z]\b")


class Shapes:
    """A text of shapes: what each states, and the targets of some."""

    def __init__(self, dice, before=None):
        keep = before.stated if before else {}
        self.stated = {name: keep[name] if keep and dice.random() < 0.75 else dice.choice(each)
                       for name, each in STATED.items()}
        self.targets = {name: sorted(dice.sample(NODES, dice.randrange(len(NODES)))) for name in TARGETED}
        self.order = dice.sample(list(STATED), len(STATED))

    def text(self):
        yield PREFIXES
        # The first has the only blank shape, which has the same name then in each text.
        for name in sorted(self.order, key=lambda name: name != "e:N"):
            targets = "".join(f" ; sh:targetNode {node}" for node in self.targets.get(name, ()))
            yield f"{name} {self.stated[name]}{targets} .\n"

    def pairs(self):
        return {(name, node) for name in TARGETED for node in self.targets[name]}

    def is_alike(self, other, name):
        """Whether both state the same of a shape, and of each that it names."""
        named = [one for one in NAME.findall(self.stated[name]) if one in STATED]
        return self.stated[name] == other.stated[name] and all(self.is_alike(other, one) for one in named)

    def swapped(self, before):
        """How many pairs were none of an alike shape before."""
        return sum(not (pair in before.pairs() and self.is_alike(before, pair[0])) for pair in self.pairs())


def output(folder, shapes, graph, script=None):
    """What the program writes over a graph, by lines."""
    texts = [write(folder, "shapes", shapes.text()),
             write(folder, "data", [PREFIXES, *(f"{t} .\n" for t in sorted(graph))])]
    if script is not None:
        texts.append(write(folder, "script", [f"{line}\n" for line in script]))
    return subprocess.run([PROGRAM, *texts], stdout=subprocess.PIPE, check=False).stdout.decode().splitlines()


def loaded(folder, dice, number, reading, before):
    """A line that loads a text, how it is answered, and the shapes that are then in force."""
    name = os.path.join(folder, f"s{number}")
    line = f'shapes "{name}"'
    after = Shapes(dice, before)
    lines = list(after.text())
    if dice.random() < 0.15:
        lines.append(dice.choice(FAULTS))
        after = before
    write(folder, f"s{number}", lines)
    if reading.group is not None:
        return line, "42 GroupOpen", before
    if after is before:
        return line, "refused", before
    return line, f"ok shapes evaluated {after.swapped(before)}", after


def is_as_read(folder, dice, count):
    """Whether a generated script is answered as it is read here."""
    graph = frozenset(triple(dice) for _ in range(12))
    first = Shapes(dice)
    shapes, reading, script, dues = first, Reading(graph), [], []
    for number, line in enumerate(lines_of(dice, count)):
        script.append(line)
        dues.append(reading.answer(line))
        if dice.random() < 0.2:
            line, due, shapes = loaded(folder, dice, number, reading, shapes)
            script.append(line)
            dues.append(due)
        if dice.random() < 0.2:
            script.append("report")
            dues += output(folder, shapes, reading.graph)
    if reading.group is not None:
        dues.append("notice: open group dropped")
    written = output(folder, first, graph, script)[len(output(folder, first, graph)):]
    for at, (line, due) in enumerate(zip(written, dues)):
        begins = due in ("ok changed", "refused") and line.startswith(due)
        if not (line == due or begins or line.endswith(f": {due}")):
            told = [*first.text(), *sorted(graph), "", *script, "", f"answer {at}: {line}", f"due: {due}"]
            print("\n".join(told))
            return False
    return len(written) == len(dues)


def check(scripts, lines):
    for seed in range(scripts):
        with tempfile.TemporaryDirectory() as folder:
            if not is_as_read(folder, random.Random(seed), lines):
                sys.exit(1)
    print(f"{scripts} scripts are answered as they are read")


def many(shapes, changed):
    """A text of so many shapes, of which the first states this."""
    yield PREFIXES
    yield f"e:S0 sh:targetSubjectsOf e:p0 ; sh:path e:p0 ; {changed} .\n"
    for at in range(1, shapes):
        yield f"e:S{at} sh:targetSubjectsOf e:p{at} ; sh:path e:p{at} ; sh:maxCount 1 .\n"


def cost(shapes, triples):
    with tempfile.TemporaryDirectory() as folder:
        stated = (f"e:n{at} e:p{at % shapes} {at} .\n" for at in range(triples))
        data = write(folder, "data", [PREFIXES, *stated])
        texts = [write(folder, f"s{at}", many(shapes, f"sh:maxCount {at + 1}")) for at in range(2)]
        bad = write(folder, "bad", [*many(shapes, "sh:maxCount 1"), "e:New sh:in e:other .\n"])
        out = os.path.join(folder, "out")
        for what, names in (("none", []), ("one changes", texts), ("refused", [bad])):
            lines = [f'shapes "{names[at % len(names)]}"\n' for at in range(1000)] if names else []
            took = run([PROGRAM, texts[0], data, write(folder, "script", lines)], out)
            print(f"| {what} | {took[0]:.2f} s | {took[2]:.0f} MB |")


if __name__ == "__main__":
    numbers = [int(word) for word in sys.argv[2:]]
    if sys.argv[1:2] == ["cost"]:
        cost(*(numbers + [1_000, 100_000][len(numbers):]))
    else:
        check(*(numbers + [100, 60][len(numbers):]))
