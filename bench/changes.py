#!/usr/bin/env python3
"""Groups of edits, undo and redo. Run it at the top of the repository.

    bench/changes.py [check [SCRIPTS [LINES]]]    generated scripts (200 of 120 lines) beside another reading:
                                 a list of graphs as sets of triples. Each answer is compared; each report is
                                 that of a run over the graph, written out, without a script. Ends with 1 at
                                 the first script that is answered otherwise, and prints it.
    bench/changes.py groups [COUNT ..]    a group of 1000 and of 10000 edits over so many triples (1000000),
                                 beside the same edits one by one, and taken back and made again
    bench/changes.py readers [COUNT ..]   a group that touches one key that so many pairs read (100000), and
                                 undo
"""
import os
import random
import subprocess
import sys
import tempfile

from edits import HUB, ORDERS, PREFIXES, TYPE, note, orders_of, write
from built import PROGRAM
from load import run
import orders

SHAPES = PREFIXES + """@prefix rdf: <http://www.w3.org/1999/02/22-rdf-syntax-ns#> .
e:S sh:targetClass e:C ; sh:property e:P , e:Q ; sh:node e:N .
e:P sh:path e:p ; sh:minCount 1 ; sh:maxCount 2 .
e:Q sh:path [ sh:zeroOrMorePath e:q ] ; sh:class e:C .
e:N sh:property [ sh:path [ sh:inversePath e:q ] ; sh:maxCount 1 ] .
e:T sh:targetSubjectsOf e:p ; sh:targetObjectsOf e:q ; sh:closed true ;
    sh:ignoredProperties ( rdf:type ) ; sh:property e:P .
e:U sh:targetNode e:a , e:b ; sh:path ( e:q e:p ) ; sh:qualifiedValueShape e:N ; sh:qualifiedMinCount 1 .
"""
NODES = [f"e:{letter}" for letter in "abcdef"]
CLASSES = ["e:C", "e:D", "e:E"]
SUBCLASS = "<http://www.w3.org/2000/01/rdf-schema#subClassOf>"
# How many changes the program keeps.
HISTORY = 100


def triple(dice):
    """A triple of few, so that many of them are stated again, or taken back."""
    kind = dice.random()
    if kind < 0.25:
        return f"{dice.choice(NODES)} {TYPE} {dice.choice(CLASSES)}"
    if kind < 0.35:
        return f"{dice.choice(CLASSES)} {SUBCLASS} {dice.choice(CLASSES)}"
    return f"{dice.choice(NODES)} e:{dice.choice('pqr')} {dice.choice(NODES)}"


class Reading:
    """Where a script stands, by the graphs that it went through."""

    def __init__(self, graph):
        self.graphs, self.at, self.group = [graph], 0, None

    @property
    def graph(self):
        return self.graphs[self.at]

    def edited(self, edits):
        """The edits are made in order. The last so many changes are kept."""
        after = set(self.graph)
        for word, stated in edits:
            (after.add if word == "insert" else after.discard)(stated)
        self.group = None
        if after == self.graph:
            return "ok unchanged evaluated 0"
        self.graphs = [*self.graphs[:self.at + 1], frozenset(after)][-HISTORY - 1:]
        self.at = len(self.graphs) - 1
        return "ok changed"

    def moved(self, by, none):
        if self.group is not None:
            return "42 GroupOpen"
        if not 0 <= self.at + by < len(self.graphs):
            return none
        self.at += by
        return "ok changed"

    def answer(self, line):
        """How the answer to a line begins, or its code; a report and a count are looked at elsewhere."""
        word, _, rest = line.partition(" ")
        if word in ("insert", "remove"):
            edit = (word, rest.removesuffix(" ."))
            if self.group is None:
                return self.edited([edit])
            self.group.append(edit)
            return "ok queued"
        if word == "begin":
            if self.group is not None:
                return "42 GroupOpen"
            self.group = []
            return "ok begun"
        if word in ("commit", "abandon"):
            if self.group is None:
                return "43 NoGroup"
            if word == "commit":
                return self.edited(self.group)
            self.group = None
            return "ok abandoned"
        if word == "undo":
            return self.moved(-1, "46 NothingToUndo")
        return self.moved(1, "47 NothingToRedo")


def lines_of(dice, count):
    """Lines of a script: mostly edits, and groups of a few or of many."""
    edits = ["insert"] * 5 + ["remove"] * 4
    words = [*edits, "begin", "commit", "commit", "abandon", *["undo"] * 3, *["redo"] * 2]
    for _ in range(count):
        word = dice.choice(words)
        yield f"{word} {triple(dice)} ." if word in ("insert", "remove") else word
        if dice.random() < 0.02:
            yield "begin"
            yield from (f"{dice.choice(['insert', 'remove'])} {triple(dice)} ." for _ in range(40))
            yield "commit"


def output(folder, graph, script=None):
    """What the program writes over a graph, by lines."""
    data = [PREFIXES, *(f"{t} .\n" for t in sorted(graph))]
    texts = [os.path.join(folder, "shapes"), write(folder, "data", data)]
    if script is not None:
        texts.append(write(folder, "script", [f"{line}\n" for line in script]))
    return subprocess.run([PROGRAM, *texts], stdout=subprocess.PIPE, check=False).stdout.decode().splitlines()


def is_as_read(folder, dice, count):
    """Whether a generated script is answered as it is read here."""
    graph = frozenset(triple(dice) for _ in range(12))
    reading, script, dues = Reading(graph), [], []
    for line in lines_of(dice, count):
        script.append(line)
        dues.append(reading.answer(line))
        if dice.random() < 0.15:
            script += ["report", "count"]
            report = output(folder, reading.graph)
            dues += report
            pairs = output(folder, reading.graph, ["count"])[-1]
            dues.append(pairs)
    if reading.group is not None:
        dues.append("notice: open group dropped")
    written = output(folder, graph, script)[len(output(folder, graph)):]
    for at, (line, due) in enumerate(zip(written, dues)):
        if not (line == due or line.startswith(f"{due} evaluated ") or line.endswith(f": {due}")):
            print("\n".join([*sorted(graph), "", *script, "", f"answer {at}: {line}", f"due: {due}"]))
            return False
    return len(written) == len(dues)


def check(scripts, lines):
    with tempfile.TemporaryDirectory() as folder:
        write(folder, "shapes", [SHAPES])
        for seed in range(scripts):
            if not is_as_read(folder, random.Random(seed), lines):
                sys.exit(1)
    print(f"{scripts} scripts are answered as they are read")


def seconds(folder, shapes, data, lines):
    return run([PROGRAM, shapes, data, write(folder, "script", lines)], os.path.join(folder, "out"))


def groups(folder, count):
    """Edits of orders, one pair each, in a group and one by one."""
    data = write(folder, "data", orders.text(count))
    opened = seconds(folder, ORDERS, data, [])[0]
    for size in (1_000, 10_000):
        edits = [f"insert {note(at * 7919 % orders_of(count))} .\n" for at in range(size)]
        group = ["begin\n", *edits, "commit\n"]
        back = ["undo\n", "redo\n"] * 5
        took = [seconds(folder, ORDERS, data, lines)[0] - opened for lines in (edits, group, [*group, *back])]
        turned = (took[2] - took[1]) / 10
        print(f"| {size} edits over {count} triples | {took[0]:.2f} | {took[1]:.2f} | {turned:.3f} |")


def readers(folder, count):
    """A group of edits of the values of one node, which so many pairs read."""
    shapes = write(folder, "shapes", [HUB])
    data = write(folder, "data", [PREFIXES, *(f"e:n{at} e:hub e:h .\n" for at in range(count))])
    opened = seconds(folder, shapes, data, [])[0]
    edits = [f"insert e:h e:p {at} .\n" for at in range(10)]
    group = ["begin\n", *edits, "commit\n"]
    took = [seconds(folder, shapes, data, lines)[0] - opened for lines in (edits, group, [*group, "undo\n"])]
    print(f"| 10 edits that {count} pairs read | {took[0]:.2f} | {took[1]:.2f} | {took[2] - took[1]:.3f} |")


def main():
    kind, *words = sys.argv[1:] or ["check"]
    numbers = [int(word) for word in words]
    if kind == "check":
        check(*[*numbers, *[200, 120][len(numbers):]])
        return
    print("| edits | one by one, processor s | as a group | undone, or made again |")
    print("|---" * 4 + "|", flush=True)
    with tempfile.TemporaryDirectory() as folder:
        for count in numbers or [{"groups": 1_000_000, "readers": 100_000}[kind]]:
            {"groups": groups, "readers": readers}[kind](folder, count)


if __name__ == "__main__":
    main()
