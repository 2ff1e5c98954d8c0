#!/usr/bin/env python3
"""Slices: the triples on which the results of a pair rest. Run it at the top of the repository.

    bench/slices.py [check [SLICES]]   slices of generated pairs (1000): over its triples alone the pair has
                              the results that it has over all, and the same slice; and each triple of the
                              slice is one of the data. Ends with 1 at the first pair that is otherwise, and
                              prints it.
    bench/slices.py cost [COUNT ..]    1000 slices over so many triples (1000000), beside a script without
                              any
"""
import os
import random
import subprocess
import sys
import tempfile

from built import PROGRAM
from changes import CLASSES, NODES, SUBCLASS, seconds
from edits import ORDERS, PREFIXES, TYPE, orders_of, write
from shacl_keep.spelled import words_of
import orders

VALUES = [*NODES, '"x"', '"yy"@en', "1", "3", "_:l", "_:m"]
SHAPES = PREFIXES + """@prefix rdf: <http://www.w3.org/1999/02/22-rdf-syntax-ns#> .
e:S sh:property e:P , e:Q ; sh:node e:N ; sh:not e:L .
e:P sh:path e:p ; sh:minCount 1 ; sh:maxCount 2 ; sh:or ( e:L [ sh:nodeKind sh:IRI ] ) .
e:Q sh:path [ sh:zeroOrMorePath e:q ] ; sh:class e:C .
e:N sh:property [ sh:path [ sh:inversePath e:q ] ; sh:maxCount 1 ] .
e:T sh:closed true ; sh:ignoredProperties ( rdf:type ) ; sh:property e:P , e:R .
e:U sh:path ( e:q e:p ) ; sh:qualifiedValueShape e:N ; sh:qualifiedMinCount 1 ; sh:lessThan e:r .
e:R sh:path e:r ; sh:equals e:p ; sh:disjoint e:q ; sh:xone ( e:L e:N ) .
e:L sh:minLength 2 .
_:x sh:property [ sh:path ( e:p [ sh:alternativePath ( e:q e:r ) ] ) ; sh:in ( e:a e:b 1 ) ] .
_:y sh:property [ sh:path e:p ; sh:qualifiedValueShapesDisjoint true ;
        sh:qualifiedValueShape e:N ; sh:qualifiedMaxCount 1 ] ,
    [ sh:path e:q ; sh:qualifiedValueShapesDisjoint true ;
        sh:qualifiedValueShape e:L ; sh:qualifiedMinCount 1 ] .
"""
# Shapes as the texts have them, and as reports name them.
NAMES = {f"e:{letter}": f"e:{letter}" for letter in "STU"} | {"_:x": "_:s-x", "_:y": "_:s-y"}


def triple(dice):
    """A triple of few."""
    kind = dice.random()
    if kind < 0.2:
        return f"{dice.choice(NODES)} {TYPE} {dice.choice(CLASSES)}"
    if kind < 0.3:
        return f"{dice.choice(CLASSES)} {SUBCLASS} {dice.choice(CLASSES)}"
    return f"{dice.choice(NODES + ['_:l', '_:m'])} e:{dice.choice('pqr')} {dice.choice(VALUES)}"


def outcome(folder, shapes, data, line):
    """The report of a run, and its answer to the line, each by lines."""
    texts = [write(folder, "shapes", shapes), write(folder, "data", data), write(folder, "script", [line])]
    ran = subprocess.run([PROGRAM, *texts], stdout=subprocess.PIPE, check=False)
    lines = ran.stdout.decode().splitlines()
    at = next(i for i, told in enumerate(lines) if told.startswith(("slice", "refused", "fault")))
    return lines[:at], lines[at:]


def is_slice(folder, dice):
    """Whether the slice of a generated pair suffices."""
    data = [PREFIXES, *(f"{triple(dice)} .\n" for _ in range(dice.randrange(3, 40)))]
    shape, name = dice.choice(list(NAMES.items()))
    node = dice.choice([*NODES, '"x"', "1"])
    shapes = [SHAPES, f"{shape} sh:targetNode {node} .\n"]
    line = f"slice {name} {node}\n"
    report, told = outcome(folder, shapes, data, line)
    stated = [words_of(one)[1:] for one in told[1:]]
    triples = [PREFIXES, *(" ".join(terms).replace("_:d-", "_:") + " .\n" for terms in stated)]
    again = outcome(folder, shapes, triples, line)
    whole = [terms for terms in stated if len(terms) == 3]
    if told[0] == f"slice triples={len(whole)}" and len(whole) == len(told) - 1 and again == (report, told):
        return True
    texts = "".join([*shapes, "\n", *data, "\n", line])
    print(texts, *report, *told, "beside", *again[0], *again[1], sep="\n")
    return False


def check(count=1000):
    dice = random.Random(7)
    with tempfile.TemporaryDirectory() as folder:
        for at in range(count):
            if not is_slice(folder, dice):
                print(f"slice {at} is otherwise")
                sys.exit(1)
    print(f"{count} slices suffice")


def cost(folder, count):
    data = write(folder, "data", orders.text(count))
    asked = [f"slice e:Customer e:c{at * 7919 % orders_of(count)}\n" for at in range(1000)]
    opened, took = (seconds(folder, ORDERS, data, lines)[0] for lines in ([], asked))
    print(f"| 1000 slices over {count} triples | {took - opened:.2f} |")


def main():
    kind, *words = sys.argv[1:] or ["check"]
    numbers = [int(word) for word in words]
    if kind == "check":
        check(*numbers)
        return
    with tempfile.TemporaryDirectory() as folder:
        for count in numbers or [1_000_000]:
            cost(folder, count)


if __name__ == "__main__":
    main()
