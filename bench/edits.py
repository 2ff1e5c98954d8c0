#!/usr/bin/env python3
"""Measures edits: processor seconds of a run with a script, less those of the same run with an empty one. Run
it at the top of the repository, on a quiet machine.

    bench/edits.py [orders [COUNT ..]]    20000 edits of orders, each of one touched pair, over the shapes of
                                 orders.ttl and so many triples (10000, 100000 and 1000000)
    bench/edits.py instances [COUNT ..]    20000 new instances of a class that has so many (10, 10000 and
                                 1000000)
    bench/edits.py classes [COUNT ..]    200 subclasses taken back and stated again, of so many (20000)
    bench/edits.py values [COUNT ..]     200 edits of a node that has so many values (1000000)
    bench/edits.py readers [COUNT ..]    4 edits of a triple that so many pairs read (100000)
    bench/edits.py still [COUNT ..]      one triple put in and taken out 100000 times, over so many (100000)
    bench/edits.py jena [COUNT ..]       Jena's validations of so many triples (1000000) after each of ten
                                 edits, beside the same ten edits
"""
import os
import subprocess
import sys
import tempfile

from built import PROGRAM
from load import HERE, run
import orders
import validate

EDITS = 20_000
TYPE = "<http://www.w3.org/1999/02/22-rdf-syntax-ns#type>"
PREFIXES = """@prefix sh: <http://www.w3.org/ns/shacl#> .
@prefix rdfs: <http://www.w3.org/2000/01/rdf-schema#> .
@prefix e: <http://e/> .
"""
CLASS = PREFIXES + "e:C a sh:NodeShape ; sh:targetClass e:C ; sh:property [ sh:path e:p ; sh:maxCount 1 ] .\n"
SUBJECTS = PREFIXES + "e:S sh:targetSubjectsOf e:p ; sh:property [ sh:path e:q ; sh:maxCount 1 ] .\n"
HUB = PREFIXES + "e:S sh:targetSubjectsOf e:hub ; sh:property [ sh:path ( e:hub e:p ) ; sh:maxCount 1 ] .\n"
ORDERS = os.path.join(HERE, "orders.ttl")


def orders_of(count):
    """How many orders a text of so many triples has."""
    return max(1, int((count - 2 * orders.ITEMS - 2) / orders.OF_ONE))


def in_and_out(triples):
    """Each of the triples put in and taken out."""
    for triple in triples:
        yield f"insert {triple} .\n"
        yield f"remove {triple} .\n"


def note(order):
    """A note at an order, which may have none."""
    return f'e:o{order} e:note "{order}"'


def of_orders(count):
    edits = in_and_out(note(at * 7919 % orders_of(count)) for at in range(EDITS // 2))
    return ORDERS, orders.text(count), edits


def of_instances(count):
    data = (f"e:i{at} a e:C ; e:p {at} .\n" for at in range(count))
    return CLASS, data, (f"insert e:new{at} {TYPE} e:C .\n" for at in range(EDITS))


def of_classes(count):
    """Subclasses of one class with an instance each, some of which are taken back and stated again."""
    data = (f"e:k{at} rdfs:subClassOf e:C . e:i{at} a e:k{at} ; e:p {at} .\n" for at in range(count))
    edits = (f"{word} e:k{at} rdfs:subClassOf e:C .\n" for at in range(100) for word in ("remove", "insert"))
    return CLASS, data, edits


def of_values(count):
    data = (f"e:n e:p {at} .\n" for at in range(count))
    return SUBJECTS, data, in_and_out(f"e:n e:{'pq'[at % 2]} e:v{at}" for at in range(100))


def of_readers(count):
    data = (f"e:n{at} e:hub e:h .\n" for at in range(count))
    return HUB, data, in_and_out(f"e:h e:p {at}" for at in range(2))


def of_still(count):
    return ORDERS, orders.text(count), in_and_out(note(0) for _ in range(50_000))


KINDS = {
    "orders": (of_orders, [10_000, 100_000, 1_000_000], "triples"),
    "instances": (of_instances, [10, 10_000, 1_000_000], "instances"),
    "classes": (of_classes, [20_000], "classes"),
    "values": (of_values, [1_000_000], "values"),
    "readers": (of_readers, [100_000], "readers"),
    "still": (of_still, [100_000], "triples, one in and out"),
}


def write(folder, name, lines):
    """Writes lines into a file, and gives its path."""
    path = os.path.join(folder, name)
    with open(path, "w", encoding="utf-8") as out:
        out.writelines(lines)
    return path


def texts_of(folder, shapes, data, script):
    """The paths of the three texts. Shapes may be a path themselves."""
    if not os.path.exists(shapes):
        shapes = write(folder, "shapes", [shapes])
        data = [PREFIXES, *data]
    return shapes, write(folder, "data", data), write(folder, "script", script)


def measure(folder, name, shapes, data, script):
    out = os.path.join(folder, "out")
    alone = run([PROGRAM, shapes, data], out)[0]
    opened = run([PROGRAM, shapes, data, write(folder, "empty", [])], out)
    edited = run([PROGRAM, shapes, data, script], out)
    with open(out, encoding="utf-8") as answers:
        counts = [int(line.split()[-1]) for line in answers if line.startswith("ok changed ")]
    took = f"{alone:.2f} | {opened[0]:.2f} | {edited[0] - opened[0]:.2f} | {opened[2]:.0f} | {edited[2]:.0f}"
    print(f"| {name} | {took} | {len(counts)} | {sum(counts)} |", flush=True)


def beside_jena(folder, count):
    """Ten edits, and Jena's validation of the graph after each, in seconds of the clock."""
    theirs = validate.jena(folder)
    if not theirs:
        sys.exit("there is no Jena")
    shapes, data, script = texts_of(folder, *of_orders(count))
    out = os.path.join(folder, "out")
    took = 0.0
    for at in range(10):
        triple = note(at * 7919 % orders_of(count))
        graph = write(folder, "graph.ttl", [*orders.text(count), triple, " .\n"])
        took += validate.run([*theirs, "validate", "--shapes", shapes, "--data", graph], out)[0]
    ours = run([PROGRAM, shapes, data, script], out)[1]
    ours -= run([PROGRAM, shapes, data, write(folder, "empty", [])], out)[1]
    theirs, ours = took / 10, ours / EDITS
    print(f"| {count} triples | {theirs:.1f} | {ours * 1e6:.1f} | {theirs / ours:.0f} |")


def main():
    kind, *words = sys.argv[1:] or ["orders"]
    with tempfile.TemporaryDirectory() as folder:
        if kind == "jena":
            print("| data | Jena, s a validation | an edit, µs | times |")
            print("|---" * 4 + "|")
            for count in [int(word) for word in words] or [1_000_000]:
                beside_jena(folder, count)
            return
        texts, counts, name = KINDS[kind]
        print("| data | no script, processor s | empty one | edits | peak MB ", end="")
        print("| with edits | changed | pairs |")
        print("|---" * 8 + "|")
        for count in [int(word) for word in words] or counts:
            measure(folder, f"{count} {name}", *texts_of(folder, *texts(count)))


if __name__ == "__main__":
    main()
