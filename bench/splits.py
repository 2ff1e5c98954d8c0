#!/usr/bin/env python3
"""Generated shapes texts are split by bin/shacl_split, and the reports of the parts joined: that has to be
the report of the whole. Run it at the top of the repository.

    bench/splits.py [TEXTS [PROGRAM]]   so many texts (150) that the program does not refuse. Ends with 1 at
                                        the first that is otherwise, and prints it
"""
import os
import random
import subprocess
import sys
import tempfile

from built import PROGRAM
from load import HERE

SPLIT = os.path.join(HERE, "..", "bin", "shacl_split")
HEAD = """@prefix sh: <http://www.w3.org/ns/shacl#> . @prefix s: <http://www.w3.org/ns/shacl#target> .
@prefix rdf: <http://www.w3.org/1999/02/22-rdf-syntax-ns#> .
@prefix rdfs: <http://www.w3.org/2000/01/rdf-schema#> .
@prefix e: <http://e/> . @base <http://e/x> .
e:Kind rdfs:subClassOf rdfs:Class . _:kind rdfs:subClassOf e:Kind .
"""
SUBJECTS = ("e:S", "e:T", "<S>", "<http://e/U>", "<#V>", "e:é", r"<\u0053>", r"e:a\.b", "e:C", "e:D", "_:s",
            "_:t", "_:a.b", "[ ]", "( e:a )", "( )")
NODES = ("e:a", "e:b", "<c>", '"x"', "'y'@en", "7", "true", '"""a "b"; sh:targetNode e:a"""')
CLASSES = ("e:C", "e:D", "e:E")
PREDICATES = ("e:p", "e:q")
TARGETS = {"Node": NODES, "Class": CLASSES, "SubjectsOf": PREDICATES, "ObjectsOf": PREDICATES}
TYPES = ("rdfs:Class", "e:Kind", "_:kind", "sh:NodeShape", "e:Other")
ONE = ("sh:in ( )", "sh:nodeKind sh:Literal", "sh:minLength 2", "sh:pattern '[;.]'", "sh:severity sh:Info")
MANY = ("sh:class e:C", "sh:not [ sh:class e:D ]", "sh:message 'sh:targetNode e:a'", 'rdfs:label ";"@en',
        "e:says sh:targetNode , [ e:p ( 1 [ ] ) ]", "sh:sparql [ ]")
BLANKS = (" ", "  ", "\n", "\t", " # sh:targetNode e:a ;\n", "\r\n")


def listed(dice, sign, parts):
    """The parts with a sign between them, and blanks of any kind beside it."""
    return f"{dice.choice(BLANKS)}{sign}{dice.choice(BLANKS)}".join(parts)


def target(dice):
    kind = dice.choice(list(TARGETS))
    verb = dice.choice((f"sh:target{kind}", f"s:{kind}", f"<http://www.w3.org/ns/shacl#target{kind}>"))
    values = dice.sample(TARGETS[kind], dice.randint(1, 2))
    return f"{verb}{dice.choice(BLANKS)}{listed(dice, ',', values)}"


def inner(dice, depth):
    """A shape within another, without a name. It may have a target."""
    return f"[{dice.choice(BLANKS)}{listed(dice, ';', statements(dice, depth, dice.randint(0, 2)))} ]"


def statement(dice, depth):
    """A verb with its objects, of which there may be many."""
    kind = dice.randrange(8)
    if kind < 3:
        return target(dice)
    if kind == 3:
        return f"{dice.choice(('a', 'rdf:type'))} {listed(dice, ',', dice.sample(TYPES, dice.randint(1, 3)))}"
    if kind < 6 or depth == 0:
        return dice.choice(MANY)
    if kind == 6:
        parts = [f"sh:path {dice.choice(PREDICATES)}", f"sh:{dice.choice(('min', 'max'))}Count 1"]
        parts += [target(dice) for _ in range(dice.randrange(2))]
        return f"sh:property [ {listed(dice, ';', parts)} ]"
    shapes = (inner(dice, depth - 1), inner(dice, depth - 1))
    return f"sh:{dice.choice(('and', 'or', 'xone'))} ( {' '.join(shapes)} )"


def statements(dice, depth, count):
    """So many verbs with their objects, and perhaps one of those that may have one object."""
    parts = [statement(dice, depth) for _ in range(count)]
    if dice.random() < 0.6:
        parts.insert(dice.randint(0, len(parts)), dice.choice(ONE))
    return parts


def shapes_of(dice):
    """Some shapes. No named one stands there twice with a verb of one object, or most would be refused."""
    subjects = dice.sample(SUBJECTS, dice.randint(2, 10))
    said = [f"{it} {listed(dice, ';', statements(dice, 2, dice.randint(1, 4)))} ." for it in subjects]
    said += [f"{it} {target(dice)} ." for it in subjects if dice.random() < 0.3]
    return HEAD + "\n".join(said) + "\n"


def data_of(dice):
    nodes = ("e:a", "e:b", "e:c", "_:x", "_:y")
    typed = [f"{dice.choice(nodes)} a {dice.choice(CLASSES)} ." for _ in range(6)]
    others = [f"{dice.choice(nodes)} {dice.choice(PREDICATES)} {dice.choice((*nodes, '7', '[]'))} ."
              for _ in range(9)]
    return HEAD + "\n".join([*typed, *others, "e:D rdfs:subClassOf e:C .\n"])


def ended(*words):
    ran = subprocess.run(words, stdout=subprocess.PIPE, stderr=subprocess.PIPE, check=False)
    return ran.stdout, ran.returncode


def is_joined(folder, program, whole, texts, count):
    """Whether the reports of so many parts make that of the whole."""
    parts = os.path.join(folder, str(count))
    names, status = ended(SPLIT, str(count), texts[0], parts)
    for name in names.decode().splitlines():
        with open(f"{name}.report", "wb") as report:
            report.write(ended(program, name, texts[1])[0])
    reports = (f"{name}.report" for name in names.decode().splitlines())
    return status == 0 and ended(SPLIT, "--join", *reports) == whole


def is_kept(dice, program):
    """Whether a generated text is as it has to be; nothing where the program refuses it."""
    with tempfile.TemporaryDirectory() as folder:
        texts = [os.path.join(folder, name) for name in ("shapes", "data")]
        for name, text in zip(texts, (shapes_of(dice), data_of(dice))):
            with open(name, "w", encoding="utf-8", newline="") as file:
                file.write(text)
        whole = ended(program, *texts)
        if whole[1] == 3:
            return None
        if all(is_joined(folder, program, whole, texts, count) for count in (dice.randint(2, 5), 100)):
            return True
        for name in texts:
            with open(name, encoding="utf-8", newline="") as file:
                print(file.read())
        return False


def main():
    count = int(sys.argv[1]) if len(sys.argv) > 1 else 150
    program = os.path.abspath(sys.argv[2] if len(sys.argv) > 2 else PROGRAM)
    dice, answers = random.Random(11), []
    while sum(it is not None for it in answers) < count:
        answers.append(is_kept(dice, program))
        if answers[-1] is False:
            print("the text above is otherwise")
            return 1
    print(f"{count} texts are kept, and {answers.count(None)} were refused as a whole")
    return 0


if __name__ == "__main__":
    sys.exit(main())
