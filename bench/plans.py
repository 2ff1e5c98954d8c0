#!/usr/bin/env python3
"""Shapes texts whose shapes refer to one another in many ways, and what a whole run over each takes, in
processor seconds and peak memory: its reading, rules, order, plan and report. Run it at the top of the
repository, where the program was built.

    bench/plans.py          measures each text
    bench/plans.py NAME     writes one of the texts
"""
import os
import subprocess
import sys
import tempfile

from built import PROGRAM

PREFIXES = "@prefix sh: <http://www.w3.org/ns/shacl#> .\n@prefix e: <http://e/> .\n"
DATA = "@prefix e: <http://e/> . e:a e:q e:b .\n"
MANY = 99_990


def chains():
    """Chains of 60 references each, one behind another."""
    for i in range(MANY):
        yield f"e:s{i} a sh:NodeShape" + (f" ; sh:node e:s{i + 1} .\n" if i % 60 != 59 else " .\n")


def fan():
    """One shape that refers to all others."""
    for i in range(MANY):
        yield f"e:top sh:node e:s{i} . e:s{i} a sh:NodeShape .\n"


def cycle():
    """All shapes in one cycle, which is refused."""
    for i in range(MANY):
        yield f"e:s{i} sh:node e:s{(i + 1) % MANY} .\n"


def into_a_cycle():
    """A chain of all shapes that leads into a cycle of the last two, which is refused."""
    for i in range(MANY):
        yield f"e:s{i} sh:node e:s{i + 1 if i < MANY - 1 else MANY - 2} .\n"


def properties():
    """Half as many property shapes of one parent, each with a result."""
    yield "e:top sh:targetNode e:a .\n"
    for i in range(MANY // 2):
        yield f"e:top sh:property e:p{i} . e:p{i} sh:path e:q{i} ; sh:minCount 1 .\n"


def siblings(count):
    """Qualified values of one parent, each of which is a sibling of all others."""
    yield "e:top sh:targetNode e:a .\n"
    for i in range(count):
        yield f"e:top sh:property e:p{i} . e:p{i} sh:path e:q ; sh:qualifiedMinCount 1 ;\n"
        yield f"    sh:qualifiedValueShapesDisjoint true ; sh:qualifiedValueShape e:v{i} .\n"
        yield f"e:v{i} sh:hasValue e:x{i} .\n"


TEXTS = {
    "chains": chains,
    "fan": fan,
    "cycle": cycle,
    "into a cycle": into_a_cycle,
    "properties": properties,
    "1000 siblings": lambda: siblings(1_000),
    "2000 siblings": lambda: siblings(2_000),
    "4000 siblings": lambda: siblings(4_000),
}


def measure(name, folder):
    shapes, data = os.path.join(folder, "shapes.ttl"), os.path.join(folder, "data.ttl")
    with open(shapes, "w", encoding="utf-8") as written:
        written.write(PREFIXES)
        written.writelines(TEXTS[name]())
    with open(data, "w", encoding="utf-8") as written:
        written.write(DATA)
    with subprocess.Popen([PROGRAM, shapes, data], stdout=subprocess.PIPE, text=True) as child:
        first = child.stdout.readline().strip()
        child.stdout.read()
        _, _, used = os.wait4(child.pid, 0)
    seconds, peak = used.ru_utime + used.ru_stime, used.ru_maxrss / 1024
    print(f"| {name} | {seconds:.2f} | {peak:.0f} | `{first}` |", flush=True)


def main():
    if len(sys.argv) > 1:
        sys.stdout.write(PREFIXES)
        sys.stdout.writelines(TEXTS[sys.argv[1]]())
        return
    print("| shapes | processor s | peak MB | the output begins |")
    print("|---|---|---|---|")
    with tempfile.TemporaryDirectory() as folder:
        for name in TEXTS:
            measure(name, folder)


main()
