#!/usr/bin/env python3
"""Texts whose shapes share a large part, and what the program takes to judge them, which is to declare, check
and compile them, less what reading the text takes as data: processor seconds and peak memory. Run it at the
top of the repository, where the program was built.

    shapes.py               measures each text
    shapes.py NAME          writes one of the texts
"""
import os
import subprocess
import sys
import tempfile

from built import PROGRAM

PREFIXES = """@prefix e: <http://e/> .
@prefix sh: <http://www.w3.org/ns/shacl#> .
@prefix rdf: <http://www.w3.org/1999/02/22-rdf-syntax-ns#> .
@prefix rdfs: <http://www.w3.org/2000/01/rdf-schema#> .
"""


def many_firsts():
    """1,000 shapes over one head with 20,000 rdf:first."""
    for i in range(1_000):
        yield f"e:s{i} sh:and e:head .\n"
    for i in range(20_000):
        yield f"e:head rdf:first e:m{i} .\n"


def long_list():
    """50,000 shapes over one list of 1,000 members."""
    for i in range(50_000):
        yield f"e:s{i} sh:in _:l0 .\n"
    for i in range(1_000):
        rest = "rdf:nil" if i == 999 else f"_:l{i + 1}"
        yield f"_:l{i} rdf:first e:m{i} ; rdf:rest {rest} .\n"


def large_path():
    """4,000 shapes over one path of 4,095 parts."""
    for i in range(4_000):
        yield f"e:s{i} sh:class e:C ; sh:path _:p0 .\n"
    for i in range(10):
        yield f"_:p{i} sh:alternativePath ( _:p{i + 1} _:p{i + 1} ) .\n"
    yield "_:p10 sh:alternativePath ( e:p e:q ) .\n"


def long_chain():
    """4,000 shapes at the foot of a chain of 4,000 classes."""
    for i in range(4_000):
        yield f"e:s{i} a e:c0 ; sh:class e:C .\n"
        yield f"e:c{i} rdfs:subClassOf e:c{i + 1} .\n"


def own_member():
    """20 shapes over a list of 20,000 cells as a path, whose first member is itself."""
    for i in range(20):
        yield f"e:s{i} sh:class e:C ; sh:path _:l0 .\n"
    for i in range(20_000):
        rest = "rdf:nil" if i == 19_999 else f"_:l{i + 1}"
        member = "_:l0" if i == 0 else "e:p"
        yield f"_:l{i} rdf:first {member} ; rdf:rest {rest} .\n"


TEXTS = {text.__name__: text for text in (many_firsts, long_list, large_path, long_chain, own_member)}


def run(*files):
    """Processor seconds, peak memory in MB, and what is written."""
    child = subprocess.Popen([PROGRAM, *files], stdout=subprocess.PIPE, stderr=subprocess.DEVNULL)
    line = child.stdout.read().decode(errors="replace").strip()
    _, _, used = os.wait4(child.pid, 0)
    return used.ru_utime + used.ru_stime, used.ru_maxrss / 1024, line


def main():
    if sys.argv[1:]:
        sys.stdout.write(PREFIXES)
        sys.stdout.writelines(TEXTS[sys.argv[1]]())
        return
    print("| text | reading it | judging its shapes | peak MB | answer |")
    print("|---|---|---|---|---|")
    with tempfile.TemporaryDirectory() as folder:
        empty = os.path.join(folder, "empty.ttl")
        open(empty, "wb").close()
        for name, text in TEXTS.items():
            path = os.path.join(folder, name + ".ttl")
            with open(path, "w", encoding="utf-8") as out:
                out.write(PREFIXES)
                out.writelines(text())
            read, _, _ = run(empty, path)
            took, peak, answer = run(path, empty)
            used = f"{read:.2f} | {took - read:.2f} | {peak:.0f}"
            print(f"| {text.__doc__.rstrip('.')} | {used} | {answer} |", flush=True)


main()
