#!/usr/bin/env python3
"""Compares the triples of texts with those that `serdi` reads (Debian's package serdi): of 300 texts that are
made up, and of the texts of the repository's examples. Blank nodes may have other names. Run it at the top of
the repository, where ttl_triples was built (`rt run` in its folder builds it).

    bench/compare.py [SEED]

Left aside are floats; language tags in capital letters, which are kept in small ones here; references with a
scheme and dot segments; bases with a fragment, which serdi gives to an empty reference although RFC 3986
(section 5.2.2) does not; and places where the longest terminal is not what another reader takes.
"""
import glob
import os
import subprocess
import sys
import tempfile

import nodes
from built import TOP, TRIPLES
from turtle_texts import Maker

BASE = "http://base.example/dir/text"


def lines_of(*words):
    ended = subprocess.run(words, stdout=subprocess.PIPE, stderr=subprocess.DEVNULL, check=False)
    return ended.returncode, ended.stdout.decode()


def differs(path):
    """Why both do not read the same triples of a text, or nothing."""
    ours, theirs = lines_of(TRIPLES, BASE, path), lines_of("serdi", "-o", "ntriples", path, BASE)
    if ours[0] != 0 or ours[1].startswith("fault"):
        return f"is refused here: {ours[1].strip()}"
    if theirs[0] != 0:
        return "is refused by serdi"
    return nodes.difference(nodes.graph_of(ours[1]), nodes.graph_of(theirs[1]))


def main():
    seed = int(sys.argv[1]) if sys.argv[1:] else 1
    bad = triples = 0
    with tempfile.TemporaryDirectory() as folder:
        paths = sorted(glob.glob(os.path.join(TOP, "examples", "*", "*.ttl")))
        for number in range(300):
            path = os.path.join(folder, f"{number}.ttl")
            with open(path, "w", encoding="utf-8", newline="") as out:
                out.write(Maker(seed * 1000 + number).text())
            paths.append(path)
        for path in paths:
            why = differs(path)
            triples += len(nodes.graph_of(lines_of(TRIPLES, BASE, path)[1]))
            if why:
                bad += 1
                print(f"{os.path.basename(path)}: {why}")
                print(open(path, encoding="utf-8").read())
    print(f"{len(paths)} texts, {triples} triples, {bad} read otherwise")
    sys.exit(1 if bad else 0)


main()
