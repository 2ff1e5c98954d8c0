#!/usr/bin/env python3
"""Writes texts of Turtle to measure with.

    texts.py triples COUNT      one stated triple a line, at most 67 bytes each
    texts.py collection COUNT   one collection of so many members
    texts.py objects COUNT      one list of so many objects
    texts.py prefixes COUNT     so many prefixes, each used once
    texts.py tags COUNT         one lexical form under so many language tags
    texts.py labels COUNT       one triple for each of so many labels of blank nodes
    texts.py shared NAME LETTERS COUNT
                                a part of so many letters that so many triples share: subject, verb, namespace
                                or base
    texts.py hostile NAME BYTES a text that is hard to pass: rounds, quotes, dots, hashes, squares or letters
"""
import sys

HOSTILE = {"rounds": "(", "quotes": '"', "dots": ".", "hashes": "#", "squares": "[ ", "letters": "b"}


def objects(i):
    """The object of the i-th triple: each form in turn."""
    return (
        f"e:o{i % 1000}",
        f'"plain {i}"',
        f"{i}",
        f"{i}.25",
        f'"word {i}"@en',
        f'"20{i % 90 + 10}-0{i % 9 + 1}-1{i % 10}"^^x:date',
        f"_:b{i % 5000}",
        f"e:n{i * 7 % 100000}",
    )[i % 8]


def triples(count):
    yield "@prefix e: <http://e/> .\n@prefix x: <http://www.w3.org/2001/XMLSchema#> .\n"
    for i in range(count):
        yield f"e:n{i // 10} e:p{i % 50} {objects(i)} .\n"


def collection(count):
    yield "<http://e/s> <http://e/p> (\n"
    for i in range(count):
        yield f" {i}\n"
    yield ") .\n"


def object_list(count):
    yield "<http://e/s> <http://e/p> 0"
    for i in range(1, count):
        yield f" ,\n {i}"
    yield " .\n"


def prefixes(count):
    for i in range(count):
        yield f"@prefix p{i}: <http://e/{i}/> .\np{i}:s p{i}:p p{i}:o .\n"


def tags(count):
    yield "<http://e/s> <http://e/p> \"x\"@a-0"
    for i in range(1, count):
        yield f" ,\n \"x\"@a-{i}"
    yield " .\n"


def labels(count):
    for i in range(count):
        yield f"_:b{i} <http://e/p> {i} .\n"


def shared(name, letters, count):
    long = "a" * letters
    if name == "subject":
        yield f"<http://e/{long}> <http://e/p> 0"
    elif name == "verb":
        yield f"<http://e/s> <http://e/{long}> 0"
    elif name == "namespace":
        yield f"@prefix e: <http://e/{long}> .\n<http://e/s> <http://e/p> e:0"
    else:
        yield f"@base <http://e/{long}/> .\n<http://e/s> <http://e/p> <0>"
    objects = {"namespace": " , e:{}", "base": " , <{}>"}.get(name, " , {}")
    for i in range(1, count):
        yield objects.format(i)
    yield " .\n"


def hostile(name, size):
    yield "_:a" if name == "dots" else ""
    piece = HOSTILE[name] * 4096
    while size > 0:
        yield piece[:size]
        size -= len(piece)


def main():
    kind, first = sys.argv[1], sys.argv[2]
    if kind == "hostile":
        pieces = hostile(first, int(sys.argv[3]))
    elif kind == "shared":
        pieces = shared(first, int(sys.argv[3]), int(sys.argv[4]))
    else:
        makers = {
            "triples": triples,
            "collection": collection,
            "objects": object_list,
            "prefixes": prefixes,
            "tags": tags,
            "labels": labels,
        }
        pieces = makers[kind](int(first))
    for piece in pieces:
        sys.stdout.write(piece)


main()
