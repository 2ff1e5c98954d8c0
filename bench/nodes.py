"""Graphs of N-Triples, and whether two are the same but for the names of blank nodes."""
import re
from collections import Counter

TERM = re.compile(r'\s*(<[^>]*>|_:[^\s]+|"(?:[^"\\]|\\.)*"(?:\^\^<[^>]*>|@[A-Za-z0-9-]+)?)', re.S)
ESCAPE = re.compile(r"\\(u[0-9A-Fa-f]{4}|U[0-9A-Fa-f]{8}|.)")
SHORT = {"t": "\t", "b": "\b", "n": "\n", "r": "\r", "f": "\f"}
STRING = "^^<http://www.w3.org/2001/XMLSchema#string>"


def unescaped(found):
    said = found.group(1)
    return chr(int(said[1:], 16)) if said[0] in "uU" else SHORT.get(said, said)


def term_of(said):
    return ESCAPE.sub(unescaped, said.removesuffix(STRING))


def graph_of(lines):
    triples = set()
    for line in lines.split("\n"):
        terms = [term_of(said) for said in TERM.findall(line)]
        if len(terms) == 3:
            triples.add(tuple(terms))
        elif line.strip():
            triples.add((line, "", ""))
    return triples


def colours(graph):
    """A colour for each blank node, by what stands about it: refined until there are no more colours."""
    colour = {term: 0 for triple in graph for term in triple if term.startswith("_:")}
    while True:
        about = {term: Counter() for term in colour}
        for triple in graph:
            shown = tuple(colour.get(term, term) for term in triple)
            for place, term in enumerate(triple):
                if term in colour:
                    about[term][(place, shown)] += 1
        signs = {term: hash((colour[term], frozenset(about[term].items()))) for term in colour}
        if len(set(signs.values())) == len(set(colour.values())):
            return signs
        colour = signs


def difference(ours, theirs):
    """What tells two graphs apart, or nothing. Blank nodes of one colour are taken for the same."""
    if len(ours) != len(theirs):
        return f"{len(ours)} triples here, {len(theirs)} there"
    shown = [
        Counter(tuple(colour.get(term, term) for term in triple) for triple in graph)
        for graph, colour in ((ours, colours(ours)), (theirs, colours(theirs)))
    ]
    if shown[0] == shown[1]:
        return ""
    return f"here {list((shown[0] - shown[1]))[:2]}, there {list((shown[1] - shown[0]))[:2]}"
