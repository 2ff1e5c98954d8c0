"""A shapes text in parts: each has the whole text with the targets of some of its shapes. Where another
shape is targeted, an IRI that means nothing takes the place of the one word that says so."""

from ..spelled import RDF
from ..triples import SHAPES, NotRead, Reader, Triple, Word, is_float

SH = "http://www.w3.org/ns/shacl#"
RDFS = "http://www.w3.org/2000/01/rdf-schema#"
_TYPE, _CLASS, _BELOW = f"<{RDF}type>", f"<{RDFS}Class>", f"<{RDFS}subClassOf>"
_TARGETS = {f"<{SH}target{what}>" for what in ("Node", "Class", "SubjectsOf", "ObjectsOf")}
# With this begins what stands in the place of a word that targets.
_INSTEAD = "shacl-split:"


def _order(node: str) -> tuple[int, int, str]:
    """The order of terms: IRIs, then labels, then blank nodes without labels by their numbers."""
    if node.startswith("<"):
        return 0, 0, node[1:-1]
    if node.startswith(SHAPES.label):
        return 1, 0, node
    return 2, int(node.removeprefix(SHAPES.number)), ""


def _classes_of(triples: list[Triple]) -> set[str]:
    """What is a class of classes: rdfs:Class, and what the text calls a subclass of it, at any depth."""
    below: dict[str, list[str]] = {}
    for triple in triples:
        if triple.verb.term == _BELOW:
            below.setdefault(triple.object.term, []).append(triple.subject)
    left, found = [_CLASS], set()
    while left:
        node = left.pop()
        if node not in found:
            found.add(node)
            left += below.get(node, [])
    return found


def _triples(reader: Reader) -> list[Triple]:
    """The triples of a text without doubles, which says nothing of what is to mean nothing."""
    triples = []
    for triple in reader:
        if is_float(triple.object.term):
            raise reader.fail(triple.object.start, "a double is not taken")
        if triple.subject.startswith(f"<{_INSTEAD}"):
            said = f"{triple.subject} is to mean nothing, and the text says something of it"
            raise reader.fail(triple.start, said)
        triples.append(triple)
    return triples


def _targeted(reader: Reader) -> dict[str, set[Word]]:
    """The words that target each shape, by its node: verbs, and of a shape that is a class its types that say
    so, which play no other part. A class of which nothing is said in SHACL's terms has no results."""
    triples = _triples(reader)
    classes = _classes_of(triples)
    spoken_of = {it.subject for it in triples if it.verb.term.startswith(f"<{SH}")}
    found: dict[str, set[Word]] = {}
    for _, subject, verb, value in triples:
        if verb.term in _TARGETS:
            found.setdefault(subject, set()).add(verb)
        elif (
            verb.term == _TYPE and value.term in classes and subject in spoken_of and subject.startswith("<")
        ):
            if value.term.startswith(SHAPES.number):
                raise reader.fail(value.start, "a shape is a class by a class without a name")
            found.setdefault(subject, set()).add(value)
    return found


def _instead(word: Word) -> str:
    """What is written in the place of a word: an IRI that means nothing."""
    said = word.term[1:-1].removeprefix(SH) if word.term in _TARGETS else "Class"
    return f"<{_INSTEAD}{said}>"


def _without(text: str, words: list[Word]) -> str:
    """The text with something else in the place of these words."""
    pieces, end = [], 0
    for word in sorted(words):
        pieces += [text[end : word.start], _instead(word)]
        end = word.end
    return "".join([*pieces, text[end:]])


def _shares(nodes: list[str], count: int) -> list[set[str]]:
    """The nodes in so many rows, as long as each other; or a row for each where these are fewer."""
    count = max(1, min(count, len(nodes)))
    bounds = [len(nodes) * at // count for at in range(count + 1)]
    return [set(nodes[start:end]) for start, end in zip(bounds, bounds[1:])]


def parts_of(text: str, count: int, base: str) -> list[str]:
    """So many parts of a text, or one for each shape that has targets where these are fewer. Raises NotRead
    where the text cannot be split."""
    found = _targeted(Reader(text, base, SHAPES))
    shares = _shares(sorted(found, key=_order), count)
    return [
        _without(text, [word for node in found if node not in kept for word in found[node]])
        for kept in shares
    ]


__all__ = ["NotRead", "parts_of"]
