"""Valid texts of Turtle, made up: all constructs but floats."""
import random

LOCALS = ["a", "b1", "c.d", "1", "x-y", "p:q", "%20z", r"e\,f", r"\~g", "é", "", "_u", "n·o"]
LABELS = ["a", "b.c", "0", "x-y", "é", "d_1"]
SHORT = ["x", "", "é", r"\n", r"\"", r"\\", r"\u00e9", r"\U0001F600", "a b", "#", "@", r"\t\b\f\r\'"]
LONG = SHORT + ["\n", "\r\n", "\t"]
REFERENCES = ["a", "b/c", "#f", "?q=1", "/p/q", "//h/x", "", r"u\u00e9", "é", "x%20y", "b;c=d"]


class Maker:
    """One text for each seed."""

    def __init__(self, seed):
        self.random = random.Random(seed)
        self.names = []

    def any(self, *ways):
        return self.random.choice(ways)

    def many(self, most, way):
        return [way() for _ in range(self.random.randint(0, most))]

    def gap(self):
        return self.any(" ", " ", " ", "\n", "\t", " # ; . \"\n", "\r\n", "  ")

    def joined(self, *parts):
        return "".join(part + self.gap() for part in parts)

    def text(self):
        statements = [self.prefix()]
        for _ in range(self.random.randint(1, 12)):
            statements.append(self.any(self.triples, self.triples, self.triples, self.prefix, self.base)())
        return "".join(statements)

    def prefix(self):
        name = self.any("", "e", "f.g", "é", "x-1")
        self.names.append(name)
        parts = [name + ":", self.reference()]
        if self.random.random() < 0.5:
            return self.joined("@prefix", *parts, ".")
        return self.joined(self.any("PREFIX", "prefix", "Prefix"), *parts)

    def base(self):
        reference = "<" + self.any(*(said for said in REFERENCES if "#" not in said)) + ">"
        if self.random.random() < 0.5:
            return self.joined("@base", reference, ".")
        return self.joined(self.any("BASE", "base"), reference)

    def triples(self):
        if self.random.random() < 0.2:
            return self.joined(self.properties(2), *self.many(1, lambda: self.predicates(2)), ".")
        subject = self.any(self.iri, self.iri, self.label, lambda: "[]", lambda: self.collection(2))()
        return self.joined(subject, self.predicates(2), ".")

    def predicates(self, depth):
        parts = [self.predicate(depth)]
        for _ in range(self.random.randint(0, 2)):
            parts += [";"] * self.random.randint(1, 2) + [self.predicate(depth)]
        return self.joined(*parts, *self.many(1, lambda: ";"))

    def predicate(self, depth):
        parts = [self.any("a", self.iri(), self.iri()), self.object(depth)]
        for _ in range(self.random.randint(0, 2)):
            parts += [",", self.object(depth)]
        return self.joined(*parts)

    def object(self, depth):
        ways = [self.iri, self.label, lambda: self.any("[]", "[ ]"), self.literal, self.literal]
        if depth > 0:
            ways += [lambda: self.collection(depth), lambda: self.properties(depth)]
        return self.any(*ways)()

    def properties(self, depth):
        return self.joined("[", self.predicates(depth - 1)) + "]"

    def collection(self, depth):
        return self.joined("(", *self.many(3, lambda: self.object(depth - 1))) + ")"

    def iri(self):
        if self.random.random() < 0.3:
            return self.reference()
        return self.any(*self.names) + ":" + self.any(*LOCALS)

    def reference(self):
        return "<" + self.any(*REFERENCES) + ">"

    def label(self):
        return "_:" + self.any(*LABELS)

    def literal(self):
        way = self.random.random()
        if way < 0.3:
            return self.any("1", "-2", "+03", "0", "4.5", "-.5", "+6.70", "true", "false")
        mark = self.any('"', "'", '"""', "'''")
        pieces = LONG if len(mark) == 3 else SHORT
        said = mark + "".join(self.many(4, lambda: self.any(*pieces))) + mark
        return said + self.any("", "", "@en", "@de-at", "^^" + self.iri())
