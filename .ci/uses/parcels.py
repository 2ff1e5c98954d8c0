"""A graph of parcels and depots, and what is due of it: the report, and how many pairs an edit touches. It is
worked out from the definitions: what is read for a parcel is what each path leads to from it, and the types
and the city of the depot that it is at.

Terms differ in each part that a hash may leave out: IRIs in their ends alone (the parcels), texts in their
fronts (`e:code`), in their tags (`e:note`) and in their datatypes (`e:mark`), blank nodes in their labels
(`e:from`).
"""

from collections import defaultdict

from uses import texts

SHAPES = r'''@prefix sh: <http://www.w3.org/ns/shacl#> .
@prefix e: <http://e/> .
e:Parcel sh:targetClass e:Parcel ; sh:property e:At , e:Code , e:From , e:Mark , e:Note , e:Weight .
e:At sh:path e:at ; sh:class e:Depot ; sh:minCount 1 ; sh:node e:Kept .
e:Kept sh:property e:City .
e:City sh:path e:city ; sh:minCount 1 .
e:Code sh:path e:code ; sh:pattern "^[0-9]+ of [a-z]+$" .
e:From sh:path e:from ; sh:nodeKind sh:BlankNodeOrIRI .
e:Mark sh:path e:mark ; sh:minLength 4 .
e:Note sh:path e:note ; sh:languageIn ( "x" ) .
e:Weight sh:path e:weight ; sh:maxCount 1 ; sh:minInclusive 0 .
e:Stocked sh:targetClass e:Depot ; sh:path e:city ; sh:minCount 1 .
'''
HEAD = '''@prefix e: <http://e/> .
e:Hub <http://www.w3.org/2000/01/rdf-schema#subClassOf> e:Depot .
'''
PATHS = {f'e:{name}' for name in ('at', 'code', 'from', 'mark', 'note', 'weight')}
INTEGER = '<http://www.w3.org/2001/XMLSchema#integer>'


def depots(count):
    """The triples of so many depots. Of twenty one lacks its city; of three one is a hub, a kind of depot."""
    for at in range(count):
        name = f'e:depot{at:05}'
        yield name, 'a', 'e:Depot' if at % 3 else 'e:Hub'
        if at % 20 != 3:
            yield name, 'e:city', f'e:city{at % 211}'


def parcels(count, depot_count):
    """The triples of so many parcels. Each kind of fault comes at some of them."""
    for at in range(count):
        name = f'e:parcel{at:05}'
        yield name, 'a', 'e:Parcel'
        yield name, 'e:at', 'e:nowhere' if at % 20 == 7 else f'e:depot{at % depot_count:05}'
        yield name, 'e:code', f'"{at:05} of {"Many" if at % 5 == 2 else "many"}"'
        yield name, 'e:from', f'_:b{at:05}'
        yield name, 'e:mark', f'"same"^^e:kind{at:05}'
        yield name, 'e:note', f'"same"@{"y" if at % 4 == 1 else "x"}-{at:05}'
        yield name, 'e:weight', str(-at if at % 2 else at)


def spelled(term):
    """A term as a report has it."""
    if term.startswith('e:'):
        return f'<http://e/{term[2:]}>'
    return f'"{term}"^^{INTEGER}' if term.lstrip('-').isdigit() else term


def result(component, shape, focus, path, value=None):
    value = spelled(value) if value else '-'
    return f'result {component} Violation <http://e/{shape}> {spelled(focus)} <http://e/{path}> {value}\n'


class Parcels:
    """A graph, which can be changed."""

    def __init__(self, parcel_count, depot_count):
        self.objects, self.subjects = defaultdict(set), defaultdict(set)
        # The triple of HEAD is one.
        self.count = 1
        self.made = [*depots(depot_count), *parcels(parcel_count, depot_count)]
        for triple in self.made:
            self.put(triple, True)

    def text(self):
        """The data as it is made."""
        return HEAD + ''.join(f'{" ".join(triple)} .\n' for triple in self.made)

    def has(self, triple):
        return triple[2] in self.objects[triple[:2]]

    def put(self, triple, is_in):
        """Puts a triple in, or takes it out."""
        subject, predicate, term = triple
        for held, it in ((self.objects[subject, predicate], term), (self.subjects[predicate, term], subject)):
            (held.add if is_in else held.discard)(it)
        self.count += 1 if is_in else -1

    # ---- pairs, and what touches them

    def parcels(self):
        return self.subjects['a', 'e:Parcel']

    def depots(self):
        return self.subjects['a', 'e:Depot'] | self.subjects['a', 'e:Hub']

    def is_pair(self, pair):
        shape, node = pair
        types = self.objects[node, 'a']
        return 'e:Parcel' in types if shape == 'e:Parcel' else bool(types & {'e:Depot', 'e:Hub'})

    def readers(self, triple):
        """The pairs that have read what a triple touches: parcels what their paths lead to, and the types and
        the city of where they are; depots their city."""
        subject, predicate, _ = triple
        found = {('e:Parcel', subject)} if predicate in PATHS else set()
        if predicate in ('a', 'e:city'):
            found |= {('e:Parcel', it) for it in self.subjects['e:at', subject]}
        if predicate == 'e:city':
            found.add(('e:Stocked', subject))
        return {pair for pair in found if self.is_pair(pair)}

    def change(self, edits):
        """Makes edits that have an effect, as one change, and gives how many pairs it touches: those that
        have read what an edit touches, and those that are new."""
        own = {(shape, triple[0]) for triple, _ in edits for shape in ('e:Parcel', 'e:Stocked')}
        before = {pair for pair in own if self.is_pair(pair)}
        read = {pair for triple, _ in edits for pair in self.readers(triple)}
        for triple, is_in in edits:
            self.put(triple, is_in)
        new = {pair for pair in own if self.is_pair(pair)} - before
        return len({pair for pair in read if self.is_pair(pair)} | new)

    # ---- the report

    def values(self, node, path):
        return sorted(self.objects[node, path])

    def results_at(self, parcel):
        """The results of a parcel by its property shapes, their components, and the values."""
        places = self.values(parcel, 'e:at')
        for place in places:
            if not self.is_pair(('e:Stocked', place)):
                yield result('Class', 'At', parcel, 'at', place)
        if not places:
            yield result('MinCount', 'At', parcel, 'at')
        for place in places:
            if not self.objects[place, 'e:city']:
                detail = result('MinCount', 'City', place, 'city').replace('result', 'detail', 1)
                yield result('Node', 'At', parcel, 'at', place) + detail
        for code in self.values(parcel, 'e:code'):
            if not code.endswith(' of many"'):
                yield result('Pattern', 'Code', parcel, 'code', code)
        for note in self.values(parcel, 'e:note'):
            if '@x-' not in note:
                yield result('LanguageIn', 'Note', parcel, 'note', note)
        weights = self.values(parcel, 'e:weight')
        if len(weights) > 1:
            yield result('MaxCount', 'Weight', parcel, 'weight')
        for weight in weights:
            if int(weight) < 0:
                yield result('MinInclusive', 'Weight', parcel, 'weight', weight)

    def results(self):
        lines = [line for parcel in sorted(self.parcels()) for line in self.results_at(parcel)]
        lines += [result('MinCount', 'Stocked', depot, 'city') for depot in sorted(self.depots())
                  if not self.objects[depot, 'e:city']]
        return lines

    def report(self):
        return texts.report(*self.results())

    def counts(self):
        pairs = len(self.parcels()) + len(self.depots())
        return f'count triples={self.count} pairs={pairs} results={len(self.results())}\n'
