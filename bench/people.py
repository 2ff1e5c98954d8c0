#!/usr/bin/env python3
"""Writes data for the shapes of people.ttl: typed persons, companies and addresses of four to eight
properties each, under classes of two levels.

    people.py COUNT     about so many triples, of which some violate a shape
"""
import sys

PREFIXES = """@prefix e: <http://people.example/> .
@prefix rdfs: <http://www.w3.org/2000/01/rdf-schema#> .
@prefix x: <http://www.w3.org/2001/XMLSchema#> .
"""
CLASSES = """e:Person rdfs:subClassOf e:Agent . e:Company rdfs:subClassOf e:Agent .
e:Employee rdfs:subClassOf e:Person . e:Manager rdfs:subClassOf e:Person .
e:Startup rdfs:subClassOf e:Company .
"""
KINDS = ("Person", "Employee", "Employee", "Manager")
# Triples of ten persons, their addresses, and a company, on average.
OF_TEN = 150.3


def person(i, count):
    """A person with an address. Each kind of fault comes at one of fifty, at different ones."""
    fault = i % 50
    yield f"e:person{i} a e:{KINDS[i % 4]} ;\n"
    if fault != 1:
        yield f'  e:name "Person number {i}" ;\n'
    yield f'  e:age {-3 if fault == 2 else 18 + i % 70} ;\n'
    yield f'  e:mail "person{i}{" at " if fault == 3 else "@"}people.example" ;\n'
    if i % 3 == 0:
        yield f'  e:motto "ever on {i}"@en , "immer {i}"@{"en" if fault == 9 else "de"} ;\n'
    yield f'  e:born "{1950 + i % 50}-0{i % 9 + 1}-1{i % 10}"^^x:date ;'
    yield f' e:joined "20{i % 10 + 10}-05-01"^^x:date ;\n'
    if i % 4:
        yield f"  e:worksFor e:{'person' if fault == 5 else 'company'}{i // 10} ;\n"
    yield f"  e:knows e:person{(i * 13 + 5) % count} ;\n"
    yield f"  e:address e:address{i} .\n"
    yield f'e:address{i} a e:Address ; e:street "Street {i % 997}" ; e:city e:city{i % 211} ;\n'
    yield f'  e:code "{"" if fault == 7 else 10000 + i % 80000}" ;'
    yield f' e:country "{"ZZ" if fault == 8 else "DE"}" .\n'


def company(i, count):
    yield f"e:company{i} a e:{'Startup' if i % 7 == 0 else 'Company'} ;\n"
    yield f'  e:name "Company {i}" ; e:size {i % 500} ; e:head e:person{i * 10 % count} ;\n'
    yield f'  e:site <http://company{i}.example/> ; e:address e:address{i * 10 % count} .\n'


def text(count):
    """The lines of a text of about so many triples."""
    yield PREFIXES
    yield CLASSES
    persons = max(1, int((count - 5) / OF_TEN * 10))
    for i in range(persons):
        yield from person(i, persons)
        if i % 10 == 0:
            yield from company(i // 10, persons)


if __name__ == "__main__":
    sys.stdout.writelines(text(int(sys.argv[1])))
