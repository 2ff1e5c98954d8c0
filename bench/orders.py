#!/usr/bin/env python3
"""Writes data for the shapes of orders.ttl.

    orders.py COUNT     about so many triples: customers with an order each, of which some violate a shape
"""
import sys

PREFIXES = """@prefix e: <http://e/> .
@prefix rdfs: <http://www.w3.org/2000/01/rdf-schema#> .
@prefix x: <http://www.w3.org/2001/XMLSchema#> .
"""
# Triples of a customer with a house and an order, on average.
OF_ONE = 26.8
ITEMS = 200


def few():
    """What all customers share: classes, and the items that are sold."""
    yield "e:Vip rdfs:subClassOf e:Customer . e:Tower rdfs:subClassOf e:Building .\n"
    for i in range(ITEMS):
        kind = "fragile" if i % 10 == 3 else "plain"
        yield f"e:item{i} e:stock {i % 4} ; e:kind e:{kind} .\n"


def customer(i, count):
    """A customer. Each kind of fault comes at one of twenty, at different ones."""
    fault = i % 20
    yield f"e:c{i} a e:{'Vip' if i % 5 == 0 else 'Customer'} ; e:score {-1 if fault == 1 else i % 900} ;\n"
    yield f'  e:label "label {i}"@en , "name {i}"@{"en" if fault == 2 else "de"} ;\n'
    yield f'  e:since "2020-01-{i % 28 + 1:02}"^^x:date ;\n'
    yield f'  e:last "{2019 if fault == 4 else 2021}-02-03"^^x:date ;\n'
    yield f"  e:boss e:c{i if fault == 15 else i // 10} ;\n"
    yield f"  e:nick {i} ; e:alias {i + 1 if fault == 5 else i} ;\n"
    if fault != 6:
        yield f'  e:name "{"N" if fault == 7 else "Customer"} {i}" ;\n'
    if fault == 8:
        yield f'  e:phone "{i}" ;\n'
    elif fault != 9:
        yield f'  e:mail "c{i}{" at " if fault == 10 else "@"}mail.example" ;\n'
    if fault != 11:
        yield f"  e:house e:h{i} ;\n"
    if i % 10 != 9 or fault == 19:
        yield f"  e:next e:c{(i + 1) % count} ;\n"
    yield f"  e:knows e:c{i * 7 % count} , e:c{i * 11 % count} ;\n"
    yield f"  e:blocks e:c{i * (7 if fault == 12 else 3) % count} ;\n"
    yield f'  e:status "{"banned" if fault == 13 else "known"}" .\n'
    city = "" if fault == 14 else f"e:city e:city{i % 100} ;"
    yield f'e:h{i} a e:{"Tower" if i % 3 == 0 else "Building"} ; {city} e:zip "{1000 + i % 9000}" .\n'


def order(i):
    fault = (i + 7) % 20
    first, second = i % ITEMS, (i * 11 + 20) % ITEMS
    yield f"e:o{i} a e:Order ; e:by e:{'h' if fault == 1 else 'c'}{i} ;\n"
    yield f"  e:item e:item{first} , e:item{second} ;\n"
    yield f"  e:total {i % 900}.25 ; e:paid {i % 900}.{'50' if fault == 2 else '00'} ;\n"
    if fault == 3:
        yield '  e:note "by hand" ;\n'
    yield f'  e:state "{"lost" if fault == 4 else "open"}" .\n'


def text(count):
    """The lines of a text of about so many triples."""
    yield PREFIXES
    yield from few()
    customers = max(1, int((count - 2 * ITEMS - 2) / OF_ONE))
    for i in range(customers):
        yield from customer(i, customers)
        yield from order(i)


if __name__ == "__main__":
    sys.stdout.writelines(text(int(sys.argv[1])))
