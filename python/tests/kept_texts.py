"""Shapes and data that the tests of sessions and graphs share: few nodes, so that edits meet."""

PREFIXES = """@prefix sh: <http://www.w3.org/ns/shacl#> .
@prefix rdf: <http://www.w3.org/1999/02/22-rdf-syntax-ns#> .
@prefix ex: <http://example.org/> .
"""

SHAPES = (
    PREFIXES
    + """ex:Task a sh:NodeShape ;
    sh:targetClass ex:Task ;
    sh:property ex:Title , ex:Owner , [ sh:path [ sh:inversePath ex:needs ] ; sh:maxCount 1 ] ;
    sh:node ex:Reached .
ex:Title sh:path ex:title ; sh:minCount 1 ; sh:maxLength 3 ; sh:message "a title, and a short one"@en .
ex:Owner sh:path ex:owner ; sh:class ex:Person ; sh:nodeKind sh:BlankNodeOrIRI ; sh:severity sh:Warning .
ex:Reached sh:property ex:Reachable .
ex:Reachable sh:path ( ex:owner [ sh:zeroOrMorePath ex:knows ] ) ; sh:minCount 1 ; sh:severity sh:Info .
ex:Known sh:targetObjectsOf ex:knows ; sh:closed true ; sh:ignoredProperties ( rdf:type ex:knows ) .
"""
)

DATA = (
    PREFIXES
    + """ex:paint a ex:Task ; ex:title "Paint" ; ex:owner _:ann ; ex:needs ex:sand .
ex:sand a ex:Task ; ex:title "Sand" .
_:ann a ex:Person ; ex:knows _:bob .
"""
)
