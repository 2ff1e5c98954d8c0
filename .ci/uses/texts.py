"""Texts, with the output that is due of them. It is worked out here, from what was put into the texts."""

from uses.running import Use

PREFIXES = '@prefix sh: <http://www.w3.org/ns/shacl#> .\n@prefix e: <http://e/> .\n'
USAGE = b'usage: shacl_keep [--format lines|turtle] [--base IRI] SHAPES DATA [SCRIPT]\n'
MESSAGE = 'no number may stand here, ' * 18
# Each subject of e:p has a value, and none may have one.
NONE = PREFIXES + f'e:S sh:targetSubjectsOf e:p ; sh:path e:p ; sh:maxCount 0 ; sh:message "{MESSAGE}" .\n'
# The values of a node are literals.
LITERALS = PREFIXES + 'e:S sh:targetNode e:a ; sh:path e:p ; sh:nodeKind sh:Literal .\n'
BLOCK = '''  sh:result [
    a sh:ValidationResult ;
    sh:focusNode <http://e/n{:05}> ;
    sh:resultPath <http://e/p> ;
    sh:sourceShape <http://e/S> ;
    sh:sourceConstraintComponent sh:MaxCountConstraintComponent ;
    sh:resultMessage "{}" ;
    sh:resultSeverity <http://www.w3.org/ns/shacl#Violation>
  ]'''


def report(*results):
    """A report of results, each by its lines."""
    return f'report conforms={"false" if results else "true"} results={len(results)}\n{"".join(results)}'


def files(shapes, data, script=None):
    found = {'shapes': shapes.encode(), 'data': data.encode()}
    return found if script is None else {**found, 'script': script.encode()}


def many(count):
    """Data with so many results, for the shapes that allow none."""
    return PREFIXES + ''.join(f'e:n{at:05} e:p {at} .\n' for at in range(count))


def large(count):
    """A report of half a kilobyte for each of so many results."""
    results = (f'result MaxCount Violation <http://e/S> <http://e/n{at:05}> <http://e/p> -\n'
               f'message "{MESSAGE}"\n' for at in range(count))
    due = report(*results)
    return Use(f'a report of {count} results', due.encode(), 1, files(NONE, many(count)))


def large_in_turtle(count):
    blocks = ' ;\n'.join(BLOCK.format(at, MESSAGE) for at in range(count))
    head = '@prefix sh: <http://www.w3.org/ns/shacl#> .\n[] a sh:ValidationReport ;\n  sh:conforms false ;\n'
    due, words = f'{head}{blocks} .\n', ('--format', 'turtle', 'shapes', 'data')
    return Use(f'{count} results in Turtle', due.encode(), 1, files(NONE, many(count)), words)


def scripted(count):
    """A script that puts so many results in one by one, and has the report told behind each."""
    results = [f'result NodeKind Violation <http://e/S> <http://e/a> <http://e/p> <http://e/v{at:05}>\n'
               for at in range(count)]
    due = report()
    due += ''.join(f'ok changed evaluated 1\n{report(*results[:at + 1])}' for at in range(count))
    script = ''.join(f'insert e:a e:p e:v{at:05} .\nreport\n' for at in range(count))
    words = ('shapes', 'data', 'script')
    return Use(f'answers to {2 * count} lines', due.encode(), 1, files(LITERALS, PREFIXES, script), words)


def short():
    """A run of each other kind, whose output is short."""
    no_result, fault = files(LITERALS, PREFIXES), files(LITERALS, 'e:a')
    refused = files(LITERALS, PREFIXES, 'open the door\n')
    return (
        Use('the usage', USAGE, 2, no_result, ()),
        Use('a fault', b'fault data: 2 Syntax at 0\n', 3, fault),
        Use('a report without results', report().encode(), 0, no_result),
        Use('a refused line', report().encode() + b'refused line 1: 52 LineSyntax\n', 7, refused,
            ('shapes', 'data', 'script')),
    )


def drills():
    """Words of the drill, which makes its texts itself."""
    summary = b'drill 3 edits 3 changed 3 evaluated 3 triples 6 pairs 3 results 3 status 1\n'
    yield Use('a drill', summary, 0, {}, ('3',))
    yield Use('the usage of the drill', b'usage: shacl_drill N\n', 2, {}, ('x',))
