#!/usr/bin/env python3
"""Measures what hostile texts of about a megabyte cost: each construct at a size, and at twice and four times
that, in processor seconds and peak memory of the whole run, and how many times as long the last took as the
one before it. Linear is 2. Run it at the top of the repository, where the program was built.

    bench/hostile.py [NAME ..]     measures these constructs, or all
    bench/hostile.py --text NAME SIZE FOLDER     writes the shapes, the data and any script of one
"""
import os
import sys
import tempfile

from built import PROGRAM
from load import run

# The texts of a construct; the script stands where one is given, behind the data, whose prefixes it has.
SCRIPT = "script.txt"
FILES = ("shapes.ttl", "data.ttl", SCRIPT)

PREFIXES = """@prefix sh: <http://www.w3.org/ns/shacl#> .
@prefix rdf: <http://www.w3.org/1999/02/22-rdf-syntax-ns#> .
@prefix rdfs: <http://www.w3.org/2000/01/rdf-schema#> .
@prefix e: <http://e/> .
"""


def names(count, letter):
    return (f"e:{letter}{at}" for at in range(count))


def listed(terms):
    return "( " + " ".join(terms) + " )"


def members_at_values(n):
    """sh:in of n members at n values of one node"""
    shapes = f"e:S sh:targetNode e:a ; sh:path e:p ; sh:in {listed(names(n, 'm'))} .\n"
    return shapes, f"e:a e:p {' , '.join(names(n, 'm'))} .\n"


def list_of_many_shapes(n):
    """n shapes over one list of n / 10 members"""
    shapes = [f"e:s{at} sh:targetNode e:a ; sh:path e:p ; sh:in _:l0 .\n" for at in range(n)]
    cells = n // 10
    for at in range(cells):
        rest = f"_:l{at + 1}" if at + 1 < cells else "rdf:nil"
        shapes.append(f"_:l{at} rdf:first e:m{at} ; rdf:rest {rest} .\n")
    return "".join(shapes), "e:a e:p e:m1 .\n"


def path_of_many_shapes(n):
    """n shapes over one path of n / 10 parts"""
    path = f"_:path sh:alternativePath {listed(names(max(2, n // 10), 'p'))} .\n"
    shapes = [f"e:s{at} sh:targetNode e:a ; sh:path _:path ; sh:minCount 0 .\n" for at in range(n)]
    return path + "".join(shapes), "e:a e:p1 e:b .\n"


def chain_of_classes(n):
    """n value nodes below a chain of n classes"""
    data = [f"e:c{at} rdfs:subClassOf e:c{at + 1} .\n" for at in range(n)]
    data += [f"e:v{at} a e:c0 . e:a e:p e:v{at} .\n" for at in range(n)]
    return f"e:S sh:targetNode e:a ; sh:path e:p ; sh:class e:c{n} .\n", "".join(data)


def clique_of_classes(n):
    """as many value nodes as classes, where each class is a subclass of each other, n statements in all"""
    side = int(n**0.5)
    data = [f"e:c{one} rdfs:subClassOf {' , '.join(names(side, 'c'))} .\n" for one in range(side)]
    data += [f"e:v{at} a e:c{at} . e:a e:p e:v{at} .\n" for at in range(side)]
    return f"e:S sh:targetNode e:a ; sh:path e:p ; sh:class e:c0 .\n", "".join(data)


def many_class_parameters(n):
    """n parameters of sh:class at one node of n types"""
    shapes = f"e:S sh:targetNode e:a ; sh:class {' , '.join(names(n, 'c'))} .\n"
    return shapes, f"e:a a {' , '.join(names(n, 'c'))} .\n"


def class_parameters_under_a_script(n):
    """the same, under an empty script"""
    return *many_class_parameters(n), ""


def hub(n):
    """n nodes that ask about one node, which has n values"""
    shapes = "e:S sh:targetSubjectsOf e:to ; sh:path e:to ; sh:node e:T .\n"
    shapes += "e:T sh:property [ sh:path e:p ; sh:nodeKind sh:IRI ] .\n"
    data = [f"e:n{at} e:to e:hub . e:hub e:p e:v{at} .\n" for at in range(n)]
    return shapes, "".join(data)


def failing_hub(n):
    """n nodes that ask about one node, which has n values and fails"""
    shapes, data = hub(n)
    return shapes.replace("sh:nodeKind sh:IRI", f"sh:nodeKind sh:IRI ; sh:minCount {n + 1}"), data


def hub_under_a_script(n):
    """n nodes that ask about one node, which asks about n values in its turn, under an empty script"""
    shapes = "e:S sh:targetSubjectsOf e:to ; sh:path e:to ; sh:node e:T .\n"
    shapes += "e:T sh:property [ sh:path e:p ; sh:node e:U ] .\n"
    shapes += "e:U sh:property [ sh:path e:q ; sh:minCount 1 ] .\n"
    data = [f"e:n{at} e:to e:hub . e:hub e:p e:v{at} . e:v{at} e:q {at} .\n" for at in range(n)]
    return shapes, "".join(data), ""


def edited_hub(n):
    """n nodes that ask about one node, which asks about n values, and 100 edits of these, which touch all"""
    shapes, data, _ = hub_under_a_script(n)
    return shapes, data, "".join(f"insert e:v{at} e:q 'more' .\n" for at in range(100))


def chain_of_nodes(n):
    """n nodes at a shape that asks the next one about the same node, 30 deep"""
    shapes = [f"e:s{at} sh:node e:s{at + 1} .\n" for at in range(30)]
    shapes.append("e:s0 sh:targetSubjectsOf e:p . e:s30 sh:property [ sh:path e:p ; sh:maxCount 1 ] .\n")
    return "".join(shapes), "".join(f"e:n{at} e:p {at} .\n" for at in range(n))


def failing_diamonds(n):
    """n nodes at a shape that asks the next one twice, by two paths, 30 deep, and fails"""
    shapes = [
        f"e:s{at} sh:property [ sh:path e:p ; sh:node e:s{at + 1} ] ,\n"
        f"    [ sh:path e:q ; sh:node e:s{at + 1} ] .\n"
        for at in range(30)
    ]
    shapes.append("e:s0 sh:targetSubjectsOf e:start . e:s30 sh:nodeKind sh:Literal .\n")
    data = [f"e:v{at} e:p e:v{at + 1} ; e:q e:v{at + 1} .\n" for at in range(30)]
    data += [f"e:n{at} e:start 1 ; e:p e:v1 ; e:q e:v1 .\n" for at in range(n)]
    return "".join(shapes), "".join(data)


def one_shape_many_times(n):
    """sh:xone of one shape as many times as there are values, n in all"""
    side = int(n**0.5)
    shapes = f"e:S sh:targetNode e:a ; sh:path e:p ; sh:xone {listed(['e:T'] * side)} .\n"
    return shapes + "e:T sh:nodeKind sh:IRI .\n", f"e:a e:p {' , '.join(names(side, 'v'))} .\n"


def doubling_tree(n):
    """a shape below which sh:property leads to n results, by shapes that lead to the next one twice"""
    levels = n.bit_length() - 1
    shapes = [
        f"e:s{at} sh:property [ sh:path e:p ; sh:property e:s{at + 1} ] , "
        f"[ sh:path e:p ; sh:property e:s{at + 1} ] .\n"
        for at in range(levels)
    ]
    shapes = [shape if at == 0 else shape.replace(" sh:property [", " sh:path e:p ; sh:property [", 1)
              for at, shape in enumerate(shapes)]
    shapes.append(f"e:s{levels} sh:path e:p ; sh:minCount 2 .\n e:s0 sh:targetNode e:a .\n")
    return "".join(shapes), "e:a e:p e:a .\n"


def siblings_at_values(n):
    """qualified values with siblings, at as many values, n in all"""
    side = int(n**0.5)
    shapes = ["e:S sh:targetNode e:a .\n"]
    for at in range(side):
        shapes.append(
            f"e:S sh:property [ sh:path e:p ; sh:qualifiedMinCount 0 ; sh:qualifiedValueShapesDisjoint true ;"
            f" sh:qualifiedValueShape [ sh:hasValue e:v{at} ] ] .\n"
        )
    return "".join(shapes), f"e:a e:p {' , '.join(names(side, 'v'))} .\n"


def many_ignored(n):
    """a closed shape that ignores n properties, at a node that has them"""
    shapes = f"e:S sh:targetNode e:a ; sh:closed true ; sh:ignoredProperties {listed(names(n, 'p'))} .\n"
    return shapes, "".join(f"e:a e:p{at} {at} .\n" for at in range(n))


def patterns(n):
    """a pattern at n nodes"""
    shapes = "e:S sh:targetSubjectsOf e:p ; sh:path e:p ; sh:pattern '^[a-z]+([0-9]{2,5}|x)*$' .\n"
    return shapes, "".join(f"e:n{at} e:p 'text{at}' .\n" for at in range(n))


def many_patterns(n):
    """n shapes with a pattern each, at one node"""
    shapes = [f"e:s{at} sh:targetNode e:a ; sh:path e:p ; sh:pattern '^t{at}' .\n" for at in range(n)]
    return "".join(shapes), "e:a e:p 'text' .\n"


def diamonds(n):
    """n shapes, each of which asks the next one twice"""
    n = min(n, 120)
    shapes = [f"e:s{at} sh:and ( e:s{at + 1} [ sh:node e:s{at + 1} ] ) .\n" for at in range(n // 2)]
    last = f"e:s{n // 2} sh:nodeKind sh:IRI .\n"
    return "e:s0 sh:targetNode e:a .\n" + "".join(shapes) + last, "e:a e:p e:b .\n"


def overlapping_targets(n):
    """ten shapes whose targets are the same n nodes by ten ways each"""
    shapes = []
    for at in range(10):
        ways = [f"sh:targetSubjectsOf e:p{way} ; sh:targetClass e:C{way}" for way in range(10)]
        shapes.append(f"e:s{at} {' ; '.join(ways)} ; sh:path e:q ; sh:maxCount 1 .\n")
    data = [f"e:n{at} e:p{at % 10} 1 , 2 ; a e:C{at % 10} , e:C{(at + 1) % 10} .\n" for at in range(n)]
    return "".join(shapes), "".join(data)


# By name: the construct, and its first size.
CONSTRUCTS = {
    construct.__name__: (construct, size)
    for construct, size in (
        (members_at_values, 25_000),
        (list_of_many_shapes, 6_000),
        (path_of_many_shapes, 6_000),
        (chain_of_classes, 6_000),
        (clique_of_classes, 40_000),
        (many_class_parameters, 25_000),
        (class_parameters_under_a_script, 25_000),
        (hub, 5_000),
        (failing_hub, 5_000),
        (hub_under_a_script, 5_000),
        (edited_hub, 5_000),
        (chain_of_nodes, 10_000),
        (failing_diamonds, 5_000),
        (one_shape_many_times, 250_000),
        (doubling_tree, 16_384),
        (siblings_at_values, 10_000),
        (many_ignored, 12_500),
        (patterns, 12_500),
        (many_patterns, 4_000),
        (diamonds, 30),
        (overlapping_targets, 6_000),
    )
}


def write(folder, construct, size):
    """The paths of the texts, and their bytes."""
    paths = []
    for name, text in zip(FILES, construct(size)):
        paths.append(os.path.join(folder, name))
        with open(paths[-1], "w", encoding="utf-8") as out:
            out.write(text if name == SCRIPT else PREFIXES + text)
    return paths, sum(os.path.getsize(path) for path in paths)


def measure(folder, name):
    construct, size = CONSTRUCTS[name]
    took = []
    for n in (size, 2 * size, 4 * size):
        paths, length = write(folder, construct, n)
        cpu, _, peak, line = run([PROGRAM, *paths], os.path.join(folder, "out"))
        took.append(cpu)
    times = " | ".join(f"{cpu:.2f}" for cpu in took)
    growth = took[2] / max(took[1], 0.01)
    what = f"{construct.__doc__}, n = {4 * size}"
    print(f"| {what} | {length / 1e6:.1f} | {times} | {growth:.1f} | {peak:.0f} | `{line}` |", flush=True)


def main():
    words = sys.argv[1:]
    if words[:1] == ["--text"]:
        write(words[3], CONSTRUCTS[words[1]][0], int(words[2]))
        return
    print("| construct | MB | a quarter, s | half, s | s | growth | peak MB | the output begins |")
    print("|---" * 8 + "|")
    with tempfile.TemporaryDirectory() as folder:
        for name in words or CONSTRUCTS:
            measure(folder, name)


if __name__ == "__main__":
    main()
