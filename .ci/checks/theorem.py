"""The files that docs/THEOREM.md says are to be believed for `run`: those that its contract leads to."""
import re

from checks.belief import closure, contract, models, types
from checks.sources import Finding, crate_of, files, lines

PAGE = "docs/THEOREM.md"
# The heads of the two tables, of definitions and of types, and a row: its crate, or nothing where the row
# goes on with that of the row above, and what it names.
DEFINITIONS, TYPES = "| crate | files of `specs/` |", "| crate | types of `src/` |"
ROW = re.compile(r"^\| (?:`(?:crates/)?(\w+)(?:/specs)?`)? ?\| (.*) \|$")
# A file or a type. A definition of which it is said in which file it stands is neither.
NAMED = re.compile(r"`((?:inner\.)?[A-Z]\w*|\w+\.rt)`(?! in `[A-Z])")
# The crate of the run, with the function whose contract is the theorem, and the law that is it in a sentence.
CRATE, FUNCTIONS = "shacl_run", ("run", "an_undisturbed_run_is_due")


def told(head):
    """What a table of the page names, by crates, with the lines."""
    found, crate, inside = {}, None, False
    for number, line in lines(PAGE):
        inside = line == head or inside and line.startswith("|")
        row = ROW.match(line)
        if inside and row and line != head:
            crate = row[1] or crate
            found |= {(crate, name): number for name in NAMED.findall(row[2])}
    return found


def believed():
    """All that the theorem leads to."""
    return closure(name for function in FUNCTIONS for name in contract(CRATE, function))


def definitions(names):
    """The files of definitions among these, by crates and names."""
    found = {}
    for file in {it.file for it in names if it.file.endswith(".antt")}:
        module = file.split("/specs/")[1].removesuffix(".antt")
        found[crate_of(file), module.replace("/", ".")] = file
    return found


def declarations(names):
    """The types among these that have no model, and the files of constants, by crates and names."""
    found = {}
    for file, name in (it for it in names if it.file.endswith(".rt")):
        if name in types(file) and name not in models(file):
            found[crate_of(file), name] = file
        elif name.isupper():
            found[crate_of(file), file.split("/")[-1]] = file
    return found


def differences(head, due):
    """What a table leaves out, and what it names in vain."""
    said = told(head)
    begin = next((number for number, line in lines(PAGE) if line == head), 1)
    for crate, name in sorted(due.keys() - said.keys()):
        inner = f", and stands in specs/inner: {due[crate, name]}" if name.startswith("inner.") else ""
        yield Finding(PAGE, begin, f"{name} of {crate} has to be believed and is left out{inner}")
    for (crate, name), number in said.items():
        is_file = name.endswith(".rt") and f"crates/{crate}/src/{name}" in files()
        if (crate, name) not in due and not is_file:
            yield Finding(PAGE, number, f"the theorem does not lead to {name} of {crate}")


def check():
    """Files and types that the theorem leads to and the page does not name, and the other way round."""
    names = believed()
    if not names:
        yield Finding(PAGE, 1, f"no contract of {' and '.join(FUNCTIONS)} was found in {CRATE}")
    yield from differences(DEFINITIONS, definitions(names))
    yield from differences(TYPES, declarations(names))
