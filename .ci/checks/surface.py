"""Public functions that no other crate uses and no page names: to be looked at, and no finding."""
import re

from checks.sources import NAME, Finding, code, code_files, crate_of, crates, files, names, of_crate, text

EXPORT = re.compile(r"^pub (?:use|mod) ([^;]*);", re.M)
OWNER = re.compile(r"^impl(?:<[^{]*?>)? (?:[^{]*? for )?(?:\w+::)*(\w+)")
FUNCTION = re.compile(r"^( *)pub (?:const )?fn (\w+)")
SPAN = re.compile(r"`([^`]+)`")


def exported(crate):
    """The names that a crate gives away: of its functions, types and modules."""
    root = f"crates/{crate}/src/lib.rt"
    listed = EXPORT.findall(code(root)) if root in files() else []
    return {name for it in listed for name in NAME.findall(it)}


def functions(file):
    """The public functions of a file, each with its line, and its type where it is a method."""
    owner = None
    for number, line in enumerate(code(file).split("\n"), 1):
        if line.startswith("impl"):
            owner = OWNER.match(line)
        found = FUNCTION.match(line)
        if found:
            yield number, found[2], owner[1] if found[1] and owner else None


def spoken_of(crate):
    """The words in backticks of a crate's page and of the pages above it."""
    pages = [it for it in files() if re.match(rf"README\.md|docs/[\w-]+\.md|crates/{crate}/README\.md$", it)]
    return {word for page in pages for span in SPAN.findall(text(page)) for word in NAME.findall(span)}


def users():
    """The crates in whose sources each name stands."""
    found = {}
    for file in code_files():
        for name in names(file):
            found.setdefault(name, set()).add(crate_of(file))
    return found


def unused():
    """Public functions that stand in no other crate's sources and on no page."""
    stands = users()
    for crate in crates():
        given, spoken = exported(crate), spoken_of(crate)
        for file in of_crate(crate, "src", ".rt"):
            for number, name, owner in functions(file):
                if (owner or name) in given and stands[name] == {crate} and name not in spoken:
                    where = f"{owner}::{name}" if owner else name
                    yield Finding(file, number, f"no other crate and no page names {where}")
