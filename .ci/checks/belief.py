"""What has to be believed for a contract: the definitions that it names, and those that these name in turn,
over all crates; and the types of the code that they speak of."""
import re
from functools import cache
from typing import NamedTuple

from checks.sources import NAME, code, crate_of, files, of_crate, text

# `use Rattle.CRATE.specs.MODULE.{NAME, NAME as OTHER};`, or a module that is used as a whole, `as OTHER`.
USE = re.compile(
    r"^ *(?:ghost )?use Rattle\.(\w+)\.specs\.([\w.]+?)(?:\.\{([^}]*)\}| as (\w+)|;)[ ;]*$", re.M
)
# The same of types in the code: `use CRATE::{TYPE, TYPE};`.
TYPE_USE = re.compile(r"^use (\w+)::([^;]*);", re.M)
# Where a definition begins: its name stands at the margin, or two spaces from it in a module without a name.
HEAD = re.compile(rf"^(?:(?:abbrev|pub|record|data) )*({NAME.pattern})(?= |$)")
GROUP = re.compile(r"^(?:module|abbrev mutual)")
# A case of a `data`.
CASE = re.compile(rf"^ +({NAME.pattern}) :")
DOTTED = re.compile(r"[^\W\d][\w'-]*(?:\.[^\W\d][\w'-]*)*")
TYPE = re.compile(r"^pub(?:\(crate\))? (?:struct|enum) (\w+)[\s\S]*?(?:^\}|;$)", re.M)
VALUE = re.compile(r"^impl(?:<.*?>)? Model for (\w+)[\s\S]*?ghost Value = \{([^}]*)\}", re.M)


class Name(NamedTuple):
    """A definition, or a type of the code, by the file that it stands in."""
    file: str
    name: str


class Source(NamedTuple):
    """What names of other files a file uses, by the names that they have in it, and modules, whole."""
    used: dict
    modules: dict


def file_of(crate, module):
    """The file of a module of `specs`, or the file of `src` that declares a type or constants."""
    parts = module.split(".")
    if parts[0] != "declared":
        return f"crates/{crate}/specs/{'/'.join(parts)}.antt", None
    lower = [it for it in parts[1:] if it[0].islower()]
    kind = next((it for it in parts[1:] if it[0].isupper() and it != "TheConstants"), None)
    return f"crates/{crate}/src/{'/'.join(lower)}.rt", kind


@cache
def source(file):
    """The uses of a file, of the crates of this repository."""
    used, modules = {}, {}
    for crate, module, listed, other in USE.findall(text(file)):
        at, kind = file_of(crate, module)
        if at not in files():
            continue
        if not listed:
            modules[other or module.split(".")[-1]] = Name(at, kind)
        for item in filter(None, (it.strip() for it in listed.split(","))):
            name, _, other = item.partition(" as ")
            used[other or name] = Name(at, kind or name)
    if file.endswith(".rt"):
        used = types_used(file) | used
    return Source(used, modules)


def types_used(file):
    """The types of the repository that a file of code uses."""
    found = {}
    for crate, listed in TYPE_USE.findall(text(file)):
        home = declared_in(crate_of(file) if crate == "crate" else crate)
        found |= {name: Name(home[name], name) for name in NAME.findall(listed) if name in home}
    return found


@cache
def declared_in(crate):
    """The files of a crate by the types that they declare."""
    return {name: file for file in of_crate(crate, "src", ".rt") for name in types(file)}


@cache
def definitions(file):
    """The text of each definition of a file, by its name; a case stands for its `data`."""
    blocks, cases, name, margin = {}, {}, None, ""
    for line in code(file).split("\n"):
        if GROUP.match(line):
            name, margin = None, "  "
        elif line.startswith("use "):
            name = None
        elif line.strip() and (line[0] != " " or line[:2] == margin and line[2] != " "):
            # A line of a definition: one at the margin ends the group before it.
            margin = margin if line[0] == " " else ""
            head = HEAD.match(line.removeprefix(margin))
            name = head[1] if head else name
        elif name and "data " in blocks[name].split("\n")[0] and (case := CASE.match(line)):
            cases[case[1]] = name
        if name:
            blocks[name] = blocks.get(name, "") + line + "\n"
    return {**{case: blocks[of] for case, of in cases.items()}, **blocks}


@cache
def types(file):
    """What definitions see of each type that a file of `src` declares: its fields, or its model's value."""
    return {it[1]: it[0] for it in TYPE.finditer(code(file))} | models(file)


@cache
def models(file):
    """The values as which definitions see types that have a model."""
    return {it[1]: it[2] for it in VALUE.finditer(code(file))}


def named(file, words):
    """The definitions and types that a part of a file names."""
    here, known = source(file), definitions(file) if file.endswith(".antt") else types(file)
    for dotted in DOTTED.findall(words):
        first, *rest = dotted.split(".")
        if first in here.used:
            yield here.used[first]
        elif first in here.modules:
            at, kind = here.modules[first]
            yield Name(at, kind or (rest or [first])[0])
        elif first in known:
            yield Name(file, first)


def behind(name):
    """The text of a definition, or what is seen of a type."""
    if name.file.endswith(".antt"):
        return definitions(name.file).get(name.name, "")
    return types(name.file).get(name.name, "")


def contract(crate, function):
    """The definitions and types that the contract of a public function of a crate names."""
    for file in of_crate(crate, "src", ".rt"):
        clauses = rf"^pub fn {function}\b[\s\S]*?((?:requires|ensures)[\s\S]*?)^\{{"
        found = re.search(clauses, code(file), re.M)
        if found:
            return list(named(file, found[1]))
    return []


def closure(start):
    """All names that these lead to, by what each names."""
    found, left = set(), list(start)
    while left:
        name = left.pop()
        if name not in found:
            found.add(name)
            left += named(name.file, behind(name))
    return found
