"""Names of the code and paths that the pages speak of: each stands in the sources."""
import re
from functools import cache
from pathlib import PurePosixPath

from checks.sources import NAME, Finding, code, code_files, crate_of, crates, files, folders, line_of, lines
from checks.sources import names, of_crate, quoted, text

SPAN = re.compile(r"`([^`]+)`")
BLOCK = re.compile(r"^ *```[\s\S]*?^ *```$", re.M)
WORD = re.compile(NAME.pattern + r"(?:::" + NAME.pattern + ")?")
# What is no name of the code: prefixed names and terms of RDF, and options of a command.
OTHER = re.compile(r"(?<![\w:])\w*:(?!:)[\w-]+|<[^>]*>|\*\w+|(?<!\S)--?[\w-]+|\bhttps?:\S*")
PATH = re.compile(r"^(?:[\w-]+/)*[\w.-]+\.(?:rt|antt|md|py|txt|ttl)$|^[\w.-]+(?:/[\w.-]+)+/?$")
# `name`, `name` in `path`, and perhaps of `crate`; and `name` (`path`.
PLACED = re.compile(
    r"((?:`[\w'-]+`(?:,\s+|\s+and\s+))*`[\w'-]+`)\s+(?:in\s+|\((?=`[\w./-]+/))`([\w./-]+)`"
    r"(?:\s+of\s+`(\w+)`)?"
)
# Folders that every crate has; a page of a crate means its own by them, as by a file without a folder.
PARTS = ("src/", "specs/", "proofs/", "must-fail/")

# Where code and definitions declare a name, call it, or use it from elsewhere: what the kit declares is seen
# where it is called or used.
DECLARED = (
    re.compile(rf"\b(?:fn|struct|enum|trait|type|const|mod|ghost|requires|ensures) +({NAME.pattern})"),
    re.compile(rf"^ *(?:pub(?:\(\w+\))? )?({NAME.pattern}) ?(?::(?!:)|,$|\(|\{{)", re.M),
    re.compile(rf"[.:!]({NAME.pattern})[(!]"),
)
DEFINED = (re.compile(rf"^ *(?:(?:abbrev|pub|record|data|mod) )*({NAME.pattern})(?= |$)(?! *=)", re.M),)
CLAUSE = re.compile(r"\b(?:requires|ensures|ghost|fn) +(\w+)")
# And where the Python package declares one.
IN_PYTHON = re.compile(r"^ *(?:class|def|async def) +(\w+)|^ {4}(\w+):|^(\w+)(?::[^=]*)? = ", re.M)
USED = re.compile(r"^ *(?:pub |ghost )*use ([^;\n]*(?:\{$[^;]*)?)", re.M)

# Names that only derives, proofs and the machine have: of the kit, and of its goals.
OF_THE_KIT = {
    "Debug", "Display", "Ord", "Lts", "RT_JOBS", "assert_eq",
    "from_residual", "ghost_name", "in-Replied", "into_iter_gives", "yielded_by",
}


def is_name(word):
    """Whether a word looks like a name of the code: it has a low line, or small letters behind a capital."""
    return "_" in word.strip("_") or "::" in word or re.match(r"[A-Z][\w']*[a-z]", word) is not None


@cache
def declared():
    """The names that the sources declare, call, use or write as text, and those of crates and of commands."""
    found = set(crates()) | OF_THE_KIT | {it.removeprefix("bin/") for it in files() if it.startswith("bin/")}
    for file in code_files():
        for form in DECLARED if file.endswith(".rt") else DEFINED:
            found.update(form.findall(code(file)))
        for it in USED.findall(code(file)):
            found.update(NAME.findall(it))
        if "/proofs/" not in file:
            found.update(quoted(file))
    for file in (it for it in files() if it.startswith("python/") and it.endswith(".py")):
        found.update(name for names in IN_PYTHON.findall(text(file)) for name in names if name)
    return found


@cache
def by_last():
    """The files and folders, by the last part of their paths, with and without its ending."""
    found = {}
    for it in [*files(), *folders()]:
        last = PurePosixPath(it)
        for name in {last.name, last.stem}:
            found.setdefault(name, []).append(it)
    return found


def places(path, crate=None):
    """The files and folders that a path may mean, of a crate if one is given: it is their end, with or
    without an ending."""
    path = path.strip("/")
    ends = tuple(f"/{path}{ending}" for ending in ("", ".antt", ".rt"))
    front = f"crates/{crate}/" if crate else ""
    found = by_last().get(path.split("/")[-1], [])
    return [it for it in found if it.startswith(front) and f"/{it}".endswith(ends)]


def pages():
    """The pages that speak of the code."""
    form = re.compile(r"(?:README|CONTRIBUTING)\.md|(?:docs|crates/\w+|runs)/[\w-]+\.md$")
    return [it for it in files() if form.match(it)]


def prose(page):
    """The text of a page without its blocks of code, line by line as it was."""
    return BLOCK.sub(lambda it: re.sub(r"[^\n]", "", it.group()), text(page))


def unknown_in(span, crate):
    """What a span names that is nowhere."""
    if PATH.match(span):
        is_own = span.startswith(PARTS) or "/" not in span
        is_open = "NAME" in span.split("/") or span.startswith("out/")
        if not is_open and not places(span, crate if is_own else None):
            yield f"there is no file or folder {span}"
        return
    for word in WORD.findall(OTHER.sub(" ", span)):
        if is_name(word) and not all(part in declared() for part in word.split("::")):
            yield f"no source has the name {word}"


@cache
def names_at(path, crate):
    """The names in the sources that a path may mean: of a folder, or of a crate, all."""
    at = [f"crates/{path}"] if path in crates() else places(path, crate)
    inside = tuple(f"{folder}/" for folder in at)
    return frozenset().union(*(names(it) for it in code_files() if it in at or it.startswith(inside)))


def misplaced(spans, path, other, crate):
    """The names that are said to stand in a file, and do not."""
    there = names_at(path, other if other in crates() else crate if path.startswith(PARTS) else None)
    for name in filter(is_name, SPAN.findall(spans) if there else ()):
        if name not in there and name not in crates():
            yield f"{name} does not stand in {path}" + (f" of {other}" if other else "")


@cache
def clauses(crate):
    """The names of the clauses of a crate, and of its functions."""
    sources = (code(it) for it in of_crate(crate, "src", ".rt"))
    return frozenset(name for it in sources for name in CLAUSE.findall(it))


def last_cells(page):
    """The last cells of the tables of a page, each with the number of its line and the head of its column."""
    head = None
    for number, line in lines(page):
        last = line.split("|")[-2].strip() if line.startswith("|") and line.endswith("|") else None
        if last is None or head is None:
            head = last
        else:
            yield number, head, last


def check_clauses():
    """Clauses that a table of a crate's page names and the crate has not."""
    for page in (it for it in pages() if crate_of(it) in crates()):
        crate = crate_of(page)
        for number, head, cell in last_cells(page):
            for word in SPAN.findall(cell) if "clause" in head else ():
                if word.isidentifier() and not is_name(word) and word not in clauses(crate) | {"impl"}:
                    yield Finding(page, number, f"{crate} has no clause {word}")


def check():
    """Names and paths that the pages speak of and that are nowhere, and names that stand elsewhere."""
    for page in pages():
        whole, crate = prose(page), crate_of(page)
        for span in SPAN.finditer(whole):
            for what in unknown_in(" ".join(span[1].split()), crate):
                yield Finding(page, line_of(whole, span.start()), what)
        for it in PLACED.finditer(whole):
            for what in misplaced(*it.groups(), crate):
                yield Finding(page, line_of(whole, it.start()), what)
