"""What each package holds: which file of the checkout goes where."""

from typing import NamedTuple

MAIN, DRILL = "shacl-keep", "shacl-keep-drill"
_DOC = f"usr/share/doc/{MAIN}"
_PYTHON = "usr/lib/python3/dist-packages/shacl_keep"

# The programs: the package of each, and its folder there.
PROGRAMS = {
    "shacl_keep": (MAIN, "usr/bin"),
    "ttl_triples": (MAIN, "usr/lib/shacl-keep"),
    "shacl_drill": (DRILL, "usr/lib/shacl-keep"),
}

# Files and folders of the checkout, and the folders of the package that they, or what is in them, go to.
FILES = {
    MAIN: (
        ("VERSION", _PYTHON),
        ("python/shacl_keep", _PYTHON),
        ("bin/shacl_show", "usr/bin"),
        ("bin/shacl_split", "usr/bin"),
        ("README.md", _DOC),
        ("docs/REFERENCE.md", f"{_DOC}/docs"),
        ("docs/USE.md", f"{_DOC}/docs"),
        ("docs/COMPONENTS.md", f"{_DOC}/docs"),
        ("docs/DIFFERENCES.md", f"{_DOC}/docs"),
        ("docs/SCALE.md", f"{_DOC}/docs"),
        ("docs/FIGURES.md", f"{_DOC}/docs"),
        ("docs/THEOREM.md", f"{_DOC}/docs"),
        ("examples", f"{_DOC}/examples"),
    ),
    DRILL: (),
}

class Tool(NamedTuple):
    """A command that has a help text: its file in the checkout, and what it is for."""

    file: str
    about: str


TOOLS = {
    "shacl_show": Tool("bin/shacl_show", "show a SHACL report to people"),
    "shacl_split": Tool("bin/shacl_split", "split a shapes graph into parts, and join their reports"),
}
# The program has no help text: what its options are for. That they are these, its usage says.
OPTIONS = {
    "--format": "how reports and answers are written",
    "--base": "the IRI over which references are resolved",
}
