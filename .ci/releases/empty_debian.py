"""The package in an empty Debian: it installs, an ordinary user validates the example, its pages and
completions are there, and nothing stays when it is removed."""

import shutil
import tempfile
from collections.abc import Iterator
from pathlib import Path

from releases.checkouts import expected
from releases.root import NotMade, Root
from releases.told import TOP, not_run, package_with_tools, packages, told

PACKAGE = "shacl-keep"
DOC = f"/usr/share/doc/{PACKAGE}"
EXAMPLE = ("examples/library/shapes.ttl", "examples/library/data.ttl")
USER = "nobody"
COMMANDS = ("shacl_keep", "shacl_show", "shacl_split")
COMPLETED = """
. /usr/share/bash-completion/bash_completion
_completion_loader shacl_keep
COMP_WORDS=(shacl_keep --f) COMP_CWORD=1 COMP_LINE='shacl_keep --f' COMP_POINT=14
_shacl_keep shacl_keep --f shacl_keep
echo "${COMPREPLY[@]}"
"""


def is_due(what: str, due: str, found: str) -> Iterator[str]:
    if due not in found:
        yield f"in an empty Debian {what}: {found[-500:]}"


def installs(root: Root) -> Iterator[str]:
    package = package_with_tools()
    shutil.copy(package, root.folder / "tmp")
    root.run("apt-get", "update")
    found = root.run("apt-get", "install", "--yes", "--no-install-recommends", f"/tmp/{package.name}")
    yield from is_due("it does not install", "status 0\n", found)


def works(root: Root) -> Iterator[str]:
    """What an ordinary user sees of it."""
    in_doc = ("env", "--chdir", DOC)
    found = root.run(*in_doc, "shacl_keep", *EXAMPLE, user=USER)
    if found != expected():
        yield f"in an empty Debian the example is validated otherwise: {found[-500:]}"
    shown = (TOP / "examples" / "library" / "shown").read_text(encoding="utf-8")
    if (found := root.run(*in_doc, "shacl_show", *EXAMPLE, user=USER)) != shown:
        yield f"in an empty Debian shacl_show shows something else: {found[-500:]}"
    version = told("version")[0][0]
    yield from is_due("shacl_show is of another version", version, root.run("shacl_show", "--version"))
    for it in COMMANDS:
        page = root.run("man", "-P", "cat", it, user=USER)
        yield from is_due(f"there is no page on {it}", f"{it}(1)", page.lower())
    yield from is_due("bash completes otherwise", "--format\n", root.run("bash", "-c", COMPLETED, user=USER))


def goes(root: Root, before: set[str]) -> Iterator[str]:
    """It is removed, with all that came with it."""
    found = root.run("apt-get", "purge", "--autoremove", "--yes", PACKAGE)
    yield from is_due("it is not removed", "status 0\n", found)
    if left := sorted(root.files() - before):
        yield f"in an empty Debian it leaves {len(left)} files: {' '.join(left[:20])}"


def findings() -> Iterator[str]:
    if not packages():
        return
    with tempfile.TemporaryDirectory() as folder:
        try:
            root = Root(Path(folder) / "root")
        except NotMade as why:
            not_run("the package in an empty Debian", str(why))
            return
        before = root.files()
        yield from installs(root)
        yield from works(root)
        yield from goes(root, before)
