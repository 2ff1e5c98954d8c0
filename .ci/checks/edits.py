"""The wrong bodies of a crate: how many there are, and that each changes what it says that it changes."""
from pathlib import PurePosixPath

from checks.sources import Finding, crates, files, lines, text

LEAST, MOST = 5, 8
# Crates of which nothing is proved but that they are safe: those of tests, what only tests have, and examples
# of use.
ONLY_SAFE = {"row_tools", "ttl_triples"}
ENDINGS = ("_rows", "_example")


def of(crate):
    """The wrong bodies of a crate."""
    front = f"crates/{crate}/must-fail/"
    return [it for it in files() if it.startswith(front) and it.endswith(".edit")]


def check_counts():
    """Crates with too few or too many wrong bodies."""
    for crate in crates():
        count, folder = len(of(crate)), f"crates/{crate}/must-fail"
        if crate.endswith(ENDINGS) or crate in ONLY_SAFE:
            if count:
                yield Finding(folder, 1, f"nothing is proved of {crate}, so it has no wrong bodies")
        elif not LEAST <= count <= MOST:
            yield Finding(folder, 1, f"there are {count} wrong bodies, and should be {LEAST} to {MOST}")


def faults(edit):
    """What is wrong in an edit, with its lines: each old text stands once in its file, as it is by then."""
    crate, texts, path, old, changes = PurePosixPath(edit).parents[1], {}, None, None, 0
    for number, line in lines(edit):
        key, _, rest = line.partition(":")
        rest = rest.removeprefix(" ")
        if key == "file":
            path = f"{crate}/{rest.strip()}"
            texts.setdefault(path, text(path) if path in files() else None)
            if texts[path] is None:
                yield number, f"there is no file {path}"
                return
        elif key == "old":
            old = rest
            found = texts[path].count(old) if path else 0
            if not old or found != 1:
                yield number, f"the old text stands {found} times in its file, and not once"
                return
        elif key == "new" and old:
            if rest == old:
                yield number, "the new text is the old one"
            texts[path], old, changes = texts[path].replace(old, rest), None, changes + 1
    if not changes:
        yield 1, "it changes nothing"


def check_edits():
    """Edits that cannot be made."""
    for crate in crates():
        for edit in of(crate):
            yield from (Finding(edit, number, what) for number, what in faults(edit))
