"""What stands in the tables of the pages: each crate, its figures, each example and each script of bench."""
import re
import sys
from pathlib import PurePosixPath

from checks.sources import TOP, Finding, crates, files, lines, text

sys.path.insert(0, str(TOP / "bench"))
from count_lines import counts_of  # noqa: E402

README, ARCHITECTURE, FIGURES = "README.md", "docs/ARCHITECTURE.md", "docs/FIGURES.md"
COUNTED, MEASURED = "| crate | lines of code |", "| crate | processor seconds of its proof |"
# What `bin/build_program` reckons by: the crates that the program stands on, and itself.
SECONDS, PROGRAM, LADDER = "bin/proof_seconds", "shacl_keep", "crates.txt"
SPAN = re.compile(r"`(\w+)`")
# How far the lines of a crate may be from what FIGURES says: a part of what they are, and some lines.
PART, SOME = 0.1, 10
COLUMNS = ("lines of code", "lines of definitions", "lines of proofs")


def rows(page, head="| crate |"):
    """The rows of the tables of a page that begin with this head, with their numbers."""
    inside = False
    for number, line in lines(page):
        inside = line.startswith(head) or inside and line.startswith("|")
        if inside:
            yield number, line


def check_crates():
    """Crates that have no page of their own, or that a table leaves out."""
    for page in (f"crates/{crate}/README.md" for crate in crates()):
        if page not in files():
            yield Finding(page, 1, "the crate has no page of its own")
    tables = ((README, "| crate |"), (ARCHITECTURE, "| crate |"), (FIGURES, COUNTED))
    for page, head in tables:
        found = list(rows(page, head))
        named = {name for _, line in found for name in SPAN.findall(line)}
        for crate in crates():
            if crate not in named:
                yield Finding(page, found[0][0] if found else 1, f"the table of crates leaves out {crate}")


def check_figures():
    """Rows of the first table of FIGURES that say something else than the sources, by more than a tenth."""
    for number, line in rows(FIGURES, COUNTED):
        first, *cells = (it.strip() for it in line.strip("|").split("|"))
        crate = first.strip("`")
        if not first.startswith("`"):
            continue
        if crate not in crates():
            yield Finding(FIGURES, number, f"there is no crate {crate}")
            continue
        *counts, wrong = counts_of(crate)
        for column, said, count in zip(COLUMNS, cells, counts):
            if abs(int(said) - count) > max(SOME, PART * count):
                yield Finding(FIGURES, number, f"{crate} has {count} {column}, not {said}")
        if int(cells[-1]) != wrong:
            yield Finding(FIGURES, number, f"{crate} has {wrong} wrong bodies, not {cells[-1]}")


def standing_on(crate):
    """A crate and those of the repository that it stands on."""
    named = dict(line.split(":") for _, line in lines(LADDER) if re.match(r"\w+:", line))
    found, left = set(), [crate]
    while left:
        it = left.pop()
        if it in named and it not in found:
            found.add(it)
            left += named[it].split()
    return found


def check_seconds():
    """Seconds of proofs that stand otherwise in FIGURES than where the first command reckons by them, and
    crates of the program that have none there."""
    measured = {cells[0].strip("` "): cells[1].strip()
                for cells in (line.strip("|").split("|") for _, line in rows(FIGURES, MEASURED))}
    stored = {}
    for number, line in lines(SECONDS):
        if re.match(r"\w", line):
            crate, seconds = line.split()
            stored[crate] = seconds
            if measured.get(crate) != seconds:
                yield Finding(SECONDS, number, f"FIGURES has {measured.get(crate)} seconds for {crate}")
    for crate in sorted(standing_on(PROGRAM) ^ stored.keys()):
        how = "is left out" if crate not in stored else f"is no crate that {PROGRAM} stands on"
        yield Finding(SECONDS, 1, f"{crate} {how}")


def check_examples():
    """Examples that the README does not name, and scripts of bench that neither it nor FIGURES does."""
    said = text(README) + text(FIGURES)
    for folder in sorted({"/".join(it.split("/")[:2]) for it in files() if re.match(r"examples/.*/", it)}):
        if not re.search(rf"{folder}\b", text(README)):
            yield Finding(README, 1, f"{folder} is not named")
    for script in (it for it in files() if it.startswith("bench/") and text(it).startswith("#!")):
        if PurePosixPath(script).name not in said:
            yield Finding(FIGURES, 1, f"{script} is named neither here nor in {README}")
