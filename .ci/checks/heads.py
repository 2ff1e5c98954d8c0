"""The table of files at the head of a crate: it names every file of src, and none that is not there."""
import re

from checks.sources import Finding, crates, files, lines, of_crate

ROW = re.compile(r"^//! \| (`.*?) \|")
SPAN = re.compile(r"`([\w/.]+)`")
ROOTS = ("lib.rt", "main.rt")


def told(root):
    """The files that the table names, by their paths from src, with the lines that name them."""
    rows = ((number, ROW.match(line)) for number, line in lines(root))
    return {name: number for number, row in rows if row for name in SPAN.findall(row[1])}


def is_told(file, named):
    """Whether a file is named; or the file with the modules of its folder is, and none of that folder; or it
    has the modules of a folder, and one of these is."""
    folder, inside = file.rpartition("/")[0], file.removesuffix(".rt")

    def has(front):
        return any(name.startswith(f"{front}/") for name in named)

    return file in named or f"{folder}.rt" in named and not has(folder) or has(inside)


def check():
    """Files that a table leaves out, and files in it that are nowhere."""
    for crate in crates():
        source = f"crates/{crate}/src/"
        there = [it.removeprefix(source) for it in of_crate(crate, "src", ".rt")]
        root = next((source + it for it in ROOTS if source + it in files()), None)
        if root is None:
            yield Finding(f"crates/{crate}", 1, "the crate has neither src/lib.rt nor src/main.rt")
            continue
        named = told(root)
        for name, number in named.items():
            if name not in there:
                yield Finding(root, number, f"the table of files names {name}, which is not there")
        for file in there:
            if file not in ROOTS and not is_told(file, named):
                yield Finding(root, 1, f"the table of files leaves out {file}")
