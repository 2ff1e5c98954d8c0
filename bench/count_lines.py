#!/usr/bin/env python3
"""Counts what the first table of docs/FIGURES.md says of each crate, as far as it can be counted: lines that
are not empty, of code, of definitions and of proofs, and wrong bodies. `rt check` says how many functions are
proved.

    bench/count_lines.py [CRATE ..]     prints a row of the table for each crate, or for these
"""
import sys
from pathlib import Path

TOP = Path(__file__).resolve().parent.parent
PARTS = ("src", "specs", "proofs")


def crates():
    """The crates, in the order of crates.txt."""
    rows = (TOP / "crates.txt").read_text(encoding="utf-8").split("\n")
    return [row.split(":")[0] for row in rows if ":" in row and not row.startswith("#")]


def lines_of(folder):
    """How many lines of the sources in a folder are not empty."""
    sources = (it for ending in ("rt", "antt") for it in folder.rglob(f"*.{ending}"))
    return sum(bool(line.strip()) for it in sources for line in it.read_text(encoding="utf-8").split("\n"))


def counts_of(crate):
    """The lines of code, of definitions and of proofs of a crate, and its wrong bodies."""
    folder = TOP / "crates" / crate
    return [*(lines_of(folder / part) for part in PARTS), len(list(folder.glob("must-fail/*.edit")))]


def main():
    """Prints the rows; the column of functions is left open."""
    for crate in sys.argv[1:] or crates():
        *lines, wrong = counts_of(crate)
        print(f"| `{crate}` | {' | '.join(map(str, lines))} | ? | {wrong} |")


if __name__ == "__main__":
    main()
