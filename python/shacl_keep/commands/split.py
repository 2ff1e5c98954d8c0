"""shacl_split: splits a shapes text into parts whose reports, one behind the other, are the report of the
whole, and joins such reports. docs/SCALE.md says when it is of use."""

import argparse
import os
import sys
from collections.abc import Sequence
from pathlib import Path
from typing import NoReturn

from ..plain import plain
from ..spreading.reports import NotJoined, joined, report_of
from ..spreading.shapes import NotRead, parts_of
from ..version import version

_ABOUT = """\
The first writes N shapes texts into OUT_DIR, or one for each shape that has targets where these are fewer,
and prints their names. Each is the whole text of SHAPES with the targets of some of the shapes: where
another is targeted, an IRI that means nothing takes the place of the one word that says so. All else
stays, so that nodes without a name have the same numbers in each part. In the order of a report the shapes
of a part stand behind those of the part before it. SHAPES should be a text that shacl_keep does not
refuse.

The second writes the report of the whole, where the REPORTs are those of all parts over the same data, in
lines, in the order of the parts."""
_STATUS = """\
A split ends with 0; a join with 0 where the data conforms, and with 1 where it does not. Both end with 2
for words that cannot be read, with 3 for a text that cannot be split or reports that cannot be joined,
with 4 for a file that cannot be read or written, and with 5 where the joined report cannot be written."""


class NotDone(Exception):
    """Why it cannot be done, and the status that says so."""

    def __init__(self, why: str, status: int = 3) -> None:
        super().__init__(why)
        self.status = status


def _parser() -> argparse.ArgumentParser:
    parser = argparse.ArgumentParser(
        prog="shacl_split",
        usage="shacl_split [--base IRI] N SHAPES OUT_DIR\n       shacl_split --join REPORT...",
        description=_ABOUT,
        epilog=_STATUS,
        allow_abbrev=False,
        formatter_class=argparse.RawDescriptionHelpFormatter,
    )
    parser.add_argument("words", nargs="*", help=argparse.SUPPRESS)
    parser.add_argument(
        "--base",
        default="file:///",
        metavar="IRI",
        help="the IRI over which references are resolved, as shacl_keep is given it (file:///)",
    )
    parser.add_argument("--join", action="store_true", help="joins reports")
    parser.add_argument("--version", action="version", version=f"shacl_split {version()}")
    return parser


def _read(name: str) -> bytes:
    try:
        return Path(name).read_bytes()
    except OSError as error:
        raise NotDone(f"{plain(name)}: {error.strerror}", 4) from error


def _write_parts(parts: list[str], folder: Path) -> None:
    """Writes the parts, and prints their names."""
    folder.mkdir(parents=True, exist_ok=True)
    if any(folder.glob("part-*")):
        raise NotDone(f"{plain(str(folder))} has parts already", 4)
    for number, part in enumerate(parts, 1):
        file = folder / f"part-{number:0{len(str(len(parts)))}}.ttl"
        file.write_bytes(part.encode())
        print(file)


def _split(count: int, name: str, folder: str, base: str) -> int:
    try:
        _write_parts(parts_of(_read(name).decode(), count, base), Path(folder))
    except UnicodeDecodeError as error:
        raise NotDone(f"{plain(name)} is no UTF-8") from error
    except NotRead as error:
        raise NotDone(f"{plain(name)}: {plain(str(error))}") from error
    except OSError as error:
        raise NotDone(f"{plain(str(error.filename))}: {error.strerror}", 4) from error
    return 0


def _join(names: list[str]) -> int:
    try:
        reports = [report_of(plain(name), _read(name)) for name in names]
        pieces = joined(reports)
    except NotJoined as error:
        raise NotDone(str(error)) from error
    try:
        sys.stdout.buffer.writelines(pieces)
        sys.stdout.buffer.flush()
    except OSError as error:
        os.dup2(os.open(os.devnull, os.O_WRONLY), sys.stdout.fileno())
        raise NotDone(f"the output: {error.strerror}", 5) from error
    return int(any(report.told for report in reports))


def run(words: Sequence[str]) -> int:
    """Does what the words ask for, and gives the status."""
    parser = _parser()
    asked = parser.parse_intermixed_args(words)
    if asked.join and asked.words:
        return _join(asked.words)
    if asked.join or len(asked.words) != 3 or not asked.words[0].isdecimal() or int(asked.words[0]) == 0:
        parser.error("the words should be N SHAPES OUT_DIR, where N is 1 or more, or --join REPORT...")
    return _split(int(asked.words[0]), asked.words[1], asked.words[2], asked.base)


def main() -> NoReturn:
    """The command."""
    try:
        sys.exit(run(sys.argv[1:]))
    except NotDone as error:
        print(f"shacl_split: {error}", file=sys.stderr)
        sys.exit(error.status)
