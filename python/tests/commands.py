"""The commands as people call them, and texts to call them over."""

import functools
import os
import subprocess
import sys
from collections.abc import Mapping
from pathlib import Path
from typing import NamedTuple

from conftest import TOP

PREFIXES = "@prefix sh: <http://www.w3.org/ns/shacl#> .\n@prefix e: <http://e/> .\n"
FORMATS = ("text", "html", "json", "csv", "sarif", "junit", "github", "lines")


class Ended(NamedTuple):
    """What a command wrote on each output, and its status."""

    out: str
    err: str
    status: int


def ended(name: str, *words: str | Path, folder: Path = TOP, piped: str | None = None) -> Ended:
    """Runs a command in a folder."""
    source = subprocess.DEVNULL if piped is None else None
    ran = subprocess.run(
        [sys.executable, TOP / "bin" / name, *words],
        cwd=folder,
        stdin=source,
        input=None if piped is None else piped.encode(),
        capture_output=True,
        check=False,
    )
    return Ended(ran.stdout.decode(), ran.stderr.decode(), ran.returncode)


def show(*words: str | Path, folder: Path = TOP, piped: str | None = None) -> Ended:
    """Runs shacl_show."""
    return ended("shacl_show", *words, folder=folder, piped=piped)


@functools.cache
def keep(*words: str | Path, folder: Path = TOP) -> Ended:
    """Runs the program itself."""
    program = os.environ.get("SHACL_KEEP", str(TOP / "bin" / "shacl_keep"))
    ran = subprocess.run([program, *words], cwd=folder, capture_output=True, check=False)
    return Ended(ran.stdout.decode(), ran.stderr.decode(), ran.returncode)


def write(folder: Path, texts: Mapping[str, str | bytes]) -> None:
    """Writes texts by the names of their files."""
    for name, text in texts.items():
        (folder / name).write_bytes(text if isinstance(text, bytes) else text.encode())


def example_words() -> list[list[str]]:
    """The words for each example."""
    found = []
    for shapes in sorted((TOP / "examples").glob("*/shapes.ttl")):
        files = [shapes.with_name(name) for name in ("shapes.ttl", "data.ttl", "script.txt")]
        found.append([str(file.relative_to(TOP)) for file in files if file.exists()])
    return found
