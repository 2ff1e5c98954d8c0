"""The checkout that a release is made from, and the tools that are called for it."""

import hashlib
import os
import subprocess
from collections.abc import Iterable, Mapping
from pathlib import Path

TOP = Path(__file__).resolve().parent.parent.parent
# The parts of a crate that its program is built from.
PARTS = ("src", "specs", "proofs")


class NotMade(Exception):
    """Why no release can be made, in a sentence."""


def text_of(name: str) -> str:
    """The text of a file, by its name below the top."""
    return (TOP / name).read_text(encoding="utf-8")


def version() -> str:
    return text_of("VERSION").strip()


def sha256(content: bytes) -> str:
    return hashlib.sha256(content).hexdigest()


def bytes_of(*words: str, given: bytes = b"", known: Mapping[str, str] | None = None) -> bytes:
    """What a command prints that is called at the top and reads what is given."""
    env = {**os.environ, "LC_ALL": "C.UTF-8", **(known or {})}
    try:
        ran = subprocess.run(words, cwd=TOP, env=env, input=given, capture_output=True, check=False)
    except FileNotFoundError as error:
        raise NotMade(f"there is no {words[0]}, which has to be installed") from error
    if ran.returncode != 0:
        said = ran.stderr.decode(errors="replace").strip()
        raise NotMade(f"`{' '.join(words[:2])}` ended with {ran.returncode}: {said}")
    return ran.stdout


def output_of(*words: str, known: Mapping[str, str] | None = None) -> str:
    """What a command prints, as a text."""
    return bytes_of(*words, known=known).decode()


def crates_below(programs: Iterable[str]) -> list[str]:
    """The crates of the repository that these stand on, themselves among them."""
    named = {}
    for line in text_of("crates.txt").splitlines():
        crate, _, below = line.partition("#")[0].partition(":")
        named[crate.strip()] = below.split()
    found: set[str] = set()
    left = list(programs)
    while left:
        crate = left.pop()
        if crate in named and crate not in found:
            found.add(crate)
            left += named[crate]
    return sorted(found)


def sum_of_crate(crate: str) -> str:
    """The checksum of the names and contents of a crate's sources."""
    folder = TOP / "crates" / crate
    files = sorted(it for part in PARTS for it in (folder / part).rglob("*") if it.is_file())
    lines = (f"{it.relative_to(folder)} {sha256(it.read_bytes())}\n" for it in files)
    return sha256("".join(lines).encode())
