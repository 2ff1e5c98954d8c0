"""The files of the repository, and the tokens of its code."""
import re
import subprocess
from functools import cache
from pathlib import Path
from typing import NamedTuple

TOP = Path(__file__).resolve().parent.parent.parent
BUILT = {".git", "out", "__pycache__"}

# A name of Rattle: in definitions it may have hyphens and primes within it.
NAME = re.compile(r"[^\W\d][\w'-]*")
# What is no code: a quoted text, a character, and a comment; in a definition a comment begins with hyphens.
QUOTE = r'"(?:[^"\\]|\\[\s\S])*"'
RT_ASIDE = re.compile(r'r#*"[\s\S]*?"#+|' + QUOTE + r"|b?'(?:[^'\\\n]|\\[^\n]+?)'|//[^\n]*")
ANTT_ASIDE = re.compile(QUOTE + r"|(?<![^\s(){}])--+(?=\s)[^\n]*")


class Finding(NamedTuple):
    """What is wrong at a line of a file."""
    file: str
    line: int
    what: str

    def __str__(self):
        return f"{self.file}:{self.line}: {self.what}"


@cache
def files():
    """The files of the repository, by their paths from the top, but for those that git leaves aside."""
    try:
        listed = subprocess.run(
            ["git", "ls-files", "-z", "--cached", "--others", "--exclude-standard"],
            cwd=TOP, stdout=subprocess.PIPE, stderr=subprocess.DEVNULL, check=True,
        ).stdout.decode().split("\0")
    except (OSError, subprocess.CalledProcessError):
        # No git, or a copy that it does not know: what is built stands in folders of these names.
        listed = [str(it.relative_to(TOP)) for it in TOP.rglob("*") if not BUILT & set(it.parts)]
    return sorted(it for it in listed if it and (TOP / it).is_file())


@cache
def folders():
    """The folders that hold a file, at any depth."""
    return {str(folder) for it in files() for folder in Path(it).parents}


@cache
def text(file):
    """The text of a file."""
    return (TOP / file).read_text(encoding="utf-8")


def lines(file):
    """The lines of a file, with their numbers."""
    return enumerate(text(file).removesuffix("\n").split("\n"), 1)


def line_of(whole, place):
    """The number of the line of a place in a text."""
    return whole.count("\n", 0, place) + 1


@cache
def crates():
    """The crates, in the order of crates.txt, each with the crates that it uses."""
    rows = (line.split("#")[0].split() for line in text("crates.txt").split("\n"))
    return {row[0].rstrip(":"): row[1:] for row in rows if row}


def crate_of(file):
    """The crate that a file belongs to, or nothing."""
    parts = file.split("/")
    return parts[1] if len(parts) > 2 and parts[0] == "crates" else None


def of_crate(crate, part, ending):
    """The files of a crate under one of its folders, with an ending."""
    front = f"crates/{crate}/{part}/"
    return [it for it in files() if it.startswith(front) and it.endswith(ending)]


@cache
def code(file):
    """The text of a source without its comments and quoted texts, line by line as it was."""
    return asides(file).sub(lambda it: re.sub(r"[^\n]", " ", it[0]), text(file))


def asides(file):
    """The form of what is no code in a source."""
    return RT_ASIDE if file.endswith(".rt") else ANTT_ASIDE


def quotes(file, whole):
    """The quoted texts of a source, as they stand in its text."""
    return [it for it in asides(file).finditer(whole) if it[0].startswith(('"', "r"))]


def quoted(file):
    """The words that stand in quoted texts of a source."""
    return [word for it in quotes(file, text(file)) for word in NAME.findall(it[0])]


@cache
def names(file):
    """The names that stand in the code of a source."""
    return frozenset(NAME.findall(code(file)))


def code_files():
    """All sources of Rattle."""
    return [it for it in files() if it.endswith((".rt", ".antt"))]
