"""Runs of the program whose output is kept in a file, and what can be found out about one that said
nothing."""

import io
import os
import re
import shutil
import subprocess
import tempfile
from collections.abc import Iterator, Sequence
from typing import IO

from .errors import NotRun
from .gathering import gathered
from .plain import plain
from .programs import program_path
from .report import Count, Lines
from .texts import Text

_PIECE = 1 << 18
# A line of a script that loads a file, whose name has no escapes.
_LOADS = re.compile(rb"""^[ \t]*shapes[ \t]+("|')([^"'\\\n]*)\1""", re.MULTILINE)
_SHACL = b"http://www.w3.org/ns/shacl#"


class Written:
    """What a run wrote, in a file that has no name. It can be read as often as one likes, also side by
    side."""

    def __init__(self, file: IO[bytes]) -> None:
        self._file = file

    def _pieces(self) -> Iterator[bytes]:
        at = 0
        while piece := os.pread(self._file.fileno(), _PIECE, at):
            yield piece
            at += len(piece)

    def lines(self) -> Iterator[str]:
        """Its lines, from the first one on."""
        return iter(Lines(self._pieces()))


def piped(source: IO[bytes]) -> Written:
    """What is piped in, until it ends."""
    file = tempfile.TemporaryFile()
    shutil.copyfileobj(source, file, _PIECE)
    file.flush()
    return Written(file)


def as_written(text: str) -> Written:
    """What a run would have written."""
    return piped(io.BytesIO(text.encode()))


def ended(words: Sequence[str], has_input: bool = True) -> tuple[Written, int]:
    """Runs the program, and gives what it wrote and the status that it ended with. What its words name may be
    open files, which it has too where they are inheritable."""
    file, name = tempfile.TemporaryFile(), program_path()
    source = None if has_input else subprocess.DEVNULL
    try:
        ran = subprocess.run([name, *words], stdin=source, stdout=file, close_fds=False, check=False)
    except OSError as error:
        raise NotRun(name, error.strerror or str(error)) from error
    return Written(file), ran.returncode


def _loaded(script: str | None) -> list[str]:
    """The files that the lines of a script load, where there is one."""
    written = Text(script).written if script else None
    return [name.decode("utf-8", "surrogateescape") for _, name in _LOADS.findall(written or b"")]


def why_failed(status: int, files: Sequence[str], script: str | None) -> str | None:
    """Why a run ended with a status for which it writes no line, or None."""
    if status == 4:
        for name in [*files, *([script] if script else []), *_loaded(script)]:
            try:
                with open(name, "rb"):
                    pass
            except OSError as error:
                return f"{plain(name)}: {error.strerror}"
        return f"one of {', '.join(map(plain, files))} could not be read"
    if status < 0:
        return f"the program was ended by signal {-status}"
    return {5: "the program could not write its output", 6: "memory was wanting"}.get(status)


def pairs_at_first(shapes: str, data: str, base: str) -> int | None:
    """How many pairs of a shape and a node the texts have, by a run that counts them; or None where that
    cannot be told, since a text is no file that can be read twice."""
    if Text(shapes).written is None or Text(data).written is None:
        return None
    with tempfile.NamedTemporaryFile("w", suffix=".txt") as script:
        script.write("count\n")
        script.flush()
        written, _ = ended(["--base", base, "--", shapes, data, script.name], has_input=False)
    parts = gathered(written.lines(), 0)
    return next((part.pairs for part in parts if isinstance(part, Count)), None)


def no_pairs(files: Sequence[Text]) -> str:
    """What is said where no pair was evaluated, over these shapes and data."""
    said = "no shape was evaluated at any node"
    if not files or _SHACL in (files[0].written or b""):
        return f"{said}: no node of the data is a target of a shape"
    said += f": {plain(files[0].name)} says nothing in SHACL's terms"
    if any(_SHACL in (text.written or b"") for text in files[1:]):
        said += f", and {plain(files[1].name)} does; are the two swapped?"
    return said
