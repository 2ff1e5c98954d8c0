"""The programs that are released, as files."""

import re
from collections.abc import Mapping
from pathlib import Path

from .checkout import TOP, NotMade, output_of
from .contents import PROGRAMS

# What a program may need besides itself: the package that has it depends on libc6 alone.
_LIBRARIES = {"libc.so.6"}


def files_of(others: Mapping[str, Path]) -> dict[str, Path]:
    """The file of each program: another one, or the one that was built here."""
    found = {name: others.get(name, TOP / "crates" / name / "out" / name) for name in PROGRAMS}
    for name, file in found.items():
        if not file.is_file():
            raise NotMade(f"{name} is not built: `rt ci` builds it as {file}")
    return found


def needed_libc(file: Path) -> tuple[int, ...]:
    """The version of the C library that a program needs, which is the only library that it may need."""
    said = output_of("objdump", "-p", str(file))
    if others := set(re.findall(r"^ +NEEDED +(\S+)$", said, re.M)) - _LIBRARIES:
        raise NotMade(f"{file} needs {', '.join(sorted(others))}, which the package does not depend on")
    return max(tuple(map(int, it.split("."))) for it in re.findall(r"\bGLIBC_([\d.]+)$", said, re.M))
