"""RELEASE: what a release was made from, and what it holds, one fact a line."""

from collections.abc import Iterator, Mapping, Sequence
from pathlib import Path

from .checkout import crates_below, output_of, sha256, version
from .contents import PROGRAMS


def measured(file: Path) -> str:
    """The checksum and the size of a file."""
    content = file.read_bytes()
    return f"{sha256(content)} {len(content)}"


def lines(
    programs: Mapping[str, Path], packages: Sequence[Path], wheel: Path, verdicts: Sequence[str]
) -> Iterator[str]:
    """The lines of RELEASE, with those of verdicts at the end."""
    yield f"version {version()}"
    yield f"kit {output_of('rt', 'version').strip()}"
    yield f"sources {output_of('bin/source_sum', *crates_below(PROGRAMS)).strip()}"
    for name, file in programs.items():
        yield f"program {name} {measured(file)}"
    for file in packages:
        yield f"package {file.name} {measured(file)}"
    yield f"wheel {wheel.name} {measured(wheel)}"
    yield from verdicts
