"""The files of a package, in a folder: nothing of it depends on who makes it, when and where."""

import hashlib
import os
import stat
from collections.abc import Iterator
from pathlib import Path

from .checkout import bytes_of

# What tools leave in folders, and is no part of them.
_LEFT = {"__pycache__", ".mypy_cache", ".pytest_cache"}
# In a package a command is run by Debian's Python, whichever a user has in front of it on the path.
_ANY_PYTHON, _DEBIAN_PYTHON = b"#!/usr/bin/env python3\n", b"#!/usr/bin/python3\n"


def md5(file: Path) -> str:
    return hashlib.md5(file.read_bytes(), usedforsecurity=False).hexdigest()


class Tree:
    """A folder that is filled, and then settled."""

    def __init__(self, folder: Path) -> None:
        self.folder = folder

    def put(self, place: str, content: bytes | str, mode: int = 0o644) -> None:
        file = self.folder / place
        file.parent.mkdir(parents=True, exist_ok=True)
        file.write_bytes(content.encode() if isinstance(content, str) else content)
        file.chmod(mode)

    def put_packed(self, place: str, content: str) -> None:
        self.put(f"{place}.gz", bytes_of("gzip", "-9n", given=content.encode()))

    def put_file(self, file: Path, folder: str) -> None:
        content, is_run = file.read_bytes(), file.stat().st_mode & stat.S_IXUSR
        if content.startswith(_ANY_PYTHON):
            content = _DEBIAN_PYTHON + content.removeprefix(_ANY_PYTHON)
        self.put(f"{folder}/{file.name}", content, 0o755 if is_run else 0o644)

    def put_all(self, source: Path, folder: str) -> None:
        """A file, or all that is in a folder."""
        if source.is_file():
            self.put_file(source, folder)
            return
        for it in source.iterdir():
            if it.name not in _LEFT:
                self.put_all(it, folder if it.is_file() else f"{folder}/{it.name}")

    def files(self) -> Iterator[Path]:
        """The files that a package installs, by their names."""
        for it in sorted(self.folder.rglob("*")):
            if it.is_file() and not it.is_symlink() and it.parent != self.folder / "DEBIAN":
                yield it

    def size(self) -> int:
        """The size of an installed package as Debian's policy reckons it: in kibibytes, each file rounded up,
        and one for all else that has a name."""
        sizes = {it: (it.stat().st_size + 1023) // 1024 for it in self.files()}
        return sum(sizes.get(it, 1) for it in self.folder.rglob("*") if "DEBIAN" not in it.parts)

    def sums(self) -> str:
        """The list of checksums that a package has of its files."""
        return "".join(f"{md5(it)}  {it.relative_to(self.folder)}\n" for it in self.files())

    def settle(self, epoch: int) -> None:
        """Gives all of it one time, and folders their rights."""
        for it in [self.folder, *self.folder.rglob("*")]:
            if it.is_dir() and not it.is_symlink():
                it.chmod(0o755)
            os.utime(it, (epoch, epoch), follow_symlinks=False)
