"""What release/RELEASE tells."""

import hashlib
import subprocess
from pathlib import Path

TOP = Path(__file__).resolve().parent.parent.parent
RELEASE = TOP / "release" / "RELEASE"


def told(word: str) -> list[list[str]]:
    """The words behind a first word, line by line."""
    lines = RELEASE.read_text(encoding="utf-8").splitlines() if RELEASE.exists() else []
    return [line.split(" ")[1:] for line in lines if line.startswith(f"{word} ")]


def packages() -> list[tuple[Path, str]]:
    """The files of the packages, with their sums."""
    return [(RELEASE.parent / name, sum_) for name, sum_, _ in told("package")]


def wheels() -> list[tuple[Path, str]]:
    """The file of the wheel, with its sum."""
    return [(RELEASE.parent / name, sum_) for name, sum_, _ in told("wheel")]


def package_with_tools() -> Path:
    """The package that people install."""
    return next(file for file, _ in packages() if file.name.startswith("shacl-keep_"))


def sum_of(file: Path) -> str:
    return hashlib.sha256(file.read_bytes()).hexdigest()


def output(*words: str) -> str:
    """What a command prints."""
    return subprocess.run(words, cwd=TOP, check=True, stdout=subprocess.PIPE, text=True).stdout


def not_run(what: str, why: str) -> None:
    print(f"the release: not run: {what}: {why}")
