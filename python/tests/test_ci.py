"""The files of examples/ci, in a repository of three data files that are one graph together."""

import os
import shutil
import subprocess
from pathlib import Path

import pytest
from commands import PREFIXES, write
from conftest import TOP

from shacl_keep.programs import program_path

SHAPES = PREFIXES + (
    "e:Person sh:targetClass e:Person ; sh:property [ sh:path e:knows ; sh:class e:Person ] ,\n"
    "  [ sh:path e:name ; sh:minCount 1 ; sh:severity sh:Warning ] .\n"
)
NAMES = ("ann", "bob", "cleo d")


def data(number: int) -> str:
    """Persons who know those of the next file; in each there is one without a name."""
    lines = [
        f"e:p{number}_{at} a e:Person ; e:name 'n' ; e:knows e:p{(number + 1) % 3}_{at} ." for at in range(20)
    ]
    return "@prefix e: <http://e/> .\n" + "\n".join(lines) + f"\ne:p{number} a e:Person .\n"


@pytest.fixture
def repository(tmp_path: Path) -> Path:
    (tmp_path / "data").mkdir()
    write(tmp_path, {"shapes.ttl": SHAPES, **{f"data/{name}.ttl": data(at) for at, name in enumerate(NAMES)}})
    for name in ("validate", "Makefile"):
        shutil.copy(TOP / "examples" / "ci" / name, tmp_path)
    return tmp_path


def ended(*words: str, folder: Path) -> tuple[str, int]:
    """What a command says, and its status."""
    known = {**os.environ, "SHACL_SHOW": str(TOP / "bin" / "shacl_show"), "SHACL_KEEP": program_path()}
    ran = subprocess.run(words, cwd=folder, env=known, capture_output=True, check=False)
    return ran.stdout.decode() + ran.stderr.decode(), ran.returncode


def test_files_that_are_one_graph_are_validated_together(repository: Path) -> None:
    files = [f"data/{name}.ttl" for name in NAMES]
    said, status = ended("./validate", "shapes.ttl", *files, "--", "--format", "lines", folder=repository)
    assert status == 1 and said.count(": warning: ") == 3 and ": error: " not in said
    said, status = ended("./validate", "shapes.ttl", files[0], "--", "--format=lines", folder=repository)
    assert said.count(": error: ") == 20
    assert ended("./validate", "shapes.ttl", "--", "--format", "lines", folder=repository)[1] == 2
    said, status = ended("./validate", "shapes.ttl", "data/none.ttl", folder=repository)
    assert status == 4 and "data/none.ttl: No such file" in said


def test_make_validates_what_changed(repository: Path) -> None:
    os.rename(repository / "data" / "cleo d.ttl", repository / "data" / "cleo.ttl")
    said, status = ended("make", folder=repository)
    assert status == 0, said
    assert "Nothing to be done" in ended("make", folder=repository)[0]
    assert "Error 1" in ended("make", "FAIL_ON=info", "-B", folder=repository)[0]
    assert ended("make", "page", folder=repository)[1] == 0 and (repository / "report.html").exists()
    write(repository, {"data/bob.ttl": data(1) + "e:p1_0 e:knows e:nobody .\n"})
    said, status = ended("make", folder=repository)
    assert status == 2 and "data/bob.ttl:23:16: error: " in said


def test_the_hook_stops_violations_and_nothing_else(repository: Path) -> None:
    git = ("git", "-c", "user.name=A", "-c", "user.email=a@example.org")
    ended("git", "init", "-q", folder=repository)
    shutil.copy(TOP / "examples" / "ci" / "pre-commit", repository / ".git" / "hooks")
    ended("git", "add", ".", folder=repository)
    said, status = ended(*git, "commit", "-qm", "all", folder=repository)
    assert status == 0 and said.count(": warning: ") == 3
    write(repository, {"data/bob.ttl": data(1) + "e:p1_0 e:knows e:nobody .\n"})
    said, status = ended(*git, "commit", "-qam", "a stranger", folder=repository)
    assert status == 1 and "data/bob.ttl:23:16: error: " in said and "--no-verify" in said
    write(repository, {"data/bob.ttl": "<a> <b> 1e0 .\n"})
    assert ended(*git, "commit", "-qam", "a double", folder=repository)[1] == 1
    write(repository, {"data/bob.ttl": data(1) + "# mended\n"})
    assert ended(*git, "commit", "-qam", "mended", folder=repository)[1] == 0
