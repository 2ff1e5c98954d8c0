"""Where the programs are found, and what is said where they cannot be run."""

import os
import shutil
import stat
import subprocess
import sys
from pathlib import Path

import pytest

from conftest import EXAMPLES
from shacl_keep import programs
from shacl_keep.errors import NotRun
from shacl_keep.process import Program

FILES = (str(EXAMPLES / "first" / "shapes.ttl"), str(EXAMPLES / "first" / "data.ttl"))


@pytest.fixture
def package(tmp_path: Path, monkeypatch: pytest.MonkeyPatch) -> Path:
    """The folder of an installed package, without programs; none is on the path, or named."""
    monkeypatch.delenv("SHACL_KEEP", raising=False)
    monkeypatch.delenv("SHACL_KEEP_TRIPLES", raising=False)
    monkeypatch.setenv("PATH", "/usr/bin:/bin")
    monkeypatch.setattr(programs, "_PACKAGE", tmp_path / "site-packages" / "shacl_keep")
    monkeypatch.setattr(programs, "_SYSTEM", tmp_path / "no")
    monkeypatch.setattr(programs, "_TOP", tmp_path)
    (tmp_path / "site-packages" / "shacl_keep" / "programs").mkdir(parents=True)
    return tmp_path / "site-packages" / "shacl_keep"


def put(folder: Path, name: str, text: str = "#!/bin/sh\n") -> Path:
    folder.mkdir(exist_ok=True)
    (folder / name).write_text(text)
    (folder / name).chmod(0o755)
    return folder / name


def test_a_program_that_is_named() -> None:
    with pytest.MonkeyPatch.context() as patch:
        patch.setenv("SHACL_KEEP", "/somewhere/shacl_keep")
        patch.setenv("SHACL_KEEP_TRIPLES", "/somewhere/ttl_triples")
        assert programs.program_path() == "/somewhere/shacl_keep"
        assert programs.triples_path() == "/somewhere/ttl_triples"
        with pytest.raises(NotRun) as caught:
            Program(*FILES)
        assert (caught.value.program, caught.value.why) == (
            "/somewhere/shacl_keep",
            "No such file or directory",
        )


@pytest.mark.skipif(shutil.which("shacl_keep", path="/usr/bin:/bin") is not None, reason="it is installed")
def test_no_program_is_there(package: Path) -> None:
    for path in (programs.program_path, programs.triples_path):
        with pytest.raises(NotRun, match="cannot be run: it is not"):
            path()


def test_programs_of_the_package_come_first(
    package: Path, tmp_path: Path, monkeypatch: pytest.MonkeyPatch
) -> None:
    folder = tmp_path / "bin"
    on_path = put(folder, "shacl_keep")
    monkeypatch.setenv("PATH", f"{folder}:/usr/bin:/bin")
    assert programs.program_path() == str(on_path)
    beside = put(folder, "ttl_triples")
    assert programs.triples_path() == str(beside)
    packed = put(package / "programs", "shacl_keep")
    put(package / "programs", "needs", "x86_64 2.17\n")
    assert programs.program_path() == str(packed)
    assert programs.triples_path() == str(beside)
    also = put(package / "programs", "ttl_triples")
    assert programs.triples_path() == str(also)


@pytest.mark.parametrize(
    "machine, libc, why",
    [
        ("x86_64", ("glibc", "2.34"), None),
        ("x86_64", ("glibc", "2.40"), None),
        ("x86_64", ("glibc", "2.4"), "this machine has x86_64 and glibc 2.4"),
        ("x86_64", ("glibc", "2.31"), "this machine has x86_64 and glibc 2.31"),
        ("x86_64", ("", ""), "this machine has x86_64 and another C library"),
        ("aarch64", ("glibc", "2.36"), "this machine has aarch64 and glibc 2.36"),
    ],
)
def test_other_machines(
    package: Path, monkeypatch: pytest.MonkeyPatch, machine: str, libc: tuple[str, str], why: str | None
) -> None:
    put(package / "programs", "shacl_keep")
    put(package / "programs", "needs", "x86_64 2.34\n")
    monkeypatch.setattr("platform.machine", lambda: machine)
    monkeypatch.setattr("platform.libc_ver", lambda _: libc)
    if why is None:
        assert programs.program_path() == str(package / "programs" / "shacl_keep")
        return
    with pytest.raises(NotRun, match="it needs a processor x86_64 and glibc 2.34 or later") as caught:
        programs.program_path()
    assert why in str(caught.value)


COMMAND = """
import sys
from pathlib import Path
from shacl_keep import programs
programs._PACKAGE = Path(sys.argv.pop(1))
programs.main()
"""


def test_the_command_becomes_the_program(package: Path) -> None:
    def called() -> tuple[str, int]:
        words = [sys.executable, "-c", COMMAND, str(package), "a", "b c"]
        found = dict(os.environ, PYTHONPATH=str(Path(programs.__file__).parents[1]))
        ran = subprocess.run(words, env=found, stdout=subprocess.PIPE, stderr=subprocess.STDOUT, check=False)
        return ran.stdout.decode(), ran.returncode

    assert called() == ("shacl_keep cannot be run: this package was installed without it\n", 70)
    put(package / "programs", "needs", "x86_64 2.17\n")
    put(package / "programs", "shacl_keep", '#!/bin/sh\nprintf "%s|" "$@"\nexit 5\n')
    assert called() == ("a|b c|", 5)
    put(package / "programs", "shacl_keep", "no program\n")
    said, status = called()
    assert "Exec format error" in said and status == 70


def test_a_program_that_may_not_be_run(tmp_path: Path) -> None:
    program = put(tmp_path, "shacl_keep")
    program.chmod(stat.S_IRUSR)
    with pytest.raises(NotRun) as caught:
        Program(*FILES, program=str(program))
    assert caught.value.why == "Permission denied"
