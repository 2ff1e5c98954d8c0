"""The Python package where it is installed: the wheel in an empty virtual environment, and the files of the
Debian package. The commands work, and the tests of the package pass over it and over the program in it."""
import os
import subprocess
import tempfile
from pathlib import Path

from releases.told import TOP, packages, wheels

PYTHON = "/usr/bin/python3"
EXAMPLE = TOP / "examples" / "library"
WORDS = (EXAMPLE / "shapes.ttl", EXAMPLE / "data.ttl")
TESTS = TOP / "python" / "tests"
WHERE = (
    "import shacl_keep.programs as it; print(it.__file__, it.program_path(), it.triples_path(), sep='\\n')"
)


def ended(*words, env=None, cwd=None):
    """What a command writes, and behind it its status in a line."""
    ran = subprocess.run(
        words, cwd=cwd, env=env, stdout=subprocess.PIPE, stderr=subprocess.STDOUT, text=True, check=False
    )
    return f"{ran.stdout}status {ran.returncode}\n"


def is_due(what, due, found):
    if due not in found:
        yield f"{what}: {found[-800:]}"


def commands(programs, env):
    """The commands that are installed in a folder, by an example."""
    expected = (EXAMPLE / "expected").read_text(encoding="utf-8")
    yield from is_due(
        "an installed shacl_keep writes something else",
        expected,
        ended(programs / "shacl_keep", *WORDS, env=env),
    )
    shown = (EXAMPLE / "shown").read_text(encoding="utf-8").split("\n", 1)[0]
    yield from is_due(
        "an installed shacl_show shows something else",
        shown,
        ended(programs / "shacl_show", *WORDS, env=env),
    )
    for name in ("shacl_show", "shacl_split"):
        said = ended(programs / name, "--help", env=env)
        yield from is_due(f"an installed {name} has no help", "status 0", said)


def suite(name, modules, env):
    """The tests over the package that stands in a folder, which has its programs beside it."""
    env = {**env, "PYTHONPATH": str(modules)}
    found = ended(PYTHON, "-c", WHERE, env=env, cwd="/").split("\n")[:3]
    if not all(Path(it).is_relative_to(modules.parents[3]) for it in found):
        yield f"{name}: the package, or a program, is another one: {found}"
        return
    words = ["-m", "pytest", "-o", "pythonpath=tests", "-c", TOP / "python" / "pyproject.toml", TESTS]
    yield from is_due(f"{name}: tests fail", "status 0\n", ended(PYTHON, *words, env=env, cwd=TESTS))


def of_wheel(folder, env):
    """The wheel, as pip installs it where there is nothing else."""
    (wheel, _), *_ = wheels()
    place = folder / "environment"
    made = ended(PYTHON, "-m", "venv", place)
    if not made.endswith("status 0\n"):
        print("the release: not run: the wheel in a virtual environment (python3-venv is not there)")
        return
    installed = ended(place / "bin" / "pip", "install", "--no-index", wheel, env=env)
    yield from is_due("the wheel is not installed", "Successfully installed", installed)
    yield from commands(place / "bin", env)
    (modules,) = place.glob("lib/python3*/site-packages")
    yield from suite("the wheel", modules, env)


def of_package(folder, env):
    """The files of the Debian package."""
    place = folder / "package"
    for package, _ in packages():
        subprocess.run(["dpkg-deb", "-x", package, place], check=True)
    env = {
        **env,
        "SHACL_KEEP": str(place / "usr/bin/shacl_keep"),
        "SHACL_KEEP_TRIPLES": str(place / "usr/lib/shacl-keep/ttl_triples"),
    }
    yield from suite("the Debian package", place / "usr/lib/python3/dist-packages", env)


def findings():
    if not wheels() or not packages():
        return
    env = {key: value for key, value in os.environ.items() if not key.startswith(("SHACL_KEEP", "PYTHON"))}
    with tempfile.TemporaryDirectory() as name:
        yield from of_wheel(Path(name), env)
        yield from of_package(Path(name), env)
