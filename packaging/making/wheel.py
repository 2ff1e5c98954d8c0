"""The wheel: the Python package with the programs in it, for pip."""

import shutil
import tempfile
from collections.abc import Mapping
from pathlib import Path

from .changes import epoch
from .checkout import TOP, output_of, version
from .programs import needed_libc
from .tree import Tree

# What the package of Python holds of the programs.
_PROGRAMS = ("shacl_keep", "ttl_triples")
_FOLDER = "python/shacl_keep/programs"
_MACHINE = "x86_64"
# The parts of `python` that a wheel is built from.
_PARTS = ("shacl_keep", "pyproject.toml", "wheel_tag.py", "README.md")


def make_wheel(programs: Mapping[str, Path], into: Path) -> Path:
    """Builds the wheel of these programs into a folder, without a network, and gives its file. The same files
    give the same bytes. It needs Debian's packages python3-build and python3-hatchling."""
    libc = max(needed_libc(programs[name]) for name in _PROGRAMS)
    platform = f"manylinux_{'_'.join(map(str, libc))}_{_MACHINE}"
    with tempfile.TemporaryDirectory() as folder:
        tree = Tree(Path(folder) / "checkout")
        tree.put("VERSION", f"{version()}\n")
        for part in _PARTS:
            source = TOP / "python" / part
            tree.put_all(source, f"python/{part}" if source.is_dir() else "python")
        tree.put(f"{_FOLDER}/needs", f"{_MACHINE} {'.'.join(map(str, libc))}\n")
        for name in _PROGRAMS:
            tree.put(f"{_FOLDER}/{name}", programs[name].read_bytes(), 0o755)
        tree.settle(epoch())
        made = Path(folder) / "made"
        known = {"SHACL_KEEP_PLATFORM": platform, "SOURCE_DATE_EPOCH": str(epoch())}
        words = ["--wheel", "--no-isolation", "--skip-dependency-check", "--outdir", str(made)]
        output_of("/usr/bin/python3", "-m", "build", *words, str(tree.folder / "python"), known=known)
        (wheel,) = made.glob("*.whl")
        return Path(shutil.copyfile(wheel, into / wheel.name))
