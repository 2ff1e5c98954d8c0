"""Whether packages and the wheel are the same bytes where they are made twice: the second time in another
folder, by another user, with other rights and times of files, in another zone and language."""
import os
import pwd
import shutil
import subprocess
import tempfile
from pathlib import Path

from releases.told import TOP, not_run, packages, sum_of
from releases.tools import is_there

# What packages are made of, besides the programs.
PARTS = ("VERSION", "CHANGELOG.md", "README.md", "bin", "docs", "examples", "packaging", "python")
TOOLS = ("dpkg-deb", "objdump", "go-md2man", "help2man", "pyproject-build", "hatchling")
PACKAGES = {"objdump": "binutils", "pyproject-build": "python3-build", "hatchling": "python3-hatchling"}
MAKE = """
import sys
from pathlib import Path
sys.dont_write_bytecode = True
sys.path.insert(0, "packaging")
from making.contents import FILES, PROGRAMS
from making.package import make_package
from making.wheel import make_wheel
programs = {name: Path(sys.argv[1], place, name) for name, (_, place) in PROGRAMS.items()}
for package in FILES:
    make_package(package, programs, Path(sys.argv[2]))
make_wheel(programs, Path(sys.argv[2]))
"""
OLD = 1_000_000_000
OTHER = {"user": "nobody", "umask": 0o077}
ELSEWHERE = {"TZ": "Asia/Tokyo", "LC_ALL": "POSIX"}


def copied(folder):
    """A copy of the checkout, as far as packages need it, with old files."""
    checkout = folder / "a copy"
    checkout.mkdir()
    for name in (it for it in PARTS if (TOP / it).exists()):
        (shutil.copytree if (TOP / name).is_dir() else shutil.copy)(TOP / name, checkout / name)
    for it in checkout.rglob("*"):
        os.utime(it, (OLD, OLD))
    return checkout


def made(checkout, programs, to, env, **how):
    """The packages, and the wheel, that are made of a checkout, by their names."""
    to.mkdir()
    if "user" in how:
        shutil.chown(to, how["user"])
        how |= {"group": pwd.getpwnam(how["user"]).pw_gid, "extra_groups": []}
    words = ["python3", "-c", MAKE, programs, to]
    subprocess.run(words, cwd=checkout, env={**os.environ, **env}, check=True, **how)
    return {it.name: sum_of(it) for it in to.iterdir() if it.is_file()}


def findings():
    if not packages():
        return
    missing = [it for it in TOOLS if not is_there(it, PACKAGES.get(it, it))]
    if missing:
        not_run("packages that are made twice", f"there is no {missing[0]}")
        return
    with tempfile.TemporaryDirectory() as name:
        folder = Path(name)
        folder.chmod(0o755)
        for package, _ in packages():
            subprocess.run(["dpkg-deb", "-x", package, folder / "programs"], check=True)
        here = made(TOP, folder / "programs", folder / "here", {})
        how = OTHER if os.geteuid() == 0 else {"umask": OTHER["umask"]}
        there = made(copied(folder), folder / "programs", folder / "there", ELSEWHERE, **how)
        if here != there:
            yield f"packages that are made twice have other bytes: {here}, {there}"
