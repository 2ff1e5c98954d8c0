"""Where the proved programs are: named by the environment, beside the checkout that this file stands in, in
the installed package, or in the system."""

import os
import platform
import shutil
import subprocess
import sys
from pathlib import Path
from typing import NoReturn

from .errors import NotRun

_PACKAGE = Path(__file__).resolve().parent
_TOP = _PACKAGE.parents[1]
# Where Debian's package has the programs that people do not call themselves.
_SYSTEM = Path("/usr/lib/shacl-keep")


def _is_checkout() -> bool:
    return _PACKAGE.parent.name == "python" and (_TOP / "crates.txt").exists()


def _number(version: str) -> tuple[int, ...]:
    return tuple(int(part) for part in version.split(".") if part.isdigit())


def why_not_here(needs: str) -> str | None:
    """Why this machine does not run a program that needs this processor and this C library, as `x86_64 2.34`;
    None where it does."""
    machine, libc = needs.split()
    here, found = platform.machine(), platform.libc_ver(sys.executable)
    if here == machine and found[0] == "glibc" and _number(found[1]) >= _number(libc):
        return None
    said = " ".join(found).strip() or "another C library"
    return f"it needs a processor {machine} and glibc {libc} or later, and this machine has {here} and {said}"


def _packed(name: str) -> str | None:
    """The program in the installed package, if it is in there. Raises NotRun where it does not run here."""
    file = _PACKAGE / "programs" / name
    if not file.exists():
        return None
    why = why_not_here((_PACKAGE / "programs" / "needs").read_text("utf-8"))
    if why:
        raise NotRun(str(file), why)
    return str(file)


def _installed(name: str) -> str | None:
    """The program in the installed package, or in the system, if it is in one."""
    packed = _packed(name)
    if packed:
        return packed
    if os.access(_SYSTEM / name, os.X_OK):
        return str(_SYSTEM / name)
    return shutil.which(name)


def program_path() -> str:
    """The program shacl_keep: what SHACL_KEEP names, else the one of the checkout, else the installed one.
    Raises NotRun where there is none."""
    named = os.environ.get("SHACL_KEEP")
    if named:
        return named
    if _is_checkout():
        return str(_TOP / "bin" / "shacl_keep")
    found = _installed("shacl_keep")
    if not found:
        raise NotRun("shacl_keep", "it is not installed, and SHACL_KEEP does not name it")
    return found


def _of_checkout(name: str) -> str | None:
    """A program that was built in the checkout, or released with it."""
    built = _TOP / "crates" / name / "out" / name
    if built.exists():
        return str(built)
    told = subprocess.run([_TOP / "bin" / "released", name], stdout=subprocess.PIPE, check=False)
    return os.fsdecode(told.stdout).strip() or None


def triples_path() -> str:
    """The program ttl_triples: what SHACL_KEEP_TRIPLES names, else the one beside shacl_keep, else that of
    the checkout, else the installed one. Raises NotRun where there is none."""
    named = os.environ.get("SHACL_KEEP_TRIPLES")
    if named:
        return named
    beside = Path(os.path.realpath(shutil.which(program_path()) or program_path())).parent / "ttl_triples"
    if os.access(beside, os.X_OK):
        return str(beside)
    found = (_of_checkout("ttl_triples") if _is_checkout() else None) or _installed("ttl_triples")
    if not found:
        raise NotRun("ttl_triples", "it is not there, and SHACL_KEEP_TRIPLES does not name it")
    return found


def _become(name: str) -> NoReturn:
    """Becomes the program in the installed package. Raises NotRun where that cannot be."""
    program = _packed(name)
    if not program:
        raise NotRun(name, "this package was installed without it")
    try:
        os.execv(program, [name, *sys.argv[1:]])
    except OSError as error:
        raise NotRun(program, error.strerror or str(error)) from error


def main() -> NoReturn:
    """The command shacl_keep of the installed package."""
    try:
        _become("shacl_keep")
    except NotRun as error:
        print(error, file=sys.stderr)
        sys.exit(70)
