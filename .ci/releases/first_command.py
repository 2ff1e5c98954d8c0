"""The first command in fresh checkouts: when it takes the release, what it tells, and how it ends."""

import os
import shutil
import subprocess
import sys
import tempfile
import time
from collections.abc import Iterator
from pathlib import Path
from typing import Optional

from releases.checkouts import MOST, begun, end, ended, expected, fresh
from releases.told import package_with_tools, packages, sum_of, told

# The commands that it may use off Debian; and what unpacks a package there, in one of two ways.
ELSEWHERE = """cat cut dirname env find head mkdir mktemp mv readlink rm sed sh sha256sum sort tail tr uname
xargs""".split()
UNPACKING = (("tar", "xz"), ("python3",))
NO_KIT = "there is no rt on the path"
# How a program ends that needs another C library than the machine has.
NOT_STARTED = "#!/bin/sh\nexit 1\n"
CONTROL = "Package: shacl-keep\nVersion: 0\nArchitecture: amd64\nMaintainer: none\nDescription: none\n"


def takes_it(folder: Path) -> Iterator[str]:
    """The first time, and again."""
    checkout, start = fresh(folder), time.monotonic()
    first = ended(checkout)
    took = time.monotonic() - start
    print(f"the release: the first command took {took:.1f} s")
    is_told = first.told.count("\n") == 1 and "this is the released program" in first.told
    if not first.is_report() or not is_told:
        yield f"the first command does not give the report, or tells something else: {first}"
    if took > MOST:
        yield f"the first command takes {took:.0f} s"
    if (again := ended(checkout)) != (expected(), ""):
        yield f"the second time, it is otherwise: {again}"


def changed(checkout: Path, how: str) -> None:
    """Changes a source, whose time may be of long ago, or puts one more beside it."""
    source = next((checkout / "crates" / told("crate")[0][0] / "src").rglob("*.rt"))
    if how == "with one more":
        source.with_name("more.rt").write_text("// more\n")
        return
    time_before = source.stat()
    source.write_text(source.read_text() + "// more\n")
    if how == "of long ago":
        os.utime(source, ns=(time_before.st_atime_ns, time_before.st_mtime_ns - 10**12))


def takes_no_other(folder: Path) -> Iterator[str]:
    """Where the sources are others it is not taken, whether it was before or not."""
    for how in ("of now", "of long ago", "with one more"):
        checkout = fresh(folder)
        before = ended(checkout)
        changed(checkout, how)
        found = [ended(checkout)]
        shutil.rmtree(checkout / "release" / "unpacked")
        found.append(ended(checkout))
        for it in found:
            if not before.is_report() or it.is_report() or NO_KIT not in it.told:
                yield f"with other sources, {how}, it is taken: {it}"


def tells_damage(folder: Path) -> Iterator[str]:
    """A damaged package is told, and not used; a damaged program is unpacked anew."""
    checkout = fresh(folder)
    ended(checkout)
    program = next((checkout / "release" / "unpacked").glob("*/shacl_keep"))
    program.write_bytes(program.read_bytes()[:-1])
    if not (found := ended(checkout)).is_report():
        yield f"a damaged program is not unpacked anew: {found}"
    shutil.rmtree(checkout / "release" / "unpacked")
    package = checkout / "release" / package_with_tools().name
    package.write_bytes(package.read_bytes()[:-1])
    if "is damaged" not in (found := ended(checkout)).told or found.is_report():
        yield f"a damaged package is not told: {found}"


def tells_other_machines(folder: Path) -> Iterator[str]:
    """A program that this machine does not run is told, and not taken."""
    checkout, tree = fresh(folder), Path(tempfile.mkdtemp(dir=folder))
    program, control = tree / "usr" / "bin" / "shacl_keep", tree / "DEBIAN" / "control"
    for file, text in ((program, NOT_STARTED), (control, CONTROL)):
        file.parent.mkdir(parents=True)
        file.write_text(text)
    program.chmod(0o755)
    for it in (tree, tree / "DEBIAN"):
        it.chmod(0o755)
    package = checkout / "release" / package_with_tools().name
    subprocess.run(["dpkg-deb", "-b", tree, package], check=True, stdout=subprocess.DEVNULL)
    text = (checkout / "release" / "RELEASE").read_text(encoding="utf-8")
    released = next(sum_ for name, sum_, _ in told("program") if name == "shacl_keep")
    packed = next(sum_ for file, sum_ in packages() if file.name == package.name)
    for old, new in ((released, sum_of(program)), (packed, sum_of(package))):
        text = text.replace(old, new)
    (checkout / "release" / "RELEASE").write_text(text, encoding="utf-8")
    found = ended(checkout)
    if "this machine does not run the released program" not in found.told or NO_KIT not in found.told:
        yield f"a program that this machine does not run is taken: {found}"


def as_reader(checkout: Path) -> Optional[str]:
    """The user who cannot write the checkout: another one, or who calls this, from now on."""
    if os.geteuid() == 0:
        return "nobody"
    for it in (checkout / "release" / "unpacked", checkout / "release"):
        if it.is_dir():
            it.chmod(0o555)
    return None


def needs_no_rights(folder: Path) -> Iterator[str]:
    """An ordinary user who cannot write the checkout; and one who can, but for what another has unpacked
    there, before a source changed its time."""
    for is_unpacked in (False, True):
        checkout = fresh(folder)
        home = checkout.parent / "home"
        home.mkdir()
        checkout.parent.chmod(0o755)
        if is_unpacked:
            ended(checkout)
            (checkout / "crates.txt").touch()
        if user := as_reader(checkout):
            for it in (home, checkout / "release") if is_unpacked else (home,):
                shutil.chown(it, user)
        found = ended(checkout, user=user)
        if not found.is_report() or not list(home.glob(".cache/shacl-keep/*/shacl_keep")):
            yield f"where the checkout cannot be written, it is not taken: {found}"


def stands_others(folder: Path) -> Iterator[str]:
    """Several at once, and a closed standard error."""
    checkout = fresh(folder)
    for found in [end(it) for it in [begun(checkout) for _ in range(4)]]:
        if not found.is_report():
            yield f"one of four at once ends otherwise: {found}"
    if left := list((checkout / "release" / "unpacked").glob("unpacking.*")):
        yield f"four at once leave {len(left)} folders"
    found = ended(fresh(folder), stderr=None, preexec_fn=lambda: os.close(2))
    if not found.is_report():
        yield f"with a closed standard error it ends otherwise: {found}"


def needs_no_debian(folder: Path) -> Iterator[str]:
    """A system without dpkg-deb: tar and xz, or Python, unpack the package."""
    for unpacking in UNPACKING:
        tools = Path(tempfile.mkdtemp(dir=folder))
        for name in (*ELSEWHERE, *unpacking):
            (tools / name).symlink_to(sys.executable if name == "python3" else shutil.which(name) or "none")
        if not (found := ended(fresh(folder), path=tools)).is_report():
            yield f"without dpkg-deb, with {' and '.join(unpacking)}, it ends otherwise: {found}"


PARTS = (
    takes_it,
    takes_no_other,
    tells_damage,
    tells_other_machines,
    needs_no_rights,
    stands_others,
    needs_no_debian,
)


def findings() -> Iterator[str]:
    if not packages():
        return
    for part in PARTS:
        with tempfile.TemporaryDirectory() as name:
            Path(name).chmod(0o755)
            yield from part(Path(name))
