"""Whether the release is what these sources build to."""

import hashlib
import shutil
import subprocess
import sys
import tempfile
import zipfile
from collections.abc import Iterator
from pathlib import Path

from releases.told import RELEASE, TOP, not_run, output, packages, sum_of, told, wheels

sys.path.append(str(TOP / "packaging"))

from making.checkout import crates_below  # noqa: E402
from making.contents import PROGRAMS  # noqa: E402

AGAIN = "after a green `rt ci`, bin/make_release makes the release anew"


def of_sources() -> Iterator[str]:
    """Whether the sources, the version and the kit are those of the release."""
    crates = [words[0] for words in told("crate")]
    if crates != list(crates_below(PROGRAMS)):
        yield f"RELEASE names other crates than the programs stand on: {AGAIN}"
    if [[output("bin/source_sum", *crates).strip()]] != told("sources"):
        yield f"it was not made from these sources: {AGAIN}"
    if [[(TOP / "VERSION").read_text().strip()]] != told("version"):
        yield f"VERSION tells another version: {AGAIN}"
    if shutil.which("rt") and [output("rt", "version").split()] != told("kit"):
        yield f"it was made with another kit: {AGAIN}"
    for crate, _, verdict, *_ in told("crate"):
        if verdict != "logic=proved":
            yield f"the verdict on {crate} is {verdict}"


def of_programs() -> Iterator[str]:
    """Whether the programs that were built here are those of the release, where they were built."""
    if {words[0] for words in told("program")} != set(PROGRAMS):
        yield f"RELEASE names other programs than {', '.join(PROGRAMS)}: {AGAIN}"
    for name, sum_, size in told("program"):
        built = TOP / "crates" / name / "out" / name
        if not built.is_file():
            not_run("the comparison with what was built", f"{name} is not built here")
        elif (sum_of(built), str(built.stat().st_size)) != (sum_, size):
            yield f"{name} is built otherwise here: {AGAIN}"


def of_packages() -> Iterator[str]:
    """Whether the packages are whole, and hold the programs."""
    with tempfile.TemporaryDirectory() as folder:
        for package, sum_ in packages():
            if not package.is_file() or sum_of(package) != sum_:
                yield f"{package.name} is not there, or damaged"
                continue
            subprocess.run([TOP / "bin" / "unpack_package", package, folder], check=True)
        for name, sum_, _ in told("program"):
            place = Path(folder, PROGRAMS[name][1], name) if name in PROGRAMS else Path(folder, "none")
            if not place.is_file() or sum_of(place) != sum_:
                yield f"the packages have another {name}"


def of_wheel() -> Iterator[str]:
    """Whether there is a wheel, and it is whole and holds the programs."""
    if not wheels():
        yield f"there is no wheel: {AGAIN}"
    for wheel, sum_ in wheels():
        if not wheel.is_file() or sum_of(wheel) != sum_:
            yield f"{wheel.name} is not there, or damaged"
            continue
        with zipfile.ZipFile(wheel) as files:
            held = {name: files.read(name) for name in files.namelist() if "/programs/" in name}
        for name, due, _ in told("program"):
            found = held.get(f"shacl_keep/programs/{name}")
            if found is not None and hashlib.sha256(found).hexdigest() != due:
                yield f"the wheel has another {name}"
        if "shacl_keep/programs/shacl_keep" not in held:
            yield "the wheel has no program"


def findings() -> Iterator[str]:
    if not RELEASE.exists():
        yield f"there is none: {AGAIN}"
        return
    for part in (of_sources, of_programs, of_packages, of_wheel):
        yield from part()
