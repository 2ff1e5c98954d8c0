"""The Debian packages, made by dpkg-deb over trees of files."""

import re
import subprocess
from collections.abc import Mapping
from pathlib import Path

from . import completions, help_text, pages
from .changes import debian_changes, epoch
from .checkout import TOP, NotMade, output_of, text_of, version
from .contents import FILES, MAIN, OPTIONS, PROGRAMS, TOOLS
from .help_text import Option
from .programs import needed_libc
from .tree import Tree

# One thread and a fixed level: so the same files are packed to the same bytes on each machine.
_PACKED = ("--root-owner-group", "-Zxz", "-z9", "-Sextreme", "--threads-max=1")


def control(package: str, tree: Tree, programs: Mapping[str, Path]) -> str:
    """What Debian is told of a package."""
    libc = max(needed_libc(programs[name]) for name, (it, _) in PROGRAMS.items() if it == package)
    known = {"VERSION": version(), "SIZE": str(tree.size()), "LIBC": ".".join(map(str, libc))}
    return re.sub(r"@(\w+)@", lambda it: known[it[1]], text_of(f"packaging/{package}/control"))


def maintainer(package: str) -> str:
    said = re.search(r"^Maintainer: (.*)$", text_of(f"packaging/{package}/control"), re.M)
    if not said:
        raise NotMade(f"packaging/{package}/control has no maintainer")
    return said[1]


def put_notes(tree: Tree, package: str) -> None:
    """What Debian's policy asks of each package."""
    doc = f"usr/share/doc/{package}"
    tree.put_file(TOP / "packaging" / "copyright", doc)
    tree.put_packed(f"{doc}/changelog", debian_changes(package, maintainer(package)))
    overrides = TOP / "packaging" / package / "lintian-overrides"
    if overrides.exists():
        tree.put(f"usr/share/lintian/overrides/{package}", overrides.read_text())
    for script in ("postinst", "prerm"):
        file = TOP / "packaging" / package / script
        if file.exists():
            tree.put(f"DEBIAN/{script}", file.read_text(), 0o755)


def put_completions(tree: Tree, command: str, options: list[Option]) -> None:
    share = "usr/share"
    tree.put(f"{share}/bash-completion/completions/{command}", completions.bash(command, options))
    tree.put(f"{share}/zsh/vendor-completions/_{command}", completions.zsh(command, options))
    tree.put(f"{share}/fish/vendor_completions.d/{command}.fish", completions.fish(command, options))


def options_of_program(program: Path) -> list[Option]:
    """The options of the program, by the usage that it prints where there are no words."""
    usage = subprocess.run([program], stdin=subprocess.DEVNULL, stdout=subprocess.PIPE, check=False).stdout
    options = help_text.in_usage(usage.decode(), OPTIONS)
    if {it.name for it in options} != OPTIONS.keys():
        raise NotMade(f"the usage of {program} has other options than {', '.join(OPTIONS)}")
    return options


def put_commands(tree: Tree, program: Path) -> None:
    """The pages and the completions of the program and of the tools. Debian's Python asks for help, whose
    form another one may write otherwise."""
    man = "usr/share/man/man1"
    page = pages.reference_page("shacl_keep", text_of("docs/REFERENCE.md"))
    tree.put_packed(f"{man}/shacl_keep.1", page)
    put_completions(tree, "shacl_keep", options_of_program(program))
    for command, tool in TOOLS.items():
        said = output_of("/usr/bin/python3", tool.file, "--help", known={"COLUMNS": "100"})
        tree.put_packed(f"{man}/{command}.1", pages.tool_page(command, tool.about, said))
        put_completions(tree, command, help_text.listed(said))


def make_package(package: str, programs: Mapping[str, Path], folder: Path) -> Path:
    """Writes a package into a folder, and gives its file."""
    tree = Tree(folder / package)
    for name, (it, place) in PROGRAMS.items():
        if it == package:
            tree.put(f"{place}/{name}", programs[name].read_bytes(), 0o755)
    for source, place in FILES[package]:
        tree.put_all(TOP / source, place)
    if package == MAIN:
        put_commands(tree, programs["shacl_keep"])
    put_notes(tree, package)
    tree.put("DEBIAN/control", control(package, tree, programs))
    tree.put("DEBIAN/md5sums", tree.sums())
    tree.settle(epoch())
    file = folder / f"{package}_{version()}_amd64.deb"
    known = {"SOURCE_DATE_EPOCH": str(epoch())}
    output_of("dpkg-deb", *_PACKED, "--build", str(tree.folder), str(file), known=known)
    return file
