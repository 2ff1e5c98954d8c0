"""What a check needs of Debian besides: where it is not there, and may be installed, it is."""

import os
import shutil
import subprocess

QUIETLY = {"DEBIAN_FRONTEND": "noninteractive", "LANG": "C.UTF-8"}


def is_command(name: str) -> bool:
    return shutil.which(name) is not None


def install(package: str) -> None:
    """Installs a package, or does nothing where that is not possible."""
    if os.geteuid() != 0 or not is_command("apt-get"):
        return
    for words in (["update"], ["install", "--yes", "--no-install-recommends", package]):
        subprocess.run(
            ["apt-get", *words],
            env={**os.environ, **QUIETLY},
            stdin=subprocess.DEVNULL,
            stdout=subprocess.DEVNULL,
            stderr=subprocess.DEVNULL,
            check=False,
        )


def is_there(name: str, package: str = "") -> bool:
    """Whether a command is there, or can be installed from the package that has it."""
    if not is_command(name):
        install(package or name)
    return is_command(name)
