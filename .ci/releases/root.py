"""An empty Debian in a folder, and commands in it."""

import os
import shutil
import subprocess
from collections.abc import Iterator
from pathlib import Path
from typing import Optional

from releases.tools import QUIETLY, is_there

SUITE = "bookworm"
# What the tries use besides the package and what that needs.
BESIDE = "man-db,bash-completion"
# What apt, dpkg and man keep for themselves.
KEPT = ("proc", "sys", "dev", "run", "tmp", "var/cache", "var/lib/apt", "var/lib/dpkg", "var/log")
PROXIES = ("Acquire::http::Proxy", "Acquire::https::Proxy")


class NotMade(Exception):
    """Why there is no such root."""


def said(*words: str) -> str:
    """What a command prints, or nothing where it is not there or fails."""
    try:
        return subprocess.run(words, check=True, capture_output=True, text=True).stdout
    except (OSError, subprocess.CalledProcessError):
        return ""


def sources_of_apt() -> list[str]:
    """Where this machine has the packages of this Debian from, as lines for apt."""
    lines = "deb $(REPO_URI) $(RELEASE) $(COMPONENT)"
    words = ("apt-get", "indextargets", "--format", lines, "Created-By: Packages", "Origin: Debian")
    return sorted({line for line in said(*words).splitlines() if line.split()[2].partition("-")[0] == SUITE})


def proxies_of_apt() -> list[str]:
    """The proxies of this machine's apt, as it has them in its configuration."""
    return [it for it in said("apt-config", "dump", "--format", '%f "%v";%n', *PROXIES).splitlines() if it]


class Root:
    """An empty Debian, with what the tries need besides."""

    def __init__(self, folder: Path) -> None:
        if os.geteuid() != 0:
            raise NotMade("that needs root")
        if not shutil.which("apt-get") or not (sources := sources_of_apt()):
            raise NotMade(f"apt is not set to packages of Debian {SUITE}")
        if not is_there("mmdebstrap"):
            raise NotMade("there is no mmdebstrap")
        self.folder = folder
        options = [f"--aptopt={it}" for it in proxies_of_apt()]
        how = ["--quiet", "--variant=apt", f"--include={BESIDE}", "--dpkgopt=force-unsafe-io", *options]
        made = subprocess.run(
            ["mmdebstrap", *how, SUITE, folder, *sources],
            stdin=subprocess.DEVNULL,
            capture_output=True,
            text=True,
            check=False,
        )
        if made.returncode != 0:
            raise NotMade(" ".join(made.stderr.strip().splitlines()[-1:]))
        # Names are resolved there as they are here.
        shutil.copy("/etc/resolv.conf", folder / "etc")

    def run(self, *words: str, user: Optional[str] = None) -> str:
        """What a command writes there, and behind it its status in a line."""
        known = {it: os.environ[it] for it in ("http_proxy", "https_proxy") if it in os.environ}
        path = "/usr/sbin:/usr/bin:/sbin:/bin"
        rights = ["setpriv", "--reuid", user, "--regid", "nogroup", "--clear-groups"] if user else []
        ran = subprocess.run(
            ["chroot", str(self.folder), *rights, *words],
            env={**QUIETLY, **known, "PATH": path, "HOME": "/tmp"},
            stdin=subprocess.DEVNULL,
            stdout=subprocess.PIPE,
            stderr=subprocess.STDOUT,
            check=False,
        )
        return f"{ran.stdout.decode(errors='replace')}status {ran.returncode}\n"

    def files(self) -> set[str]:
        """All files and folders, but for those that apt, dpkg and man keep for themselves."""
        return set(self._below(self.folder))

    def _below(self, folder: Path) -> Iterator[str]:
        for entry in os.scandir(folder):
            path = str(Path(entry.path).relative_to(self.folder))
            if path not in KEPT:
                yield path
                if entry.is_dir(follow_symlinks=False):
                    yield from self._below(Path(entry.path))
