"""Fresh checkouts of what stands here, and calls of the first command in them, without the kit."""

import os
import pwd
import shutil
import subprocess
import tempfile
from pathlib import Path
from typing import Any, NamedTuple, Optional

from checks.sources import files
from releases.told import TOP

WORDS = ("examples/library/shapes.ttl", "examples/library/data.ttl")
# So many seconds the first command may take, by the clock.
MOST = 60


class Ended(NamedTuple):
    """What a call wrote, its status in a last line of the output, and what it told."""

    output: str
    told: str

    def is_report(self) -> bool:
        return self.output == expected()


def expected() -> str:
    return (TOP / "examples" / "library" / "expected").read_text(encoding="utf-8")


def fresh(folder: Path) -> Path:
    """A checkout of all that git has, or would take: a release is tried before it is committed."""
    checkout = Path(tempfile.mkdtemp(dir=folder)) / "checkout"
    for file in files():
        (checkout / file).parent.mkdir(parents=True, exist_ok=True)
        shutil.copy(TOP / file, checkout / file, follow_symlinks=False)
    return checkout


def path_without_kit() -> str:
    """The folders of $PATH in which there is no `rt`."""
    return os.pathsep.join(it for it in os.environ["PATH"].split(os.pathsep) if not Path(it, "rt").exists())


def begun(
    checkout: Path, path: Optional[Path] = None, user: Optional[str] = None, **how: Any
) -> subprocess.Popen[str]:
    """A call of the first command, in a home beside the checkout."""
    given: dict[str, Any] = {
        "env": {"PATH": str(path or path_without_kit()), "HOME": str(checkout.parent / "home")},
        "stdin": subprocess.DEVNULL,
        "stdout": subprocess.PIPE,
        "stderr": subprocess.PIPE,
        **how,
    }
    if user:
        given |= {"user": user, "group": pwd.getpwnam(user).pw_gid, "extra_groups": []}
    return subprocess.Popen(["bin/shacl_keep", *WORDS], cwd=checkout, encoding="utf-8", **given)


def end(call: subprocess.Popen[str]) -> Ended:
    output, said = call.communicate(timeout=10 * MOST)
    return Ended(f"{output}status {call.returncode}\n", said or "")


def ended(checkout: Path, **how: Any) -> Ended:
    """How the first command ends."""
    return end(begun(checkout, **how))
