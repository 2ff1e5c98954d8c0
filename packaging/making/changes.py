"""CHANGELOG.md: the day of each version, and its changes as Debian writes them."""

import re
import textwrap
from collections.abc import Iterator
from datetime import datetime, timezone
from typing import NamedTuple

from .checkout import NotMade, text_of, version

_HEAD = re.compile(r"^## (\d+\.\d+\.\d+), (\d{4}-\d\d-\d\d)$", re.M)
_CHANGE = re.compile(r"^- (.*(?:\n  .*)*)", re.M)
_LINK = re.compile(r"\[([^]]*)\]\([^)]*\)")


class Version(NamedTuple):
    """A version: its number, its day, and what changed."""

    number: str
    day: str
    changes: list[str]

    def time(self) -> datetime:
        """The first second of its day."""
        return datetime.fromisoformat(self.day).replace(tzinfo=timezone.utc)


def plain(change: str) -> str:
    """A change without the marks of Markdown."""
    return " ".join(_LINK.sub(r"\1", change).replace("**", "").split())


def versions() -> list[Version]:
    """All versions, the newest first."""
    _, *pieces = _HEAD.split(text_of("CHANGELOG.md"))
    heads = zip(pieces[::3], pieces[1::3], pieces[2::3])
    return [Version(number, day, [plain(it) for it in _CHANGE.findall(text)]) for number, day, text in heads]


def this_version() -> Version:
    """The version that is released, which has to be the newest."""
    newest = versions()[:1]
    if not newest or newest[0].number != version():
        raise NotMade(f"the first version of CHANGELOG.md is not `## {version()}, YYYY-MM-DD`")
    return newest[0]


def epoch() -> int:
    """The time of everything that is in a package. It is the day of the version and no time of a file or a
    commit, so that a clone, a copy without git and a checkout before its commit give the same bytes."""
    return int(this_version().time().timestamp())


def debian_changes(package: str, maintainer: str) -> str:
    """The changes of all versions in the form of Debian's changelogs."""

    def entries() -> Iterator[str]:
        for it in versions():
            changes = (
                textwrap.fill(
                    change, 79, initial_indent="  * ", subsequent_indent="    ", break_on_hyphens=False
                )
                for change in it.changes
            )
            head = f"{package} ({it.number}) stable; urgency=medium"
            yield "\n\n".join(
                [head, "\n".join(changes), f" -- {maintainer}  {it.time():%a, %d %b %Y %T %z}\n"]
            )

    return "\n".join(entries())
