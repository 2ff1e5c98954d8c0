"""The options that a command says it has."""

import re
from typing import NamedTuple

_LISTED = re.compile(r"^  (?:-\w, )?(--[\w-]+)(?: (\S+))?(?:  +(\S.*))?((?:\n {10,}\S.*)*)$", re.M)
_IN_USAGE = re.compile(r"\[(--[\w-]+) ([^\]]+)\]")


class Option(NamedTuple):
    """An option: its name, the word for its value, if it has one, and what it is for."""

    name: str
    value: str
    about: str

    def choices(self) -> list[str]:
        """The values that it may have, where these are listed."""
        listed = re.split(r"[|,]", self.value.strip("{}"))
        return listed if len(listed) > 1 else []

    def is_file(self) -> bool:
        return self.value in ("FILE", "FOLDER", "DIR", "PATH")


def listed(text: str) -> list[Option]:
    """The options that a help text lists, one after the other."""
    found = []
    for name, value, said, more in _LISTED.findall(text):
        about = re.split(r"[;.(]", " ".join(f"{said} {more}".split()))[0].strip()
        found.append(Option(name, value, about))
    return found


def in_usage(text: str, about: dict[str, str]) -> list[Option]:
    """The options of a usage line."""
    return [Option(name, value, about.get(name, "")) for name, value in _IN_USAGE.findall(text)]
