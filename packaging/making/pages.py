"""Pages for `man`: docs/REFERENCE.md, and what the tools say of themselves."""

import re
import tempfile
from pathlib import Path

from .changes import epoch, this_version
from .checkout import NotMade, output_of, version

_TABLE = re.compile(r"^\|.*\n\|[-|]+\n((?:\|.*\n)+)", re.M)
_TITLE = re.compile(r"# (\w+)\n\n(.+)\n")


def as_list(table: re.Match[str]) -> str:
    """The rows of a table as terms and what is said of them, which are easier to read in a terminal."""
    rows = [[cell.strip() for cell in row.strip("|").split(" | ")] for row in table[1].splitlines()]
    return "".join(f"{' '.join(filter(None, row[:-1]))}\n: {row[-1]}\n\n" for row in rows)


def reference_page(command: str, text: str) -> str:
    """The page of a reference in Markdown: its title and the line behind it are the name."""
    title = _TITLE.match(text)
    if not title or title[1] != command:
        raise NotMade(f"the reference of {command} does not begin with its name, and one line on it")
    head = f'# {command.upper()} 1 "{this_version().day}" "{command} {version()}" "User Commands"'
    body = _TABLE.sub(as_list, text[title.end() :])
    sections = re.sub(r"^## (.*)", lambda it: f"# {it[1].upper()}", body, flags=re.M)
    page = f"{head}\n\n# NAME\n\n{command} - {title[2]}\n{sections}"
    with tempfile.TemporaryDirectory() as folder:
        source, made = Path(folder, "page.md"), Path(folder, "page")
        source.write_text(page, encoding="utf-8")
        output_of("go-md2man", "-in", str(source), "-out", str(made))
        return made.read_text(encoding="utf-8")


def for_help2man(help_text: str) -> str:
    """A help text as help2man reads it: it knows a usage by its capital letter, and other ones by `or`."""
    usage, rest = re.split(r"\n(?=\n)", help_text, 1)
    usage = re.sub(r"\n {7}", "\n  or:  ", usage.replace("usage:", "Usage:", 1))
    return usage + "\n" + re.sub(r"^options:$", "Options:", rest, flags=re.M)


def tool_page(command: str, about: str, help_text: str) -> str:
    """The page of a tool, from its help."""
    with tempfile.TemporaryDirectory() as folder:
        asked = Path(folder, command)
        said = Path(folder, "help")
        said.write_text(for_help2man(help_text), encoding="utf-8")
        asked.write_text(f"#!/bin/sh\ncat {said}\n")
        asked.chmod(0o755)
        words = ["--no-info", f"--name={about}", f"--version-string={command} {version()}"]
        return output_of("help2man", *words, str(asked), known={"SOURCE_DATE_EPOCH": str(epoch())})
