"""How long lines, files and functions are."""
import re

from checks.sources import Finding, code, crates, files, line_of, lines, of_crate, quotes, text

WIDTH = 110
FILE_LINES = 500
FUNCTION_LINES = 40
# One URL, behind the mark of a comment, a list or a link.
URL = re.compile(r"^[^\w<]*(?:\[[^\]]*\]: ?)?<?https?://\S+$")
SHARED = re.compile(r"\.(rt|antt|md|py)$|^\.ci/|^bin/")
FUNCTION = re.compile(r"^( *)(?:pub(?:\(\w+\))? )?(?:const )?fn (\w+)")


def in_texts(file):
    """The numbers of the lines that quoted texts of a test stand on: they are as they are."""
    found, whole = set(), text(file) if "/src/tests/" in file else ""
    for it in quotes(file, whole):
        found.update(range(line_of(whole, it.start()), line_of(whole, it.end()) + 1))
    return found


def in_outputs(file):
    """The numbers of the lines that a page of formats has of outputs: they are as they are."""
    found, is_inside = set(), False
    for number, line in lines(file) if file == "docs/FORMATS.md" else ():
        if line.startswith("```"):
            is_inside = not is_inside
        elif is_inside:
            found.add(number)
    return found


def is_free(file, line):
    """Whether a line may be as long as it is: a row of a table, or one URL."""
    return file.endswith(".md") and line.lstrip().startswith("|") or URL.match(line)


def check_lines():
    """Lines that are too long, but for tables, URLs, outputs, and the quoted texts of tests."""
    for file in filter(SHARED.search, files()):
        long = [(n, line) for n, line in lines(file) if len(line) > WIDTH and not is_free(file, line)]
        texts = in_texts(file) | in_outputs(file) if long else set()
        for number, line in long:
            if number not in texts:
                yield Finding(file, number, f"the line has {len(line)} columns, and at most {WIDTH} may be")


def check_files():
    """Files of src that are too long."""
    for file in (it for crate in crates() for it in of_crate(crate, "src", ".rt")):
        count = len(list(lines(file)))
        if count > FILE_LINES:
            yield Finding(file, FILE_LINES, f"the file has {count} lines, and at most {FILE_LINES} may be")


def bodies(file):
    """Each function of a file, with its line and how many lines its body has."""
    name, margin, opened = None, "", None
    for number, line in enumerate(code(file).split("\n"), 1):
        start = FUNCTION.match(line)
        if start:
            margin, name, at, opened = start[1], start[2], number, None
        begins = line.rstrip() == f"{margin}{{" or start and line.rstrip().endswith("{")
        if name and opened is None and begins:
            opened = number
        elif name and opened and line.rstrip() == f"{margin}}}":
            yield name, at, number - opened - 1
            name = None


def long_functions():
    """Functions whose bodies are long: to be looked at, and no finding."""
    for file in (it for crate in crates() for it in of_crate(crate, "src", ".rt")):
        for name, at, count in bodies(file):
            if count > FUNCTION_LINES:
                yield Finding(file, at, f"the body of {name} has {count} lines")
