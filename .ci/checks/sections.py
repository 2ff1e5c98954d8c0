"""The index of the standards' sections in docs/THEOREM.md: what a row names stands in its file, the sections
are in order, SHACL has no gap, and each section that a definition's comment names has a row with the file."""
import re
from typing import NamedTuple

from checks.belief import definitions, types
from checks.sources import Finding, asides, crates, files, line_of, lines, of_crate, text

PAGE = "docs/THEOREM.md"
# The head of a table, by its standard, and a row: its section, or nothing where the row goes on with that of
# the row above, what it names, and where that stands.
HEAD = re.compile(r"^\| (.+) \| definitions \| file \|$")
ONE = r"(?:\d+|[A-Z])(?:\.\d+)*"
ROW = re.compile(rf"^\| (?:({ONE}(?: to {ONE})?) [^|]*)?\| (.*) \| (.*) \|$")
SPAN = re.compile(r"`([^`]+)`")
FILE = re.compile(r"^`(crates/\w+/(?:specs|src)/[\w/]+\.(?:antt|rt))`$")
# Where something is left out or differs: the page that says so, and how the passage begins there.
ELSEWHERE = re.compile(r'^\[\w+\]\((\w+\.md)\), "(.+)"$')
# What a comment names: `SHACL, sections 4.2 and 4.4`, `RFC 3986, section 3 and appendix B`, `section 5.3`.
SECTION = r"\d+(?:\.\d+)*(?: to \d+(?:\.\d+)*)?|(?<=appendix )[A-Z](?:\.\d+)*"
LIST = rf"(?:(?:, | and |, and )?(?:appendix )?(?:{SECTION}))+"
CITED = re.compile(rf"(?:([\w. ]+), )?(?:\bsections? |\b(?=appendix ))({LIST})")
# The standard that the index has without a gap, in these parts, and how many sections stand below each of
# theirs. What validates nothing, 2.3.2, is left out as one.
WHOLE, PARTS = "SHACL", ("2", "3", "4")
BELOW = {
    "2": 3, "2.1": 6, "2.1.3": 5, "2.3": 2, "2.3.1": 7, "3": 7, "3.4": 3, "3.6": 2, "3.6.1": 3, "3.6.2": 8,
    "4": 8, "4.1": 3, "4.2": 2, "4.3": 4, "4.4": 5, "4.5": 4, "4.6": 4, "4.7": 3, "4.8": 3,
}


class Row(NamedTuple):
    """A row of the index: its line, its standard and section, what it names, and where that stands."""
    line: int
    standard: str
    section: str
    said: str
    where: str


class Cited(NamedTuple):
    """A section that a file is of."""
    file: str
    standard: str
    section: str


def rows():
    """The rows of the index; one that has another form has no section."""
    standard = section = None
    for number, line in lines(PAGE):
        head, row = HEAD.match(line), ROW.match(line)
        if head:
            standard, section = head[1], None
        elif not line.startswith("|"):
            standard = None
        elif standard and row:
            section = row[1] or section
            yield Row(number, standard, section, row[2], row[3])
        elif standard and not line.startswith("|--"):
            yield Row(number, standard, None, "", "")


# ---- what a row names

def standing(file):
    """The definitions of a file with the cases of its data, or the types of a file of the code."""
    return definitions(file) if file.endswith(".antt") else types(file)


def has_passage(page, begin):
    """Whether a page has a heading, or a passage in bold, that begins so."""
    form = rf"^(?:#+ |(?:- )?\*\*){re.escape(begin)}"
    return page in files() and re.search(form, text(page), re.M) is not None


def faults(row):
    """What is wrong in a row."""
    file, elsewhere = FILE.match(row.where), ELSEWHERE.match(row.where)
    names = SPAN.findall(row.said)
    if row.section is None:
        yield "the row has no section, or not three cells"
    elif elsewhere:
        if not has_passage(f"docs/{elsewhere[1]}", elsewhere[2]):
            yield f"no passage of {elsewhere[1]} begins with {elsewhere[2]}"
    elif not file or file[1] not in files():
        yield f"there is no file {row.where.strip('`')}"
    elif not names:
        yield "the row names no definition"
    else:
        yield from (f"{it} is no definition of {file[1]}" for it in names if it not in standing(file[1]))


# ---- the order of the sections

def place(section):
    """Where a section stands in its standard: appendices, which are letters, behind all numbers."""
    ends = (end.split(".") for end in section.split(" to "))
    return [[(0, int(it)) if it.isdigit() else (1, ord(it)) for it in end] for end in ends]


def disorder(index):
    """Rows of a section that stands before that of a row above."""
    last = {}
    for row in index:
        before = last.get(row.standard, row.section)
        if place(row.section) < place(before):
            yield Finding(PAGE, row.line, f"{row.standard} {row.section} stands behind {before}")
        last[row.standard] = row.section


def gaps(index):
    """Sections without a row, for themselves or for one below them; and rows of sections that are none."""
    here = [row for row in index if row.standard == WHOLE]
    there = {f"{above}.{n}" for above, count in BELOW.items() for n in range(1, count + 1)}
    for section in sorted(there, key=place):
        if not any(f"{row.section}.".startswith(f"{section}.") for row in here):
            yield Finding(PAGE, here[0].line if here else 1, f"no row is of {WHOLE} {section}")
    for row in here:
        number, _, end = row.section.partition(" to ")
        if number.split(".")[0] in PARTS and not end and number not in there | set(PARTS):
            yield Finding(PAGE, row.line, f"{WHOLE} has no section {number}")


# ---- what comments name

def comments(file):
    """The comments of a file, each with its first line: one goes on in the line below."""
    first, end, said = 1, 0, ""
    for it in asides(file).finditer(text(file)):
        number = line_of(text(file), it.start())
        if it[0].startswith("--"):
            if number != end + 1:
                yield first, said
                first, said = number, ""
            end, said = number, f"{said} {it[0].lstrip('-').strip()}"
    yield first, said


def cited(file, standards):
    """The sections that the comments of a file name, with lines; without a standard, of that named last."""
    standard = "an unnamed standard"
    for line, said in comments(file):
        for name, listed in CITED.findall(said):
            if name:
                standard = next((it for it in standards if name.endswith(it)), name.strip())
            yield from ((line, Cited(file, standard, section)) for section in re.findall(SECTION, listed))


def all_cited(standards):
    """Those of all files of definitions but the inner ones, with lines."""
    for file in (it for crate in crates() for it in of_crate(crate, "specs", ".antt")):
        if "/specs/inner" not in file:
            yield from cited(file, standards)


def unnamed(index):
    """Sections that comments name without a row that names the file."""
    told = {Cited(row.where.strip("`"), row.standard, row.section) for row in index}
    for line, it in all_cited({row.standard for row in index}):
        if it not in told:
            yield Finding(it.file, line, f"no row of {PAGE} for {it.standard} {it.section} names this file")


def check():
    """Faults of the index."""
    index = list(rows())
    yield from (Finding(PAGE, row.line, what) for row in index for what in faults(row))
    whole = [row for row in index if row.section]
    yield from disorder(whole)
    yield from gaps(whole)
    yield from unnamed(whole)
