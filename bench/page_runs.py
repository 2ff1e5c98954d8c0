#!/usr/bin/env python3
"""Runs what docs/USE.md, docs/SCALE.md and docs/DIFFERENCES.md show, and compares what comes with what stands
there. Run it at the top of the repository, where the program was built.

    bench/page_runs.py                  prints what differs, and ends with 1 where something does
    bench/page_runs.py --program PATH   the same with another program

Of the first two, each block of `sh` or `bash` is run in a folder with the files that the page shows before,
and with `examples`; what stands right behind it is its output. A block with a program that is not installed
(serdi, rapper, roqet, RDFLib, parallel), or one for other machines, is left out. Of DIFFERENCES.md, each
block has shapes, and data below `# data`.
"""
import os
import re
import shutil
import subprocess
import sys
import tempfile

from built import PROGRAM, TOP

BLOCK = re.compile(r"^```(\w*)\n(.*?)^```\n", re.S | re.M)
# A text that ends with the name of a file says what the block behind it is.
NAMED = re.compile(r"(?:file|files|and)\s\*\*([\w.]+)\*\*:?\s*$")
OTHERS = ("serdi", "rapper", "roqet", "parallel")
ELSEWHERE = "ssh "
SHELLS = ("sh", "bash")
RDFLIB = "/usr/bin/python3 "
# Files that USE.md speaks of and does not show.
GIVEN = {
    "data.rdf": """<rdf:RDF xmlns:rdf="http://www.w3.org/1999/02/22-rdf-syntax-ns#" xmlns:ex="ex:">
  <ex:Course rdf:about="ex:tea"><ex:title xml:lang="en">Tea</ex:title></ex:Course>
</rdf:RDF>
""",
    "data.jsonld": '{ "@context": { "ex": "ex:" }, "@id": "ex:oil", "ex:title": "Oil" }\n',
}


def page(name):
    with open(os.path.join(TOP, "docs", name), encoding="utf-8") as text:
        return text.read()


def blocks(text):
    """The blocks of a page: the text before each, its word, and what it holds."""
    end = 0
    for found in BLOCK.finditer(text):
        yield text[end : found.start()], found[1], found[2]
        end = found.end()


def write(folder, name, text):
    with open(os.path.join(folder, name), "w", encoding="utf-8", newline="") as out:
        out.write(text)


def is_installed(commands):
    if any(re.search(rf"\b{other} [-']", commands) and not shutil.which(other) for other in OTHERS):
        return False
    return RDFLIB not in commands or subprocess.run(
        ["/usr/bin/python3", "-c", "import rdflib"], stderr=subprocess.DEVNULL, check=False
    ).returncode == 0


def said(words, folder):
    """What a command writes, its errors too."""
    commands = os.path.join(folder, "bin")
    found = dict(
        os.environ,
        PATH=commands + ":" + os.environ["PATH"],
        PYTHONPATH=os.path.join(TOP, "python"),
        PYTHONDONTWRITEBYTECODE="1",
        SHACL_KEEP=os.path.join(commands, "shacl_keep"),
    )
    into = {"stdout": subprocess.PIPE, "stderr": subprocess.STDOUT}
    return subprocess.run(words, cwd=folder, env=found, check=False, timeout=60, **into).stdout.decode()


def difference(shown, due, came):
    return f"{shown}what stands there:\n{due}what came:\n{came}"


def commands_differ(folder, name):
    """Runs the commands of a page one after the other."""
    found = list(blocks(page(name))) + [("end", "", "")]
    for (before, word, text), (between, next_word, due) in zip(found, found[1:]):
        named = NAMED.search(before)
        if ELSEWHERE in text:
            continue
        if word in SHELLS and is_installed(text):
            came = said(["bash", "-c", text], folder)
            due = due if not between.strip() and not next_word else ""
            if came != due:
                yield difference(text, due, came)
        elif word in SHELLS:
            print(f"left out, since a program is not installed:\n{text}")
        elif named:
            write(folder, named[1], text)


def examples_differ(folder, name):
    """Runs the examples of a page of shapes and data."""
    (_, _, prefixes), *found = blocks(page(name))
    for (_, word, text), (_, _, due) in zip(found, found[1:]):
        if word == "turtle":
            shapes, data = text.split("# data\n")
            write(folder, "shapes", prefixes + shapes)
            write(folder, "data", prefixes + data)
            came = said(["shacl_keep", "shapes", "data"], folder)
            if came != due:
                yield difference(text, due, came)


def prepare(folder, program):
    """Puts into a folder what pages speak of and do not show."""
    os.mkdir(os.path.join(folder, "bin"))
    os.symlink(program, os.path.join(folder, "bin", "shacl_keep"))
    for name in ("shacl_show", "shacl_split"):
        os.symlink(os.path.join(TOP, "bin", name), os.path.join(folder, "bin", name))
    os.symlink(os.path.join(TOP, "examples"), os.path.join(folder, "examples"))
    for name, text in GIVEN.items():
        write(folder, name, text)


def main():
    program = os.path.abspath(sys.argv[2] if sys.argv[1:2] == ["--program"] else PROGRAM)
    bad = 0
    pages = {"USE.md": commands_differ, "SCALE.md": commands_differ, "DIFFERENCES.md": examples_differ}
    for name, differs in pages.items():
        with tempfile.TemporaryDirectory() as folder:
            prepare(folder, program)
            for why in differs(folder, name):
                bad += 1
                print(why)
    print(f"{bad} differ")
    sys.exit(1 if bad else 0)


if __name__ == "__main__":
    main()
