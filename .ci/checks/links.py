"""Links of the pages lead to files that are there."""
import re
from posixpath import dirname, normpath

from checks.sources import Finding, files, folders, line_of, text

LINK = re.compile(r"\[[^\]]*\]\(<?([^)>\s]+)>?[^)]*\)|^\[[^\]]+\]: <?(\S+?)>?$", re.M)
ELSEWHERE = re.compile(r"^(?:[a-z]+:|#)")


def check():
    """Links that lead nowhere."""
    for page in (it for it in files() if it.endswith(".md")):
        for found in LINK.finditer(text(page)):
            target = found[1] or found[2]
            path = normpath(f"{dirname(page)}/{target.split('#')[0]}").lstrip("/")
            if not ELSEWHERE.match(target) and path not in files() and path not in folders():
                line = line_of(text(page), found.start())
                yield Finding(page, line, f"the link leads to {path}, which is not there")
