"""What is written into pages: elements of HTML, and terms, messages and badges in them."""

from html import escape

from ..names import Names, message
from ..report import SEVERITIES


def element(name: str, inner: str, **attributes: object) -> str:
    """An element; what stands in it is HTML already. A final underscore is no part of an attribute's name,
    and other underscores are hyphens."""
    said = "".join(
        f' {key.rstrip("_").replace("_", "-")}="{escape(str(value))}"'
        for key, value in attributes.items()
        if value is not None
    )
    return f"<{name}{said}>{inner}</{name}>"


def region(kind: str, label: str, inner: str) -> str:
    """A part of the page that may be scrolled, also by keys."""
    return element("div", inner, class_=kind, role="region", aria_label=label, tabindex=0)


def headings(names: tuple[str, ...], more: str = "") -> str:
    """The head of a table."""
    cells = "".join(element("th", it, scope="col") for it in names)
    return element("thead", element("tr", cells + more))


def term(spelled: str, names: Names) -> str:
    """A term or a path, as code."""
    return element("code", escape(names.term(spelled)))


def paragraph(spelled: str) -> str:
    """A message."""
    lines, tag = message(spelled)
    return element("p", "<br>".join(map(escape, lines)), lang=tag, class_="message")


def badge(severity: str) -> str:
    """A severity, as it is shown, in its colour."""
    kind = severity if severity in SEVERITIES else "Other"
    return element("span", escape(severity), class_=f"badge {kind}")
