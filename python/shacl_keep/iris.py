"""References over a base (RFC 3986, section 5), as the program resolves them."""

import re

_PARTS = re.compile(r"(?:([A-Za-z][A-Za-z0-9+.-]*):)?(?://([^/?#]*))?([^?#]*)(\?[^#]*)?(#.*)?", re.DOTALL)
_ESCAPE = re.compile(r"\\u([0-9A-Fa-f]{4})|\\U([0-9A-Fa-f]{8})")


def _parts(reference: str) -> tuple[str | None, str | None, str, str | None, str | None]:
    """The scheme, the authority, the path, the query and the fragment. Every text has these."""
    found = _PARTS.fullmatch(reference)
    assert found
    return found[1], found[2], found[3], found[4], found[5]


def without_dots(path: str) -> str:
    """A path without dot segments (RFC 3986, section 5.2.4)."""
    kept: list[str] = []
    segments = path.split("/")
    for segment in segments:
        if segment == ".." and len(kept) > 1:
            kept.pop()
        elif segment not in (".", ".."):
            kept.append(segment)
    if segments[-1] in (".", ".."):
        kept.append("")
    return "/".join(kept)


def resolved(base: str, reference: str) -> str:
    """A reference over an absolute base (RFC 3986, section 5.2)."""
    scheme, host, path, query, fragment = _parts(reference)
    if scheme:
        return reference
    scheme, base_host, base_path, base_query, _ = _parts(base)
    if host is not None:
        path = without_dots(path)
    elif not path:
        host, path, query = base_host, base_path, base_query if query is None else query
    else:
        if not path.startswith("/"):
            front = "/" if base_host is not None and not base_path else base_path[: base_path.rfind("/") + 1]
            path = front + path
        host, path = base_host, without_dots(path)
    return f"{scheme}:{'' if host is None else '//' + host}{path}{query or ''}{fragment or ''}"


def unescaped(reference: str) -> str:
    """A reference with the characters that its escapes stand for."""
    if "\\" not in reference:
        return reference
    return _ESCAPE.sub(lambda found: chr(int(found[1] or found[2], 16)), reference)
