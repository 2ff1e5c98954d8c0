"""JUnit's XML: a test case for each result, named by its focus node and path, in a suite for the run. Where
the data conforms there is one case, which passes. Faults, refused lines and failures are errors."""

from collections.abc import Iterator
from xml.sax.saxutils import escape, quoteattr

from ..plain import plain
from ..report import Result
from ..shown import Problem, Shown
from .severities import fails


def _attribute(text: str) -> str:
    return quoteattr(plain(text))


def _case(kind: str, name: str, inner: str) -> str:
    return f"  <testcase classname={_attribute(kind)} name={_attribute(name)}>{inner}</testcase>\n"


def _result(result: Result, shown: Shown, threshold: str) -> str:
    """A result that fails the run is a failure; one that does not is a case that passes, with what it
    says."""
    words, term = result.words, shown.names.term
    place = shown.places.place(result)
    said = f"{place}: {shown.sentence(result)}" if place else shown.sentence(result)
    body = escape(plain(said, kept="\n\u200c\u200d"))
    inner = f"<system-out>{body}</system-out>"
    if fails(words.severity, threshold):
        message = _attribute(shown.message(result))
        inner = f"<failure type={_attribute(words.component)} message={message}>{body}</failure>"
    name = [words.component, *(term(it) for it in (words.focus, words.path, words.value) if it != "-")]
    return _case(term(words.shape), " ".join(name), inner)


def _problem(problem: Problem) -> str:
    said = f"{problem.place or problem.file or ''}: {problem.said}".removeprefix(": ")
    inner = f"<error type={_attribute(problem.name)} message={_attribute(problem.said)}>"
    return _case("shacl_keep", problem.name, f"{inner}{escape(plain(said))}</error>")


def _counts(shown: Shown, threshold: str) -> tuple[int, int, int]:
    """How many cases there are, how many of them fail, and how many are errors."""
    cases = failures = errors = 0
    for event in shown.events():
        if isinstance(event, Result):
            cases += 1
            failures += fails(event.words.severity, threshold)
        else:
            errors += sum(1 for _ in shown.problems(event))
    errors += sum(1 for _ in shown.failures())
    return cases + errors, failures, errors


def pieces(shown: Shown, threshold: str) -> Iterator[str]:
    """The document, piece by piece, where results of this level and above it fail."""
    cases, failures, errors = _counts(shown, threshold)
    counts = f'tests="{max(cases, 1)}" failures="{failures}" errors="{errors}"'
    name = _attribute(shown.file or "SHACL report")
    yield f'<?xml version="1.0" encoding="UTF-8"?>\n<testsuites {counts}>\n'
    yield f' <testsuite name={name} {counts} skipped="0">\n'
    for event in shown.events():
        if isinstance(event, Result):
            yield _result(event, shown, threshold)
        else:
            yield from map(_problem, shown.problems(event))
    yield from map(_problem, shown.failures())
    if not cases:
        yield _case("shacl_keep", "the data conforms", "")
    yield " </testsuite>\n</testsuites>\n"
