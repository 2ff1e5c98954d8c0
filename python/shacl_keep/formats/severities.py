"""Severities as other tools have them, and which of them fail a run."""

from ..report import SH

LEVELS = ("violation", "warning", "info")
_NAMES = {"Violation": "violation", "Warning": "warning", "Info": "info"}


def level(severity: str) -> str:
    """The level of a severity as a line has it. One that SHACL does not name counts as a violation."""
    return _NAMES.get(severity, "violation")


def fails(severity: str, threshold: str) -> bool:
    """Whether a result of this severity fails a run that fails on a level, or on those above it."""
    return threshold in LEVELS and LEVELS.index(level(severity)) <= LEVELS.index(threshold)


def severity_iri(severity: str) -> str:
    """The IRI of a severity."""
    return SH + severity if severity in _NAMES else severity[1:-1]
