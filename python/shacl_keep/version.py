"""Which version this is."""

import functools
from importlib.metadata import PackageNotFoundError
from importlib.metadata import version as installed
from pathlib import Path


@functools.cache
def version() -> str:
    """The version of the checkout, or of the package, that this stands in."""
    for folder in (Path(__file__).parent, Path(__file__).parents[2]):
        try:
            return folder.joinpath("VERSION").read_text("utf-8").strip()
        except OSError:
            continue
    try:
        return installed("shacl_keep")
    except PackageNotFoundError:
        return "unreleased"
