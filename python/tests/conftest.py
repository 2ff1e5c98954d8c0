"""What all tests share: where the repository is, and terms as hypothesis makes them."""

import os
from pathlib import Path

import pytest
from hypothesis import settings

TOP = Path(__file__).resolve().parents[2]
EXAMPLES = TOP / "examples"

# The same examples each time, without a limit of time for one, since the machine may do other work besides.
# EXAMPLES is how many.
COUNT = int(os.environ.get("EXAMPLES", "40"))
settings.register_profile("repository", deadline=None, max_examples=COUNT, derandomize=True, database=None)
settings.load_profile("repository")


@pytest.fixture(scope="session")
def examples() -> Path:
    """The folder of the examples."""
    return EXAMPLES
