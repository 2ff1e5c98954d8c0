"""What docs/USE.md shows of the package."""

import re
import subprocess
import sys
from pathlib import Path

TOP = Path(__file__).resolve().parents[2]
_SHOWN = re.compile(r"```python\n([^`]*)```\n\n```\n([^`]*)```")


def test_pages_show_what_comes_of_them() -> None:
    page = (TOP / "docs" / "USE.md").read_text(encoding="utf-8")
    shown = [(said, due) for said, due in _SHOWN.findall(page) if "from shacl_keep" in said]
    assert shown
    for said, due in shown:
        words = [sys.executable, "-c", f"import sys; sys.path.insert(0, 'python')\n{said}"]
        ran = subprocess.run(words, cwd=TOP, stdout=subprocess.PIPE, check=True)
        assert ran.stdout.decode() == due
