"""What the checker said of each crate that a program stands on."""

import re
from collections.abc import Iterator, Sequence
from pathlib import Path

from .checkout import TOP, NotMade, sum_of_crate

RELEASE = TOP / "release" / "RELEASE"
_SAID = re.compile(r"^(logic=\w+ .*)$|^rt: (\w+) proved$", re.M)
_PASSED = re.compile(r"^\d+ passed, 0 failed$", re.M)


def read(log: Path) -> str:
    try:
        return log.read_text(encoding="utf-8", errors="replace")
    except OSError as error:
        raise NotMade(f"{log}: {error.strerror}") from error


def verdicts_in(log: str) -> dict[str, str]:
    """The verdict on each crate that a log says was proved: the last one before it says so."""
    found, last = {}, ""
    for verdict, proved in _SAID.findall(log):
        if proved and last:
            found[proved] = last
        last = verdict
    return found


def told_before() -> dict[str, tuple[str, str]]:
    """The checksum of each crate in the last release, and the verdict on it."""
    lines = RELEASE.read_text(encoding="utf-8").splitlines() if RELEASE.exists() else []
    rows = [line.split(" ", 3) for line in lines if line.startswith("crate ")]
    return {crate: (checksum, verdict) for _, crate, checksum, verdict in rows}


def verdict_lines(crates: Sequence[str], logs: Sequence[Path]) -> Iterator[str]:
    """The lines of RELEASE on crates. `rt ci` has no verdict on a crate that an earlier run proved, so that
    several logs may be given; where none has one, the crate has to be as it was at the last release."""
    texts = [read(it) for it in logs]
    if texts and not _PASSED.search(texts[-1]):
        raise NotMade(f"{logs[-1]} is not what a whole `rt ci` printed that passed")
    before, now = told_before(), {}
    for text in texts:
        now.update(verdicts_in(text))
    for crate in crates:
        checksum = sum_of_crate(crate)
        released, verdict = before.get(crate, ("", ""))
        if crate not in now and released != checksum:
            raise NotMade(f"no log says that {crate} was proved, and it is not as it was at the last release")
        yield f"crate {crate} {checksum} {now.get(crate, verdict)}"
