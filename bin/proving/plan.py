"""Which crates are proved next: those with the longest way to the program first."""

from collections.abc import Collection, Mapping
from typing import NamedTuple

# More processes than this for one proof bring nothing.
MOST_JOBS = 4
# Building a program behind its proof takes about so many seconds.
BUILD_SECONDS = 150.0
# What the proof of a crate is taken to last that has no seconds of its own.
UNKNOWN_SECONDS = 100.0


class Begun(NamedTuple):
    """A proof to begin, and how many processes it gets."""

    crate: str
    jobs: int


class Plan:
    """The crates that a program stands on, and the program, whose proof is the last, and which is built then.
    A lane is a processor that proofs may use."""

    def __init__(
        self, below: Mapping[str, Collection[str]], program: str, stored: Mapping[str, float], lanes: int
    ) -> None:
        """`below` has what each crate below the program stands on, lowest first."""
        self.program, self.lanes = program, lanes
        self.below = {**{it: set(others) for it, others in below.items()}, program: set(below)}
        self.seconds = {it: stored.get(it, UNKNOWN_SECONDS) for it in self.below}
        self.seconds[program] += BUILD_SECONDS
        self.ways = self._ways()

    def _ways(self) -> dict[str, float]:
        """Of each crate the seconds of the longest way from it to the program, itself among them."""
        ways: dict[str, float] = {}
        for crate in reversed(self.below):
            above = [way for other, way in ways.items() if crate in self.below[other]]
            ways[crate] = self.seconds[crate] + max(above, default=0.0)
        return ways

    def _ready(self, done: Collection[str], running: Collection[str]) -> list[str]:
        """What can be begun: all that it stands on is proved."""
        waiting = [it for it in self.below if it not in done and it not in running]
        return sorted((it for it in waiting if self.below[it].issubset(done)), key=lambda it: -self.ways[it])

    def next_proofs(self, done: Collection[str], running: Mapping[str, int]) -> list[Begun]:
        """The proofs to begin beside those that run with so many processes each: as many as there are free
        lanes, each with those that no other can use."""
        free, ready = self.lanes - sum(running.values()), self._ready(done, running)
        begun: list[Begun] = []
        for at, crate in enumerate(ready[:free]):
            jobs = max(1, min(MOST_JOBS, free // (len(ready) - at)))
            free -= jobs
            begun.append(Begun(crate, jobs))
            if free < 1:
                break
        return begun
