"""How far the proofs are, and how long the rest takes on this machine, as it was of late.

Two things make a machine slower than the one on which the seconds of the proofs were measured. A proof may
need more processor seconds (`factor`), and it may get fewer of them in a second of the clock (`share`), where
other work is beside it. Both are taken from the latest proofs, so that what was there before a machine became
slower, or faster, is soon forgotten. Nothing here reads a clock or asks the system.
"""

from collections import deque
from collections.abc import Mapping
from typing import NamedTuple

from proving.plan import Begun, Plan

# So many seconds of the clock the share is taken from.
WINDOW = 180.0
# As long as less was seen, the machine is taken for the one on which the seconds were measured.
SEEN_ENOUGH = 60.0
# The factor is taken from so many proofs.
LATEST = 6
# Of a proof that has used all that was expected so large a part of what it used is still to come.
STILL_TO_COME = 0.25


class Proving(NamedTuple):
    """A proof under way: its processes, and the processor seconds that it has used."""

    jobs: int
    used: float


class Seen(NamedTuple):
    """What all proofs together have had at a time: processor seconds, and seconds of the clock."""

    now: float
    used: float
    lasted: float


class Ended(NamedTuple):
    """The processor seconds that a proof was expected to take, and those that it took."""

    expected: float
    used: float


class Course:
    """Which proofs are done and which are under way, and the pace at which they went."""

    def __init__(self, plan: Plan) -> None:
        self.plan = plan
        self.done: set[str] = set()
        self.running: dict[str, Proving] = {}
        self._seen = deque([Seen(0.0, 0.0, 0.0)])
        self._ended: deque[Ended] = deque([Ended(SEEN_ENOUGH, SEEN_ENOUGH)], LATEST)

    def begin(self, now: float) -> list[Begun]:
        """The proofs to begin, which are under way from now on."""
        self.note(now, {})
        begun = self.plan.next_proofs(self.done, {it: each.jobs for it, each in self.running.items()})
        self.running |= {it.crate: Proving(it.jobs, 0.0) for it in begun}
        return begun

    def note(self, now: float, used: Mapping[str, float]) -> None:
        """Takes in what proofs under way have used in all, by crates; what is not told stays."""
        last, more = self._seen[-1], 0.0
        for crate, each in self.running.items():
            # Processor seconds of a process that nobody waited for can get lost.
            most = max(each.used, used.get(crate, 0.0))
            more += most - each.used
            self.running[crate] = Proving(each.jobs, most)
        lasted = (now - last.now) * len(self.running)
        self._seen.append(Seen(now, last.used + more, last.lasted + lasted))
        while len(self._seen) > 2 and self._seen[1].now <= now - WINDOW:
            self._seen.popleft()

    def end(self, now: float, crate: str, used: float) -> None:
        """A proof is done, and used so much in all."""
        self.note(now, {crate: used})
        expected = self.plan.seconds[crate]
        # What was proved before, but for what changed, takes little, and tells nothing of the others.
        if used > expected / 2:
            self._ended.append(Ended(expected, used))
        del self.running[crate]
        self.done.add(crate)

    def share(self) -> float:
        """The processor seconds that a proof gets in a second of the clock."""
        first, last = self._seen[0], self._seen[-1]
        lasted, used = last.lasted - first.lasted, last.used - first.used
        unseen = max(0.0, SEEN_ENOUGH - lasted)
        return max(used + unseen, 0.01 * SEEN_ENOUGH) / (lasted + unseen)

    def factor(self) -> float:
        """The processor seconds that a proof takes here for each that is expected."""
        under_way = [Ended(self.plan.seconds[it], each.used) for it, each in self.running.items()]
        so_far = ratio([*self._ended])
        return ratio([*self._ended, *(it for it in under_way if it.used > so_far * it.expected)])

    def to_go(self) -> float:
        """The seconds of the clock until the program is built. The proofs that wait are begun as they will
        be, and each goes on at the present pace."""
        factor, done, passed = self.factor(), set(self.done), 0.0
        left = {
            it: still_to_come(factor * self.plan.seconds[it], each.used) for it, each in self.running.items()
        }
        jobs = {it: each.jobs for it, each in self.running.items()}
        while len(done) < len(self.plan.below):
            for crate, count in self.plan.next_proofs(done, jobs):
                jobs[crate], left[crate] = count, factor * self.plan.seconds[crate]
            first = min(left, key=lambda it: left[it])
            step = left.pop(first)
            passed += step
            left = {it: seconds - step for it, seconds in left.items()}
            del jobs[first]
            done.add(first)
        return passed / self.share()


def ratio(proofs: list[Ended]) -> float:
    return sum(it.used for it in proofs) / sum(it.expected for it in proofs)


def still_to_come(expected: float, used: float) -> float:
    """What a proof under way still takes."""
    return max(expected - used, STILL_TO_COME * used)
