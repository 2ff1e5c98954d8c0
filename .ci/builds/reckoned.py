"""How long `bin/build_program` says that it has to go, on machines that are made up: a clock that is counted
and proofs whose seconds are known, so that nothing rests on how fast this machine is. A machine becomes
slower while it proves: other work takes its processors, or each second of them does less.

From the middle of the time on, what is told is held against what it then takes: it is never less than half,
and never more than twice as much and a tenth of the whole.
"""

from __future__ import annotations

import os
import signal
import subprocess
import sys
import time
from collections.abc import Callable, Iterator
from pathlib import Path
from typing import NamedTuple

TOP = Path(__file__).resolve().parent.parent.parent
sys.path.insert(0, str(TOP / "bin"))

from proving.course import Course  # noqa: E402
from proving.kit import used_by_sessions  # noqa: E402
from proving.plan import Plan  # noqa: E402

# So many seconds are waited for a process to be seen at work.
PATIENCE = 100

# So many seconds of the clock lie between two looks at the proofs.
LOOK = 5.0
# What is told is at least this part of what it takes, and at most so many times that and this part of the
# whole.
LEAST, MOST, BESIDE = 0.5, 2.0, 0.1


class Machine(NamedTuple):
    """How fast a machine is when this part of the work is done, from 0 to 1: the processor seconds that a
    proof gets in a second of the clock, and how many seconds of the first machine each of them is worth."""

    name: str
    share: Callable[[float], float]
    worth: Callable[[float], float]


class Told(NamedTuple):
    """What was told, and when."""

    now: float
    to_go: float


def always(value: float) -> Callable[[float], float]:
    return lambda part: value


def from_middle(value: float) -> Callable[[float], float]:
    return lambda part: value if part >= 0.5 else 1.0


MACHINES = (
    Machine("as the first machine", always(1.0), always(1.0)),
    Machine("with other work from the beginning", always(0.4), always(1.0)),
    Machine("slower from the beginning", always(1.0), always(0.4)),
    Machine("with other work from the middle on", from_middle(0.5), always(1.0)),
    Machine("with much other work from the middle on", from_middle(0.25), always(1.0)),
    Machine("slower from the middle on", always(1.0), from_middle(0.4)),
    Machine("both from the middle on", from_middle(0.5), from_middle(0.6)),
    Machine("with other work at first", lambda part: 1.0 if part >= 0.15 else 0.3, always(1.0)),
)


def plan_of(lanes: int) -> Plan:
    """A broad part, and a chain whose crates stand one behind the other, on all of the broad part."""
    broad = [f"broad{at}" for at in range(24)]
    chain = [f"chain{at}" for at in range(9)]
    below = {it: broad[: at // 6 * 6] for at, it in enumerate(broad)}
    below |= {it: [*broad, *chain[:at]] for at, it in enumerate(chain)}
    stored = {it: 40.0 + 37 * at % 160 for at, it in enumerate(below)}
    return Plan(below, "program", stored | {"program": 100.0}, lanes)


def needed(plan: Plan) -> dict[str, float]:
    """The seconds that proofs really need: from two thirds to four thirds of those that are stored."""
    parts = (1.0, 0.7, 1.3, 0.85, 1.15, 0.67, 1.33)
    return {it: seconds * parts[at % len(parts)] for at, (it, seconds) in enumerate(plan.seconds.items())}


def built(machine: Machine, plan: Plan) -> Iterator[Told]:
    """What is told while the program is built, whenever a proof ends and once a minute; and the end."""
    course, left = Course(plan), needed(plan)
    whole, now, told = sum(left.values()), 0.0, 0.0
    used = {it.crate: 0.0 for it in course.begin(now)}
    while course.running:
        now += LOOK
        part = 1 - sum(left.values()) / whole
        share, worth = machine.share(part), machine.worth(part)
        for crate in course.running:
            used[crate] += LOOK * share
            left[crate] = max(0.0, left[crate] - LOOK * share * worth)
        course.note(now, used)
        ended = [it for it in course.running if not left[it]]
        for crate in ended:
            course.end(now, crate, used[crate])
        used |= {it.crate: 0.0 for it in course.begin(now)}
        if course.running and (ended or now - told >= 60):
            told = now
            yield Told(now, course.to_go())
    yield Told(now, 0.0)


def wrong(machine: Machine, lanes: int) -> Iterator[str]:
    """What is told in the second half of a build and would mislead."""
    *told, end = built(machine, plan_of(lanes))
    late = [it for it in told if it.now >= end.now / 2]
    for it in late:
        takes = end.now - it.now
        if not LEAST * takes <= it.to_go <= MOST * takes + BESIDE * end.now:
            at, whole, said, due = (f"{seconds / 60:.1f}" for seconds in (it.now, end.now, it.to_go, takes))
            where = f"on a machine {machine.name}, {lanes} processors, after {at} of {whole} minutes"
            yield f"{where} it says that {said} are to go, and takes {due}"
    if len(late) < 10:
        yield f"on a machine {machine.name} it tells {len(late)} times in the second half"


# A process whose child counts, and which then waits for longer than anybody waits for it.
COUNTS = "(i=0; while [ $i -lt 200000 ]; do i=$((i+1)); done); exec sleep 1000"


def uses_are_read() -> Iterator[str]:
    """Of a process that is under way it is found out what it has used, and its children."""
    with subprocess.Popen(["sh", "-c", COUNTS], start_new_session=True) as process:
        last, used = time.monotonic() + PATIENCE, 0.0
        while used == 0 and process.poll() is None and time.monotonic() < last:
            time.sleep(0.05)
            used = used_by_sessions().get(process.pid, 0.0)
        os.killpg(process.pid, signal.SIGKILL)
    if used == 0:
        yield "it does not find out what a proof under way has used"


def tried() -> Iterator[str]:
    """Each machine, with one, two and four processors; and a process of this one."""
    for machine in MACHINES:
        for lanes in (1, 2, 4):
            yield from wrong(machine, lanes)
    yield from uses_are_read()
