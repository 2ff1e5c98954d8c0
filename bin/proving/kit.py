"""Proofs under way: processes of the kit's command `rt`, and what they leave."""

import contextlib
import os
import shutil
import signal
import subprocess
import tempfile
import time
from collections.abc import Iterable
from pathlib import Path
from typing import NamedTuple, Optional

TOP = Path(__file__).resolve().parent.parent.parent
CRATES = TOP / "crates"
PARTS = ("src", "specs", "proofs")
TICKS = os.sysconf("SC_CLK_TCK")
# Places in /proc/PID/stat behind the name: the session, and the times of a process and of its children.
SESSION, TIMES = 3, slice(11, 15)


class NotProved(Exception):
    """A crate is not proved, or the program not built; and what the kit said of it."""

    def __init__(self, why: str, said: bytes) -> None:
        super().__init__(why)
        self.said = said


class Ended(NamedTuple):
    """How a process ended, and the processor seconds that it took, with those it waited for."""

    status: int
    used: float


def used_by_sessions() -> dict[int, float]:
    """The processor seconds that the processes of each session have used."""
    used: dict[int, float] = {}
    for entry in Path("/proc").glob("[0-9]*/stat"):
        with contextlib.suppress(OSError):
            told = entry.read_text(errors="replace").rpartition(")")[2].split()
            session, ticks = int(told[SESSION]), sum(map(int, told[TIMES]))
            used[session] = used.get(session, 0.0) + ticks / TICKS
    return used


class Command:
    """A command of the kit under way in a folder, in a session of its own. What it says is kept in a room."""

    def __init__(self, crate: str, words: Iterable[str], folder: Path, room: Path) -> None:
        self.crate, self.room = crate, room
        self.put, self.said = room / "put", room / "said"
        with open(self.put, "wb") as put, open(self.said, "wb") as said:
            self.process = subprocess.Popen(
                ["rt", *words],
                cwd=folder,
                start_new_session=True,
                stdin=subprocess.DEVNULL,
                stdout=put,
                stderr=said,
            )

    def ended(self) -> Optional[Ended]:
        """How it ended, or nothing while it is under way."""
        number, status, usage = os.wait4(self.process.pid, os.WNOHANG)
        return Ended(os.waitstatus_to_exitcode(status), usage.ru_utime + usage.ru_stime) if number else None

    def end(self) -> None:
        """Ends it, and all that it began."""
        with contextlib.suppress(ProcessLookupError, ChildProcessError):
            os.killpg(self.process.pid, signal.SIGKILL)
            os.waitpid(self.process.pid, 0)


class Proof(Command):
    """The proof of one crate, in a copy of what it stands on: two in one folder wait for each other."""

    def __init__(self, crate: str, below: Iterable[str], jobs: int, rooms: Path) -> None:
        room = Path(tempfile.mkdtemp(prefix=f"{crate}-", dir=rooms))
        self.own = room / "crates" / crate
        furnish(room, crate, {*below, crate})
        super().__init__(crate, ["lib", "--jobs", str(jobs)], self.own, room)

    def take(self, status: int) -> None:
        """Takes what was proved into the repository."""
        if status != 0:
            told = self.put.read_bytes() + self.said.read_bytes()
            raise NotProved(f"{self.crate} is not proved", told)
        to = CRATES / self.crate / "out"
        to.mkdir(exist_ok=True)
        for made in (self.own / "out").iterdir():
            shutil.rmtree(to / made.name, ignore_errors=True)
            os.rename(made, to / made.name)
        shutil.rmtree(self.room, ignore_errors=True)


class Building(Command):
    """The proof of the program, which is built then. Without words it answers its usage."""

    def __init__(self, program: str, rooms: Path) -> None:
        # A source that is changed from now on is newer than the program.
        self.started = time.time_ns()
        room = Path(tempfile.mkdtemp(prefix=f"{program}-", dir=rooms))
        super().__init__(program, ["run", "--"], CRATES / program, room)

    def take(self, status: int) -> None:
        """Sees that the program is there, and answers."""
        made = CRATES / self.crate / "out" / self.crate
        if status != 2 or not self.put.read_bytes().startswith(b"usage: ") or not made.exists():
            raise NotProved(f"{self.crate} could not be built", self.said.read_bytes())
        os.utime(made, ns=(self.started, self.started))
        self.end()


def furnish(room: Path, crate: str, names: set[str]) -> None:
    """Copies the sources of these crates, and links what is proved of them."""
    lines = (TOP / "crates.txt").read_text().splitlines(True)
    room.joinpath("crates.txt").write_text("".join(it for it in lines if it.split(":")[0] in names))
    for name in names:
        for part in (it for it in PARTS if (CRATES / name / it).is_dir()):
            shutil.copytree(CRATES / name / part, room / "crates" / name / part)
    libraries = [Path("crates", name, "out", "rlib") for name in names]
    kept = Path("crates", crate, "out", "incremental")
    for it in (it for it in [*libraries, kept] if (TOP / it).is_dir()):
        shutil.copytree(TOP / it, room / it, copy_function=os.link)
