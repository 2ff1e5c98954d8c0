"""What may go wrong between a user and the program: exceptions with fields, whose text is one plain
sentence."""

import signal
from collections.abc import Sequence

from .causes import cause
from .plain import plain
from .report import Fault, Refused


class KeepError(Exception):
    """What each exception of this package is."""


class NotRun(KeepError):
    """A program could not be run: which, and why."""

    def __init__(self, program: str, why: str) -> None:
        super().__init__(f"{plain(program)} cannot be run: {why}")
        self.program, self.why = program, why


class TextRefused(KeepError):
    """A text of shapes or of data is refused. `source` is what it was given as: a file's name, where it is
    one. `at` counts bytes of that text from 0."""

    def __init__(self, fault: Fault, source: str | None = None) -> None:
        where = fault.role if source is None else f"{fault.role}: {source}"
        place = "" if fault.at is None else f", at byte {fault.at}"
        facts = [("shape", fault.shape), ("predicate", fault.predicate), ("term", fault.term)]
        told = "".join(f", {word} {plain(str(term))}" for word, term in facts if term is not None)
        super().__init__(f"{plain(where)}: {fault.name}{place}{told}: {cause(fault.name)}")
        self.fault, self.source = fault, source

    @property
    def role(self) -> str:
        return self.fault.role

    @property
    def code(self) -> int:
        return self.fault.code

    @property
    def name(self) -> str:
        return self.fault.name

    @property
    def at(self) -> int | None:
        return self.fault.at


class LineRefused(KeepError):
    """A line of a script is refused, and nothing was changed by it. `at` counts bytes of the line from 0."""

    role = "script"

    def __init__(self, line: str, code: int, name: str, at: int | None = None) -> None:
        place = "" if at is None else f", at byte {at}"
        super().__init__(f"{plain(line)}: {name}{place}: {cause(name)}")
        self.line, self.code, self.name, self.at = line, code, name, at

    @classmethod
    def of(cls, line: str, refused: Refused) -> "LineRefused":
        """The refusal of this line."""
        return cls(line, refused.code, refused.name, refused.at)


# What the program says by its status alone.
_STATUSES = {
    2: "it could not read the words that it was called with: the base may be no absolute IRI",
    4: "it could not read one of its files",
    5: "it could not write its output",
    6: "memory was wanting",
}


class Ended(KeepError):
    """The program ended before it answered: with this status, and because of this."""

    def __init__(self, status: int, why: str | None = None) -> None:
        self.status = status
        self.why = why or _STATUSES.get(status, f"with status {status}")
        super().__init__(f"the program has ended: {self.why}")


class Killed(Ended):
    """The program was ended by a signal. `status` is the signal's number with a minus before it."""

    def __init__(self, number: int) -> None:
        self.signal = number
        super().__init__(-number, f"signal {number} ({signal.strsignal(number)}) ended it")


class NotRead(Ended):
    """The program could not read a file that it was given."""

    def __init__(self, files: Sequence[str]) -> None:
        self.files = tuple(files)
        super().__init__(4, f"it could not read {', '.join(map(plain, files))}")


class PipeBroken(KeepError):
    """The program reads no more lines, and has not ended."""

    def __init__(self) -> None:
        super().__init__("the program reads no more lines, and has not ended")


class TimedOut(KeepError):
    """The program gave no answer for so many seconds. It was ended then."""

    def __init__(self, seconds: float) -> None:
        super().__init__(f"the program gave no answer within {seconds:g} seconds, and was ended")
        self.seconds = seconds


class NoAnswer(KeepError):
    """The program wrote what answers no line of this kind."""

    def __init__(self, line: str, answer: str) -> None:
        super().__init__(f"the program answered {plain(line)} with {plain(answer)}")
        self.line, self.answer = line, answer


class Closed(KeepError):
    """A call of a session, or of a program, that was closed."""

    def __init__(self) -> None:
        super().__init__("this was closed")


class NoSpare(KeepError):
    """A new blank node came, and no spare name for one is left."""

    def __init__(self) -> None:
        super().__init__("no name for a new blank node is left: open the session with more `spare` ones")
