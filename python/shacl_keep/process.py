"""One running program: lines in, answers out, with nothing that blocks for good.

A thread takes what the program writes all the time, so that neither side ever waits for the other, however
many lines are sent at once. A program that ends, that stops reading or that stays silent is an exception of
`errors`, and is then ended if it was not. The program also ends with whoever started it, since it reads its
script from a pipe that closes with them."""

import os
import re
import select
import subprocess
import threading
import weakref
from collections import deque
from collections.abc import Iterator, Sequence
from dataclasses import replace
from types import TracebackType
from typing import Self

from .errors import Closed, Ended, Killed, NoAnswer, NotRead, NotRun, PipeBroken, TextRefused, TimedOut
from .programs import program_path
from .report import Count, Fault, Lines, Notice, Other, Part, Refused, Report, Slice, parts_of

_PIECE = 1 << 16
# How long a program that was told to end, or that writes no more, is waited for, in seconds.
_PATIENCE = 10.0
# An answer to one of these has several lines. It ends where that of a count, which is sent behind it, begins.
_LONG = ("report", "slice")
# What stands before the first word of a line: blanks, and comments, which a carriage return ends.
_SKIPPED = re.compile(r"(?:[ \t\r]+|#[^\r]*)*")
_WORD = re.compile(r"[^ \t\r#]*")


class _Output:
    """What the program has written. A thread fills it; no more is kept of it than what was not yet read."""

    def __init__(self, descriptor: int) -> None:
        self.silence: float | None = None  # the seconds without a word after which it is given up
        self._pieces: deque[bytes] = deque()
        self._condition = threading.Condition()
        threading.Thread(target=self._fill, args=(descriptor,), name="shacl_keep", daemon=True).start()

    def _fill(self, descriptor: int) -> None:
        while True:
            try:
                piece = os.read(descriptor, _PIECE)
            except OSError:
                piece = b""
            with self._condition:
                self._pieces.append(piece)
                self._condition.notify()
            if not piece:
                os.close(descriptor)
                return

    def pieces(self) -> Iterator[bytes]:
        """What was written, as it comes. Raises TimedOut after a silence that is too long."""
        while True:
            with self._condition:
                if not self._condition.wait_for(lambda: self._pieces, self.silence):
                    raise TimedOut(self.silence or 0)
                piece = self._pieces.popleft()
            if not piece:
                return
            yield piece


def _end(child: "subprocess.Popen[bytes]") -> None:
    """Ends the child at once, if it has not ended."""
    if child.stdin:
        try:
            child.stdin.close()
        except OSError:
            pass
    if child.poll() is None:
        child.kill()
    child.wait()


def _first_word(line: str) -> str:
    """The first word of a line, or nothing where the line is blank or a comment, and so has no answer."""
    if "\n" in line:
        raise ValueError(f"a line of a script has no line feed: {line!r}")
    found = _SKIPPED.match(line)
    word = _WORD.match(line, found.end() if found else 0)
    return word[0] if word else ""


class Program:
    """A program that runs over texts, and answers lines until it is closed. Use it in a `with` statement, or
    call `close`. It is for one thread at a time."""

    def __init__(
        self,
        shapes: str,
        data: str,
        *,
        base: str = "file:///",
        descriptors: Sequence[int] = (),
        program: str | None = None,
        timeout: float | None = None,
    ) -> None:
        """Starts it over two files. `descriptors` are open files that it is to have, as /dev/fd/N. `program`
        is another than the one that is found. Raises NotRun where it cannot be run. With a `timeout`, in
        seconds, each call that waits so long for one more word raises TimedOut."""
        self.notices: list[str] = []
        self._asked = 0  # how many lines were asked before
        self._files = (shapes, data)
        self._timeout = timeout
        name = program or program_path()
        words = [name, "--base", base, "--", shapes, data, "/dev/stdin"]
        source, sink = os.pipe()
        try:
            # In a group of its own it does not get the interrupts of a terminal.
            self._child = subprocess.Popen(
                words,
                stdin=subprocess.PIPE,
                stdout=sink,
                pass_fds=tuple(descriptors),
                bufsize=0,
                process_group=0,
            )
        except OSError as error:
            os.close(source)
            raise NotRun(name, error.strerror or str(error)) from error
        finally:
            os.close(sink)
        assert self._child.stdin
        self._sink = self._child.stdin.fileno()
        os.set_blocking(self._sink, False)
        self._output = _Output(source)
        self._parts = parts_of(Lines(self._output.pieces()))
        self._finish = weakref.finalize(self, _end, self._child)
        self._is_closed = False

    # ---- lines and answers

    def first(self) -> tuple[Report, Count]:
        """The report of the texts as they are, and the counts. Raises TextRefused where one is refused. It is
        to be called once, before all lines."""
        with _Guard(self):
            self._send(b"count\n")
            report, count = self._take("count"), self._take("count")
            if not isinstance(report, Report) or not isinstance(count, Count):
                raise NoAnswer("count", str(report))
            return report, count

    def ask(self, lines: Sequence[str]) -> list[Part | None]:
        """The answers to lines of a script: one for each, or None for a blank one and a comment. A line that
        is refused is answered by a Refused, which counts the lines of all calls from 1, and those behind it
        are answered all the same."""
        firsts = list(map(_first_word, lines))
        counted = ("\ncount\n" if word in _LONG else "\n" for word in firsts)
        written = "".join(map(str.__add__, lines, counted)).encode()
        with _Guard(self):
            self._send(written)
            return [self._answer(word, line) for word, line in zip(firsts, lines)]

    def _answer(self, word: str, line: str) -> Part | None:
        self._asked += 1
        if not word:
            return None
        answer = self._take(line)
        if word in _LONG:
            self._take(line)
        return replace(answer, line=self._asked) if isinstance(answer, Refused) else answer

    def _take(self, line: str) -> Part:
        """The next answer, which is due to this line."""
        for part in self._parts:
            if isinstance(part, Notice):
                self.notices.append(part.said)
            elif isinstance(part, Fault):
                raise TextRefused(part)
            elif isinstance(part, (Report, Slice)) and not part.is_whole:
                break
            elif isinstance(part, Other):
                raise self._why_ended() if self._has_ended() else NoAnswer(line, part.line)
            else:
                return part
        raise self._why_ended()

    def _send(self, written: bytes) -> None:
        """Writes all of it. The program reads on, since what it writes is taken meanwhile."""
        left = memoryview(written)
        poll = select.poll()
        poll.register(self._sink, select.POLLOUT)
        milliseconds = None if self._timeout is None else int(self._timeout * 1000)
        while left:
            if not poll.poll(milliseconds):
                raise TimedOut(self._timeout or 0)
            try:
                left = left[os.write(self._sink, left[:_PIECE]) :]
            except BrokenPipeError:
                raise self._why_broken() from None

    # ---- the end

    def _has_ended(self) -> bool:
        try:
            self._child.wait(_PATIENCE)
        except subprocess.TimeoutExpired:
            return False
        return True

    def _why_ended(self) -> Ended | PipeBroken:
        """Why nothing more comes from the program."""
        if not self._has_ended():
            return PipeBroken()
        status = self._child.returncode
        if status < 0:
            return Killed(-status)
        return NotRead(self._files) if status == 4 else Ended(status)

    def _why_broken(self) -> Ended | PipeBroken | TextRefused:
        """Why the program reads no more: what it has written may tell of a fault."""
        self._output.silence = _PATIENCE
        try:
            fault = next((part for part in self._parts if isinstance(part, Fault)), None)
        except TimedOut:
            return PipeBroken()
        return TextRefused(fault) if fault else self._why_ended()

    @property
    def process(self) -> int:
        """The number of its process."""
        return self._child.pid

    @property
    def status(self) -> int | None:
        """The status that the program ended with, or the number of a signal with a minus before it; None
        while it runs."""
        return self._child.poll()

    def kill(self) -> None:
        """Ends it at once."""
        self._is_closed = True
        self._finish()

    def close(self) -> int:
        """Tells it that no more lines come, waits for its end, and gives its status. What it writes meanwhile
        is not kept."""
        self._is_closed = True
        if self._child.stdin:
            self._child.stdin.close()
        if not self._has_ended():
            self._child.kill()
        self._finish()
        return self._child.wait()

    def __enter__(self) -> Self:
        return self

    def __exit__(
        self, kind: type[BaseException] | None, error: BaseException | None, trace: TracebackType | None
    ) -> None:
        if not self._is_closed:
            self.close()


class _Guard:
    """Round an exchange of lines and answers: where it is broken off, by whatever, nobody knows any more
    which answer is whose, so that the program is ended."""

    def __init__(self, program: Program) -> None:
        self.program = program

    def __enter__(self) -> None:
        if self.program._is_closed:
            raise Closed()
        self.program._output.silence = self.program._timeout

    def __exit__(
        self, kind: type[BaseException] | None, error: BaseException | None, trace: TracebackType | None
    ) -> None:
        if kind is not None:
            self.program.kill()
