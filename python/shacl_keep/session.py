"""A session: shapes and data are kept in one running program, the data is edited, and the report is current
after each edit, with no more evaluated than the edit touches."""

import os
import sys
import threading
from collections.abc import Iterator, Sequence
from contextlib import contextmanager
from types import TracebackType
from typing import TYPE_CHECKING, Self, TypeAlias, cast

from .documents import Document, Source, Text, document, name_of
from .errors import LineRefused, NoAnswer, NoSpare, TextRefused
from .history import KEPT, History
from .process import Program
from .report import Change, Count, Loaded, Part, Refused, Report, Result, Slice
from .spelled import Blank, Iri, Literal, spell
from .stock import Stock

if TYPE_CHECKING:
    from rdflib import Graph

    from .rdf.terms import GraphTerms

# The name of a file, a text, or a graph of rdflib; or several of these.
AnySource: TypeAlias = "Source | Graph"
Sources: TypeAlias = "AnySource | Sequence[AnySource]"

EDITS = 10_000  # edits of a group of the program


def listed(sources: Sources) -> list[AnySource]:
    """One source, or several, as a list."""
    return list(sources) if isinstance(sources, (list, tuple)) else [cast(AnySource, sources)]


def _has_graph(sources: Sequence[AnySource]) -> bool:
    """Whether there is a graph of rdflib among them. There is none where nobody has imported that."""
    rdflib = sys.modules.get("rdflib")
    return rdflib is not None and any(isinstance(source, rdflib.Graph) for source in sources)


class Group:
    """Edits that wait until the `with` statement of `Session.group` ends, which makes all of them or none."""

    def __init__(self, session: "Session") -> None:
        self._session = session
        self.lines: list[str] = []
        self.change: Change | None = None  # what came of it, once it was made

    def insert(self, subject: object, predicate: object, value: object) -> None:
        self.lines.append(self._session.line("insert", subject, predicate, value))

    def remove(self, subject: object, predicate: object, value: object) -> None:
        self.lines.append(self._session.line("remove", subject, predicate, value))

    def __len__(self) -> int:
        return len(self.lines)


class Session:
    """Shapes and data that are kept, in one program that runs until `close`, or until the `with` statement
    ends.

    A source is the name of a file, a `Text`, or a graph of rdflib. Several are one graph together; each is a
    document of its own, so that its base, its prefixes and its labels are its own. Terms are those of
    `spelled`; in a session over a graph of rdflib also those of rdflib. Calls from several threads wait for
    one another. What the program refuses raises LineRefused, and changes nothing; each other exception of
    `errors` means that the session is over.

    Loading costs what the program takes to read and to evaluate all; an edit costs what the pairs of a shape
    and a focus node cost that it touches."""

    def __init__(
        self,
        shapes: Sources,
        data: Sources,
        *,
        base: str = "file:///",
        spare: int = 0,
        terms: "GraphTerms | None" = None,
        program: str | None = None,
        timeout: float | None = None,
    ) -> None:
        """Loads shapes and data; references stand over `base`, an absolute IRI. `spare` is how many new
        blank nodes may come in later. `timeout`, in seconds, is how long the program may be silent when an
        answer is due. Raises OSError where a file cannot be opened, TextRefused where a text has a fault,
        and NotRun where the program cannot be run."""
        self._lock = threading.RLock()
        self._base, self._how = base, (program, timeout)
        self._group: Group | None = None
        self.terms = terms
        self._shapes, self._data = self._taken("shapes", shapes), self._taken("data", data)
        stock = Stock(self._data, spare)
        with (
            document("shapes", self._shapes, base) as shapes_text,
            document("data", self._data, base, stock.stated) as data_text,
        ):
            self._program = Program(
                shapes_text.word,
                data_text.word,
                base=base,
                descriptors=[*shapes_text.descriptors, *data_text.descriptors],
                program=program,
                timeout=timeout,
            )
            try:
                self._first(shapes_text, data_text)
                self._history = History(self._forget(stock))
            except BaseException:
                self._program.kill()
                raise
        self._spare = stock.names

    def _taken(self, role: str, sources: Sources) -> list[Source]:
        """The sources of a role. Graphs of rdflib write themselves, by names that `terms` keeps."""
        each = listed(sources)
        if self.terms is None and _has_graph(each):
            from .rdf.terms import GraphTerms

            self.terms = GraphTerms()
        if self.terms is None:
            return cast(list[Source], each)
        return self.terms.take(role, each)

    def _first(self, shapes: Document, data: Document) -> None:
        """Reads the first report. A fault is told with the source that has it."""
        try:
            self._report: Report | None
            self._count: Count | None
            self._report, self._count = self._program.first()
        except TextRefused as refused:
            document, sources = (shapes, self._shapes) if refused.role == "shapes" else (data, self._data)
            source = name_of(sources[0]) if len(sources) == 1 else None
            if source is None and refused.at is not None:
                source = document.line_at(refused.at)
            raise TextRefused(refused.fault, source) from None

    def _forget(self, stock: Stock) -> int:
        """Takes the triples of spare labels out of the data, and gives how many changes that was."""
        steps, _ = self._changes(stock.removed)
        return steps

    # ---- the edits

    def line(self, word: str, *terms: object) -> str:
        """The line of a script with this word and these terms. Raises NotSpelled for a term that no line can
        hold, and TypeError for what is no term."""
        return f"{word} {' '.join(map(self._spelled, terms))} ."

    def _spelled(self, term: object) -> str:
        if isinstance(term, (Iri, Blank, Literal)):
            return spell(term)
        if self.terms is None:
            raise TypeError(f"this is no term: {term!r}")
        return self.terms.spelled(term, self.blank)

    def _spelled_shape(self, shape: object) -> str:
        if self.terms is None or isinstance(shape, (Iri, Blank)):
            return self._spelled(shape)
        return self.terms.spelled_shape(shape)

    def insert(self, subject: object, predicate: object, value: object) -> Change:
        """Inserts a triple. The change is told, and how many pairs were evaluated."""
        return self.make([self.line("insert", subject, predicate, value)])

    def remove(self, subject: object, predicate: object, value: object) -> Change:
        """Removes a triple."""
        return self.make([self.line("remove", subject, predicate, value)])

    @contextmanager
    def group(self) -> Iterator[Group]:
        """Gathers edits, and makes them as one change when the `with` statement ends: all, or none where one
        is refused or an exception ends the statement. Up to 1,000,000 edits; past 10,000 they are several
        changes of the program, made one after the other and taken back as one."""
        with self._lock:
            self._is_free("begin")
            group = self._group = Group(self)
            try:
                yield group
            finally:
                self._group = None
            group.change = self.make(group.lines)

    def make(self, lines: Sequence[str]) -> Change:
        """Makes edits, as `line` spells them, as one change."""
        with self._lock:
            self._is_free(lines[0] if lines else "commit")
            steps, change = self._changes(lines)
            self._history.enter(steps)
            return change

    def _is_free(self, line: str) -> None:
        if self._group is not None:
            raise LineRefused(line, 42, "GroupOpen")

    def _changes(self, lines: Sequence[str]) -> tuple[int, Change]:
        """Makes edits, and gives how many changes of the program that was."""
        if len(lines) > KEPT * EDITS:
            raise ValueError(f"a group has {KEPT * EDITS:,} edits at most, and this has {len(lines):,}")
        steps = evaluated = 0
        for start in range(0, len(lines), EDITS):
            try:
                change = self._commit(lines[start : start + EDITS])
            except LineRefused:
                self._take_back(steps)
                raise
            steps += change.changed
            evaluated += change.evaluated
        return steps, Change(steps > 0, evaluated)

    def _commit(self, lines: Sequence[str]) -> Change:
        """Makes edits, no more than a group may have."""
        if len(lines) == 1:
            return self._changed(lines[0])
        answers = self._program.ask(["begin", *lines])[1:]
        refused = [(line, answer) for line, answer in zip(lines, answers) if isinstance(answer, Refused)]
        try:
            if refused:
                raise LineRefused.of(*refused[0])
            return self._changed("commit")
        except LineRefused:
            self._ask("abandon")
            raise

    def _take_back(self, steps: int) -> None:
        """Takes back what was made of a group that was then refused."""
        if steps:
            self._program.ask(["undo"] * steps)
            self._history.enter(steps)
            self._history.undo()
            self._history.forget_undone()

    def undo(self) -> Change:
        """Takes the last change back, a group as a whole. Raises LineRefused, with code 46, where none is
        left."""
        with self._lock:
            self._is_free("undo")
            if not self._history.can_undo:
                raise LineRefused("undo", 46, "NothingToUndo")
            return self._turn("undo", self._history.undo())

    def redo(self) -> Change:
        """Makes the change again that was taken back last. Raises LineRefused, with code 47, where there is
        none."""
        with self._lock:
            self._is_free("redo")
            if not self._history.can_redo:
                raise LineRefused("redo", 47, "NothingToRedo")
            return self._turn("redo", self._history.redo())

    def _turn(self, word: str, steps: int) -> Change:
        changes = [self._changed(word) for _ in range(steps)]
        return Change(True, sum(change.evaluated for change in changes))

    def blank(self) -> Blank:
        """A blank node that is none of the data's yet. There are as many as the session was opened with as
        spare ones; NoSpare where none is left."""
        with self._lock:
            if not self._spare:
                raise NoSpare()
            return Blank(self._spare.pop())

    # ---- the shapes

    def load_shapes(self, shapes: Sources) -> Loaded:
        """Takes other shapes, and evaluates what they ask otherwise. They are judged before, by a run of
        their own: TextRefused leaves the session, and its shapes, as they are."""
        with self._lock:
            self._is_free("shapes")
            before = self.terms.shapes if self.terms else None
            sources = self._taken("shapes", shapes)
            try:
                return self._loaded(sources)
            except BaseException:
                if self.terms and before:
                    self.terms.shapes = before
                raise

    def _loaded(self, sources: list[Source]) -> Loaded:
        with document("shapes", sources, self._base) as text:
            self._judge(text)
            if text.file:
                name = f"/proc/{os.getpid()}/fd/{text.file.fileno()}"
            else:
                name = os.path.abspath(text.word)
            loaded = self._ask(f"shapes {spell(Literal(name))}")
        if not isinstance(loaded, Loaded):
            raise NoAnswer("shapes", str(loaded))
        self._report = self._count = None
        return loaded

    def _judge(self, text: Document) -> None:
        """Raises TextRefused where these shapes are refused."""
        program, timeout = self._how
        with Program(
            text.word,
            "/dev/null",
            base=self._base,
            descriptors=text.descriptors,
            program=program,
            timeout=timeout,
        ) as judge:
            judge.first()

    # ---- what is known

    @property
    def report(self) -> Report:
        """The report of the data as it is now. It is asked for once after each change."""
        with self._lock:
            if self._report is None:
                report = self._ask("report")
                if not isinstance(report, Report):
                    raise NoAnswer("report", str(report))
                self._report = report
            return self._report

    @property
    def results(self) -> tuple[Result, ...]:
        """The results of the report as it is now."""
        return self.report.results

    @property
    def count(self) -> Count:
        """How many triples, pairs of a shape and a focus node, and results there are now."""
        with self._lock:
            if self._count is None:
                count = self._ask("count")
                if not isinstance(count, Count):
                    raise NoAnswer("count", str(count))
                self._count = count
            return self._count

    @property
    def conforms(self) -> bool:
        """Whether there is no result now, of whatever severity."""
        return self.count.results == 0

    @property
    def notices(self) -> tuple[str, ...]:
        """What the program told beside its answers, as how many triples with sh:sparql it passed over."""
        return tuple(self._program.notices)

    @property
    def process(self) -> int:
        """The number of the program's process."""
        return self._program.process

    def slice(self, shape: object, node: object) -> Slice:
        """The triples on which the results of a shape at a node rest. Raises LineRefused, with code 45, where
        the shape is not evaluated at that node."""
        with self._lock:
            piece = self._ask(f"slice {self._spelled_shape(shape)} {self._spelled(node)}")
            if not isinstance(piece, Slice):
                raise NoAnswer("slice", str(piece))
            return piece

    # ---- lines

    def _ask(self, line: str) -> Part | None:
        (answer,) = self._program.ask([line])
        if isinstance(answer, Refused):
            raise LineRefused.of(line, answer)
        return answer

    def _changed(self, line: str) -> Change:
        answer = self._ask(line)
        if not isinstance(answer, Change):
            raise NoAnswer(line, str(answer))
        if answer.changed:
            self._report = self._count = None
        return answer

    def close(self) -> None:
        """Ends the program."""
        with self._lock:
            self._program.kill()

    def __enter__(self) -> Self:
        return self

    def __exit__(
        self, kind: type[BaseException] | None, error: BaseException | None, trace: TracebackType | None
    ) -> None:
        self.close()
