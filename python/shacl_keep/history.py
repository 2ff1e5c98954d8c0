"""Which changes can be taken back: the program keeps a hundred, and one change of a user may be several
there."""

KEPT = 100  # how many changes the program keeps


class History:
    """How many changes of the program each change of the user is: those that are made, and those that were
    taken back. `hidden` ones, at the bottom, are no user's."""

    def __init__(self, hidden: int = 0) -> None:
        self._hidden = hidden
        self._made: list[int] = []
        self._undone: list[int] = []

    @property
    def can_undo(self) -> bool:
        return bool(self._made)

    @property
    def can_redo(self) -> bool:
        return bool(self._undone)

    def enter(self, steps: int) -> None:
        """A change of so many steps was made. Of what the program no longer keeps, none is taken back in
        part."""
        if not steps:
            return
        self._undone.clear()
        self._made.append(steps)
        while self._made and self._hidden + sum(self._made) > KEPT:
            lost = self._hidden + sum(self._made) - KEPT
            if lost > self._hidden:
                self._hidden += self._made.pop(0)
            self._hidden -= min(lost, self._hidden)

    def undo(self) -> int:
        """The steps of the last change, which is taken back."""
        self._undone.append(self._made.pop())
        return self._undone[-1]

    def redo(self) -> int:
        """The steps of the change that is made again."""
        self._made.append(self._undone.pop())
        return self._made[-1]

    def forget_undone(self) -> None:
        """What was taken back is not to be made again."""
        self._undone.clear()
