"""Finds where the operations of a module begin in its text."""
import bisect
from typing import Dict, List, Tuple

from .blocks.nesting import Nested, Walk

# The lines and the columns, both from 1, by the numbers of operations.
Positions = Dict[int, Tuple[int, int]]


# The tokens of the type of an operation without operands and results.
_NO_VALUES = [b":", b"(", b")", b"->", b"(", b")"]


class _Starts(Walk):
    """Goes over the tokens of a text, and notes the byte at which each operation begins, in pre-order. `are_roots` has
    for each operation that no other contains whether it would be the root if it were alone."""

    def __init__(self, text: bytes) -> None:
        super().__init__(text)
        self.starts: List[int] = []
        self.are_roots: List[bool] = []
        self._type = 0

    def operation(self):  # type: ignore[no-untyped-def]
        self.starts.append(self.cursor.now.start)
        found = super().operation()
        if not self.depth:
            of_type = [it.text for it in self.cursor.tokens[self._type:self._type + len(_NO_VALUES)]]
            self.are_roots.append(found.name == b"builtin.module" and of_type == _NO_VALUES)
        return found

    def type_of(self, found, start):  # type: ignore[no-untyped-def]
        self._type = self.cursor.place
        super().type_of(found, start)


def positions_of(text: bytes) -> Positions:
    """Returns the line and the column at which each operation of a text begins. Columns count bytes. A module that the
    text doesn't write has none. Places in a nested text are those in its source. Raises ModuleRefused if the text is no
    module."""
    walk = _Starts(text)
    walk.module()
    first = 0 if walk.are_roots == [True] else 1
    starts, source = walk.starts, text
    if isinstance(text, Nested):
        starts, source = [text.place(it) for it in starts], text.source
    ends = [at for at, byte in enumerate(source) if byte == 10]
    found: Positions = {}
    for number, start in enumerate(starts, first):
        line = bisect.bisect_left(ends, start)
        found[number] = line + 1, start - (ends[line - 1] if line else -1)
    return found
