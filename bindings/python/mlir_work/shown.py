"""The operations of a session as dictionaries: read by numbers through the library, from what the program shows, or
from printed text."""
import abc
import re
from typing import Callable, Dict, Iterable, List, Optional, Sequence

from .data import OperationData, data_from
from .errors import Refused
from .handles import data_of
from .operations import Operation
from .positions import Positions
from .reader import Reader
from .reply import lines_of
from .values import op_text

_NUMBER = re.compile(r" // #(\d+)$", re.M)
# The largest number of operations that is asked for.
_MOST = 2**32 - 1


class Shown(abc.ABC):
    """The operations of a module until its next edit. `positions` are kept for the text that was read, or None."""

    def __init__(self, positions: Optional[Positions] = None) -> None:
        self._positions = positions

    @abc.abstractmethod
    def numbers(self) -> List[int]:
        """Returns the numbers of all operations, in pre-order."""

    @abc.abstractmethod
    def _data(self, number: int) -> Optional[OperationData]:
        """Returns an operation, without its position."""

    def page(self, numbers: Sequence[int]) -> List[OperationData]:
        """Returns some operations, without those that the module doesn't have."""
        return [it for it in map(self.data, numbers) if it is not None]

    def data(self, number: int) -> Optional[OperationData]:
        """Returns an operation, or None if the module doesn't have it."""
        found = self._data(number)
        if found is not None and self._positions is not None:
            found["line"], found["column"] = self._positions.get(number, (None, None))
        return found


class OfText(Shown):
    """The operations that `print ids` printed."""

    def __init__(self, operations: Sequence[Operation], positions: Optional[Positions] = None) -> None:
        super().__init__(positions)
        self._operations = {it.number: it for it in operations}

    def numbers(self) -> List[int]:
        return list(self._operations)

    def _data(self, number: int) -> Optional[OperationData]:
        found = self._operations.get(number)
        return None if found is None else found.to_dict()


class OfLines(Shown):
    """The operations of lines that `show` printed."""

    def __init__(self, lines: Iterable[str], positions: Optional[Positions] = None) -> None:
        super().__init__(positions)
        self._known = {int(it["id"][1:]): it for it in map(data_from, lines)}

    def numbers(self) -> List[int]:
        return list(self._known)

    def _data(self, number: int) -> Optional[OperationData]:
        return self._known.get(number)


class OfLibrary(Shown):
    """The operations that the library reads. It keeps the places of the operations that it has read."""

    def __init__(self, reader: Reader, positions: Optional[Positions] = None) -> None:
        super().__init__(positions)
        self._reader = reader
        self._places: Dict[int, int] = {}

    def numbers(self) -> List[int]:
        return self._reader.operations()

    def _data(self, number: int) -> Optional[OperationData]:
        return data_of(self._reader, number, self._places)


class OfProgram(Shown):
    """The operations that the program shows, page by page. `ask` runs a line and returns what it shows. Each page that
    is read out of order is twice as long as the last one, so that reading all operations takes few lines."""

    def __init__(self, ask: Callable[[str], str], positions: Optional[Positions] = None) -> None:
        super().__init__(positions)
        self._ask, self._size = ask, 1
        self._known: Dict[int, OperationData] = {}
        self._numbers: Optional[List[int]] = None

    def numbers(self) -> List[int]:
        if self._numbers is None:
            self._numbers = list(dict.fromkeys(map(int, _NUMBER.findall(self._ask("print ids")))))
        return list(self._numbers)

    def page(self, numbers: Sequence[int]) -> List[OperationData]:
        there = set(self.numbers())
        wanted = [it for it in numbers if it in there]
        if any(it not in self._known for it in wanted):
            self._read(wanted[0], len(wanted))
        return super().page(wanted)

    def _read(self, first: int, count: int) -> None:
        """Reads a page."""
        for data in map(data_from, lines_of(self._ask(f"show {op_text(first)} {min(count, _MOST)}"))):
            self._known[int(data["id"][1:])] = data

    def _data(self, number: int) -> Optional[OperationData]:
        if number not in self._known:
            try:
                self._read(number, self._size)
            except Refused as fault:
                if fault.number != 20:
                    raise
                return None
            self._size *= 2
        found = self._known.get(number)
        return None if found is None else OperationData(**found)
