"""Edits and reports by interned numbers: names, types and attributes are interned once, and no text is parsed again."""
import ctypes
from operator import index
from typing import Any, Callable, Dict, List, Mapping, NamedTuple, Sequence, SupportsIndex, Tuple, Union

from .errors import Refused, SessionClosed
from .handles import ValueHandle
from .reader import CValue, numbers_of
from .values import Value, value_of

KINDS = ("uses", "symbols", "diagnostics", "effects", "dead", "constants", "unreached")
# The words of the reports, by their numbers, and the kinds of cells.
WORDS = ("def", "duplicate", "use", "unresolved", "mismatch", "unknown", "allocate", "free", "read", "write")
CELLS = ("operation", "value", "number", "name", "attribute", "constant", "rule", "word")
_PLACES = {"before": 0, "after": 1, "start": 2, "end": 3}
_NO_SESSION, _REFUSED_AT, _MANY = 10, 9, 64


class _Spot(ctypes.Structure):
    _fields_ = [("kind", ctypes.c_uint32), ("operation", ctypes.c_uint32), ("region", ctypes.c_uint32)]


class _New(ctypes.Structure):
    _fields_ = [("spot", _Spot), ("name", ctypes.c_uint32)]


class _NewEntry(ctypes.Structure):
    _fields_ = [("key", ctypes.c_uint32), ("attribute", ctypes.c_uint32), ("is_property", ctypes.c_uint32)]


class _Cell(ctypes.Structure):
    _fields_ = [("kind", ctypes.c_uint32), ("value", CValue), ("low", ctypes.c_uint64), ("high", ctypes.c_uint64),
                ("left", ctypes.c_size_t)]


class Cell(NamedTuple):
    """A cell of a report row: a word of `CELLS`, and what it has: the number of an operation, a number, a name, an
    attribute or a rule; a `Result` or an `Argument`; a word; or for a constant its value below 2^w and its width w,
    which is 0 for index."""

    kind: str
    item: Union[int, str, Value, Tuple[int, int]]


def declare(calls: ctypes.CDLL, handle: type, answer: type) -> bool:
    """Declares the calls by numbers, if the library has them, and returns whether it has."""
    if not hasattr(calls, "mlir_work_insert"):
        return False
    number, size, text = ctypes.c_uint32, ctypes.c_size_t, ctypes.c_char_p
    for name, takes in (
            ("name", [text, size]), ("type", [text, size]), ("attribute", [text, size]),
            ("insert", [ctypes.POINTER(_New), ctypes.POINTER(CValue), size, ctypes.POINTER(number), size,
                        ctypes.POINTER(_NewEntry), size]),
            ("set_attribute", [number, number, number]), ("drop_attribute", [number, number]),
            ("set_operand", [number, number, ctypes.POINTER(CValue)]), ("erase", [number]),
            ("replace", [ctypes.POINTER(CValue), ctypes.POINTER(CValue)]), ("move", [number, ctypes.POINTER(_Spot)]),
            ("report", [number, ctypes.POINTER(_Cell), size])):
        call = getattr(calls, f"mlir_work_{name}")
        call.argtypes, call.restype = [handle, *takes, ctypes.POINTER(answer)], None
    return True


def _spot(place: str) -> _Spot:
    """Returns a place of `before`, `after`, `start` or `end` as numbers."""
    word, operation, *region = place.split()
    return _Spot(_PLACES[word], int(operation[1:]), int(region[0]) if region else 0)


def _value(value: Union[Value, ValueHandle, str]) -> Value:
    """Returns a value, also of a handle or of its name."""
    if isinstance(value, ValueHandle):
        return value.value
    return value_of(value) if isinstance(value, str) else value


class Numbers:
    """Edits a session by interned numbers. Each call raises Refused as the command of the same name does; a number that
    the session doesn't have is refused with 60."""

    def __init__(self, calls: ctypes.CDLL, held: ctypes.Structure, answer: Any, words: Mapping[int, str],
                 edited: Callable[[], None]) -> None:
        self._calls, self._held, self._answer, self._words = calls, held, answer, words
        self._edited = edited
        self._known: Dict[Tuple[str, str], int] = {}

    def name(self, text: str) -> int:
        """Returns the number of a name. A new name is interned."""
        return self._interned("name", text)

    def type(self, text: str) -> int:
        """Returns the number of a type. A new type is interned."""
        return self._interned("type", text)

    def attribute(self, text: str) -> int:
        """Returns the number of an attribute, such as `5 : i32`. A new attribute is interned."""
        return self._interned("attribute", text)

    def insert(self, place: str, name: str, operands: Sequence[Union[Value, ValueHandle, str]] = (),
               results: Sequence[str] = (), properties: Mapping[str, str] = {},
               attributes: Mapping[str, str] = {}) -> int:
        """Inserts an operation without regions, and returns its number. Types and attributes are texts, which are
        interned once. An inherent attribute is put among the properties. A key that is given twice is refused."""
        new = _New(_spot(place), self.name(name))
        values = (CValue * max(len(operands), 1))(*(numbers_of(_value(it)) for it in operands))
        types = (ctypes.c_uint32 * max(len(results), 1))(*map(self.type, results))
        entries = [_NewEntry(self.name(key), self.attribute(them[key]), is_property)
                   for is_property, them in ((1, properties), (0, attributes)) for key in them]
        items = (_NewEntry * max(len(entries), 1))(*entries)
        return self._call("insert", new, values, len(operands), types, len(results), items, len(entries))

    def set_attribute(self, operation: SupportsIndex, key: str, attribute: str) -> None:
        """Sets the entry of an operation at a key."""
        self._call("set_attribute", index(operation), self.name(key), self.attribute(attribute))

    def drop_attribute(self, operation: SupportsIndex, key: str) -> None:
        """Removes the entry of an operation at a key."""
        self._call("drop_attribute", index(operation), self.name(key))

    def set_operand(self, operation: SupportsIndex, place: int, value: Union[Value, ValueHandle, str]) -> None:
        """Sets the operand of an operation at a place, counted from 0."""
        self._call("set_operand", index(operation), place, numbers_of(_value(value)))

    def replace(self, old: Union[Value, ValueHandle, str], new: Union[Value, ValueHandle, str]) -> None:
        """Replaces all uses of the first value by the second one."""
        self._call("replace", numbers_of(_value(old)), numbers_of(_value(new)))

    def erase(self, operation: SupportsIndex) -> None:
        """Erases an operation, with all operations inside it."""
        self._call("erase", index(operation))

    def move(self, operation: SupportsIndex, place: str) -> None:
        """Moves an operation, with all operations inside it."""
        self._call("move", index(operation), _spot(place))

    def report(self, kind: str) -> List[Tuple[Cell, ...]]:
        """Returns the rows of an analysis as cells of numbers."""
        cells, count = (_Cell * _MANY)(), 0
        number = KINDS.index(kind) + 1
        count = self._call("report", number, cells, len(cells), is_edit=False)
        if count > len(cells):
            cells = (_Cell * count)()
            self._call("report", number, cells, count, is_edit=False)
        rows, row = [], []
        for cell in cells[:count]:
            row.append(_cell(cell))
            if not cell.left:
                rows.append(tuple(row))
                row = []
        return rows

    def _interned(self, kind: str, text: str) -> int:
        number = self._known.get((kind, text))
        if number is None:
            data = text.encode("utf-8", "surrogateescape")
            number = self._known[kind, text] = self._call(kind, data, len(data), is_edit=False)
        return number

    def _call(self, name: str, *arguments: Any, is_edit: bool = True) -> int:
        """Makes a call, and returns the number of its answer. Raises Refused and SessionClosed."""
        answer = self._answer
        getattr(self._calls, f"mlir_work_{name}")(self._held, *arguments, answer)
        if answer.outcome == _NO_SESSION:
            raise SessionClosed("the session is closed")
        if answer.refusal:
            at = answer.number if answer.outcome == _REFUSED_AT else None
            raise Refused(answer.refusal, self._words[answer.refusal], at, line=name)
        if is_edit:
            self._edited()
        return int(answer.number)


def _cell(cell: _Cell) -> Cell:
    """Returns a cell with what it has."""
    kind = CELLS[cell.kind]
    if kind == "operation":
        return Cell(kind, cell.value.operation)
    if kind == "value":
        return Cell(kind, cell.value.value())
    if kind == "constant":
        return Cell(kind, (cell.low | cell.high << 64, cell.value.place))
    return Cell(kind, WORDS[cell.low] if kind == "word" else cell.low)
