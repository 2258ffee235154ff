"""Reads the operations of a module that the library holds, by numbers."""
import ctypes
from typing import Any, Dict, Iterator, List, NamedTuple, Optional, Tuple

from .errors import Error, SessionClosed
from .values import Argument, Result, Value

_NONE, _NO_MEMORY, _RESULT = 2**64 - 1, 2**64 - 2, 2**32 - 1
_NEAR_USES, _NEAR_BYTES = 16, 256
# (what makes a named tuple without a call of Python)
_tuple: Any = tuple.__new__
# How many operations a table reads by one call, and how many items it has space for at first.
_PAGE, _ITEMS = 512, 8192


class CValue(ctypes.Structure):
    """A value as a C struct."""

    _fields_ = [("operation", ctypes.c_uint32), ("region", ctypes.c_uint32), ("place", ctypes.c_uint32)]

    def value(self) -> Value:
        """Returns the value."""
        if self.region == _RESULT:
            return Result(self.operation, self.place)
        return Argument(self.operation, self.region, self.place)


def numbers_of(value: Value) -> CValue:
    """Returns a value as a C struct."""
    return CValue(value.operation, value.region if type(value) is Argument else _RESULT, value.place)


class TableResult(NamedTuple):
    """A result of an operation of a table: its type, and its uses, each the number of an operation and the number of
    its operand, in any order."""

    type: str
    uses: Tuple[Tuple[int, int], ...]


class TableRow(NamedTuple):
    """An operation of a table, by its number: its name, its operands and its results."""

    operation: int
    name: str
    operands: Tuple[Value, ...]
    results: Tuple[TableResult, ...]


class _Use(ctypes.Structure):
    _fields_ = [("operation", ctypes.c_uint32), ("operand", ctypes.c_uint32)]


class _Entry(ctypes.Structure):
    _fields_ = [("key", ctypes.c_uint32), ("attribute", ctypes.c_uint32)]


class Counts(ctypes.Structure):
    """How many operands, results, properties, attributes and regions an operation has."""

    _fields_ = [(name, ctypes.c_size_t) for name in ("operands", "results", "properties", "attributes", "regions")]


def declare(calls: ctypes.CDLL, handle: type) -> bool:
    """Declares the calls that read operations, if the library has them, and returns whether it has."""
    if not hasattr(calls, "mlir_work_operations"):
        return False
    number, size, wide = ctypes.c_uint32, ctypes.c_size_t, ctypes.c_uint64
    value, text = ctypes.POINTER(CValue), ctypes.c_char_p
    for name, takes, gives in (
            ("operations", [ctypes.POINTER(number), size], wide), ("has", [number], ctypes.c_bool),
            ("root", [], wide), ("parent", [number], wide), ("next", [number], wide), ("previous", [number], wide),
            ("first", [number, number], wide), ("last", [number, number], wide), ("region_of", [number], wide),
            ("name_of", [number], wide), ("counts", [number, ctypes.POINTER(Counts)], ctypes.c_bool),
            ("operand", [number, size, value], ctypes.c_bool), ("argument_count", [number, number], wide),
            ("value_type", [value], wide), ("uses", [value, ctypes.POINTER(_Use), size], size),
            ("property_at", [number, size, ctypes.POINTER(_Entry)], ctypes.c_bool),
            ("attribute_at", [number, size, ctypes.POINTER(_Entry)], ctypes.c_bool),
            ("name_text", [number, text, size], wide), ("type_text", [number, text, size], wide),
            ("attribute_text", [number, text, size], wide)):
        call = getattr(calls, f"mlir_work_{name}")
        call.argtypes, call.restype = [handle, *takes], gives
    if hasattr(calls, "mlir_work_records"):  # an older library has no such call
        calls.mlir_work_records.argtypes = [handle, ctypes.c_void_p, size, ctypes.c_void_p, size]
        calls.mlir_work_records.restype = size
    return True


class Reader:
    """Reads the module of a handle of the library. An operation that isn't in the module has no name, no neighbours and
    counts of 0. Texts of names, types and attributes are kept, since their numbers keep their meanings."""

    def __init__(self, calls: ctypes.CDLL, held: ctypes.Structure) -> None:
        self._calls, self._held, self._at = calls, held, ctypes.byref(held)
        self._value, self._entry, self._counts = CValue(), _Entry(), Counts()
        self._value_at, self._counts_at = ctypes.byref(self._value), ctypes.byref(self._counts)
        self._uses = (_Use * _NEAR_USES)()
        self._bytes = ctypes.create_string_buffer(_NEAR_BYTES)
        # (the calls that a walk makes most)
        self._has, self._name_of, self._operand = calls.mlir_work_has, calls.mlir_work_name_of, calls.mlir_work_operand
        self._count, self._value_type = calls.mlir_work_counts, calls.mlir_work_value_type
        self._fill = calls.mlir_work_uses
        self._names: Dict[int, str] = {}
        self._types: Dict[int, str] = {}
        self._attributes: Dict[int, str] = {}

    def operations(self) -> List[int]:
        """Returns all operations in pre-order. Raises MemoryError, and SessionClosed."""
        numbers, count = self._listed()
        return numbers[:count]

    def table(self) -> Iterator[TableRow]:
        """Yields all operations in pre-order. A call of the library reads 512 operations. Raises Error if the library
        has no such call, MemoryError, and SessionClosed."""
        if not hasattr(self._calls, "mlir_work_records"):
            raise Error("a table needs a newer library")
        numbers, count = self._listed()
        items = (ctypes.c_uint32 * (3 * _ITEMS))()
        at = 0
        while at < count:
            page = min(_PAGE, count - at)
            written = self._calls.mlir_work_records(self._at, ctypes.byref(numbers, 4 * at), page, items,
                                                    len(items) // 3)
            rows = self._rows(numbers[at:at + page], items[:3 * written])
            if not rows:
                items = (ctypes.c_uint32 * (2 * len(items)))()
            yield from rows
            at += len(rows)

    def _listed(self) -> Tuple[Any, int]:
        """Returns all operations in pre-order as an array, and how many they are."""
        none = (ctypes.c_uint32 * 1)()
        count = self._counted(self._calls.mlir_work_operations(self._at, none, 0))
        numbers = (ctypes.c_uint32 * max(count, 1))()
        self._counted(self._calls.mlir_work_operations(self._at, numbers, count))
        return numbers, count

    def _rows(self, operations: List[int], words: List[int]) -> List[TableRow]:
        """Returns the records among the words of items that aren't cut off."""
        found: List[TableRow] = []
        at, size, known, names, types = 0, len(words), self._known, self._names, self._types
        for operation in operations:
            if at == size:
                break
            name, operand_count, result_count = words[at:at + 3]
            begin, end = at + 3, at + 3 + 3 * operand_count
            operands = tuple([_tuple(Result, (it, place)) if region == _RESULT else Argument(it, region, place)
                              for it, region, place in
                              zip(words[begin:end:3], words[begin + 1:end:3], words[begin + 2:end:3])])
            results: List[TableResult] = []
            while len(results) < result_count and end < size:
                begin, number = end + 3, words[end]
                end = begin + 3 * words[end + 1]
                text = types.get(number) or known(types, "type", number)
                results.append(_tuple(TableResult, (text, tuple(zip(words[begin:end:3], words[begin + 1:end:3])))))
            if end > size or len(results) < result_count:
                break
            text = names.get(name) or (known(names, "name", name) if name != _RESULT else "")  # (erased meanwhile)
            found.append(_tuple(TableRow, (operation, text, operands, tuple(results))))
            at = end
        return found

    def has(self, operation: int) -> bool:
        """Returns whether an operation is in the module."""
        return bool(self._has(self._at, operation))

    def root(self) -> int:
        """Returns the root. Raises SessionClosed."""
        return self._counted(self._calls.mlir_work_root(self._at))

    def near(self, which: str, operation: int, *region: int) -> Optional[int]:
        """Returns the parent, next, previous, first, last or region_of of an operation."""
        found = getattr(self._calls, f"mlir_work_{which}")(self._at, operation, *region)
        return None if found == _NONE else int(found)

    def name(self, operation: int) -> Optional[str]:
        """Returns the name of an operation."""
        number = self._name_of(self._at, operation)
        found = self._names.get(number)
        return found if found is not None else self._kept(self._names, "name", number)

    def counts(self, operation: int) -> Counts:
        """Returns the counts of an operation; they are valid until the next call."""
        return self._counts if self._count(self._at, operation, self._counts_at) else Counts()

    def operands(self, operation: int) -> Tuple[Value, ...]:
        """Returns the operands of an operation."""
        read, at, it, it_at, found = self._operand, self._at, self._value, self._value_at, []
        while read(at, operation, len(found), it_at):
            region = it.region
            found.append(Result(it.operation, it.place) if region == _RESULT
                         else Argument(it.operation, region, it.place))
        return tuple(found)

    def arguments(self, operation: int, region: int) -> Optional[int]:
        """Returns how many arguments the block of a region has, or None if there is no such block."""
        return self.near("argument_count", operation, region)

    def type(self, value: Value) -> Optional[str]:
        """Returns the type of a value."""
        number = self._value_type(self._at, self._numbers(value))
        found = self._types.get(number)
        return found if found is not None else self._kept(self._types, "type", number)

    def uses(self, value: Value) -> List[Tuple[int, int]]:
        """Returns the uses of a value: the operations and the numbers of their operands."""
        numbers = self._numbers(value)
        count = self._fill(self._at, numbers, self._uses, len(self._uses))
        if count > len(self._uses):
            self._uses = (_Use * count)()
            count = self._fill(self._at, numbers, self._uses, count)
        return [(it.operation, it.operand) for it in self._uses[:count]] if count else []

    def entries(self, which: str, operation: int) -> Dict[str, str]:
        """Returns the entries of an operation: `property` or `attribute`."""
        read, entry, found = getattr(self._calls, f"mlir_work_{which}_at"), self._entry, {}
        while read(self._at, operation, len(found), entry):
            key, attribute = entry.key, entry.attribute
            found[self._known(self._names, "name", key)] = self._known(self._attributes, "attribute", attribute)
        return found

    def _numbers(self, value: Value) -> Any:
        """Returns a pointer to a value; it is valid until the next call."""
        it = self._value
        it.operation, it.place = value.operation, value.place
        it.region = value.region if type(value) is Argument else _RESULT
        return self._value_at

    def _known(self, kept: Dict[int, str], kind: str, number: int) -> str:
        return kept.get(number) or self._kept(kept, kind, number) or ""

    def _kept(self, kept: Dict[int, str], kind: str, number: int) -> Optional[str]:
        """Reads the text of a number, and keeps it."""
        if number == _NONE:
            return None
        read = getattr(self._calls, f"mlir_work_{kind}_text")
        count = self._counted(read(self._at, number, self._bytes, len(self._bytes)))
        if count > len(self._bytes):
            self._bytes = ctypes.create_string_buffer(count)
            self._counted(read(self._at, number, self._bytes, count))
        kept[number] = self._bytes.raw[:count].decode("utf-8", "surrogateescape")
        return kept[number]

    @staticmethod
    def _counted(count: int) -> int:
        if count == _NO_MEMORY:
            raise MemoryError
        if count == _NONE:
            raise SessionClosed("the session is closed")
        return int(count)
