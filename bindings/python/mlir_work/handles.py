"""Operations, values, regions and blocks of a session as light handles, with the names that MLIR's bindings have. Each
read asks the library, so a handle shows the module as it now is."""
from typing import Dict, Iterator, List, NamedTuple, Optional, Tuple

from .data import OperationData
from .reader import Reader
from .values import Argument, Result, Value, op_text


def place_of(reader: Reader, number: int, known: Dict[int, int]) -> int:
    """Returns the place of an operation in its block, from 0. `known` has places that were found before, and gets those
    of the operation and of the operations before it."""
    unknown: List[int] = []
    at: Optional[int] = number
    while at is not None and at not in known:
        unknown.append(at)
        at = reader.near("previous", at)
    first = 0 if at is None else known[at] + 1
    known.update((it, place) for place, it in enumerate(reversed(unknown), first))
    return known[number]


def _blocks(reader: Reader, number: int) -> List[List[str]]:
    """Returns for each region of an operation the types of the arguments of its block."""
    counts = [reader.arguments(number, region) or 0 for region in range(reader.counts(number).regions)]
    return [[reader.type(Argument(number, region, place)) or "" for place in range(count)]
            for region, count in enumerate(counts)]


def data_of(reader: Reader, number: int, known: Dict[int, int]) -> Optional[OperationData]:
    """Returns an operation as a dictionary, or None if the module doesn't have it. `known` is that of `place_of`."""
    name = reader.name(number)
    if name is None:
        return None
    parent, results = reader.near("parent", number), range(reader.counts(number).results)
    return {"kind": "operation", "id": op_text(number), "name": name,
            "operands": list(map(str, reader.operands(number))),
            "results": [reader.type(Result(number, place)) or "" for place in results],
            "properties": reader.entries("property", number), "attributes": reader.entries("attribute", number),
            "regions": _blocks(reader, number), "parent": None if parent is None else op_text(parent),
            "region": None if parent is None else reader.near("region_of", number),
            "place": None if parent is None else place_of(reader, number, known)}


class OperationHandle:
    """An operation, by its number. Calls accept it in place of the number."""

    __slots__ = ("_reader", "number")

    def __init__(self, reader: Reader, number: int) -> None:
        self._reader, self.number = reader, number

    def __eq__(self, other: object) -> bool:
        if not isinstance(other, OperationHandle):
            return NotImplemented
        return self.number == other.number and self._reader is other._reader

    def __hash__(self) -> int:
        return hash(self.number)

    def __repr__(self) -> str:
        return f"<#{self.number} {self.name}>"

    def __index__(self) -> int:
        return self.number

    def __str__(self) -> str:
        return f"#{self.number} {self.name}"

    @property
    def exists(self) -> bool:
        """Whether it is in the module. One that isn't has no name, and nothing else either."""
        return self._reader.has(self.number)

    @property
    def name(self) -> Optional[str]:
        """Its name, as `arith.addi`."""
        return self._reader.name(self.number)

    @property
    def operands(self) -> "Tuple[ValueHandle, ...]":
        """Its operands."""
        reader = self._reader
        return tuple([ValueHandle(reader, it) for it in reader.operands(self.number)])

    @property
    def results(self) -> "Tuple[ValueHandle, ...]":
        """Its results."""
        reader, number = self._reader, self.number
        return tuple([ValueHandle(reader, Result(number, place)) for place in range(reader.counts(number).results)])

    @property
    def properties(self) -> Dict[str, str]:
        """Its properties: keys, and attributes as printed texts."""
        return self._reader.entries("property", self.number)

    @property
    def attributes(self) -> Dict[str, str]:
        """Its discardable attributes: keys, and attributes as printed texts."""
        return self._reader.entries("attribute", self.number)

    @property
    def regions(self) -> "Tuple[RegionHandle, ...]":
        """Its regions."""
        count = self._reader.counts(self.number).regions
        return tuple(RegionHandle(self._reader, self.number, place) for place in range(count))

    @property
    def parent(self) -> "Optional[OperationHandle]":
        """The operation that contains it; None for the root."""
        return self._near("parent")

    @property
    def region(self) -> Optional[int]:
        """The number of its region in the parent."""
        return self._reader.near("region_of", self.number)

    @property
    def place(self) -> Optional[int]:
        """Its place in its block, from 0; None for the root. Takes time proportional to the place."""
        return None if self.parent is None else place_of(self._reader, self.number, {})

    @property
    def next(self) -> "Optional[OperationHandle]":
        """The next operation in its block."""
        return self._near("next")

    @property
    def previous(self) -> "Optional[OperationHandle]":
        """The previous operation in its block."""
        return self._near("previous")

    def to_dict(self) -> OperationData:
        """Returns it as a dictionary that JSON can hold, with the keys of docs/JSON.md. Raises LookupError if it isn't
        in the module."""
        found = data_of(self._reader, self.number, {})
        if found is None:
            raise LookupError(f"#{self.number} isn't in the module")
        return found

    def walk(self) -> "Iterator[OperationHandle]":
        """Visits it and the operations inside it in pre-order. The operations of a block are those at the time when the
        walk comes to the block; one that was erased meanwhile is left out."""
        if self.exists:
            yield self
        for region in self.regions:
            for block in region.blocks:
                for operation in block.operations:
                    yield from operation.walk()

    def _near(self, which: str) -> "Optional[OperationHandle]":
        found = self._reader.near(which, self.number)
        return None if found is None else OperationHandle(self._reader, found)


class UseHandle(NamedTuple):
    """A use of a value: the operation that uses it, and the number of its operand."""

    owner: OperationHandle
    operand_number: int


class ValueHandle:
    """A result of an operation, or an argument of a block. Calls accept it in place of its name, `%v3.0`."""

    __slots__ = ("_reader", "value")

    def __init__(self, reader: Reader, value: Value) -> None:
        self._reader, self.value = reader, value

    def __eq__(self, other: object) -> bool:
        if not isinstance(other, ValueHandle):
            return NotImplemented
        return self.value == other.value and self._reader is other._reader

    def __hash__(self) -> int:
        return hash(self.value)

    def __repr__(self) -> str:
        return f"<{self.value} : {self.type}>"

    def __str__(self) -> str:
        return str(self.value)

    @property
    def owner(self) -> OperationHandle:
        """The operation that has the result, or whose region has the block."""
        return OperationHandle(self._reader, self.value.operation)

    @property
    def type(self) -> Optional[str]:
        """Its type, as a printed text; None if the module has no such value."""
        return self._reader.type(self.value)

    @property
    def uses(self) -> Tuple[UseHandle, ...]:
        """Its uses, each once, in any order."""
        reader = self._reader
        return tuple([UseHandle(OperationHandle(reader, it), place) for it, place in reader.uses(self.value)])


class BlockHandle:
    """The block of a region."""

    __slots__ = ("_reader", "_owner", "_region")

    def __init__(self, reader: Reader, owner: int, region: int) -> None:
        self._reader, self._owner, self._region = reader, owner, region

    @property
    def owner(self) -> OperationHandle:
        """The operation whose region has the block."""
        return OperationHandle(self._reader, self._owner)

    @property
    def arguments(self) -> Tuple[ValueHandle, ...]:
        """Its arguments."""
        count = self._reader.arguments(self._owner, self._region) or 0
        return tuple(ValueHandle(self._reader, Argument(self._owner, self._region, it)) for it in range(count))

    @property
    def operations(self) -> Tuple[OperationHandle, ...]:
        """Its operations."""
        found, at = [], self._reader.near("first", self._owner, self._region)
        while at is not None:
            found.append(OperationHandle(self._reader, at))
            at = self._reader.near("next", at)
        return tuple(found)

    def __iter__(self) -> Iterator[OperationHandle]:
        return iter(self.operations)


class RegionHandle:
    """A region of an operation. It has at most one block."""

    __slots__ = ("_reader", "_owner", "number")

    def __init__(self, reader: Reader, owner: int, number: int) -> None:
        self._reader, self._owner, self.number = reader, owner, number

    @property
    def owner(self) -> OperationHandle:
        """The operation that has the region."""
        return OperationHandle(self._reader, self._owner)

    @property
    def blocks(self) -> Tuple[BlockHandle, ...]:
        """Its block, if it has one."""
        if self._reader.arguments(self._owner, self.number) is None:
            return ()
        return (BlockHandle(self._reader, self._owner, self.number),)
