"""Reads the operations of a module from what `print ids` prints."""
import re
from dataclasses import dataclass
from typing import Dict, List, Optional, Tuple

from .brackets import STRING, closed, parts, taken
from .data import OperationData
from .printed import BEGINS, BLOCK, Printed, block_arguments
from .values import Argument, Result, Value, op_text, unescaped

_HEAD = re.compile(rf"(?:%\d+(?::(\d+))? = )?({STRING})\(([^()]*)\)")
_REGIONS = re.compile(r" \((\{\}(?:, \{\})*)\)")


@dataclass(frozen=True, eq=False)
class Operation:
    """An operation at the time when it was listed. Calls accept it in place of its number. Values have the names that
    commands use; types and attributes are printed texts."""

    number: int
    name: str
    operands: Tuple[Value, ...]
    operand_types: Tuple[str, ...]
    results: Dict[Result, str]
    """Its results, each with its type."""
    properties: Dict[str, str]
    attributes: Dict[str, str]
    regions: int
    """How many regions it has."""
    arguments: Dict[Argument, str]
    """The arguments of the blocks of its regions, each with its type."""
    parent: Optional[int]
    """The parent operation; none for the root."""
    region: int
    """The number of the region of the parent that contains it."""
    place: int
    """Its place among the operations of its block, from 0."""
    depth: int
    """How many operations contain it."""

    def __index__(self) -> int:
        return self.number

    def __str__(self) -> str:
        return f"#{self.number} {self.name}"

    def to_dict(self) -> OperationData:
        """Returns it as a dictionary that JSON can hold, with the keys of docs/JSON.md."""
        is_root = self.parent is None
        blocks: List[List[str]] = [[] for _ in range(self.regions)]
        for argument, of_type in self.arguments.items():
            blocks[argument.region].append(of_type)
        return {"kind": "operation", "id": op_text(self.number), "name": self.name,
                "operands": list(map(str, self.operands)), "results": list(self.results.values()),
                "properties": dict(self.properties), "attributes": dict(self.attributes), "regions": blocks,
                "parent": None if self.parent is None else op_text(self.parent),
                "region": None if is_root else self.region, "place": None if is_root else self.place}


class _Lines:
    """The lines of an operation as one text, without those inside it; the operation that contains it, and the region;
    its place there, and the arguments of its blocks. `inside` is the region that is being read, and `count` how many
    operations of it were read."""

    def __init__(self, text: str, number: int, around: "Optional[_Lines]", inside: int) -> None:
        self.text, self.number, self.around, self.inside = text, number, around, inside
        self.region: int = around.inside if around else 0
        self.depth: int = around.depth + 1 if around else 0
        self.place: int = around.count if around else 0
        self.count = 0
        if around:
            around.count += 1
        self.arguments: Dict[Argument, str] = {}


def _entries(text: str, opens: str) -> Tuple[Dict[str, str], str]:
    """Returns the dictionary that a text begins with, if it does, and the text after it."""
    found, rest = taken(text, opens)
    return {unescaped(key[1:-1]) if key[0] == '"' else key: value for key, value in found}, rest


def _types(text: str) -> Tuple[str, ...]:
    """Returns the types of a list, or the only one."""
    return tuple(parts(text[1:-1])) if text.startswith("(") else (text,)


def _gathered(printed: Printed) -> List[_Lines]:
    """Returns the lines of each operation, in the order in which the operations begin."""
    found: List[_Lines] = []
    around: List[_Lines] = []
    for line in printed.lines:
        text = line.text.lstrip(" ")
        if line.role == BEGINS:
            found.append(_Lines(text, line.operation, around[-1] if around else None, line.region))
            around += found[-1:] if line.region >= 0 else []
        elif line.role == BLOCK:
            around[-1].arguments.update((printed.arguments[name], of_type) for name, of_type in block_arguments(text))
        else:
            around[-1].text += text
            around[-1].inside, around[-1].count = line.region, 0
            if line.region < 0:
                around.pop()
    return found


def _operation(it: _Lines, printed: Printed) -> Operation:
    """Returns the operation that some lines print."""
    head = _HEAD.match(it.text)
    if not head:
        raise ValueError(f"found {it.text!r}, expected an operation")
    properties, rest = _entries(it.text[head.end():], " <{")
    regions = _REGIONS.match(rest)
    attributes, rest = _entries(rest[regions.end():] if regions else rest, " {")
    end = closed(rest[3:]) + 3
    results = _types(rest[end + 4:]) if it.text[0] == "%" else ()
    return Operation(
        it.number, unescaped(head[2][1:-1]), tuple(printed.value(name[1:]) for name in head[3].split(", ") if name),
        _types(rest[3:end]), {Result(it.number, place): of_type for place, of_type in enumerate(results)},
        properties, attributes, regions[1].count("{}") if regions else 0, it.arguments,
        it.around.number if it.around else None, it.region, it.place, it.depth)


def read(text: str) -> List[Operation]:
    """Returns the operations of a module that `print ids` printed, in the order of the text."""
    printed = Printed(text)
    return [_operation(it, printed) for it in _gathered(printed)]
