"""Parses the output of `print ids`: the operation of each line, and the names that commands use for values."""
import re
from typing import Dict, List, NamedTuple, Tuple

from .brackets import parts
from .reply import lines_of
from .values import Argument, Result, Value

_OPENED = re.compile(r"\(((?:\{\}, )*)\{$")
_NEXT = re.compile(r"\}, ((?:\{\}, )*)\{$")
_NUMBER = " // #"
# The role of a line: it begins an operation, has the arguments of a block, or ends a region.
BEGINS, BLOCK, ENDS = "begins", "block", "ends"


class Line(NamedTuple):
    """A line, without the comment that has the number of its operation. `region` is the region of the operation that
    begins below the line or contains it; it is -1 if the line ends the last region or opens none."""

    text: str
    operation: int
    region: int
    role: str


class _Opened:
    """An operation whose regions are being read, and the number of the region that the next line is in."""

    def __init__(self, operation: int, region: int) -> None:
        self.operation, self.region = operation, region


def _lines(text: str) -> List[Line]:
    """Reads the lines of a module."""
    found: List[Line] = []
    opened: List[_Opened] = []
    for line in lines_of(text):
        shown, _, number = line.rpartition(_NUMBER)
        operation, first = int(number), shown.lstrip(" ")[:1]
        if first == "^":
            found.append(Line(shown, operation, opened[-1].region, BLOCK))
        elif first == "}":
            following = _NEXT.search(shown)
            if following:
                opened[-1].region += 1 + following[1].count("{}")
            region = opened[-1].region if following else -1
            found.append(Line(shown, operation, region, ENDS))
            if not following:
                opened.pop()
        else:
            opens = _OPENED.search(shown)
            region = opens[1].count("{}") if opens else -1
            found.append(Line(shown, operation, region, BEGINS))
            if opens:
                opened.append(_Opened(operation, region))
    return found


def block_arguments(line: str) -> List[Tuple[str, str]]:
    """Returns the names and the types of the arguments in the line that begins a block, as `^bb0(%arg0: i32):`."""
    text = line[line.find("(") + 1:line.rfind(")")] if "(" in line else ""
    return [(name[1:], type_text) for name, _, type_text in (part.partition(": ") for part in parts(text))]


class Printed:
    """The lines of a module, the operations that have results, in order, and the arguments of blocks by the names with
    which they are printed."""

    def __init__(self, text: str) -> None:
        self.lines = _lines(text)
        self.owners: List[int] = []
        self.arguments: Dict[str, Argument] = {}
        for line in self.lines:
            if line.role == BEGINS and line.text.lstrip(" ")[0] == "%":
                self.owners.append(line.operation)
            elif line.role == BLOCK:
                for place, (name, _) in enumerate(block_arguments(line.text)):
                    self.arguments[name] = Argument(line.operation, line.region, place)

    def value(self, name: str) -> Value:
        """Returns the value with a printed name, such as `arg0`, `5` or `5#1`. Raises LookupError if there is none."""
        if name in self.arguments:
            return self.arguments[name]
        owner, _, place = name.partition("#")
        if not owner.isdecimal():
            raise LookupError(name)
        return Result(self.owners[int(owner)], int(place or 0))
