"""Reads what the program prints of a module as a tree of operations, regions and blocks."""
import re
from typing import List, NamedTuple, Optional, Tuple

from ..brackets import closed, parts
from ..reply import lines_of
from .scopes import NUMBERS, ORDER, SCOPE, SUCCESSORS, UNREACHABLE

_HEAD = re.compile(r'(?:(%\w+)(?::(\d+))? = )?("(?:[^"\\]|\\.)*")\(([^)]*)\)')
_OPENED = re.compile(r"\(((?:\{\}, )*)\{$")
_NEXT = re.compile(r"\}, ((?:\{\}, )*)\{$")
_EMPTY = re.compile(r" \((\{\}(?:, \{\})*)\)")
_TAIL = re.compile(r"\}((?:, \{\})*)\)(.*)", re.S)
_LIST = re.compile(re.escape(NUMBERS) + r"(?:: (\d+(?:, \d+)*))?>")
_NUMBER = re.compile(r"([1-9]\d*) : i32")
_COMMENT = " // #"


class Argument(NamedTuple):
    """An argument of a block: its name with the `%`, and its type."""

    name: str
    type: str


class Operation:
    """An operation. Its line is the results, the name in quotes, the operands, then `middle` (the properties), the
    regions, the entries of its dictionary, and `type` with the colon. `number` is that of `print ids`, if it is known,
    and `successors` are the numbers of blocks, or None without the entry for them."""

    def __init__(self, line: str, number: Optional[int]) -> None:
        found = _HEAD.match(line)
        if not found:
            raise ValueError(f"expected an operation: {line}")
        self.result, self.count = found[1] or "", found[2] or ""
        self.quoted, self.operands, self.number = found[3], found[4], number
        self.middle, self.entries, self.type = "", [], ""  # type: str, List[str], str
        self.regions: List[List["Block"]] = []
        self.successors: Optional[List[int]] = None
        self.fault: Optional[str] = None

    @property
    def name(self) -> str:
        """The name of the operation."""
        return self.quoted[1:-1]

    @property
    def is_scope(self) -> bool:
        """Whether the operation is a scope by its name."""
        return self.name == SCOPE

    @property
    def order(self) -> Optional[int]:
        """The number of a scope, or None if the operation has none."""
        found = _NUMBER.fullmatch(self.entry(ORDER) or "")
        return int(found[1]) if found else None

    @property
    def is_unreachable(self) -> bool:
        """Whether the operation is a scope that no path leads to from outside."""
        return UNREACHABLE in self.entries

    def entry(self, key: str) -> Optional[str]:
        """Returns the text of the entry at a key, or None."""
        return next((it[len(key) + 3:] for it in self.entries if it.startswith(key + " = ")), None)

    def end(self, text: str) -> None:
        """Reads what is behind the regions: the dictionary and the type."""
        if text.startswith(" {"):
            size = closed(text[1:]) + 1
            self.entries, text = parts(text[2:size - 1]), text[size:]
        self.type = text
        value = self.entry(SUCCESSORS)
        if value is not None:
            found = _LIST.fullmatch(value)
            if found:
                self.successors = [int(it) for it in (found[1] or "").split(", ") if it]
                self.entries = [it for it in self.entries if not it.startswith(SUCCESSORS + " = ")]
            else:
                self.fault = f"its `{SUCCESSORS}` isn't a list of numbers"


class Block:
    """A block: its arguments, its operations, and its number among the blocks of its region, 0 for the entry."""

    def __init__(self, line: str = "") -> None:
        begin, end = line.find("("), line.rfind(")")
        text = line[begin + 1:end] if begin >= 0 else ""
        self.arguments = [Argument(*it.split(": ", 1)) for it in parts(text)]
        self.operations: List[Operation] = []
        self.order = 0

    @property
    def own(self) -> List[Operation]:
        """The operations that aren't scopes."""
        return [it for it in self.operations if not it.is_scope]

    @property
    def scopes(self) -> List[Operation]:
        """The operations that are scopes."""
        return [it for it in self.operations if it.is_scope]


def _numbered(line: str, is_numbered: bool) -> Tuple[str, Optional[int]]:
    """Returns a line without its indentation and the number at its end, and that number."""
    line = line.lstrip(" ")
    if not is_numbered:
        return line, None
    line, _, number = line.rpartition(_COMMENT)
    return line, int(number)


def _begun(line: str, number: Optional[int]) -> Tuple[Operation, bool]:
    """Returns the operation of a line, and whether its regions continue on the next lines."""
    found = Operation(line, number)
    rest = line[_HEAD.match(line).end():]  # type: ignore[union-attr]
    size = closed(rest[1:]) + 1 if rest.startswith(" <{") else 0
    found.middle, rest = rest[:size], rest[size:]
    opened, empty = _OPENED.search(rest), _EMPTY.match(rest)
    if opened:
        found.regions = [[] for _ in range(opened[1].count("{}") + 1)]
        return found, True
    if empty:
        found.regions, rest = [[] for _ in range(empty[1].count("{}"))], rest[empty.end():]
    found.end(rest)
    return found, False


def read(text: str, is_numbered: bool = False) -> Operation:
    """Returns the root of a module that `print` shows, or `print ids` if it is numbered. Raises ValueError if that
    isn't the text of a module."""
    root: Optional[Operation] = None
    opened: List[Operation] = []
    for whole in lines_of(text):
        line, number = _numbered(whole, is_numbered)
        if line.startswith("^"):
            opened[-1].regions[-1].append(Block(line))
        elif line.startswith("}"):
            following, tail = _NEXT.match(line), _TAIL.match(line)
            if following:
                opened[-1].regions += [[] for _ in range(following[1].count("{}") + 1)]
            elif tail:
                ended = opened.pop()
                ended.regions += [[] for _ in range(tail[1].count("{}"))]
                ended.end(tail[2])
        else:
            found, is_open = _begun(line, number)
            if opened:
                region = opened[-1].regions[-1]
                if not region:
                    region.append(Block())
                region[-1].operations.append(found)
            else:
                root = found
            if is_open:
                opened.append(found)
    if root is None or opened:
        raise ValueError("expected the text of a module")
    return root
