"""Parses the rows of reports (docs/REPORTS.md)."""
import re
from typing import Callable, Dict, List, NamedTuple, Optional, Tuple, Union

from .reply import lines_of
from .values import Value, value_of


class Use(NamedTuple):
    """A value is an operand of an operation."""

    value: Value
    user: int
    operand: int


class Symbol(NamedTuple):
    """A row of `symbols`. `group` is `def`, `duplicate`, `use`, `unresolved`, `unknown` or `mismatch`. `operation` is
    the one that defines or refers, and `name` is the printed name, such as `@f`. `table` is the module of a definition,
    and `target` the operation that a reference or a call resolves to."""

    group: str
    operation: int
    name: Optional[str] = None
    table: Optional[int] = None
    target: Optional[int] = None


class Diagnostic(NamedTuple):
    """An operation breaks a rule of the verifier."""

    operation: int
    rule: int


class Effect(NamedTuple):
    """What an operation does to memory: `unknown`, `allocate`, `free`, `read`, `write`."""

    operation: int
    words: Tuple[str, ...]


class Dead(NamedTuple):
    """An operation that may be erased."""

    operation: int


class Constant(NamedTuple):
    """A value that is known, and its attribute."""

    value: Value
    attribute: str


class Unreached(NamedTuple):
    """A private symbol that nothing reaches, with its printed name."""

    operation: int
    name: str


# A row of an unknown kind is the words of its line.
Row = Union[Use, Symbol, Diagnostic, Effect, Dead, Constant, Unreached, Tuple[str, ...]]
_SYMBOL = re.compile(r"(def|duplicate|use|unresolved|unknown|mismatch) #(\d+)(?: (@.*?))?(?: #(\d+))?")


def _op(word: str) -> int:
    if word[:1] != "#":
        raise ValueError(f"found {word!r}, expected an operation, as #3")
    return int(word[1:])


def _use(line: str) -> Use:
    value, user, operand = line.split(" ")
    return Use(value_of(value), _op(user), int(operand))


def _symbol(line: str) -> Symbol:
    found = _SYMBOL.fullmatch(line)
    if not found:
        raise ValueError(f"found {line!r}, expected a row of `report symbols`")
    group, first, name, last = found[1], int(found[2]), found[3], None if found[4] is None else int(found[4])
    if group in ("def", "duplicate") and last is not None:
        return Symbol(group, last, name, table=first)
    return Symbol(group, first, name, target=last)


def _diagnostic(line: str) -> Diagnostic:
    operation, rule = line.split(" ")
    return Diagnostic(_op(operation), int(rule[1:]))


def _effect(line: str) -> Effect:
    operation, *words = line.split(" ")
    return Effect(_op(operation), tuple(words))


def _constant(line: str) -> Constant:
    value, _, attribute = line.partition(" ")
    return Constant(value_of(value), attribute)


def _unreached(line: str) -> Unreached:
    operation, _, name = line.partition(" ")
    return Unreached(_op(operation), name)


_READERS: Dict[str, Callable[[str], Row]] = {
    "uses": _use, "symbols": _symbol, "diagnostics": _diagnostic, "effects": _effect,
    "dead": lambda line: Dead(_op(line)), "constants": _constant, "unreached": _unreached}
KINDS = tuple(_READERS)


def rows_of(kind: str, text: str) -> List[Row]:
    """Returns the rows of a report from its text."""
    read = _READERS.get(kind)
    return [read(line) if read else tuple(line.split(" ")) for line in lines_of(text)]
