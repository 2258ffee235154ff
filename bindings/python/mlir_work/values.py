"""Formats values, places and strings for commands."""
import re
from operator import index
from typing import NamedTuple, SupportsIndex, Union

_VALUE = re.compile(r"%v(\d+)\.(\d+)|%a(\d+)\.(\d+)\.(\d+)")
_BARE = re.compile(r"[A-Za-z_][A-Za-z0-9_$.]*")
_ESCAPE = re.compile(r"\\([0-9A-Fa-f]{2}|.)")


class Result(NamedTuple):
    """Result number `place` of an operation, such as `%v3.0`."""

    operation: int
    place: int = 0

    def __str__(self) -> str:
        return f"%v{self.operation}.{self.place}"


class Argument(NamedTuple):
    """Argument number `place` of the block of a region of an operation, such as `%a1.0.0`."""

    operation: int
    region: int = 0
    place: int = 0

    def __str__(self) -> str:
        return f"%a{self.operation}.{self.region}.{self.place}"


Value = Union[Result, Argument]


def value_of(text: str) -> Value:
    """Parses the name of a value. Raises ValueError if the word names no value."""
    found = _VALUE.fullmatch(text)
    if not found:
        raise ValueError(f"found {text!r}, expected a value, as %v3.0 or %a1.0.0")
    numbers = [int(it) for it in found.groups() if it is not None]
    return Result(*numbers) if text[1] == "v" else Argument(*numbers)


def op_text(operation: SupportsIndex) -> str:
    """Returns the name of an operation in a command: `#3`."""
    return f"#{index(operation)}"


def before(operation: SupportsIndex) -> str:
    """Returns the place before an operation."""
    return f"before {op_text(operation)}"


def after(operation: SupportsIndex) -> str:
    """Returns the place after an operation."""
    return f"after {op_text(operation)}"


def start(operation: SupportsIndex, region: int = 0) -> str:
    """Returns the place before all operations in the block of a region."""
    return f"start {op_text(operation)} {region}"


def end(operation: SupportsIndex, region: int = 0) -> str:
    """Returns the place after all operations in the block of a region."""
    return f"end {op_text(operation)} {region}"


def unescaped(raw: str) -> str:
    """Returns the text that a string literal has between its quotes."""
    if "\\" not in raw and raw.isascii():
        return raw

    def byte(found: "re.Match[str]") -> str:
        return chr(int(found[1], 16)) if len(found[1]) == 2 else found[1]
    return _ESCAPE.sub(byte, raw).encode("latin-1", "replace").decode("utf-8", "surrogateescape")


def quoted(text: Union[str, bytes]) -> str:
    """Returns the string attribute of a text: a string literal."""
    data = text.encode("utf-8", "surrogateescape") if isinstance(text, str) else text
    plain = [chr(it) if 0x20 <= it <= 0x7E and it not in b'"\\' else f"\\{it:02X}" for it in data]
    return '"' + "".join(plain) + '"'


def key_text(key: str) -> str:
    """Returns a key in the form that commands read."""
    return key if _BARE.fullmatch(key) else quoted(key)
