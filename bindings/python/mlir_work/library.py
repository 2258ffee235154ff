"""Runs a session through the library, `libmlir_work.so`, in this process."""
import ctypes
import functools
import os
import pathlib
import re
import secrets
from typing import Callable, List, Optional, Union

from .command import VARIABLE as PROGRAM
from .errors import Error, ModuleRefused, SessionClosed
from .numbers import Numbers
from .numbers import declare as declare_numbers
from .reader import Reader, declare
from .reply import Reply
from .way import Way, check_limit

# The version of the calls, and the variable that names the shared object if it isn't next to this file.
VERSION, VARIABLE = 1, "MLIR_WORK_LIBRARY"
NAME = "libmlir_work.so"
DEFAULT_LIMIT = 1000
_NOTHING, _OK, _MADE, _REFUSED, _REFUSED_ON, _REFUSED_AT, _NO_SESSION, _HOLDS, _FAILS = 0, 1, 2, 7, 8, 9, 10, 12, 14
_COUNTED = {3: "swept", 4: "converged", 5: "limit", 6: "converted", 11: "applied", _HOLDS: "holds", 13: "empty",
            _FAILS: "fails", 15: "unrefuted"}
_WORDS = {
    1: "BadToken", 2: "Unexpected", 3: "UnknownValue", 4: "Redefined", 5: "TypeMismatch", 6: "BadWidth", 7: "BadValue",
    8: "MultipleBlocks", 9: "Successors", 10: "TooDeep", 11: "TooMany", 12: "DuplicateKey", 13: "LeftOut",
    14: "NotUtf8", 20: "NoSuchOp", 21: "NoSuchValue", 22: "HasUses", 23: "NotVisible", 24: "TypeDiffers",
    25: "NoSuchIndex", 26: "NoSuchKey", 27: "IntoItself", 28: "OtherTable", 29: "IsRoot", 30: "NotEmpty", 31: "Full",
    32: "IdsExhausted", 33: "TooDeepHere", 34: "TooManyMarks", 35: "NoMark", 36: "Memory", 40: "Stale",
    41: "NoSuchKind", 42: "KindTaken", 50: "BadLimit", 51: "NotLegalised", 52: "ChainTooDeep", 53: "Unreconciled",
    54: "BadTarget", 60: "BadCommand", 61: "NotProved"}
_NUMBERS = {word: number for number, word in _WORDS.items()}
_EXPECTS = re.compile(r"[ \t\r]*expect[ \t]+([^ \t]+)")
# A number may have any count of leading zeros; `int` limits the count of digits.
_DIGITS = re.compile("0*([0-9]{1,9})")


class _Slot(ctypes.Structure):
    _fields_ = [("at", ctypes.c_void_p)]


class _Handle(ctypes.Structure):
    _fields_ = [("slot", _Slot), ("word", ctypes.c_uint64)]


class _Answer(ctypes.Structure):
    _fields_ = [("outcome", ctypes.c_uint32), ("refusal", ctypes.c_uint32), ("number", ctypes.c_uint64),
                ("shown", ctypes.c_uint64)]


@functools.lru_cache(maxsize=None)
def _calls(path: str) -> ctypes.CDLL:
    """Returns the calls of a shared object. Raises Error if it has another version of them."""
    calls = ctypes.CDLL(path)
    text, size = ctypes.c_char_p, ctypes.c_size_t
    handle, answer = ctypes.POINTER(_Handle), ctypes.POINTER(_Answer)
    calls.mlir_work_version.restype = ctypes.c_uint32
    if calls.mlir_work_version() != VERSION:
        raise Error(f"{path}: found version {calls.mlir_work_version()} of the calls, expected {VERSION}: use the "
                    "library and the package of one release")
    opens = [handle, text, size, ctypes.c_uint64, ctypes.c_uint32, answer]
    for call, takes, gives in (
            (calls.mlir_work_open, opens, None),
            (calls.mlir_work_command, [handle, text, size, answer], None),
            (calls.mlir_work_read, [handle, size, text, size], size),
            (calls.mlir_work_close, [handle], None)):
        call.argtypes, call.restype = takes, gives
    if hasattr(calls, "mlir_work_open_opaque"):  # an older library has no such call
        calls.mlir_work_open_opaque.argtypes, calls.mlir_work_open_opaque.restype = opens, None
    declare(calls, handle)
    declare_numbers(calls, handle, _Answer)
    return calls


def found() -> Optional[str]:
    """Returns the shared object: the one that MLIR_WORK_LIBRARY names, or the one next to this file, or None."""
    named = os.environ.get(VARIABLE)
    beside = pathlib.Path(__file__).with_name(NAME)
    return named or (str(beside) if beside.is_file() else None)


def is_preferred() -> bool:
    """Whether the library is the default: MLIR_WORK_LIBRARY names one, or one is next to this file and MLIR_WORK names
    no program."""
    return bool(os.environ.get(VARIABLE)) or (not os.environ.get(PROGRAM) and found() is not None)


def _said(answer: _Answer) -> str:
    """Returns an answer as the text of a reply."""
    outcome, number = answer.outcome, answer.number
    if outcome == _NOTHING:
        return ""
    if outcome in (_OK, _MADE):
        return "ok" if outcome == _OK else f"ok #{number}"
    if outcome == _HOLDS and not number:  # at every width
        return _COUNTED[outcome]
    if outcome in _COUNTED:
        return f"{_COUNTED[outcome]} {number}"
    place = {_REFUSED_ON: f" #{number}", _REFUSED_AT: f" at {number}"}.get(outcome, "")
    return f"refused {answer.refusal} {_WORDS[answer.refusal]}{place}"


def _expected(line: bytes) -> Optional[int]:
    """Returns the number of the refusal that a line expects, if it expects one."""
    try:
        found = _EXPECTS.match(line.decode()) if b"expect" in line else None
    except UnicodeDecodeError:
        return None
    if not found:
        return None
    digits = _DIGITS.fullmatch(found[1])
    number = int(digits[1]) if digits else _NUMBERS.get(found[1])
    return number if number in _WORDS else None


class Library(Way):
    """A module that the library holds in this process. `library` is the file of the shared object."""

    def __init__(self, library: Union[str, "os.PathLike[str]", None] = None) -> None:
        path = os.fspath(library) if library is not None else found()
        if path is None:
            raise FileNotFoundError(f"found no {NAME} next to the package: pass its path, or set {VARIABLE} to it")
        self._calls = _calls(path)
        self._held, self._answer = _Handle(), _Answer()
        self._count = self._status = 0

    def open(self, text: bytes, limit: Optional[int] = None, opaque: bool = False) -> List[str]:
        check_limit(limit)
        opens = self._calls.mlir_work_open_opaque if opaque else self._calls.mlir_work_open
        opens(self._held, text, len(text), secrets.randbits(64), DEFAULT_LIMIT if limit is None else limit,
              self._answer)
        if self._answer.outcome == _OK:
            return []
        at = self._answer.number if self._answer.outcome == _REFUSED_AT else None
        raise ModuleRefused(self._answer.refusal, _WORDS[self._answer.refusal], at)

    def line(self, line: bytes) -> Reply:
        answer = self._answer
        self._calls.mlir_work_command(self._held, line, len(line), answer)
        if answer.outcome == _NO_SESSION:
            raise SessionClosed("the session is closed")
        self._count += answer.outcome != _NOTHING
        surprise = self._follow(_expected(line))
        if not answer.shown:
            return Reply(_said(answer), surprise)
        shown = ctypes.create_string_buffer(answer.shown)
        self._calls.mlir_work_read(self._held, 0, shown, answer.shown)
        return Reply(_said(answer), surprise + shown.raw.decode("utf-8", "surrogateescape"))

    def _follow(self, expected: Optional[int]) -> str:
        """Notes whether the answer is the expected one. Returns the line below the reply if an expected refusal didn't
        come."""
        refused = self._answer.refusal if _REFUSED <= self._answer.outcome <= _REFUSED_AT else None
        if refused == expected and self._answer.outcome != _FAILS:
            return ""
        self._status = 1
        return "" if expected is None else f"{self._count} expected {expected} {_WORDS[expected]}\n"

    def reader(self) -> Optional[Reader]:
        return Reader(self._calls, self._held) if hasattr(self._calls, "mlir_work_operations") else None

    def numbers(self, edited: Callable[[], None]) -> Optional[Numbers]:
        if not hasattr(self._calls, "mlir_work_insert"):  # an older library
            return None
        return Numbers(self._calls, self._held, self._answer, _WORDS, edited)

    def close(self) -> Optional[int]:
        self._calls.mlir_work_close(self._held)
        return self._status

    def __del__(self) -> None:
        if hasattr(self, "_held"):
            self._calls.mlir_work_close(self._held)
