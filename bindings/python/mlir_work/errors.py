"""The exceptions of the package."""
from typing import NamedTuple, Optional, Sequence, Tuple


class Stays(NamedTuple):
    """Why an operation can't be made legal: the number and the word of the rule that was tried last, and the word of
    the first of its conditions that doesn't hold, or `makes-illegal`. If the target has no rule for it: no number, an
    empty word and `no-rule`."""

    operation: int
    rule: Optional[int]
    word: str
    said: str


class Unproved(NamedTuple):
    """A pattern that a command used and that no check proves for the module before it: its name, and the result of its
    last check, such as `holds 8`, or `unchecked`."""

    name: str
    said: str


class Error(Exception):
    """The base of all exceptions of this package."""


class Refused(Error):
    """A command was refused, and changed nothing. `number` and `word` are those of docs/REFUSALS.md. `at` is the byte
    at which the OPERATION or the ATTRIBUTE is wrong, and `operation` the one for which a `convert` is refused, if the
    reply has them. `stays` says why that operation stays, if a `convert trace` reports it. `unproved` has the patterns
    for which a `rewrite` is refused that asks for proved ones. `line` is the command."""

    def __init__(self, number: int, word: str, at: Optional[int] = None, operation: Optional[int] = None,
                 line: str = "", stays: Optional[Stays] = None, unproved: Tuple[Unproved, ...] = ()) -> None:
        place = f" at {at}" if at is not None else f" #{operation}" if operation is not None else ""
        super().__init__(f"{number} {word}{place}" + (f": {line}" if line else ""))
        self.number, self.word, self.at, self.operation, self.line = number, word, at, operation, line
        self.stays, self.unproved = stays, unproved


class ModuleRefused(Error):
    """The text of a module was refused: the number and the word of docs/REFUSALS.md, and the byte at which it is wrong,
    unless memory ran out."""

    def __init__(self, number: int, word: str, at: Optional[int] = None) -> None:
        super().__init__(f"{number} {word}" + (f" at {at}" if at is not None else ""))
        self.number, self.word, self.at = number, word, at

    def within(self, size: int) -> "ModuleRefused":
        """Returns the same refusal for a text of `size` bytes: an offset past its end becomes its end."""
        return self if self.at is None else ModuleRefused(self.number, self.word, min(self.at, size))


class FormBroken(Error):
    """A module that was read with `blocks` can't be printed, since edits broke the form in which regions with several
    blocks are held. `faults` has a line for each operation that is wrong."""

    def __init__(self, faults: Sequence[str]) -> None:
        more = f" (and {len(faults) - 1} more)" if len(faults) > 1 else ""
        super().__init__(f"the blocks can't be printed: {faults[0]}{more}")
        self.faults = list(faults)


class ProcessLost(Error):
    """The program ended, wrote an invalid answer, or reached the timeout; the session is closed. `status` is its exit
    status: below 0 if a signal ended it, and None if this package ended it."""

    def __init__(self, words: str, status: Optional[int] = None) -> None:
        super().__init__(words)
        self.status = status


class SessionClosed(Error):
    """The session was closed, by `close` or after an exception in a call."""
