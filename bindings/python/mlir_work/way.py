"""The connection between a session and the program or the library."""
import abc
from typing import Callable, Iterable, List, Optional, Sequence

from .numbers import Numbers
from .reader import Reader
from .reply import Reply

MOST_LIMIT = 1_000_000


def check_limit(limit: Optional[int]) -> None:
    """Raises ValueError if the program would refuse the limit for a `canon` without a limit."""
    if limit is not None and not 1 <= limit <= MOST_LIMIT:
        raise ValueError(f"found the limit {limit:,}, expected 1 to {MOST_LIMIT:,}")


class Way(abc.ABC):
    """Holds a module and runs one line at a time. Only one thread at a time may call it."""

    @abc.abstractmethod
    def open(self, text: bytes, limit: Optional[int], opaque: bool = False) -> List[str]:
        """Parses a module. `limit` is the limit of rewrites for a `canon` without a limit; with `opaque`, unknown types
        and attributes are kept as their texts. Returns a line for each analysis that couldn't be attached, such as
        `attach uses refused 36 Memory`. Raises ModuleRefused if the text is refused."""

    def attach_only(self, kinds: Sequence[str]) -> bool:
        """Makes `open` attach only the analyses of some kinds. Returns False if this connection can't do so, and `open`
        attaches all."""
        return False

    @abc.abstractmethod
    def line(self, line: bytes) -> Reply:
        """Returns the reply to a line that is neither empty nor a comment, and has no line feed. If it raises, the
        connection is closed."""

    def lines(self, lines: Iterable[bytes]) -> List[Reply]:
        """Returns the replies to some lines, accepted or refused."""
        return [self.line(line) for line in lines]

    @abc.abstractmethod
    def close(self) -> Optional[int]:
        """Ends after all lines are answered, and returns the status, if there is one. A closed connection stays
        closed."""

    def reader(self) -> Optional[Reader]:
        """Returns what reads operations by numbers, or None if this connection has no such calls."""
        return None

    def numbers(self, edited: Callable[[], None]) -> Optional[Numbers]:
        """Returns what edits by interned numbers, or None if this connection has no such calls. It calls `edited` after
        each edit."""
        return None

    def abandon(self) -> None:
        """Ends at once, without waiting for answers."""
        self.close()
