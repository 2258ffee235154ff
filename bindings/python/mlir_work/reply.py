"""Replies of the program: to one line, and of a whole run."""
import re
from typing import Iterator, List, NamedTuple, Optional, Tuple

from .errors import ModuleRefused, Refused, Stays, Unproved

_REFUSED = re.compile(r"refused (\d+) (\w+)(?: at (\d+))?(?: #(\d+))?.*", re.S)
_MODULE_REFUSED = re.compile(r"module refused (\d+) (\w+)(?: at (\d+))?(?: about [^\n]*)?\n")
_ABOUT = re.compile(r'"(?:[^"\\]|\\.)*"|\S+')
_NUMBER = re.compile(r"\w+ #?(\d+)")
_UNPROVED = re.compile(r"^unproved (\S+) (.+)$", re.M)
_STAYS = re.compile(r"^stays #(\d+) (?:(\d+) (\S+) )?(\S+)$", re.M)


def lines_of(text: str) -> List[str]:
    """Returns the lines of a text; each ends with a line feed. Only a line feed ends a line: other line
    separators may be inside a string."""
    return text.split("\n")[:-1]


def decoded(data: bytes) -> str:
    """Returns the output of the program as text."""
    return data.decode("utf-8", "surrogateescape")


class Reply(NamedTuple):
    """The reply to a line, without its number, such as `ok`, `ok #4`, `swept 2` or `refused 22 HasUses`, and the output
    below it. Both are empty for an empty line and a comment."""

    text: str
    shown: str = ""

    @property
    def outcome(self) -> str:
        """The first word, such as `ok` or `refused`."""
        return self.text.partition(" ")[0]

    @property
    def is_refused(self) -> bool:
        """Whether the line was refused."""
        return self.outcome == "refused"

    @property
    def brief(self) -> str:
        """The reply without what an explained refusal is about."""
        return self.text.partition(" about ")[0] if self.is_refused else self.text

    @property
    def about(self) -> Tuple[str, ...]:
        """The operations, values and types that an explained refusal is about."""
        return tuple(_ABOUT.findall(self.text.partition(" about ")[2])) if self.is_refused else ()

    @property
    def lines(self) -> List[str]:
        """The lines below the reply."""
        return lines_of(self.shown)

    @property
    def number(self) -> Optional[int]:
        """The new operation, the count of symbols, rewrites or rules, or the width of a check; None for a bare `ok`."""
        found = None if self.is_refused else _NUMBER.fullmatch(self.text)
        return int(found[1]) if found else None

    @property
    def unproved(self) -> Tuple[Unproved, ...]:
        """The patterns that an `apply` or a `rewrite` names since no check proves them for the module."""
        return tuple(Unproved(*found) for found in _UNPROVED.findall(self.shown))

    def refusal(self, line: str = "") -> Optional[Refused]:
        """Returns why the line was refused, or None if it was accepted."""
        found = _REFUSED.fullmatch(self.text)
        if not found:
            return None
        at, operation = (None if it is None else int(it) for it in found.groups()[2:])
        return Refused(int(found[1]), found[2], at, operation, line, self._stays(), self.unproved)

    def _stays(self) -> Optional[Stays]:
        """Returns why an operation stays, if the reply says so."""
        found = _STAYS.search(self.shown)
        return Stays(int(found[1]), int(found[2]) if found[2] else None, found[3] or "", found[4]) if found else None


NO_REPLY = Reply("")


def reply_of(answer: str) -> Reply:
    """Returns a reply from its text: the first line is the reply with its number, and the others are its output."""
    first, _, shown = answer.partition("\n")
    return Reply(first.partition(" ")[2], shown)


def module_refused(text: str) -> Optional[ModuleRefused]:
    """Returns why the module was refused, if an output says so."""
    found = _MODULE_REFUSED.match(text)
    return ModuleRefused(int(found[1]), found[2], None if found[3] is None else int(found[3])) if found else None


class Transcript(NamedTuple):
    """The status and the output of a run over a module and a script."""

    status: int
    text: str

    @property
    def refused(self) -> Optional[ModuleRefused]:
        """Why the module was refused, or None if it was read."""
        return module_refused(self.text)

    @property
    def lines(self) -> List[str]:
        """The lines of the output."""
        return lines_of(self.text)

    def replies(self) -> Iterator[Reply]:
        """Yields the replies in order. No line below a reply begins with the number of the next one."""
        number, begin = 1, 0 if self.text.startswith("1 ") else self.text.find("\n1 ") + 1 or -1
        while begin >= 0:
            number += 1
            end = self.text.find(f"\n{number} ", begin) + 1 or -1
            yield reply_of(self.text[begin:end] if end > 0 else self.text[begin:])
            begin = end
