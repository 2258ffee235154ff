"""Parses the replies to rewriting commands: counts, traces, and what fired."""
import re
from typing import List, NamedTuple, Optional, Tuple

from .reply import Reply

_TOLD = re.compile(r"rewrote (?:(\d+) )?(\S+) #(\d+)(?: made (#\d+(?:,#\d+)*))?( erased #\d+)?")

_FIRED = re.compile(r"fired (?:(\d+) )?(\S+) (\d+)")


class Canonicalized(NamedTuple):
    """The number of rewrites of a `canon`, and whether no rule applies any more."""

    rewrites: int
    is_done: bool


class Rewrite(NamedTuple):
    """A rewrite that was made: the number and the word of its rule, or None and the name of a user pattern; the
    operation at which it was applied; the operations that it made; and whether it erased the operation."""

    rule: Optional[int]
    word: str
    operation: int
    made: Tuple[int, ...] = ()
    is_erased: bool = False


class Traced(NamedTuple):
    """The rewrites that were made, in order, and whether no rule applies any more."""

    rewrites: List[Rewrite]
    is_done: bool


class Firing(NamedTuple):
    """How many of the last hundred rewrites a rule or a user pattern made: the number and the word of the rule, or None
    and the name of the pattern."""

    rule: Optional[int]
    word: str
    count: int


class Fired(NamedTuple):
    """The number of rewrites, whether no rule applies any more, and, if the run stopped by its limit, which rules and
    user patterns fired in its last hundred rewrites, in the order of their first rewrites among these."""

    rewrites: int
    is_done: bool
    firings: List[Firing]


class Reason(NamedTuple):
    """Why a rule or a user pattern doesn't apply at an operation: the number and the word of the rule, and the word of
    the first of its conditions that doesn't hold, or `applies`. For a pattern there is no number, `word` is its name,
    and `said` is the first test that fails, as `operand 1 expected arith.constant found arith.addi #3`."""

    rule: Optional[int]
    word: str
    said: str


def canonicalized_of(reply: Reply) -> Canonicalized:
    """Returns the result of a rewriting command from its reply."""
    return Canonicalized(reply.number or 0, reply.outcome == "converged")


def rewrite_of(line: str) -> Rewrite:
    """Returns the rewrite in a trace line. Raises ValueError if the line has no rewrite."""
    found = _TOLD.fullmatch(line)
    if not found:
        raise ValueError(f"found {line!r}, expected a line `rewrote ..`")
    made = tuple(int(it[1:]) for it in found[4].split(",")) if found[4] else ()
    return Rewrite(int(found[1]) if found[1] else None, found[2], int(found[3]), made, found[5] is not None)


def traced_of(reply: Reply) -> Traced:
    """Returns the result of a rewriting command from its reply, with each rewrite."""
    told = reply.lines[len(reply.unproved):]
    return Traced([rewrite_of(line) for line in told], reply.outcome == "converged")


def firing_of(line: str) -> Firing:
    """Returns the count in a line. Raises ValueError if the line has no count."""
    found = _FIRED.fullmatch(line)
    if not found:
        raise ValueError(f"found {line!r}, expected a line `fired ..`")
    return Firing(int(found[1]) if found[1] else None, found[2], int(found[3]))


def fired_of(reply: Reply) -> Fired:
    """Returns the result of a rewriting command from its reply, with the counts of what fired."""
    told = reply.lines[len(reply.unproved):]
    return Fired(reply.number or 0, reply.outcome == "converged", [firing_of(line) for line in told])


def stood_of(reply: Reply) -> List[Rewrite]:
    """Returns the rules that a traced conversion applied."""
    return [rewrite_of(line) for line in reply.lines]


def reasons_of(reply: Reply) -> List[Reason]:
    """Returns the reasons in the reply to a `why`."""
    told = [line.split(" ", 3) for line in reply.lines]
    return [Reason(int(name), *said.split(" ", 1)) if name.isdigit() else Reason(None, name, said)
            for _, _, name, said in told]
