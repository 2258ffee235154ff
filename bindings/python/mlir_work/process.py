"""Runs a session through a process, `mlir_work --interactive`."""
from typing import Dict, Iterable, List, Optional, Sequence

from . import command
from .command import Program
from .errors import ProcessLost, SessionClosed
from .pipe import FIRST, Begins, Lost, Pipe, Tick
from .reply import Reply, decoded, lines_of, module_refused, reply_of
from .script import has_divider, joined
from .way import Way

# How many bytes of lines are sent before their answers are read.
MOST_BYTES = 1 << 20
# The option that lists the analyses to attach at the start, and its word for none. An older program has no such option.
ANALYSES, NO_ANALYSES = "--analyses", "none"


class Process(Way):
    """A process that holds the module. `program` is its file, or the words of its command, and `environment` has
    further variables. An answer that takes longer than `timeout` seconds ends the process; without a timeout a call
    waits. `tick` (pipe.py) is called while a call waits."""

    def __init__(self, program: Optional[Program] = None, environment: Optional[Dict[str, str]] = None,
                 timeout: Optional[float] = None, tick: Optional[Tick] = None) -> None:
        self._command = found = command.find(program)
        self._words, self._timeout, self._tick = found.words, timeout, tick
        self._environment = {**found.environment, **(environment or {})}
        self._pipe: Optional[Pipe] = None
        self._count = 0

    def attach_only(self, kinds: Sequence[str]) -> bool:
        if not self._command.has_option(ANALYSES):
            return False
        self._words = [*self._command.words, ANALYSES, ",".join(kinds) or NO_ANALYSES]
        return True

    def open(self, text: bytes, limit: Optional[int] = None, opaque: bool = False) -> List[str]:
        if has_divider(text):
            raise ValueError("the text has a line `// -----`, which would end the module: remove that line")
        more = (["--limit", str(limit)] if limit is not None else []) + ["--opaque"] * opaque
        self._pipe = Pipe([*self._words, "--brief", "--interactive", *more], self._environment, self._timeout,
                          self._tick)
        answer, = self._ask(joined(text), [FIRST], True)
        refused = module_refused(decoded(answer))
        if refused:
            self._pipe.close()
            raise refused.within(len(text))
        return lines_of(decoded(answer))

    def line(self, line: bytes) -> Reply:
        self._count += 1
        answer, = self._ask(line + b"\n", [b"%d " % self._count])
        return reply_of(decoded(answer))

    def lines(self, lines: Iterable[bytes]) -> List[Reply]:
        replies: List[Reply] = []
        part: List[bytes] = []
        size = 0
        for line in lines:
            part.append(line)
            size += len(line)
            if size > MOST_BYTES:
                replies += self._several(part)
                part, size = [], 0
        return replies + self._several(part)

    def _several(self, lines: List[bytes]) -> List[Reply]:
        if not lines:
            return []
        begins = [b"%d " % number for number in range(self._count + 1, self._count + 1 + len(lines))]
        self._count += len(lines)
        return [reply_of(decoded(it)) for it in self._ask(b"\n".join(lines) + b"\n", begins)]

    def _ask(self, said: bytes, begins: Sequence[Begins], may_end: bool = False) -> List[bytes]:
        if self._pipe is None or not self._pipe.is_open:
            raise SessionClosed("the session is closed")
        try:
            return self._pipe.ask(said, begins, may_end)
        except Lost as fault:
            raise ProcessLost(str(fault), fault.status) from None

    def close(self) -> Optional[int]:
        try:
            return self._pipe.close() if self._pipe else None
        except Lost as fault:
            raise ProcessLost(str(fault), fault.status) from None

    def abandon(self) -> None:
        if self._pipe:
            self._pipe.stop()
