"""A session on a module: edits, rewrites and reports."""
import contextlib
import re
import threading
from operator import index
from types import TracebackType
from typing import (Callable, Dict, Iterable, Iterator, List, Literal, Optional, Sequence, SupportsIndex, Tuple, Type,
                    TypeVar, Union, overload)

from .blocks import NESTABLE, flatten, is_nested, nest
from .command import Program
from .data import OperationData
from .errors import Error, ModuleRefused, Refused, SessionClosed, Unproved
from .handles import OperationHandle, ValueHandle
from .library import Library, is_preferred
from .numbers import Numbers
from .operations import Operation, read
from .patterns import Checked, Pattern, all_checked_of, checked_of, patterns_of
from .positions import Positions, positions_of
from .process import Process
from .reader import Reader, TableRow
from .reply import Reply
from .rewrites import (Canonicalized, Fired, Reason, Rewrite, Traced, canonicalized_of, fired_of, reasons_of, stood_of,
                       traced_of)
from .rows import KINDS, Constant, Dead, Diagnostic, Effect, Row, Symbol, Unreached, Use, rows_of
from .script import BLANKS, File, has_divider, is_text, patterns_in
from .shown import OfLibrary, OfProgram, OfText, Shown
from .values import Value, key_text, op_text
from .way import Way, check_limit

Text = Union[str, bytes]
ValueText = Union[Value, ValueHandle, str]
Subject = Union[int, Operation, OperationHandle, Value, ValueHandle, str]
Files = Union[File, Iterable[File]]
_Read = TypeVar("_Read")
# The refusal of a line that is no command.
_BAD_COMMAND = 60
_WORD = re.compile(rb"[^ \t]*")
# The prefix of a command with an expected refusal.
_EXPECTED = re.compile(rb"^expect[ \t]+[^ \t]+[ \t]+")
_LOOKS = (b"print", b"report", b"show", b"begin", b"commit", b"attach", b"detach", b"resync", b"pattern", b"pattern!",
          b"patterns", b"check")
_COMMENT = re.compile(rb'("(?:[^"\\\n]|\\.)*")|//[^\n]*')


def _bytes(text: Text) -> bytes:
    return text.encode("utf-8", "surrogateescape") if isinstance(text, str) else text


def _way_to(program: Optional[Program], timeout: Optional[float]) -> Way:
    """Returns the default connection: the library if it is available, or a process."""
    if program is None and timeout is None and is_preferred():
        return Library()
    return Process(program, timeout=timeout)


def _listed(names: Iterable[str]) -> List[str]:
    """Returns names as a list; a string is one name."""
    return [names] if isinstance(names, str) else list(names)


def _ruled(rules: Iterable[Union[int, str]]) -> str:
    """Returns rules, separated by commas; a string is one rule, or several with commas."""
    return rules if isinstance(rules, str) else ",".join(map(str, rules))


def _target(mode: str, legal: Iterable[str], illegal: Iterable[str], dynamic: Iterable[str], rules: Iterable[int],
            depth: Optional[int]) -> str:
    """Returns the mode and the clauses of a `convert` command."""
    lists = {"legal": _listed(legal), "illegal": _listed(illegal), "dynamic": _listed(dynamic),
             "rules": [str(it) for it in rules], "depth": [] if depth is None else [str(depth)]}
    return " ".join([mode, *(f"{word} {','.join(them)}" for word, them in lists.items() if them)])


def _named(of: Subject) -> str:
    """Returns the name of an operation or a value in a command."""
    return op_text(of) if isinstance(of, (int, Operation, OperationHandle)) else str(of)


def _proved(proved: bool) -> str:
    """Returns the word in a command that asks for proved patterns, if it does."""
    return " proved" if proved else ""


def _limited(limit: Optional[int]) -> str:
    """Returns the words for a limit in a command, or nothing without a limit."""
    return "" if limit is None else f" limit {limit}"


def _one_line(text: Text) -> str:
    """Returns the text of an operation on one line. Line feeds and comments become the same number of blanks, so that
    the offset of a refusal is valid in the given text."""
    data = _bytes(text)
    if b"\n" in data:
        data = _COMMENT.sub(lambda it: it[1] or b" " * len(it[0]), data).replace(b"\n", b" ")
    return data.decode("utf-8", "surrogateescape")


class Session:
    """Parses a module and opens a session on it.

    `program` is the file of `mlir_work`, or the words of its command; it is started as a process. Without `program` the
    environment decides: MLIR_WORK_LIBRARY names a library to load into this process, or MLIR_WORK has the command of a
    program. Without either, the session uses the library next to the package if there is one, or the `mlir_work` on the
    path. `kinds` are the analyses to attach, all by default. `limit` is the limit of rewrites for a `canon` without a
    limit, from 1 to 1,000,000. If an answer takes longer than `timeout` seconds, the program is ended; without a
    timeout a call waits. `way` is a user-defined connection. With `opaque`, unknown types and attributes are kept as
    their texts, in the module and in commands. With `blocks`, a module that is refused with 8 or 9, since regions have
    several blocks, is read as nested scopes (`mlir_work.blocks`): `print` shows blocks again, and all else shows the
    scopes. `patterns` is a file of user patterns, a line each, or several files; they are defined first. With
    `positions`, `show` and `show_all` say where each operation begins in the text.

    Raises ModuleRefused, and Refused if a pattern of a file is refused. Each call raises Refused if its command is
    refused, which changes nothing, and ProcessLost if the program ended. That, and an interrupt within a call, closes
    the session. A session belongs to the thread that opened it; several sessions are independent."""

    def __init__(self, text: Text, program: Optional[Program] = None, kinds: Optional[Iterable[str]] = None,
                 limit: Optional[int] = None, *, timeout: Optional[float] = None, way: Optional[Way] = None,
                 opaque: bool = False, patterns: Files = (), blocks: bool = False, positions: bool = False) -> None:
        wanted = None if kinds is None else _listed(kinds)
        unknown = [kind for kind in wanted or () if kind not in KINDS]
        if unknown:
            raise ValueError(f"unknown kind {unknown[0]!r}: the kinds are {', '.join(KINDS)}")
        if has_divider(_bytes(text)):
            raise ValueError("the text has a line `// -----`, which would end the module: remove that line")
        check_limit(limit)
        self._way: Way = _way_to(program, timeout) if way is None else way
        self._thread = threading.get_ident()
        self._listing: Optional[List[Operation]] = None
        self._shown: Optional[Shown] = None
        # Whether the program knows `show`, as far as it was asked.
        self._has_show = True
        self._positions: Optional[Positions] = None
        self._reader: Optional[Reader] = None
        self._numbers: Optional[Numbers] = None
        self.marks, self.refused, self.closed = 0, 0, False
        """How many marks are open; how many commands were refused; whether it is closed."""
        self._blocks = blocks
        self.status: Optional[int] = None
        """The program's status once it is closed: 0, or 1 if a command was refused."""
        self.unattached: List[str] = []
        """A line for each analysis for which there was no memory, as `attach uses refused 36 Memory`."""
        self.unproved: Tuple[Unproved, ...] = ()
        """The patterns of the last `rewrite`, `trace`, `fired` or `apply` that no check proves for the module before
        it."""
        try:
            has_all = wanted is None or not self._way.attach_only(wanted)
            self.unattached, opened = self._opened(_bytes(text), limit, opaque, blocks)
            self._positions = positions_of(opened) if positions else None
            there = set(KINDS) - {it.split()[1] for it in self.unattached}
            for kind in KINDS if wanted is not None and has_all else ():
                if kind in there and kind not in (wanted or ()):
                    self.detach(kind)
            for pattern in patterns_in(patterns):
                self.command(b"pattern " + pattern)
        except BaseException:
            self._abandon()
            raise

    def _opened(self, text: bytes, limit: Optional[int], opaque: bool, blocks: bool) -> Tuple[List[str], bytes]:
        """Opens the module, nested if that is asked for and needed. Returns a line for each analysis that isn't
        attached, and the text that was opened."""
        way = self._way
        try:
            return way.open(text, limit, True) if opaque else way.open(text, limit), text
        except ModuleRefused as fault:
            if not blocks or fault.number not in NESTABLE:
                raise
        nested = nest(text)
        try:
            return way.open(nested, limit, True) if opaque else way.open(nested, limit), nested
        except ModuleRefused as fault:
            raise nested.refusal(fault) from None

    # Closing.

    def __enter__(self) -> "Session":
        return self

    def __exit__(self, kind: Optional[Type[BaseException]], fault: Optional[BaseException],
                 trace: Optional[TracebackType]) -> None:
        try:
            self.close()
        except Error:
            # The first exception says more.
            if fault is None:
                raise

    def close(self) -> Optional[int]:
        """Ends the input, waits for the program's end, and returns its status. A closed session stays closed."""
        if not self.closed:
            self.closed = True
            self.status = self._way.close()
        return self.status

    def _abandon(self) -> None:
        """Closes the session at once, after an exception or an interrupt in a call: replies could be out of order."""
        self.closed = True
        self._way.abandon()

    # Lines.

    def command(self, line: Text) -> Reply:
        """Runs any line of a script. Returns its reply, with the output below it; an empty line and a comment have an
        empty reply. Raises Refused if the line is refused."""
        data = self._line(line)
        if not data:
            return Reply("")
        try:
            reply = self._way.line(data)
            refusal = self._follow(data, reply)
        except BaseException:
            self._abandon()
            raise
        if refusal:
            raise refusal
        return reply

    def commands(self, lines: Iterable[Text]) -> List[Reply]:
        """Runs some lines, and returns their replies. It doesn't wait for a reply before it writes the next line.
        Refusals are among the replies, and raise nothing."""
        data = [it for it in map(self._line, lines) if it]
        try:
            replies = self._way.lines(data)
            for line, reply in zip(data, replies):
                self._follow(line, reply)
        except BaseException:
            self._abandon()
            raise
        return replies

    def _must_be_usable(self) -> None:
        if self.closed:
            raise SessionClosed("the session is closed")
        if threading.get_ident() != self._thread:
            raise RuntimeError("a session can only be used in the thread that opened it: open one in each thread")

    def _line(self, line: Text) -> bytes:
        """Returns a line as bytes, or nothing for an empty line and a comment."""
        self._must_be_usable()
        data = _bytes(line).strip(BLANKS)
        if b"\n" in data:
            raise ValueError("a line contains a line feed: run each line by itself")
        return b"" if data.startswith(b"//") and is_text(data) else data

    def _follow(self, line: bytes, reply: Reply) -> Optional[Refused]:
        """Notes the effect of a line. Returns why it was refused, if it was."""
        if reply.outcome == "refused":
            self.refused += 1
            return reply.refusal(line.decode("utf-8", "replace"))
        word = _WORD.match(_EXPECTED.sub(b"", line))[0]  # type: ignore[index]
        if word == b"begin":
            self.marks += 1
        elif word in (b"commit", b"rollback"):
            self.marks -= 1
        if word not in _LOOKS:
            self._forget_listing()
        return None

    def expect(self, refusal: Union[int, str], line: Text) -> bool:
        """Runs a line that is expected to be refused, by the number or the word of a refusal, and returns whether it
        was. If the refusal has no such number or word, the line isn't run, and False is returned."""
        wanted = str(refusal)
        refused = self.commands([f"expect {wanted} ".encode() + _bytes(line)])[0].refusal()
        return refused is not None and wanted.lstrip("0") in (str(refused.number), refused.word)

    # Output.

    def print(self) -> str:
        """Returns the text of the module. With `blocks`, raises FormBroken if edits broke the form of a module with
        several blocks in a region."""
        if self._blocks:
            shown = self.command("print ids").shown
            if is_nested(shown):
                return flatten(shown, True)
        return self.command("print").shown

    @overload
    def report(self, kind: Literal["uses"], of: Optional[Subject] = None) -> List[Use]: ...
    @overload
    def report(self, kind: Literal["symbols"], of: Optional[Subject] = None) -> List[Symbol]: ...
    @overload
    def report(self, kind: Literal["diagnostics"], of: Optional[Subject] = None) -> List[Diagnostic]: ...
    @overload
    def report(self, kind: Literal["effects"], of: Optional[Subject] = None) -> List[Effect]: ...
    @overload
    def report(self, kind: Literal["dead"], of: Optional[Subject] = None) -> List[Dead]: ...
    @overload
    def report(self, kind: Literal["constants"], of: Optional[Subject] = None) -> List[Constant]: ...
    @overload
    def report(self, kind: Literal["unreached"], of: Optional[Subject] = None) -> List[Unreached]: ...
    @overload
    def report(self, kind: str, of: Optional[Subject] = None) -> Sequence[Row]: ...

    def report(self, kind: str, of: Optional[Subject] = None) -> Sequence[Row]:
        """Returns the rows of an analysis. The rows of an unknown kind are the words of their lines. `of`
        is an operation or a value: only the rows about it, or about a value of the operation, are returned."""
        about = "" if of is None else f" of {_named(of)}"
        return rows_of(kind, self.command(f"report {kind}{about}").shown)

    def operations(self) -> List[Operation]:
        """Returns the current operations, in the order of the text."""
        if self._listing is None:
            self._listing = read(self.command("print ids").shown)
        return list(self._listing)

    def __iter__(self) -> Iterator[Operation]:
        return iter(self.operations())

    def walk(self) -> Iterator[OperationHandle]:
        """Visits the operations in pre-order, the root first, as handles that read the module through the library. The
        operations are those at the time of the call; one that was erased meanwhile is left out. Raises Error if the
        session isn't over the library: `operations` reads printed text and works everywhere."""
        reader = self._read()
        return (OperationHandle(reader, it) for it in reader.operations() if reader.has(it))

    def table(self) -> Iterator[TableRow]:
        """Visits the operations in pre-order with their names, operands, types and uses, which the library reads by a
        call for 512 operations: the fastest walk. Don't edit the module meanwhile. Raises Error if the session isn't
        over the library."""
        return self._read().table()

    @property
    def root(self) -> OperationHandle:
        """The root as a handle. Raises Error if the session isn't over the library."""
        reader = self._read()
        return OperationHandle(reader, reader.root())

    def operation(self, number: SupportsIndex) -> OperationHandle:
        """Returns a handle of an operation by its number. Raises Error if the session isn't over the library."""
        return OperationHandle(self._read(), index(number))

    def show(self, operation: SupportsIndex) -> OperationData:
        """Returns an operation as a dictionary that JSON can hold, with the keys of docs/JSON.md. Without the library,
        the program is asked for it by `show`. Raises Refused with 20 if the operation isn't in the module."""
        number = index(operation)
        found = self._from_shown(lambda shown: shown.data(number))
        if found is None:
            raise Refused(20, "NoSuchOp", line=f"show {op_text(number)}")
        return found

    def show_all(self, page: int = 1000, skip: int = 0) -> Iterator[List[OperationData]]:
        """Yields the operations in pre-order, without the first `skip` ones, in lists of at most `page` dictionaries as
        `show` returns them. The operations are those at the time of the call. Each list shows the module at the time
        when it is yielded, without operations that were erased meanwhile. Without the library, a list is the answer to
        one line, `show #N COUNT`."""
        if page < 1 or skip < 0:
            raise ValueError(f"found page {page} and skip {skip}, expected at least 1 and at least 0")
        return self._pages(self._all_shown().numbers()[skip:], page)

    def _pages(self, numbers: List[int], page: int) -> Iterator[List[OperationData]]:
        for begin in range(0, len(numbers), page):
            some = numbers[begin:begin + page]
            yield self._from_shown(lambda shown, some=some: shown.page(some))  # type: ignore[misc]

    def _from_shown(self, read: Callable[[Shown], _Read]) -> _Read:
        """Reads from the operations of the current module. A program that doesn't know `show` prints the module."""
        try:
            return read(self._all_shown())
        except Refused as fault:
            if fault.number != _BAD_COMMAND or not self._has_show:
                raise
            self._has_show, self._shown = False, None
            return read(self._all_shown())

    def _all_shown(self) -> Shown:
        """Returns the operations of the current module, through the library if it holds the module."""
        self._must_be_usable()
        if self._shown is None:
            reader = self._reader_if_any()
            if reader is not None:
                self._shown = OfLibrary(reader, self._positions)
            elif self._has_show:
                self._shown = OfProgram(lambda line: self.command(line).shown, self._positions)
            else:
                self._shown = OfText(self.operations(), self._positions)
        return self._shown

    def _reader_if_any(self) -> Optional[Reader]:
        self._must_be_usable()
        if self._reader is None:
            self._reader = self._way.reader()
        return self._reader

    def _read(self) -> Reader:
        reader = self._reader_if_any()
        if reader is None:
            raise Error("handles need the library (MLIR_WORK_LIBRARY): `operations()` works without it")
        return reader

    @property
    def numbers(self) -> Numbers:
        """Edits and reports by interned numbers. Raises Error if the session isn't over the library."""
        self._must_be_usable()
        if self._numbers is None:
            self._numbers = self._way.numbers(self._forget_listing)
        if self._numbers is None:
            raise Error("edits by numbers need the library (MLIR_WORK_LIBRARY)")
        return self._numbers

    def _forget_listing(self) -> None:
        self._listing = self._shown = None

    # Edits.

    def set_operand(self, operation: SupportsIndex, place: int, value: ValueText) -> None:
        """Sets the operand of an operation at a place, counted from 0."""
        self.command(f"set-operand {op_text(operation)} {place} {value}")

    def replace(self, old: ValueText, new: ValueText) -> None:
        """Replaces all uses of the first value by the second one."""
        self.command(f"replace {old} {new}")

    def insert(self, place: str, operation: Text) -> int:
        """Inserts an operation in generic form, with all operations inside it, and returns its number; those inside it
        have the next numbers. The text names values as commands do. `before`, `after`, `start` and `end` return places.
        """
        number = self.command(f"insert {place} {_one_line(operation)}").number
        if number is None:
            raise Error("the reply to an insert has no number")
        return number

    def move(self, operation: SupportsIndex, place: str) -> None:
        """Moves an operation, with all operations inside it, to a place: `before`, `after`, `start` and `end` return
        places."""
        self.command(f"move {op_text(operation)} {place}")

    def erase(self, operation: SupportsIndex) -> None:
        """Erases an operation, with all operations inside it."""
        self.command(f"erase {op_text(operation)}")

    def set_attr(self, operation: SupportsIndex, key: str, attribute: Text) -> None:
        """Sets the entry of an operation at a key to an attribute, as `5 : i32`; `quoted` makes an attribute of a
        text."""
        self.command(f"set-attr {op_text(operation)} {key_text(key)} {_one_line(attribute)}")

    def drop_attr(self, operation: SupportsIndex, key: str) -> None:
        """Removes the entry of an operation at a key."""
        self.command(f"drop-attr {op_text(operation)} {key_text(key)}")

    # Rewrites.

    def canon(self, limit: Optional[int] = None) -> Canonicalized:
        """Rewrites by the rules of docs/CANONICALIZE.md until none applies, or up to a limit."""
        return canonicalized_of(self.command(f"canon{_limited(limit)}"))

    def canon_at(self, operation: SupportsIndex, limit: Optional[int] = None) -> Canonicalized:
        """Rewrites one operation by these rules, while it exists and a rule applies, or up to a limit."""
        return canonicalized_of(self.command(f"canon at {op_text(operation)}{_limited(limit)}"))

    def why(self, operation: SupportsIndex, rule: Union[int, str, None] = None) -> List[Reason]:
        """Returns why rules don't apply at an operation, or that they do: one rule or user pattern, or all rules for
        the operation's name."""
        asked = "" if rule is None else f" {rule}"
        return reasons_of(self.command(f"why {op_text(operation)}{asked}"))

    def rewrite(self, rules: Iterable[Union[int, str]], limit: Optional[int] = None,
                proved: bool = False) -> Canonicalized:
        """Rewrites by a list of rules, in the order in which they are tried at an operation: rules 1 to 24, by numbers
        or words, and user patterns, by their names. If `proved`, raises Refused, with its `unproved`, unless checks
        prove all these patterns for the module."""
        return canonicalized_of(self._rewritten(f"rewrite {_ruled(rules)}{_proved(proved)}{_limited(limit)}"))

    def trace(self, rules: Optional[Iterable[Union[int, str]]] = None, limit: Optional[int] = None,
              proved: bool = False) -> Traced:
        """Rewrites as `canon` does, or as `rewrite` does if rules are given, and returns each rewrite."""
        line = "canon" if rules is None else f"rewrite {_ruled(rules)}{_proved(proved)}"
        return traced_of(self._rewritten(f"{line} trace{_limited(limit)}"))

    def fired(self, rules: Optional[Iterable[Union[int, str]]] = None, limit: Optional[int] = None,
              proved: bool = False) -> Fired:
        """Rewrites as `canon` does, or as `rewrite` does if rules are given. If the run stops by its limit, the result
        has how many of the last hundred rewrites each rule and pattern made."""
        line = "canon" if rules is None else f"rewrite {_ruled(rules)}{_proved(proved)}"
        return fired_of(self._rewritten(f"{line} fired{_limited(limit)}"))

    def convert(self, mode: str = "partial", *, legal: Iterable[str] = (), illegal: Iterable[str] = (),
                dynamic: Iterable[str] = (), rules: Iterable[int] = (), depth: Optional[int] = None) -> int:
        """Converts to a target (docs/CONVERT.md), and returns the number of rules that were applied. The mode is
        `partial` or `full`."""
        return self.command(f"convert {_target(mode, legal, illegal, dynamic, rules, depth)}").number or 0

    def trace_convert(self, mode: str = "partial", *, legal: Iterable[str] = (), illegal: Iterable[str] = (),
                      dynamic: Iterable[str] = (), rules: Iterable[int] = (),
                      depth: Optional[int] = None) -> List[Rewrite]:
        """Converts as `convert` does, and returns the rules that were applied, in order. If an operation can't be made
        legal, the exception says why in `stays`."""
        return stood_of(self.command(f"convert trace {_target(mode, legal, illegal, dynamic, rules, depth)}"))

    def sweep(self) -> int:
        """Erases the private symbols that nothing reaches, and returns how many they were."""
        return self.command("sweep").number or 0

    def apply(self, rule: Union[int, str], operation: SupportsIndex) -> bool:
        """Applies a rule of 1 to 30, by its number or its word, or a user pattern, by its name, at an operation.
        Returns whether it applied."""
        return bool(self._rewritten(f"apply {rule} {op_text(operation)}").number)

    def _rewritten(self, line: str) -> Reply:
        """Returns the reply to a line that may rewrite by patterns, and keeps the unproved patterns that the reply
        names."""
        reply = self.command(line)
        self.unproved = reply.unproved
        return reply

    # User patterns.

    def pattern(self, text: Text, replace: bool = False) -> None:
        """Defines a pattern: its name, and the operations before and after, as `half arith.divui(%a, 2) =>
        arith.shrui(%a, 1)`. If `replace`, it takes the place of the pattern of its name, if there is one. No rollback
        removes it."""
        self.command(f"pattern{'!' * replace} {_one_line(text)}")

    def patterns(self) -> List[Pattern]:
        """Returns the patterns that were defined, in order."""
        return patterns_of(self.command("patterns").shown)

    def forget(self, name: str) -> None:
        """Removes a pattern, with the answer of its last check. No rollback brings it back."""
        self.command(f"forget {name}")

    def check(self, name: str, width: Optional[int] = None, sampled: bool = False) -> Checked:
        """Checks a pattern for all values, at all widths up to one. If it is sampled, it is checked for edge values and
        random values at a width, which has to be given. A pattern that fails raises nothing."""
        asked = "" if width is None else f" width {width}"
        return checked_of(self.command(f"check {name}{asked}" + " sampled" * sampled))

    def check_all(self) -> Dict[str, Checked]:
        """Checks each pattern in order, and returns the results by name. If a check is refused, its verdict is
        `refused`."""
        return all_checked_of(self.command("check all"))

    # Marks and analyses.

    def begin(self) -> None:
        """Makes a mark of the module; 16 marks may be open."""
        self.command("begin")

    def commit(self) -> None:
        """Drops the newest mark."""
        self.command("commit")

    def rollback(self) -> None:
        """Restores the module of the newest mark, with its numbers, and drops the mark."""
        self.command("rollback")

    @contextlib.contextmanager
    def mark(self) -> Iterator["Session"]:
        """A mark for a `with`. At the end it is committed, with all marks made within it that are open. If the `with`
        raises, the module of the mark is restored, unless the session is closed."""
        self.begin()
        depth = self.marks
        try:
            yield self
        except BaseException:
            while not self.closed and self.marks >= depth:
                self.rollback()
            raise
        if self.marks < depth:
            raise Error("the mark was committed or rolled back within its own `with`")
        while self.marks >= depth:
            self.commit()

    def detach(self, kind: str) -> None:
        """Drops an analysis; no rollback restores it."""
        self.command(f"detach {kind}")

    def attach(self, kind: str) -> None:
        """Attaches an analysis that was dropped."""
        self.command(f"attach {kind}")

    def resync(self, kind: str) -> None:
        """Recomputes an analysis, for example if it is stale."""
        self.command(f"resync {kind}")
