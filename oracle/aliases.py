"""Aliases and locations of a module's text: a pass before the grammar, which puts the spelling of each alias in
its place and takes `loc(..)` away after a function type or the type of a block's argument.

Definitions come before the first operation. After the last operation only `#name = loc(..)` may follow, which is
dropped. A definition spells one type or one attribute (terms.py), and another definition or an operation follows. A
text that defines no alias keeps all that look like one, and the grammar refuses them."""

import bisect
import re

from . import opaque, rules
from .opaque import CLOSERS, body_end, is_alias, name_end
from .rules import COMMENT, ESCAPE, MOST_BYTES, Refused
from .terms import Term, is_type_word

# No name of a value, a label or a symbol ends with the `-` of an arrow.
NAME = rb"[%^@](?:[0-9]+|(?:[A-Za-z$._]|-(?!>))(?:[A-Za-z0-9$._]|-(?!>))*)"
PIECE = re.compile(NAME + rb"|[A-Za-z_][A-Za-z0-9_$.]*|[0-9]+|->|.", re.S)
# After one of these bytes a spelling can be no part of the token before it.
APART = b" \t\r\n([{<,=:>"
# A piece that begins with one of these, and directly after it the word `x`, parts dimensions.
COUNTS = b"0123456789?]*"
LOC = re.compile(rb"loc(?![A-Za-z0-9_$.])")
# The front of a dialect's type: its own name and a comma follow the angle bracket.
STRING = rb'"(?:[^"\\\n\v\f\r]|' + ESCAPE.pattern + rb')*"'
FRONT = re.compile(rb"!(?:[0-9]+|[A-Za-z$._-][A-Za-z0-9$._-]*)<([A-Za-z_][A-Za-z0-9_$.]*|" + STRING + rb"),")
# What a bracket holds: operations, operands or types or regions, arguments of a block, all else; a location.
OPS, LIST, ARGS, OTHER, PLACE = range(5)


class Piece:
    """A part of a text from a byte on: a blank, a string, a name with its sign, a word, a number, a mark or a byte. A
    string that nothing ends continues to the end of the text, with the fault."""

    def __init__(self, text, start):
        self.text, self.start = text, start
        byte = text[start:start + 1]
        self.is_alias = byte in (b"#", b"!") and is_alias(text, start)
        self.fault = None
        if byte == b'"' or text[start:start + 2] == b'@"':
            try:
                self.end = rules.string_end(text, start + (byte == b"@"))
            except Refused as fault:
                self.end, self.fault = len(text), fault
        elif byte in (b"#", b"!"):
            self.end = name_end(text, start + 1)
        else:
            self.end = COMMENT.match(text, start).end()
            if self.end == start:
                self.end = PIECE.match(text, start).end()
        self.bytes = text[start:self.end]

    def is_blank(self):
        return COMMENT.match(self.bytes).end() == len(self.bytes)


def ends_type(piece):
    """Whether a type may end with a piece: a word, a number, a name with its sign, a label, `)` or `>`."""
    if piece[:1] in (b"#", b"!", b"%", b"@"):
        return len(piece) > 1 and piece[1:2] != b'"'
    if piece in (b"", b"->"):
        return False
    return piece[:1] == b"^" or piece[-1:].isalnum() or piece[-1:] in b")>_$."


class Front:
    """The two pieces before a place, blanks among them, and the last that is no blank."""

    def __init__(self):
        self.two, self.last = (b"", b" "), b""

    def passed(self, piece):
        self.two = (self.two[1], piece.bytes)
        if not piece.is_blank():
            self.last = piece.bytes

    def is_apart(self):
        """Whether a spelling is no part of the token before it."""
        count, near = self.two
        return near[-1:] in APART or near == b"x" and count[:1] != b"" and count[:1] in COUNTS


def behind_equal(text, piece):
    """The byte after the `=` of a definition, where an alias is one."""
    at = COMMENT.match(text, piece.end).end()
    return at + 1 if piece.is_alias and text[at:at + 1] == b"=" else None


def spells_itself(value):
    """Whether a value is the type of a dialect with a name of the type first in its angle brackets, and has the same
    prefix in it again."""
    found = FRONT.match(value)
    return bool(found) and not is_type_word(found[1]) and value.find(found[0], found.end()) >= 0


class Expansion:
    """A text with the spellings in place, where each byte of it came from, and the fault at which it ends, if any."""

    def __init__(self):
        self.parts, self.size, self.marks, self.fault = [], 0, [], None

    def add(self, part, start, is_spelling=False):
        """Adds bytes of the text from `start` on, or the spelling of the alias there."""
        self.marks.append((self.size, start, is_spelling))
        self.parts.append(part)
        self.size += len(part)

    def text(self):
        return b"".join(self.parts)

    def place(self, at):
        """Where a byte came from."""
        begin, start, is_spelling = self.marks[bisect.bisect_right(self.marks, (at, MOST_BYTES + 1)) - 1]
        return start if is_spelling else start + at - begin


class Pass:
    def __init__(self, text):
        self.text, self.values, self.names, self.out = text, {}, set(), Expansion()
        self.spelled = 0

    # Spellings.

    def spelling(self, piece, front, brackets, size):
        """The spelling of an alias, in these brackets and after so many bytes, with the bytes of all values if the
        alias is in a value."""
        if piece.bytes not in self.values:
            raise Refused(3, piece.start)
        if front.last == b"-":
            raise Refused(2, piece.start)
        value = self.values[piece.bytes]
        if any(kind == PLACE for _, kind in brackets) and LOC.match(value) and value.endswith(b")"):
            value = value[value.index(b"(") + 1:-1]
        found = value if front.is_apart() else b" " + value
        if size + len(found) > MOST_BYTES:
            raise Refused(11, piece.start)
        return found

    # Definitions.

    def definitions(self):
        """Reads the definitions before the first operation, and gives the byte after the last."""
        behind = 0
        while True:
            at = COMMENT.match(self.text, behind).end()
            if at == len(self.text) or self.text[at:at + 1] not in (b"#", b"!"):
                return behind
            piece = Piece(self.text, at)
            equal = behind_equal(self.text, piece)
            if equal is None:
                return behind
            self.named(piece)
            self.values[piece.bytes], behind = self.value(equal, piece.bytes[:1] == b"!")
            self.spelled += len(self.values[piece.bytes])

    def named(self, piece):
        if piece.bytes in self.names:
            raise Refused(4, piece.start)
        self.names.add(piece.bytes)

    def value(self, at, is_type):
        """The value of a definition, and the byte after it. At no use all of them together are longer than a text."""
        begin = COMMENT.match(self.text, at).end()
        end, fault = self.value_end(begin, is_type)
        parts, size, at, brackets, front = [], 0, begin, [], Front()
        while at < end:
            piece = Piece(self.text, at)
            at = piece.end
            found = piece.bytes
            if piece.is_alias:
                found = self.spelling(piece, front, brackets, self.spelled + size)
            elif not piece.is_blank():
                self.bracket(piece, brackets, front.last)
            size += len(found)
            parts.append(found)
            front.passed(piece)
        value = b"".join(parts)
        if not fault and spells_itself(value):
            fault = Refused(13, begin)
        if fault:
            raise fault
        return value, end

    def value_end(self, begin, is_type):
        """The byte after a value; or the one at which it is refused, with the fault."""
        term = Term(self.text, Piece)
        try:
            return (term.type(begin) if is_type else term.attr(begin)), None
        except Refused as fault:
            return fault.at, fault

    @staticmethod
    def bracket(piece, brackets, last):
        """Opens or closes a bracket of a value."""
        byte = piece.bytes
        if brackets and byte == brackets[-1][0]:
            brackets.pop()
        elif byte in CLOSERS:
            brackets.append((CLOSERS[byte], PLACE if last == b"loc" else OTHER))

    # Operations.

    def operations(self, at):
        """Puts spellings in the operations from a byte on, and takes locations away."""
        brackets, front, is_typed, is_ended = [], Front(), False, False
        while at < len(self.text):
            piece = Piece(self.text, at)
            at = piece.end
            kind = brackets[-1][1] if brackets else OPS
            if not brackets and (is_typed or is_ended) and behind_equal(self.text, piece) is not None:
                self.endings(piece.start)
                return
            behind = self.location(piece, kind, is_typed, front.last)
            if behind is not None:
                at, front.two, front.last, is_typed, is_ended = behind, (b"", b")"), b")", False, True
                continue
            if piece.is_alias and self.values:
                self.out.add(self.spelling(piece, front, brackets, self.out.size), piece.start, True)
            else:
                self.out.add(piece.bytes, piece.start)
            last = front.last
            front.passed(piece)
            if piece.is_blank():
                continue
            is_ended = False
            if kind == OPS:
                is_typed = piece.bytes == b"->" or is_typed and piece.bytes[:1] not in (b'"', b"%", b"^")
            if self.nest(piece, brackets, kind, last) == OPS:
                is_typed = False

    @staticmethod
    def nest(piece, brackets, kind, last):
        """Opens or closes a bracket, and gives what it holds, or none."""
        byte = piece.bytes
        if brackets and byte == brackets[-1][0]:
            return brackets.pop()[1]
        if byte not in CLOSERS:
            return None
        inner = PLACE if last == b"loc" else OTHER
        if kind == OPS and byte == b"(":
            inner = ARGS if last[:1] == b"^" else LIST
        elif kind == LIST and byte == b"{":
            inner = OPS
        brackets.append((CLOSERS[byte], inner))
        return inner

    def location(self, piece, kind, is_typed, last):
        """The byte after a location that is dropped, if a piece begins one."""
        opened = COMMENT.match(self.text, piece.end).end()
        if piece.bytes != b"loc" or self.text[opened:opened + 1] != b"(":
            return None
        if not ends_type(last) or not (kind == ARGS or kind == OPS and is_typed):
            return None
        return body_end(self.text, opened, True)

    def endings(self, at):
        """What follows the last operation: definitions of locations, which go."""
        while True:
            at = COMMENT.match(self.text, at).end()
            if at == len(self.text):
                return
            piece = Piece(self.text, at)
            equal = behind_equal(self.text, piece)
            if equal is None:
                raise Refused(2, at)
            begin = COMMENT.match(self.text, equal).end()
            found = LOC.match(self.text, begin)
            if piece.bytes[:1] != b"#" or not found:
                raise Refused(13, at)
            self.named(piece)
            opened = COMMENT.match(self.text, found.end()).end()
            if self.text[opened:opened + 1] != b"(":
                raise Refused(2, opened)
            at = body_end(self.text, opened, True)


def expanded(text):
    """The expansion of a text."""
    them = Pass(text)
    them.out.add(b"", 0)
    try:
        them.operations(them.definitions())
    except Refused as fault:
        them.out.fault = fault
    them.out.add(b"", them.out.fault.at if them.out.fault else len(text))
    return them.out


class Reader:
    """Reads opaque terms, and of a module aliases and locations too: only its expansion has to be UTF-8, and no longer
    than a text may be."""

    is_opaque = True

    def __init__(self, text, outer=None):
        self.text, self.outer = text, outer

    def single(self):
        return opaque.Reader(self.text, self.outer).single()

    def one_attr(self):
        return opaque.Reader(self.text).one_attr()

    def source(self):
        """The module that a text spells with its aliases and locations; raises `Refused`. A fault of the grammar counts
        if it is further left than a fault of the aliases."""
        found = expanded(self.text)
        try:
            made = opaque.Reader(found.text()).source()
        except Refused as fault:
            at = found.place(fault.at)
            if found.fault is None or at < found.fault.at:
                raise Refused(fault.number, at) from None
        if found.fault is not None:
            raise found.fault
        return made
