"""Where the value of an alias ends: one type, or one attribute, as far as its words, names and brackets show. The
contents of brackets only have to be balanced."""

from . import rules
from .opaque import ALONE, ANGLED, CLOSERS, MOST_OPEN
from .rules import COMMENT, INTEGER, Refused

LONE = b"true false unit".split()
ELEMENTS = b"dense sparse dense_resource".split()
LISTED = b"array affine_map affine_set strided".split()


def after_blanks(text, at):
    return COMMENT.match(text, at).end()


def token(text, at):
    """The token at a byte, which is refused there where none begins."""
    try:
        return rules.token(text, at)
    except Refused:
        raise Refused(1, at) from None


def is_type_word(word):
    """Whether a word is a type."""
    return word in ALONE or word == b"index" or bool(INTEGER.match(word))


def group_end(text, at, closer, piece):
    """The byte after the closing bracket, from the byte after the opening one on. `piece` returns the part that begins
    at a byte."""
    closers = [closer]
    while closers:
        if at == len(text):
            raise Refused(2, at)
        it = piece(text, at)
        if it.fault:
            raise Refused(1, it.start + (it.bytes[:1] == b"@"))
        if it.bytes == closers[-1]:
            closers.pop()
        elif it.bytes in (b")", b"]", b"}"):
            raise Refused(2, at)
        elif it.bytes in CLOSERS:
            if len(closers) == MOST_OPEN:
                raise Refused(10, at)
            closers.append(CLOSERS[it.bytes])
        at = it.end
    return at


class Term:
    """Finds ends of terms in a text. `piece` returns the parts in brackets."""

    def __init__(self, text, piece):
        self.text, self.piece = text, piece

    def enclosed(self, at, first):
        """The byte after a bracketed part, whose opening bracket has to be at the byte."""
        if self.text[at:at + 1] != first:
            raise Refused(2, at)
        return group_end(self.text, at + 1, CLOSERS[first], self.piece)

    def enclosed_next(self, at, first):
        return self.enclosed(after_blanks(self.text, at), first)

    # Types.

    def name(self, it):
        """The byte after a name with its sign, and the brackets that follow at once. No dialect or alias has a number
        for its name."""
        if self.text[it.end:it.end + 1] == b"<":
            return self.enclosed(it.end, b"<")
        if it.text[:1].isdigit():
            raise Refused(13, it.start)
        return it.end

    def word_type(self, it):
        if it.text in ANGLED or it.text == b"memref":
            return self.enclosed_next(it.end, b"<")
        if is_type_word(it.text):
            return it.end
        raise Refused(2, it.start)

    def plain_type(self, at):
        it = token(self.text, at)
        if it.kind == "bare":
            return self.word_type(it)
        if it.kind == "bang":
            return self.name(it)
        raise Refused(2, at)

    def function(self, at):
        at = after_blanks(self.text, self.enclosed(at, b"("))
        if self.text[at:at + 2] != b"->":
            raise Refused(2, at)
        at = after_blanks(self.text, at + 2)
        if self.text[at:at + 1] == b"(":
            return self.enclosed(at, b"(")
        return self.plain_type(at)

    def type(self, at):
        return self.function(at) if self.text[at:at + 1] == b"(" else self.plain_type(at)

    # Attributes.

    def typed(self, at, is_needed=False):
        """The byte after a colon and a type, if a colon is next."""
        colon = after_blanks(self.text, at)
        if self.text[colon:colon + 1] == b":":
            return self.type(after_blanks(self.text, colon + 1))
        if is_needed:
            raise Refused(2, colon)
        return at

    def number(self, at):
        it = token(self.text, at)
        if it.kind not in ("integer", "float"):
            raise Refused(2, at)
        return self.typed(it.end)

    def symbols(self, at):
        """The byte after the further symbols of a reference."""
        while True:
            colons = after_blanks(self.text, at)
            if self.text[colons:colons + 2] != b"::":
                return at
            begin = after_blanks(self.text, colons + 2)
            it = token(self.text, begin)
            if it.kind != "symbol":
                raise Refused(2, begin)
            at = it.end

    def hash(self, it):
        end = self.name(it)
        is_dialect = self.text[it.end:it.end + 1] == b"<" or b"." in it.text
        return self.typed(end) if is_dialect else end

    def word(self, it):
        if it.text in LONE:
            return it.end
        if it.text in ELEMENTS:
            return self.typed(self.enclosed_next(it.end, b"<"), True)
        if it.text in LISTED:
            return self.enclosed_next(it.end, b"<")
        if it.text == b"loc":
            return self.enclosed_next(it.end, b"(")
        if it.text == b"distinct":
            return self.enclosed_next(self.enclosed_next(it.end, b"["), b"<")
        return self.word_type(it)

    def attr(self, at):
        first = self.text[at:at + 1]
        if first in (b"[", b"{"):
            return self.enclosed(at, first)
        if first == b"-":
            return self.number(after_blanks(self.text, at + 1))
        if first == b"(":
            return self.function(at)
        it = token(self.text, at)
        if it.kind in ("integer", "float", "string"):
            return self.typed(it.end)
        reads = {"bare": self.word, "hash": self.hash, "bang": self.name, "symbol": lambda it: self.symbols(it.end)}
        if it.kind not in reads:
            raise Refused(2, at)
        return reads[it.kind](it)
