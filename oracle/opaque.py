"""Opaque terms: types and attributes that the workbench doesn't know, kept as they are spelled, which are equal where
their bytes are. `Reader` reads what `rules.Reader` reads, and these terms.

A type is `("opaque", text)`, an attribute `("opaque", text, type)`, whose type may be None."""

import re

from . import rules
from .rules import COMMENT, ELEMENTS, MOST_DEPTH, Open, Refused, integer_type

MOST_OPEN = 32
CLOSERS = {b"(": b")", b"[": b"]", b"{": b"}", b"<": b">"}
ALONE = b"""f16 bf16 tf32 f32 f64 f80 f128 f8E5M2 f8E4M3 f8E4M3FN f8E5M2FNUZ f8E4M3FNUZ f8E4M3B11FNUZ f8E3M4 f8E8M0FNU
f6E2M3FN f6E3M2FN f4E2M1FN none""".split()
ANGLED = b"tensor vector complex tuple".split()
# (words of attributes with a body, and whether a type has to follow)
WITH_BODY = {b"dense": True, b"sparse": True, b"dense_resource": True, b"affine_map": False, b"affine_set": False,
             b"strided": False}
NAME = re.compile(rb"[0-9]+|[A-Za-z$._-][A-Za-z0-9$._-]*")


# Bodies: what is between two brackets.

def name_end(text, at):
    """The byte after the name that begins at a byte, if one does."""
    found = NAME.match(text, at)
    return found.end() if found else at


def is_alias(text, at):
    """Whether a sign `#` or `!` begins an alias: a name without a dot that begins with no digit, and no `<` after
    it."""
    end = name_end(text, at + 1)
    name = text[at + 1:end]
    return bool(name) and not name[:1].isdigit() and b"." not in name and text[end:end + 1] != b"<"


def part_end(text, at, takes_aliases=False):
    """The byte after the part that begins at a byte of a body. The part opens no bracket and doesn't close the
    innermost one."""
    byte = text[at:at + 1]
    if byte in (b")", b"]", b"}"):
        raise Refused(2, at)
    if byte == b'"':
        try:
            return rules.string_end(text, at)
        except Refused:
            raise Refused(1, at) from None
    if byte in (b"#", b"!"):
        if is_alias(text, at) and not takes_aliases:
            raise Refused(13, at)
        return name_end(text, at + 1)
    if byte in (b"\t", b"\n", b"\r", b"@") or text[at:at + 2] == b"//":
        raise Refused(13, at)
    if not 32 <= byte[0] <= 126:
        raise Refused(1, at)
    return at + 2 if text[at:at + 2] == b"->" else at + 1


def parts(text, at, takes_aliases=False):
    """The parts of a body, whose first bracket is at a byte: where each begins, and how many brackets are open before
    it. The last one is what follows the body."""
    open_ones, at = [CLOSERS[text[at:at + 1]]], at + 1
    while open_ones:
        yield at, len(open_ones)
        byte = text[at:at + 1]
        if not byte:
            raise Refused(2, at)
        if byte == open_ones[-1]:
            open_ones.pop()
            at += 1
        elif byte in CLOSERS:
            if len(open_ones) == MOST_OPEN:
                raise Refused(10, at)
            open_ones.append(CLOSERS[byte])
            at += 1
        else:
            at = part_end(text, at, takes_aliases)
    yield at, 0


def body_end(text, at, takes_aliases=False):
    """The byte after a body."""
    for end, _ in parts(text, at, takes_aliases):
        at = end
    return at


def is_plain_memref(text, at):
    """Whether the word is followed by a body that neither begins with `*` nor has a comma outside inner brackets before
    its first fault."""
    at = COMMENT.match(text, at).end()
    if text[at:at + 1] != b"<":
        return True
    behind = COMMENT.match(text, at + 1).end()
    if text[behind:behind + 1] == b"*":
        return False
    try:
        return not any(count == 1 and text[place:place + 1] == b"," for place, count in parts(text, at))
    except Refused:
        return True


class Reader(rules.Reader):
    """Reads opaque terms too."""

    is_opaque = True

    # Types.

    def body(self, word, at, bracket=b"<"):
        """A word with the body after it, without the blanks between, and the byte after it."""
        begin = COMMENT.match(self.text, at).end()
        if self.text[begin:begin + 1] != bracket:
            raise Refused(2, self.look(at).start)
        end = body_end(self.text, begin)
        return word + self.text[begin:end], end

    def dialect(self, it):
        """What a dialect's name spells: the name alone, where it has a dot, or with the body that follows at once."""
        if self.text[it.end:it.end + 1] == b"<":
            end = body_end(self.text, it.end)
        elif b"." in it.text:
            end = it.end
        else:
            raise Refused(13, it.start)
        return self.text[it.start:end], end

    def is_opaque_word(self, it):
        """Whether a bare identifier begins an opaque type."""
        return it.text in ALONE or it.text in ANGLED or it.text == b"memref" and not is_plain_memref(self.text, it.end)

    def is_opaque(self, it):
        """Whether a token begins an opaque type."""
        return it.kind == "bang" or it.kind == "bare" and self.is_opaque_word(it)

    def begins_type(self, it):
        return self.is_opaque_word(it) or super().begins_type(it)

    def opaque(self, it):
        if it.kind == "bang":
            text, end = self.dialect(it)
        elif it.text in ALONE:
            text, end = it.text, it.end
        else:
            text, end = self.body(it.text, it.end)
        return ("opaque", text), end

    def type(self, at, depth):
        it = self.look(at)
        if it.kind != "bang":
            return super().type(at, depth)
        if depth > MOST_DEPTH:
            raise Refused(10, it.start) if b"." in it.text else Open()
        return self.opaque(it)

    def word_type(self, it, depth):
        return self.opaque(it) if self.is_opaque_word(it) else super().word_type(it, depth)

    def element(self, it, depth):
        if self.is_opaque(it):
            return self.opaque(it)
        if it.kind == "bare" and it.text == b"memref":
            return self.type(it.start, depth + 1)
        return super().element(it, depth)

    # Attributes.

    def typed(self, text, at, depth, is_needed=False):
        """An opaque attribute of this text, with the type that follows a colon."""
        colon = self.see(at, b":")
        if colon is None:
            if is_needed:
                raise Refused(2, self.look(at).start)
            return ("opaque", text, None), at
        ty, at = self.type(colon, depth)
        return ("opaque", text, ty), at

    def attr(self, at, depth):
        it = self.look(at)
        read = self.opaque_attr(it)
        if read is None:
            return super().attr(at, depth)
        if depth > MOST_DEPTH:
            raise Refused(10, it.start)
        return read(it, depth)

    def opaque_attr(self, it):
        """What reads the opaque attribute that a token begins, where it begins no other."""
        if it.kind == "float" or it.is_mark(b"-") and self.is_float(it.end):
            return self.float_attr
        if it.kind == "hash" and it.text != b"arith.overflow":
            return self.dialect_attr
        if it.kind == "string" and self.see(it.end, b":") is not None:
            return lambda it, depth: self.typed(self.text[it.start:it.end], it.end, depth)
        if it.kind == "bare":
            if it.text in WITH_BODY:
                return self.body_attr
            return {b"distinct": self.distinct, b"loc": self.location}.get(it.text)
        return None

    def is_float(self, at):
        try:
            return self.look(at).kind == "float"
        except Refused:
            return False

    def float_attr(self, it, depth):
        number = self.look(it.end) if it.is_mark(b"-") else it
        text = number.text if number is it else b"-" + number.text
        colon = self.see(number.end, b":")
        found, at = self.typed(text, number.end, depth)
        if found[2] is not None and found[2][0] != "opaque":
            raise Refused(5, self.look(colon).start)
        return found, at

    def literal(self, it, depth):
        """An integer; or the bits of a float, in hexadecimal digits, where the type is opaque."""
        number = self.look(it.end) if it.is_mark(b"-") else it
        _, _, at = self.magnitude(it)
        colon = self.see(at, b":")
        if colon is None or not self.is_opaque(self.look(colon)):
            return super().literal(it, depth)
        found = self.typed(number.text if number is it else b"-" + number.text, at, depth)
        if number.text[:2] != b"0x":
            raise Refused(5, self.look(colon).start)
        return found

    def dialect_attr(self, it, depth):
        return self.typed(*self.dialect(it), depth)

    def body_attr(self, it, depth):
        return self.typed(*self.body(it.text, it.end), depth, WITH_BODY[it.text])

    def dense(self, at):
        it = self.look(self.expect(at, b"<"))
        if it.kind == "bare":
            is_known = integer_type(it.text, it.start) in ELEMENTS
        else:
            is_known = not (it.is_mark(b"(") or it.kind in ("bang", "hash", "float"))
        if is_known:
            return super().dense(at)
        text, at = self.body(b"array", at)
        return ("opaque", text, None), at

    def distinct(self, it, _depth):
        text, at = self.body(it.text, it.end, b"[")
        if self.see(at, b"<") is not None:
            text, at = self.body(text, at)
        return ("opaque", text, None), at

    def location(self, it, _depth):
        text, at = self.body(it.text, it.end, b"(")
        return ("opaque", text, None), at
