"""Parses a text of the generic form: to a module, an operation or an attribute, or to the number of the refusal and its
byte. It is written from the rules and not from the crates, so that expected answers don't come from the program under
test.

If the rules leave open which of two refusals is reported, `Open` is raised, and no case has such a text."""

import re
import sys

sys.setrecursionlimit(20000)

MOST_WIDTH = 128
MOST_BYTES = 16777216
MOST_OPS = 1048576
MOST_AROUND = 128
MOST_DEPTH = 32
MOST_ITEMS = 256
MOST_REGIONS = 16
MOST_MAGNITUDE = 2**128 - 1

WORDS = {1: "BadToken", 2: "Unexpected", 3: "UnknownValue", 4: "Redefined", 5: "TypeMismatch", 6: "BadWidth",
         7: "BadValue",
         8: "MultipleBlocks", 9: "Successors", 10: "TooDeep", 11: "TooMany", 12: "DuplicateKey", 13: "LeftOut",
         14: "NotUtf8",
         32: "IdsExhausted"}

ROWS = {b"builtin.module": b"sym_name sym_visibility",
        b"func.func": b"function_type sym_name sym_visibility arg_attrs res_attrs",
        b"func.call": b"callee arg_attrs res_attrs", b"arith.constant": b"value", b"arith.cmpi": b"predicate",
        b"memref.alloc": b"operandSegmentSizes alignment", b"memref.load": b"nontemporal alignment",
        b"memref.store": b"nontemporal alignment"}
for word in b"addi subi muli shli trunci".split():
    ROWS[b"arith." + word] = b"overflowFlags"
ISOLATED = (b"builtin.module", b"func.func")


class Refused(Exception):
    """The number of a refusal and its byte."""

    def __init__(self, number, at):
        super().__init__(number, at)
        self.number, self.at = number, at


class Open(Exception):
    """The rules don't say which refusal is reported."""


# Tokens: a kind, what it holds, and where it begins and ends.

COMMENT = re.compile(rb"(?:[ \t\r\n]|//[^\n]*)*")
PLAIN = [("integer", re.compile(rb"0x[0-9a-fA-F]+|[0-9]+")),
         ("float", re.compile(rb"[0-9]+\.[0-9]*(?:[eE][+-]?[0-9]+)?")),
         ("bare", re.compile(rb"[A-Za-z_][A-Za-z0-9_$.]*")),
         ("signed", re.compile(rb"[%^#!@](?:[0-9]+|[A-Za-z$._-][A-Za-z0-9$._-]*)")),
         ("mark", re.compile(rb"::|->|[(){}\[\]<>,=:\-?*]"))]
SIGNS = {b"%": "value", b"^": "label", b"#": "hash", b"!": "bang", b"@": "symbol"}
ESCAPE = re.compile(rb"\\(?:[\\\"nt]|[0-9a-fA-F]{2})")


class Token:
    def __init__(self, kind, text, start, end):
        self.kind, self.text, self.start, self.end = kind, text, start, end

    def is_mark(self, mark):
        return self.kind == "mark" and self.text == mark


def string_end(text, quote):
    """The byte after a string that begins with the quote."""
    at = quote + 1
    while True:
        byte = text[at:at + 1]
        if byte == b'"':
            return at + 1
        if byte == b"" or byte in b"\n\v\f\r":
            raise Refused(1, quote)
        if byte == b"\\":
            found = ESCAPE.match(text, at)
            if not found:
                raise Refused(1, at)
            at = found.end()
        else:
            at += 1


def string_value(raw):
    def byte(found):
        it = found[0][1:]
        return {b"\\": b"\\", b'"': b'"', b"n": b"\n", b"t": b"\t"}.get(it) or bytes([int(it, 16)])
    return ESCAPE.sub(byte, raw)


def token(text, at):
    """The token at or after a byte: the longest."""
    start = COMMENT.match(text, at).end()
    if start == len(text):
        return Token("end", b"", start, start)
    if text[start:start + 1] == b'"':
        end = string_end(text, start)
        return Token("string", string_value(text[start + 1:end - 1]), start, end)
    if text[start:start + 2] == b'@"':
        end = string_end(text, start + 1)
        return Token("symbol", string_value(text[start + 2:end - 1]), start, end)
    found = [(it.end(), kind) for kind, form in PLAIN for it in [form.match(text, start)] if it]
    if not found:
        raise Refused(1, start)
    end, kind = max(found)
    if kind == "signed":
        return Token(SIGNS[text[start:start + 1]], text[start + 1:end], start, end)
    return Token(kind, text[start:end], start, end)


def number(digits):
    return int(digits[2:], 16) if digits[:2] == b"0x" else int(digits)


# Types and attributes.

INTEGER = re.compile(rb"(i|si|ui)([0-9]+)\Z")
ELEMENTS = [("i", width) for width in (1, 8, 16, 32, 64)]


def integer_type(word, at):
    """The integer type of a bare identifier, or none."""
    found = INTEGER.match(word)
    if not found:
        return None
    if found[2][:1] == b"0" or int(found[2]) > MOST_WIDTH:
        raise Refused(6, at)
    return (found[1].decode(), int(found[2]))


def span(ty):
    """The literals of a type, from the first to the last, and its values."""
    if ty == ("index",):
        return -2**63, 2**63 - 1, -2**63
    sign, width = ty
    least, past = -2**(width - 1), 2**(width - 1)
    return {"i": (least, 2 * past - 1, least), "si": (least, past - 1, least), "ui": (0, 2 * past - 1, 0)}[sign]


def value_of(ty, literal, at):
    """The value of a literal, which is refused where it is none of the type's."""
    least, most, first = span(ty)
    if not least <= literal <= most:
        raise Refused(7, at)
    width = 64 if ty == ("index",) else ty[1]
    return (literal - first) % 2**width + first


class Reader:
    """Reads parts of a text from a byte on; each call gives the part and the byte after it."""

    # Whether types and attributes that aren't known are read as opaque ones.
    is_opaque = False

    def __init__(self, text, outer=None):
        self.text, self.outer, self.ops, self.tokens = text, outer, 0, {}
        if len(text) > MOST_BYTES:
            raise Refused(11, MOST_BYTES)
        try:
            text.decode()
        except UnicodeDecodeError as error:
            raise Refused(14, error.start)

    def look(self, at):
        it = self.tokens.get(at)
        if it is None:
            it = self.tokens[at] = token(self.text, at)
        return it

    def see(self, at, mark):
        """The byte after a mark, if the mark is next. A byte that begins no token is no mark."""
        try:
            it = self.look(at)
        except Refused:
            return None
        return it.end if it.is_mark(mark) else None

    def expect(self, at, mark):
        it = self.look(at)
        if not it.is_mark(mark):
            raise Refused(2, it.start)
        return it.end

    def listed(self, at, close, part):
        """Parts up to a mark, none or more."""
        end = self.see(at, close)
        if end is not None:
            return [], end
        return self.some(at, close, part)

    def some(self, at, close, part, most=None):
        """Parts up to a mark, one or more."""
        parts = []
        while True:
            found, at = part(at)
            parts.append(found)
            end = self.see(at, close)
            if end is not None:
                return parts, end
            at = self.expect(at, b",")

    # Types.

    def type(self, at, depth):
        it = self.look(at)
        if it.is_mark(b"("):
            if depth > MOST_DEPTH:
                raise Refused(10, it.start)
            return self.function(at, depth, self.outputs)
        if it.kind in ("bang", "hash", "float"):
            raise Refused(13, it.start) if depth <= MOST_DEPTH else Open()
        if it.kind != "bare":
            raise Refused(2, it.start)
        if depth > MOST_DEPTH:
            if self.begins_type(it):
                raise Refused(10, it.start)
            raise Open()
        return self.word_type(it, depth)

    def begins_type(self, it):
        """Whether a bare identifier begins a type."""
        return it.text in (b"index", b"memref") or bool(INTEGER.match(it.text)) and self.is_good(it)

    def is_good(self, it):
        try:
            return integer_type(it.text, it.start) is not None
        except Refused:
            return False

    def word_type(self, it, depth):
        if it.text == b"index":
            return ("index",), it.end
        if it.text == b"memref":
            return self.memref(it.end, depth)
        found = integer_type(it.text, it.start)
        if found is None:
            raise Refused(13, it.start)
        return found, it.end

    def function(self, at, depth, outputs):
        at = self.expect(at, b"(")
        inputs, at = self.listed(at, b")", lambda at: self.type(at, depth + 1))
        at = self.expect(at, b"->")
        outs, at = outputs(at, depth + 1)
        return ("func", tuple(inputs), tuple(outs)), at

    def outputs(self, at, depth):
        """One type that is no function type, or types between parentheses."""
        opened = self.see(at, b"(")
        if opened is not None:
            return self.listed(opened, b")", lambda at: self.type(at, depth))
        found, at = self.type(at, depth)
        return [found], at

    def memref(self, at, depth):
        at, dims = self.expect(at, b"<"), []
        while True:
            start = COMMENT.match(self.text, at).end()
            found = re.compile(rb"\?|[0-9]+").match(self.text, start)
            if not found:
                break
            if found[0] != b"?" and int(found[0]) >= 2**63:
                raise Refused(7, start)
            dims.append(None if found[0] == b"?" else int(found[0]))
            at = COMMENT.match(self.text, found.end()).end()
            if self.text[at:at + 1] != b"x":
                raise Refused(2, self.look(at).start)
            at += 1
        elem, at = self.element(self.look(at), depth)
        if self.see(at, b",") is not None:
            raise Refused(13, self.look(at).start)
        return ("memref", tuple(dims), elem), self.expect(at, b">")

    def element(self, it, _depth):
        if it.is_mark(b"*") or it.is_mark(b"(") or it.kind in ("bang", "hash", "float"):
            raise Refused(13, it.start)
        if it.kind != "bare":
            raise Refused(2, it.start)
        elem = ("index",) if it.text == b"index" else integer_type(it.text, it.start)
        if elem is None:
            raise Refused(13, it.start)
        return elem, it.end

    # Attributes.

    def attr(self, at, depth):
        it = self.look(at)
        if depth > MOST_DEPTH:
            self.too_deep(it)
        if it.kind == "bare":
            return self.word_attr(it, depth)
        if it.kind == "string":
            return ("str", it.text), it.end
        if it.kind == "symbol":
            return self.symbol(it)
        if it.kind == "integer" or it.is_mark(b"-"):
            return self.literal(it, depth)
        if it.kind == "hash" and it.text == b"arith.overflow":
            return self.overflow(it.end)
        if it.is_mark(b"["):
            items, at = self.listed(it.end, b"]", lambda at: self.attr(at, depth + 1))
            return ("array", tuple(items)), at
        if it.is_mark(b"{"):
            return self.dictionary(it.end, depth)
        found, at = self.type(at, depth)
        return ("ty", found), at

    def too_deep(self, it):
        if it.kind == "bare":
            known = it.text in (b"true", b"false", b"unit", b"array") or self.begins_type(it)
            raise Refused(10, it.start) if known else Open()
        if it.kind == "integer" or it.is_mark(b"-"):
            good = it.kind == "integer" or self.is_integer(it.end)
            raise Refused(10, it.start) if good else Open()
        if it.kind in ("bang", "float") or it.kind == "hash" and it.text != b"arith.overflow":
            raise Open()
        if it.kind in ("string", "symbol", "hash") or it.is_mark(b"[") or it.is_mark(b"{") or it.is_mark(b"("):
            raise Refused(10, it.start)
        raise Refused(2, it.start)

    def is_integer(self, at):
        try:
            return self.look(at).kind == "integer"
        except Refused:
            return False

    def word_attr(self, it, depth):
        if it.text in (b"true", b"false"):
            return ("int", ("i", 1), -1 if it.text == b"true" else 0), it.end
        if it.text == b"unit":
            return ("unit",), it.end
        if it.text == b"array":
            return self.dense(it.end)
        found, at = self.word_type(it, depth)
        return ("ty", found), at

    def magnitude(self, it):
        """A literal's number, whose minus may be before it, and where it begins and ends."""
        start, minus = it.start, it.is_mark(b"-")
        if minus:
            it = self.look(it.end)
        if it.kind == "float":
            raise Refused(13, it.start)
        if it.kind != "integer":
            raise Refused(2, it.start)
        found = number(it.text)
        if found > MOST_MAGNITUDE:
            raise Refused(7, start)
        return -found if minus else found, start, it.end

    def literal(self, it, depth):
        found, start, at = self.magnitude(it)
        ty, colon = ("i", 64), self.see(at, b":")
        if colon is not None:
            ty, at = self.literal_type(colon, depth)
        return ("int", ty, value_of(ty, found, start)), at

    def literal_type(self, at, depth):
        begin = self.look(at)
        try:
            ty, end = self.type(at, depth)
        except Refused as fault:
            if fault.at != begin.start and (begin.is_mark(b"(") or begin.text == b"memref"):
                raise Open()
            raise
        if ty[0] in ("func", "memref"):
            raise Refused(5, begin.start)
        return ty, end

    def symbol(self, it):
        parts = [it.text]
        while True:
            at = self.see(it.end, b"::")
            if at is None:
                return ("sym", tuple(parts)), it.end
            it = self.look(at)
            if it.kind != "symbol":
                raise Refused(2, it.start)
            parts.append(it.text)

    def dense(self, at):
        it = self.look(self.expect(at, b"<"))
        if it.is_mark(b"(") or it.kind in ("bang", "hash", "float"):
            raise Refused(13, it.start)
        if it.kind != "bare":
            raise Refused(2, it.start)
        elem = integer_type(it.text, it.start)
        if elem not in ELEMENTS:
            raise Refused(13, it.start)
        at = self.see(it.end, b">")
        if at is not None:
            return ("dense", elem, ()), at
        items, at = self.some(self.expect(it.end, b":"), b">", lambda at: self.item(at, elem))
        return ("dense", elem, tuple(items)), at

    def item(self, at, elem):
        it = self.look(at)
        if elem == ("i", 1) and it.kind == "bare" and it.text in (b"true", b"false"):
            return (-1 if it.text == b"true" else 0), it.end
        if it.kind != "integer" and not it.is_mark(b"-"):
            raise Refused(2, it.start)
        try:
            found, start, at = self.magnitude(it)
        except Refused as fault:
            raise Refused(2 if fault.number == 13 else fault.number, fault.at)
        return value_of(elem, found, start), at

    def overflow(self, at):
        it = self.look(self.expect(at, b"<"))
        if it.kind == "bare" and it.text == b"none":
            return ("overflow", False, False), self.expect(it.end, b">")
        flags, at = self.some(it.start, b">", self.flag)
        return ("overflow", b"nsw" in flags, b"nuw" in flags), at

    def flag(self, at):
        it = self.look(at)
        if it.kind != "bare" or it.text not in (b"nsw", b"nuw"):
            raise Refused(2, it.start)
        return it.text, it.end

    # Dictionaries.

    def key(self, at):
        it = self.look(at)
        if it.kind not in ("bare", "string"):
            raise Refused(2, it.start)
        return it

    def entry_value(self, it, depth):
        equal = self.see(it.end, b"=")
        if equal is not None:
            return self.attr(equal, depth)
        if depth > MOST_DEPTH:
            raise Refused(10, it.start)
        return ("unit",), it.end

    def dictionary(self, at, depth):
        entries = {}

        def entry(at):
            it = self.key(at)
            if it.text in entries:
                raise Refused(12, it.start)
            if len(entries) == MOST_ITEMS:
                raise Refused(11, it.start)
            entries[it.text], at = self.entry_value(it, depth + 1)
            return None, at

        _, at = self.listed(at, b"}", entry)
        return ("dict", tuple(sorted(entries.items()))), at

    def op_dictionary(self, at, op, own):
        """Entries of an operation's properties, or of its attributes, where a key of its row is a property."""
        row = ROWS.get(op.name, b"").split()

        def entry(at):
            it = self.key(at)
            if it.text in op.props or it.text in op.attrs:
                raise Refused(12, it.start)
            to = op.props if own or it.text in row else op.attrs
            if len(to) == MOST_ITEMS:
                raise Refused(11, it.start)
            to[it.text], at = self.entry_value(it, 1)
            return None, at

        _, at = self.listed(at, b"}", entry)
        return at

    # Operations.

    def op(self, at, scope, around):
        """An operation, nested in so many others."""
        names, at = self.results(at)
        op, at = self.name(at, names is not None, around)
        at = self.expect(at, b"(")
        op.operands, at = self.operands(at, scope)
        it = self.look(at)
        if it.is_mark(b"["):
            raise Refused(9, it.start)
        if it.is_mark(b"<"):
            at = self.expect(self.op_dictionary(self.expect(it.end, b"{"), op, True), b">")
        opened = self.see(at, b"(")
        if opened is not None:
            at = self.regions(opened, op, scope, around)
        opened = self.see(at, b"{")
        if opened is not None:
            at = self.op_dictionary(opened, op, False)
        return op, self.finish(at, op, names, scope)

    def finish(self, at, op, names, scope):
        """The function type of an operation, and the names of its results."""
        colon = self.look(at).start
        at = self.expect(at, b":")
        (_, inputs, outs), at = self.function(at, 0, self.limited_outputs)
        if [type_of(it, self.outer) for it in op.operands] != list(inputs):
            raise Refused(5, colon)
        if names is not None and sum(it[1] for it in names) != len(outs):
            raise Refused(5, colon)
        op.results = list(outs)
        first = 0
        for name, count, start in names or []:
            if scope.find(name) is not None:
                raise Refused(4, start)
            scope.names[name] = [("result", op, first + k) for k in range(count)]
            first += count
        it = token_or_none(self.text, at)
        if it is not None and it.kind == "bare" and it.text == b"loc":
            raise Refused(13, it.start)
        return at

    def limited_outputs(self, at, depth):
        opened = self.see(at, b"(")
        if opened is None:
            return self.outputs(at, depth)
        count = [0]

        def output(at):
            it = self.look(at)
            if count[0] == MOST_ITEMS:
                if it.is_mark(b"(") or it.kind == "bare" and self.begins_type(it):
                    raise Refused(11, it.start)
                if it.kind in ("bare", "bang", "hash", "float"):
                    raise Open()
                raise Refused(2, it.start)
            count[0] += 1
            return self.type(at, depth)

        return self.listed(opened, b")", output)

    def results(self, at):
        """Names of results with how many each stands for, or none if an operation begins with its name."""
        if self.look(at).kind != "value":
            return None, at
        names, total = [], 0
        while True:
            it = self.look(at)
            if it.kind != "value":
                raise Refused(2, it.start)
            colon, count, at, place = self.see(it.end, b":"), 1, it.end, it.start
            if colon is not None:
                counted = self.look(colon)
                if counted.kind != "integer":
                    raise Refused(2, counted.start)
                count, at, place = number(counted.text), counted.end, counted.start
            if count == 0:
                raise Refused(7, place)
            total += count
            if total > MOST_ITEMS:
                raise Refused(11, place)
            names.append((it.text, count, it.start))
            equal = self.see(at, b"=")
            if equal is not None:
                return names, equal
            at = self.expect(at, b",")

    def name(self, at, named, around):
        it = self.look(at)
        if it.kind != "string":
            raise Refused(self.no_name(it, named, around), it.start)
        full = self.ops == MOST_OPS
        if (it.text == b"") + (around > MOST_AROUND) + full > 1:
            raise Open()
        if it.text == b"":
            raise Refused(2, it.start)
        if around > MOST_AROUND:
            raise Refused(10, it.start)
        if full:
            raise Refused(11, it.start)
        self.ops += 1
        return Op(it.text), it.end

    def no_name(self, it, named, around):
        if it.kind == "bare":
            return 13
        if named:
            return 2
        if it.kind in ("hash", "bang"):
            return 13
        return 8 if it.kind == "label" and around > 0 else 2

    def operands(self, at, scope):
        count = [0]

        def operand(at):
            it = self.look(at)
            if it.kind != "value":
                raise Refused(2, it.start)
            if count[0] == MOST_ITEMS:
                raise Refused(11, it.start)
            count[0] += 1
            pack = scope.find(it.text)
            if pack is None:
                pack = self.outer and self.outer.find(it.text)
            if not pack:
                raise Refused(3, it.start)
            return self.member(it.end, pack)

        return self.listed(at, b")", operand)

    def member(self, at, pack):
        it = token_or_none(self.text, at)
        if it is None or it.kind != "hash":
            return pack[0], at
        if not it.text.isdigit():
            raise Refused(2, it.start)
        if int(it.text) >= len(pack):
            raise Refused(3, it.start)
        return pack[int(it.text)], it.end

    def regions(self, at, op, scope, around):
        def region(at):
            it = self.look(at)
            if not it.is_mark(b"{"):
                raise Refused(2, it.start)
            if len(op.regions) == MOST_REGIONS:
                raise Refused(11, it.start)
            return None, self.region(it.end, op, Scope(scope, op.name in ISOLATED), around)

        return self.some(at, b")", region)[1]

    def region(self, at, op, scope, around):
        """A region from after its brace on."""
        place, end = len(op.regions), self.see(at, b"}")
        op.regions.append(None)
        if end is not None:
            return end
        block = op.regions[place] = Block()
        it = token_or_none(self.text, at)
        if it is not None and it.kind == "label":
            at = self.label(it.end, op, place, scope)
        while True:
            end = self.see(at, b"}")
            if end is not None:
                return end
            inner, at = self.op(at, scope, around + 1)
            block.ops.append(inner)

    def label(self, at, op, place, scope):
        opened = self.see(at, b"(")
        if opened is not None:
            at = self.listed(opened, b")", lambda at: self.argument(at, op, place, scope))[1]
        return self.expect(at, b":")

    def argument(self, at, op, place, scope):
        it, args = self.look(at), op.regions[place].args
        if it.kind != "value":
            raise Refused(2, it.start)
        if len(args) == MOST_ITEMS:
            raise Refused(11, it.start)
        if scope.find(it.text) is not None:
            raise Refused(4, it.start)
        ty, at = self.type(self.expect(it.end, b":"), 1)
        args.append(ty)
        scope.names[it.text] = [("argument", op, place, len(args) - 1)]
        it = self.look(at)
        if it.kind == "bare" and it.text == b"loc":
            raise Refused(13, it.start)
        return None, at

    def source(self):
        """A module."""
        at, block, scope = 0, Block(), Scope(None, False)
        while self.look(at).kind != "end":
            op, at = self.op(at, scope, 0)
            block.ops.append(op)
        if len(block.ops) == 1:
            op = block.ops[0]
            if op.name == b"builtin.module" and not op.operands and not op.results:
                return op
        root = Op(b"builtin.module")
        root.regions = [block]
        if height(root) > MOST_AROUND:
            raise Refused(10, len(self.text))
        if self.ops == MOST_OPS:
            raise Refused(11, len(self.text))
        return root

    def single(self):
        """One operation and nothing after it."""
        op, at = self.op(0, Scope(None, False), 0)
        it = self.look(at)
        if it.kind != "end":
            raise Refused(2, it.start)
        if self.outer.next + self.ops > 4294967295:
            raise Refused(32, len(self.text))
        return op

    def one_attr(self):
        found, at = self.attr(0, 1)
        it = self.look(at)
        if it.kind != "end":
            raise Refused(2, it.start)
        return found


def token_or_none(text, at):
    try:
        return token(text, at)
    except Refused:
        return None


class Op:
    def __init__(self, name):
        self.name, self.operands, self.results, self.props, self.attrs, self.regions = name, [], [], {}, {}, []


class Block:
    def __init__(self):
        self.args, self.ops = [], []


def height(op):
    """How many operations are around the innermost one of a tree."""
    return max([0] + [1 + height(it) for block in op.regions if block for it in block.ops])


class Scope:
    """The names of a region."""

    def __init__(self, parent, isolated):
        self.parent, self.isolated, self.names = parent, isolated, {}

    def find(self, name):
        if name in self.names:
            return self.names[name]
        return None if self.isolated or self.parent is None else self.parent.find(name)


class Outer:
    """The module around an operation: its next id, and the types of its results and arguments, or none."""

    FORM = re.compile(rb"v([0-9]+)\.([0-9]+)\Z|a([0-9]+)\.([0-9]+)\.([0-9]+)\Z")

    def __init__(self, next, results, arguments):
        self.next, self.results, self.arguments = next, results, arguments

    def find(self, name):
        found = self.FORM.match(name)
        if not found:
            return None
        numbers = [int(it) for it in found.groups() if it is not None]
        ty = self.results if len(numbers) == 2 else self.arguments
        if ty is None or max(numbers) > 4294967295:
            return None
        return [("outer", tuple(numbers))]

    def type_of(self, numbers):
        return self.results if len(numbers) == 2 else self.arguments


def type_of(value, outer):
    if value[0] == "result":
        return value[1].results[value[2]]
    if value[0] == "argument":
        return value[1].regions[value[2]].args[value[3]]
    return outer.type_of(value[1])
