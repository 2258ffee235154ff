#!/usr/bin/env python3
"""Writes the golden files of tests/golden/texts: texts, and the program's answer to each; and stdin and stdout of
crates/ir_text_cases: texts that no run of the program can have, one a line, and their answers. Run it at the top of the
repository.

The answers are those of the rules in Python (oracle/rules.py and printing.py), which share nothing with the crates, or
are written by hand here and in ir_text_tables.py; if there are both, they must be equal. The printed form of an
accepted text is another text, which must be printed unchanged. """

import itertools
import pathlib
import random
import re

import checkout  # noqa: F401

from oracle import printing, rules, texts
from tests.generate import ir_text_tables as tables
from tests.generate.ir_text_modules import (
    ATTRIBUTES, ATTRIBUTES_PRINTED, EMPTY, FUNCTION, FUNCTION_PRINTED, HIDDEN, LOOP, NAMED, PACKS, PACKS_PRINTED, SIX,
    SIX_PRINTED, THREE, THREE_PRINTED, TWICE_PRINTED, TWO)

from tests.generate import ir_text_golden
from tests.generate.ir_text_golden import Made

CRATE = pathlib.Path("crates/ir_text_cases")
A, M, O, C = "attr", "module", "op", "cut"
LONGEST = 4096
OUTER = rules.Outer(9, ("i", 32), ("i", 32))
TAIL = b" : () -> ()"

all_made, seen, part, title = [], set(), ["none"], ["", ""]


# How a line holds a text.

def escaped(part):
    return "".join(chr(byte) if 0x20 <= byte <= 0x7E and byte not in b"`~" else "~%02X~" % byte for byte in part)


def piece(part):
    if isinstance(part, tuple):
        return f"{part[0]}*{escaped(part[1])}"
    text = escaped(part)
    return text.replace("*", "~2A~", 1) if re.match(r"\+?\d+\*", text) else text


def written(parts):
    return "`".join(map(piece, parts))


def shown(text):
    if len(text) > LONGEST:
        return f"{len(text)} bytes"
    return text.replace("~", "~7E~").replace("\n", "~0A~")


def titled(name, sentence):
    """The next cases have this name and this sentence; if there are several, they are a group."""
    title[:] = name, sentence


def add(line, answer, kind="call", text=b"", outer=None):
    if line not in seen:
        seen.add(line)
        all_made.append(Made(line, answer, part[0], tuple(title), kind, text, outer))


# Cases. A text is bytes, or a list of bytes and of pieces that are there so many times. What is wanted may be
# written by hand: the number of a refusal and its byte, or what is printed.

def parts_of(text):
    return text if isinstance(text, list) else [text]


def bytes_of(text):
    return b"".join(it[0] * it[1] if isinstance(it, tuple) else it for it in parts_of(text))


def wanted(want):
    return f"{want[0]} {rules.WORDS[want[0]]} at {want[1]}" if isinstance(want, tuple) else want


def agree(text, answer, want):
    if want is not None and answer != wanted(want) and rules.MOST_WIDTH == 128:
        raise SystemExit(f"{bytes_of(text)[:300]!r}: by hand {wanted(want)!r}, by the rules {answer!r}")


def attr(text, want=None):
    """An attribute, alone."""
    good, answer = printing.attribute(bytes_of(text))
    agree(text, answer, want)
    if good:
        said = shown('"a"() {a%s} : () -> ()\n' % ("" if answer == "unit" else " = " + answer))
        add(f"attr {written(parts_of(text))}", said, "attr", text)
        add(f"attr {escaped(answer.encode())}", said, "attr", answer.encode())
    else:
        add(f"attr {written(parts_of(text))}", answer, "attr", text)


def module(text, want=None):
    good, answer = printing.module(bytes_of(text))
    agree(text, answer, want)
    add(f"module {written(parts_of(text))}", shown(answer) if good else answer, "module", text)
    if good and len(answer) <= LONGEST:
        add(f"module {escaped(answer.encode())}", shown(answer), "module", answer.encode())


def width(ty):
    return "-" if ty is None else str(ty[1])


def op(text, want=None, outer=OUTER):
    numbers, answer = printing.operation(bytes_of(text), outer)
    agree(text, (numbers or "") + answer, want)
    words = f"{outer.next}/{width(outer.results)}/{width(outer.arguments)}"
    said = answer if numbers is None else numbers + shown(answer)
    add(f"{words} {written(parts_of(text))}", said, "op", text, outer)


def cut(text):
    add(f"cut {escaped(text)}", "", "cut", text)


def same(one, other, want):
    answer = f"Some({str(printing.attribute(one) == printing.attribute(other)).lower()})"
    if (answer != f"Some({str(want).lower()})"
        or not (printing.attribute(one)[0] and printing.attribute(other)[0])) and rules.MOST_WIDTH == 128:
        raise SystemExit(f"{one!r} == {other!r}: {answer}")
    add(f"same {escaped(one)} == {escaped(other)}", answer)


def large(kind, text, answer):
    """A text that is too long for rules.py, with its answer."""
    add(f"{kind} {written(parts_of(text))}", wanted(answer), "module" if kind == M else "call", text)


KINDS = {A: attr, M: module, O: op}


def tried(make, *given, **named):
    """A case for which the rules may leave open which refusal is reported."""
    try:
        make(*given, **named)
    except rules.Open:
        pass


def attr_everywhere(text):
    """An attribute alone, among an operation's attributes and properties, in an array and in a dictionary."""
    tried(attr, text)
    for front, back in ((b'"t"() {a = ', b"}" + TAIL), (b'"t"() <{a = ', b"}>" + TAIL)):
        tried(module, front + text + back)
    for front, back in ((b"[unit, ", b", 1]"), (b'{"b c" = ', b", a}")):
        tried(attr, front + text + back)


def type_everywhere(text):
    """A type in each place where one is."""
    tried(attr, text)
    for front, back in ((b'"t"() : () -> ', b""), (b'"t"() : () -> (', b", i1)"), (b'"t"() ({^a(%a: ', b"):})" + TAIL),
                        (b'"t"() {a = 1 : ', b"}" + TAIL), (b'"t"() <{a = [', b"]}>" + TAIL),
                        (b'%a = "t"() : () -> (', b') "u"(%a) : (i7) -> ()')):
        tried(module, front + text + back)
    for front, back in ((b"0 : ", b""), (b"memref<2x", b">"), (b"array<", b">"), (b"(", b") -> ()"), (b"() -> ", b""),
                        (b"() -> (i1, ", b")"), (b"(i1, ", b") -> index")):
        tried(attr, front + text + back)
    tried(op, b'"t"(%v1.0) : (' + text + b") -> ()")


# Tokens alone: the longest of what these match after blanks and comments.

SUFFIX = rb"(\d+|[A-Za-z$._-][A-Za-z0-9$._-]*)"
INSIDE = rb'((?:[^"\\\n\x0b\x0c\r]|\\(?:[\\"nt]|[0-9A-Fa-f]{2}))*)'
FORMS = [("float", rb"(\d+\.\d*(?:[eE][+-]?\d+)?)"), ("integer", rb"(\d+|0x[0-9A-Fa-f]+)"),
         ("integer", rb"(0x[0-9A-Fa-f]+)"), ("string", rb'"' + INSIDE + rb'"'),
         ("bare", rb"([A-Za-z_][A-Za-z0-9_$.]*)"), ("value", rb"%" + SUFFIX), ("label", rb"\^" + SUFFIX),
         ("hash", rb"#" + SUFFIX),
         ("bang", rb"!" + SUFFIX), ("symbol", rb"@" + SUFFIX), ("quoted", rb'@"' + INSIDE + rb'"')]
MARKS = [b"(", b")", b"{", b"}", b"[", b"]", b"<", b">", b",", b"=", b":", b"::", b"->", b"-", b"?", b"*"]


def front_of(text):
    """The kind of the token at the front of a text, what it holds, and what is left; or none."""
    rest = re.match(rb"(?:[ \t\r\n]|//[^\n]*)*", text)
    rest = text[rest.end():]
    if not rest:
        return "mark", b"", b""
    found = [("mark", b"", rest[len(it):]) for it in MARKS if rest.startswith(it)]
    for kind, form in FORMS:
        match = re.match(form, rest)
        if match:
            found.append((kind, match[1], rest[match.end():]))
    return min(found, key=lambda it: len(it[2])) if found else None


def latin(text):
    return "".join("~0A~" if it == 10 else "~7E~" if it == 126 else chr(it) for it in text)


def front(text, want=None):
    found = front_of(text)
    if found is None:
        raise SystemExit(f"{text!r} begins with no token")
    if want is not None and found != want:
        raise SystemExit(f"{text!r}: by hand {want!r}, by the forms {found!r}")
    kind, held, rest = found
    add(f"token {escaped(text)}", f"{kind} [{latin(held)}] [{latin(rest)}]")


def fronts():
    for text, want in tables.FRONTS:
        front(text, want)
    for number, rows in tables.NO_FRONTS:
        for text, at in rows:
            if front_of(text) is not None:
                raise SystemExit(f"{text!r} begins with a token")
            add(f"token {escaped(text)}", wanted((number, at)))
    wholes = [b"12", b"007", b"0x1F", b"0x", b"1.5e3", b"1.", b"1.e3", b"1.5E-07", b"1.5e", b"a.b$c", b"_0", b"i32",
              b"%0", b"%a1-b.$_c", b"%-", b"%.0", b"^bb0",
              b"#arith.overflow", b"#0", b"!t.x", b"@f", b"@0", b'@"a b"', b'@""', b'""', b'"a\\"b"',
              b'"\\0a\\n"'] + MARKS
    backs = [b"", b" ", b"0", b"9", b"a", b"e", b"x", b"_", b".", b"$", b"-", b":", b">", b"\"", b"e+3", b".5", b"\n//",
             b"/", b"\xff", b"@g"]
    for whole, back in itertools.product(wholes, backs):
        if front_of(whole + back) is not None:
            front(whole + back)
        front(b" // b\n\t\r" + whole + b"," + back)


# Tokens.

def tokens():
    titled("numbers", "Decimal and hexadecimal integers are read, and other digits are refused.")
    printed = {b"0x1F": "31 : i64", b"007": "7 : i64", b"12": "12 : i64", b"0x": (2, 1), b"0xg": (2, 1),
               b"00x1": (2, 2),
               b"0X1": (2, 1), b"0xfg": (2, 3), b"0x1.5": (1, 3), b"-1": "-1 : i64", b"- 1": "-1 : i64",
               b"007:": (2, 4)}
    for text, want in printed.items():
        attr(text, want)
    titled("floats", "Floats aren't supported, alone and in an array.")
    for text in (b"1.5e3", b"1.", b"1.e3", b"1.5e", b"1.5e+", b"1.5E-07x", b"1.5e+3e4", b"1..2"):
        attr(text, (13, 0))
        attr(b"-" + text, (13, 1))
        attr(b"array<i8: " + text + b">", (2, 10))
    attr(b"1e5", (2, 1))
    attr(b"{a.b$c}", "{a.b$c}")
    attr(b"{a-b}", (2, 2))
    attr(b"{_0, A}", "{A, _0}")
    attr(b"[i32, i8]", "[i32, i8]")
    titled("names-of-values-and-labels",
           "Values, labels and symbols may have digits, dots, dashes and dollars in their names.")
    for name in (b"0", b"1", b"a1-b.$_c", b"-", b".0", b"$", b"a", b"_", b"A9", b"00", b"-0", b"a-"):
        module(b"%" + name + b' = "t"() : () -> i1 "u"(%' + name + b"#0) : (i1) -> ()")
        module(b'"t"() ({^' + name + b":})" + TAIL,
               '"builtin.module"() ({\n  "t"() ({\n  ^bb0:\n  }) : () -> ()\n}) : () -> ()\n')
        attr(b"@" + name)
        attr(b"@a::@" + name)
    titled("names-refused", "A byte that doesn't belong to a name is refused, and so is an unknown value.")
    for text, want in ((b'%1a = "t"() : () -> i1', (2, 2)), (b'%0# = "t"() : () -> i1', (1, 2)),
                       (b'"t"() ({^bb0(x', (2, 13)),
                       (b'%a = "t"() : () -> i1 "u"(%a#0:) : (i1) -> ()', (2, 30)), (b'"u"(%a', (3, 4))):
        module(text, want)
    titled("symbols", "Symbols and `#arith.overflow` are read, and a byte too many is refused.")
    for text, want in ((b"@f::@g", "@f::@g"), (b"@0a", (2, 2)), (b'@"a b"c', (2, 6)), (b'@""', '@""'),
                       (b"!t.x>", (13, 0)),
                       (b"#arith.overflow <none>", "#arith.overflow<none>"), (b"#arith.overflow.x<none>", (13, 0)),
                       (b"#arith.overflo<none>", (13, 0)), (b"#arith.overflow-<none>", (13, 0))):
        attr(text, want)
    titled("strings-blanks-and-comments", "Strings, blanks and comments may come before a token, and end the text.")
    for text, want in ((b'"""', (1, 2)), (b'"a\\"b" c', (2, 7)), (b'"\\\\"x', (2, 4)),
                       (b'"\\0a\\FF\\n\\t"', '"\\0A\\FF\\0A\\09"'),
                       (b'"\t\x08\xC3\xA4"', '"\\09\\08\\C3\\A4"'), (b' \t\r\n "x"', '"x"'), (b'// a\n"b" c', (2, 9)),
                       (b'// a\rb\n"c"', '"c"'), (b"////\n//\n7", "7 : i64"), (b'// "\xFF', (14, 4)),
                       (b" // the end", (2, 11))):
        attr(text, want)


def marks():
    titled("marks", "Brackets, commas and arrows may have blanks around them, and one too many is refused.")
    for text, want in ((b"(", (2, 1)), (b"()x", (2, 2)), (b"{}", "{}"), (b"{}}", (2, 2)), (b"}", (2, 0)),
                       (b"[", (2, 1)), (b"]", (2, 0)),
                       (b"{a == 1}", (2, 4)), (b"{a = = 1}", (2, 5)), (b"@a:::@b", (2, 4)), (b"@a: :@b", (2, 2)),
                       (b"@a::@b", "@a::@b"),
                       (b"1 :: i8", (2, 2)), (b"1 : : i8", (2, 4)), (b"() --> ()", (2, 3)), (b"() - > ()", (2, 3)),
                       (b"() -> ()", "() -> ()"),
                       (b"()->()", "() -> ()"), (b"() ->> ()", (2, 5)), (b"?x", (2, 0)), (b"*", (2, 0)),
                       (b">>", (2, 0)), (b",", (2, 0)),
                       (b"- >", (2, 2)), (b"->", (2, 0)), (b"--1", (2, 1)), (b"=", (2, 0)), (b":", (2, 0)),
                       (b"::", (2, 0)), (b"<", (2, 0))):
        attr(text, want)
    module(b'"t"() < {a} > : () -> ()')
    module(b'"t"()<{}>{}:()->()')
    module(b'"t"() <{a} >{b}: ( ) -> ( )')
    module(b'"t"() <{a}>> : () -> ()', (2, 11))


def strings():
    titled("escapes-of-each-byte", "Each byte may be an escape in a string, which is printed again.")
    for byte in range(256):
        for text in sorted({b'"\\%02X"' % byte, b'"\\%02x"' % byte}):
            attr(text, printing.string_text(bytes([byte])))
        module(b'"t"() {a = "\\%02X"}' % byte + TAIL)
        if byte < 0x80 and byte not in b'\n\v\f\r"\\':
            attr(b'"' + bytes([byte]) + b'"', printing.string_text(bytes([byte])))
    titled("strings", "Strings may have escapes, and other escapes are refused.")
    for raw, value in ((b"", b""), (b"abc", b"abc"), (b"a\\nb\\tc", b"a\nb\tc"), (b"\\\\n", b"\\n"), (b'\\"\\"', b'""'),
                       (b"\\41\\4a\\4A", b"AJJ"), (b"\\0a0a", b"\n0a"), (b"\xC3\xA4\\C3\\a4", b"\xC3\xA4\xC3\xA4")):
        attr(b'"' + raw + b'"', printing.string_text(value))
    for escape in (b"q", b"x41", b"0", b"g0", b"0g", b" ", b"N", b"T", b"'", b"r"):
        attr(b'"a\\' + escape + b'"', (1, 2))
    titled("strings-over-lines", "A string may not go over the end of a line.")
    for letter in b"\n\v\f\r":
        attr(b'["a' + bytes([letter]) + b'"]', (1, 1))
    titled("quoted-names", "Keys, symbols and operations may be in quotes, and are printed without if they need none.")
    for name in (b"value", b"_a.b$c", b"", b"0a", b".a", b"a-b", b'a"\x7F\n', b"$a", b"a b", b"\xC3\xA4", b"i32",
                 b"true", b"A", b"a\\b"):
        key, raw = printing.key_text(name), printing.string_text(name).encode()
        attr(b"{" + raw + b"}", "{" + key + "}")
        attr(b"{" + raw + b" = 1}", "{" + key + " = 1 : i64}")
        attr(b"@" + raw, "@" + key)
        attr(b"@" + raw + b"::@" + raw, f"@{key}::@{key}")
        module(b'"t"() <{' + raw + b"}>" + TAIL)
        if name:
            module(raw + b"() {" + raw + b"}" + TAIL)


# Types.

def types():
    titled("types", "Types are read in each place of an operation, and texts that are none are refused.")
    for text in (b"index", b"memref<i32>", b"memref<4xi32>", b"memref<?x4 x i8>", b"memref<0x10xindex>",
                 b"memref<007xsi8>",
                 b"memref<0000000000000000000000000000000000000000000000000000000005xi1>",
                 b"memref<9223372036854775807xi32>",
                 b" memref // a\n < // 3x\n 4 // b\n x\t? x\n// c\n ui64 >", b"() -> ()", b"(i32) -> i32",
                 b"(i32) -> (i1, i2)",
                 b"() -> (() -> ())", b"() -> () -> ()", b"(() -> ()) -> (() -> i1)", b"(i1,) -> ()", b"(,i1) -> ()",
                 b"() -> (i1,)",
                 b"(index, memref<?xindex>) -> (memref<1x2x3xui7>, () -> ())", b"()", b"() ->", b"() -> 1", b"() -> [",
                 b"(i1 i2) -> ()",
                 b"memref<?x?x?x?xi1>", b"memref<9223372036854775808xi32>", b"memref<2x18446744073709551616xi1>",
                 b"memref<?x9223372036854775808xi1>", b"f32", b"none", b"vector<4xi32>", b"tensor<4xi32>",
                 b"memref<*xi32>",
                 b"memref<4xf32>", b"memref<4x4>", b"memref<4xi32, 1>", b"memref<xi32>", b"memref<4 4xi32>",
                 b"memref<4xx>", b"memref<-4xi1>",
                 b"!a.b", b"#a.b", b"1.5", b"i", b"si", b"ui", b"i8x", b"i8.", b"i8_", b"i8$", b"I8", b"u8", b"s8",
                 b"int", b"indexx", b"index.",
                 b"true", b"unit", b"array", b'"i32"', b"@i32", b"%i32", b"^i32", b"7", b"-", b"*", b"?", b"", b"$",
                 b"i 8", b"()->i1",
                 b"memref<?xi8>", b"memref<4xui8>", b"memref<2x3xi8>", b"memref<3x2xi8>", b"complex<i1>",
                 b"memref<4xmemref<i1>>",
                 b"memref<4x?>", b"memref<?", b"memref<4x", b"memref<4xi8", b"memref", b"memref<(i1) -> i1>",
                 b"memref<\xC3\xA4>",
                 b"memref<0x0xi1>", b"memref<1x//\ni1>", b"memref<1//\nxi1>", b"memref<//\n1xi1>", b"memref<1x1.xi1>",
                 b"memref<\"a\">"):
        type_everywhere(text)
    attr(b"memref<?x4 x i8>", "memref<?x4xi8>")
    attr(b"memref<0x10xindex>", "memref<0x10xindex>")
    attr(b" memref // a\n < // 3x\n 4 // b\n x\t? x\n// c\n ui64 >", "memref<4x?xui64>")
    attr(b"(memref<4xi32>, index) -> memref<?x?xi1>, i1", (2, 40))
    attr(b"() -> () -> ()", (2, 9))
    attr(b"(i32) -> (i1, i2)", "(i32) -> (i1, i2)")
    attr(b"() -> (() -> i1)", "() -> (() -> i1)")
    attr(b"() -> (i1)", "() -> i1")
    same(b"memref<007xsi8>", b"memref<7xsi8>", True)
    for one, other in ((b"memref<4xi8>", b"memref<4xui8>"), (b"memref<?xi8>", b"memref<4xi8>"),
                       (b"memref<2x3xi8>", b"memref<3x2xi8>"),
                       (b"() -> i1", b"() -> (() -> i1)"), (b"(i1) -> ()", b"() -> i1"), (b"i8", b"si8"),
                       (b"index", b"i64")):
        same(one, other, False)
    same(b"() -> (i1)", b"() -> i1", True)


def widths():
    for sign in (b"i", b"si", b"ui"):
        word = sign.decode()
        titled(f"widths-of-{word}",
               f"Widths of `{word}` are read from 1 to 128, without zeros in front, in each place of a type.")
        for width in (0, 1, 2, 7, 8, 9, 10, 16, 31, 32, 33, 63, 64, 65, 66, 99, 100, 127, 128, 129, 130, 255, 256, 999,
                      1000, 65536, 65537,
                      2**32 - 1, 2**32, 2**32 + 1, 2**32 + 8, 2**64 - 1, 2**64, 2**64 + 8, 2**128 + 8, 10**40):
            type_everywhere(sign + b"%d" % width)
        for digits in (b"00", b"01", b"08", b"064", b"0128", b"0x8", b"008", b"0" * 40 + b"8"):
            type_everywhere(sign + digits)
        for width in (1, 8, 63, 64, 65, 127, 128):
            attr(sign + b"%d" % width, (sign + b"%d" % width).decode())
            module(b'"t"() : () -> ' + sign + b"%d" % width)
        for width in (b"0", b"129", b"01", b"0128"):
            attr(sign + width, (6, 0))
            module(b'"t"() : () -> (i64, ' + sign + width + b")", (6, 20))


# Attributes.

def literals():
    for width in (1, 2, 8, 16, 32, 63, 64, 65, 127, 128):
        half = 2**(width - 1)
        for sign in ("i", "si", "ui"):
            titled(f"literals-of-{sign}{width}",
                   f"Literals at both ends of `{sign}{width}` are read, and those over them are refused.")
            ends = {-half - 1, -half, -1, 0, 1, half - 1, half, 2 * half - 1, 2 * half, 2 * half + 1, -2 * half}
            for value in sorted(ends
                                | {2**63 - 1, 2**63, 2**64, -2**63, -2**63 - 1, 2**127, -2**127, 2**128 - 1, 1
                                   - 2**128}):
                literal(f"{sign}{width}", value, range_of(sign, width, value))
    for value in (-2**63 - 1, -2**63, -1, 0, 1, 2**63 - 1, 2**63, 2**64 - 1, 2**64, 2**127, -2**127, 2**128 - 1):
        titled("literals-of-index", "Literals at both ends of `index` are read, and those over them are refused.")
        literal("index", value, str(value) if -2**63 <= value < 2**63 else None)
        titled("literals-without-type", "Literals without a type are of `i64`, and those over its ends are refused.")
        literal("", value, range_of("i", 64, value))
    titled("literals-over-128-bits", "Literals of more than 128 bits are refused by 7, whatever comes after them.")
    for digits in (b"340282366920938463463374607431768211456", b"0x100000000000000000000000000000000", b"9" * 60, b"0x"
                   + b"f" * 40):
        for ty in (b"", b" : i8", b" : i128", b" : ui128", b" : si128", b" : index", b" : i129", b" : f32",
                   b" : () -> ()", b" $", b" x"):
            attr(digits + ty, (7, 0))
            attr(b"-" + digits + ty, (7, 0))
            attr(b"[ - " + digits + ty + b"]", (7, 2))
            module(b'"t"() {a = ' + digits + ty + b"}" + TAIL, (7, 11))
    titled("literals", "Literals whose types don't hold them, or are no types, are refused.")
    attr(b"340282366920938463463374607431768211455 : i128", "-1 : i128" if rules.MOST_WIDTH == 128 else None)
    attr(b"0x" + b"F" * 32 + b" : ui128", f"{2**128 - 1} : ui128" if rules.MOST_WIDTH == 128 else None)
    attr(b"-0 : ui8", "0 : ui8")
    attr(b"0xff : i8", "-1 : i8")
    attr(b"0" * 60 + b"1 : i8", "1 : i8")
    attr(b"0x0010", "16 : i64")
    for text, at in ((b"1 : memref<i8>", 4), (b"1 : () -> ()", 4), (b"-1 : (i8) -> i8", 5),
                     (b"[1 : memref<?xindex>]", 5)):
        attr(text, (5, at))
    for text, at in ((b"256 : i8", 0), (b"  256 : i8", 2), (b" -129 : i8", 1), (b"- 129 : i8", 0),
                     (b"18446744073709551616", 0),
                     (b"99999999999999999999 $", 0), (b"99999999999999999999 x", 0), (b"[1, 2 : i1]", 4)):
        attr(text, (7, at))
    for text, want in ((b"1 : i129", (6, 4)), (b"256 : i0", (6, 6)), (b"256 : f32", (13, 6)), (b"1 : true", (13, 4)),
                       (b"1 : 2", (2, 4)),
                       (b"1 : [", (2, 4)), (b"1 :", (2, 3)), (b"1 : -1", (2, 4)), (b"true : i1", (2, 5)),
                       (b"-", (2, 1)), (b"- i8", (2, 2)),
                       (b"-\"a\"", (2, 1)), (b"1 : $", (1, 4)), (b"- $", (1, 2)), (b"256 : i8 $", (7, 0))):
        attr(text, want)
    for one, other, want in ((b"-1 : i8", b"255 : i8", True), (b"true", b"1 : i1", True), (b"true", b"-1 : i1", True),
                             (b"0x10", b"16 : i64", True),
                             (b"1 : i8", b"1 : si8", False), (b"1 : i64", b"1 : index", False),
                             (b"-128 : i8", b"128 : i8", True),
                             (b"false", b"-0 : i1", True), (b"true", b"1 : ui1", False), (b"1", b"true", False),
                             (b"1 : i8", b"1", False), (b" // a\n\t1 : // b\n i8 // c", b"1 : i8", True),
                             (b"0xFf", b"255", True)):
        same(one, other, want)
    if rules.MOST_WIDTH == 128:
        same(b"-1 : i128", b"340282366920938463463374607431768211455 : i128", True)
        same(b"-1 : i65", b"36893488147419103231 : i65", True)
        same(b"18446744073709551615 : i65", b"-1 : i65", False)
        same(b"0 : i128", b"18446744073709551616 : i128", False)


def range_of(sign, width, value):
    """What is printed for a number at a type of that width, or none if it is no literal of the type."""
    half = 2**(width - 1)
    if sign == "ui":
        return str(value) if 0 <= value < 2 * half else None
    if not -half <= value < (half if sign == "si" else 2 * half):
        return None
    return str(value - 2 * half if value >= half else value)


def literal(ty, value, printed):
    """A literal, with what is printed, or none if it is refused."""
    spelled = [str(value)] + ([hex(value)] if value >= 0 else []) + [f"- {-value}"] * (value < 0)
    for text in spelled:
        whole = (text + (" : " + ty if ty else "")).encode()
        want = None
        if printed is not None and (ty in ("", "index") or int(re.sub(r"\D", "", ty)) <= rules.MOST_WIDTH):
            want = f"{printed} : {ty or 'i64'}"
            if ty == "i1":
                want = "false" if value == 0 else "true"
        elif printed is None and (ty in ("", "index") or int(re.sub(r"\D", "", ty)) <= rules.MOST_WIDTH):
            want = (7, 0)
        attr(whole, want)
        if len(spelled) == 1 or text == spelled[0]:
            module(b'"t"() {a = ' + whole + b"}" + TAIL, (7, 11) if want == (7, 0) else None)


def attributes():
    titled("attributes", "Attributes are read as attributes and as properties, and texts that are none are refused.")
    for text in (b"true", b"false", b"unit", b"1", b"-1 : i8", b"0x10 : index", b'"a\\n"', b"i32", b"index",
                 b"() -> ()", b"memref<?x4xi32>",
                 b"[1, [unit]]", b"{a, b = 1}", b"@a", b'@a::@"b c"', b"array<i8>", b"array<i1: true, 0>",
                 b"#arith.overflow<nsw, nuw>",
                 b"[]", b"[ unit ]", b'[1 : i8, "a", i32, [true], {a}, @b, array<i8>, #arith.overflow<nsw>]',
                 b"[[], [[]], {}]",
                 b"{}", b"{a = {a}, b = {a}}", b'{a = {b = {c}}, "x y" = [unit], d}', b"@a::@b :: @c", b'@"a b"::@""',
                 b"{true, false = unit, i32}",
                 b"array<i1>", b"array<i1: true, false, 0, 1, -1>", b"array < i8 : -128, 255 >",
                 b"array<i16: -32768, 65535>",
                 b"array<i32: -2147483648, 4294967295, 0x10>",
                 b"array<i64: -9223372036854775808, 18446744073709551615>",
                 b"#arith.overflow<none>", b"#arith.overflow<nsw>", b"#arith.overflow<nuw>",
                 b"#arith.overflow<nuw, nsw>",
                 b"#arith.overflow<nsw, nsw>", b"#arith.overflow<>", b"#arith.overflow<none, nsw>",
                 b"#arith.overflow<nsw, none>",
                 b"#arith.overflow<fast>", b"#arith.overflow<nsw nuw>", b"#arith.overflow<nsw,>", b"#arith.overflow",
                 b"#arith.overflow<nsw",
                 b"#arith.fastmath<none>", b"[1, 2", b"[1 2]", b"[1,, 2]", b"{a b}", b"{a = 1 b}", b"{1}", b"{a = 1,}",
                 b"dense<1> : i8",
                 b"opaque<1>", b"affine_map<(d0) -> (d0)>", b"dense_resource<a>", b"loc(unknown)", b"strided<[1]>",
                 b"array<i8", b"array<i8:",
                 b"array<i8:1", b"array<i8:1,2>", b"array<i8: 1 2>", b"array<memref<i8>>", b"array<[i8]>",
                 b"array<\"i8\">", b"array<-1>",
                 b"array<1.5>", b"array<1>", b"array<true>", b"array<i1: yes>", b"array<i1: 2>", b"array<i1: -2>",
                 b"array<i8: - 1>",
                 b"array<i8: --1>", b"array<i8 :>", b"array<i1: true : i1>", b"array<i64: true>", b"array<i8: $>",
                 b"array<$>", b"%a", b"^a",
                 b"\xC3\xA4", b"@a::b", b"@a::", b"@a::1", b"@a::@", b"[$]", b"{$}", b"{a = $}", b"{\"\\q\"}"):
        attr_everywhere(text)
    titled("dense-arrays", "Elements of arrays are read up to both ends of their type, and those over are refused.")
    for width in (1, 8, 16, 32, 64):
        half = 2**(width - 1)
        for value in (-half - 1, -half, -1, 0, 1, half - 1, half, 2 * half - 1, 2 * half, 2**64, 2**127, 2**128 - 1,
                      2**128, -2**128):
            printed = range_of("i", width, value)
            want = (7, len(f"array<i{width}: 0, "))
            if printed is not None:
                items = [printed if width > 1 else ("true" if value else "false")] * 2
                want = f"array<i{width}: {'0' if width > 1 else 'false'}, {', '.join(items)}>"
            attr(b"array<i%d: 0, %d, %d>" % (width, value, value), want)
    for width in (2, 7, 9, 31, 63, 65, 127, 128):
        attr(b"array<i%d>" % width, (13, 6) if width <= rules.MOST_WIDTH else None)
    for one, other, want in ((b"[1, 2]", b"[ 1 : i64,2 : i64 ]", True), (b"[1, 2]", b"[2, 1]", False),
                             (b"[1]", b"[1, 1]", False),
                             (b"{b = 1, a}", b"{a = unit, b = 1}", True), (b'{"a" = 1}', b"{a = 1}", True),
                             (b'{"\\61"}', b"{a}", True),
                             (b"{a = 1}", b"{b = 1}", False), (b"{a = 1}", b"{a = 2}", False),
                             (b'@"a"::@b', b'@a::@"b"', True),
                             (b"@a::@b", b"@b::@a", False), (b"@a", b'"a"', False),
                             (b"array<i8: -1>", b"array<i8: 255>", True),
                             (b"array<i1: true>", b"array<i1: -1>", True), (b"array<i1: false>", b"array<i1: 0>", True),
                             (b"array<i8: 1>", b"array<i16: 1>", False), (b"array<i8: 1>", b"[1 : i8]", False),
                             (b"#arith.overflow<nsw, nuw>", b"#arith.overflow<nuw,nsw>", True),
                             (b"#arith.overflow<nsw>", b"#arith.overflow<nuw>", False),
                             (b"#arith.overflow<nsw, nsw>", b"#arith.overflow<nsw>", True), (b"[]", b"{}", False),
                             (b"unit", b"{}", False),
                             (b'"i32"', b"i32", False), (b"{c, b, a}", b"{a, b, c}", True)):
        same(one, other, want)
    titled("attributes-with-more-text",
           "Comments and blanks may surround an attribute, and a token after it is refused.")
    for text, want in ((b" // a\n\t1 : // b\n i8 // c", "1 : i8"), (b"1\n\n", "1 : i64"), (b'"a\\n", x', (2, 5)),
                       (b"unit}", (2, 4)),
                       (b"@a : x", (2, 3)), (b"#arith.overflow<nuw, nsw>", "#arith.overflow<nsw, nuw>"),
                       (b"unit", "unit")):
        attr(text, want)
    keys = (b"b", b"a", b'"a b"', b"B", b"_", b'""', b"ab", b'"a\\00"')
    for order in itertools.permutations(keys[:4]):
        attr(b"{" + b", ".join(order) + b"}", '{B, a, "a b", b}')
    attr(b"{" + b", ".join(keys) + b"}", '{"", B, _, a, "a\\00", "a b", ab, b}')


def depths():
    inside = (b"", b"1", b"-1", b'"a"', b"i8", b"() -> ()", b"@a", b'@"a"', b"{}", b"[]", b"array<i8>", b"array<i8: 1>",
              b"#arith.overflow<nsw>",
              b"unit", b"true", b" unit", b"{b}", b"{b = 1}", b"(i32) -> i32", b"() -> i1", b"memref<4xi32>",
              b"(memref<4xi32>) -> ()",
              b"1 : i8, i8, @a::@b, array<i8: 1>", b")", b"]", b"$", b"index", b"1 : i8", b"{b = {}}")
    titled("depth-of-arrays", "An attribute may be inside 31 arrays, or in fewer if it has parts itself.")
    for count in (29, 30, 31, 32, 33):
        for part in inside:
            tried(attr, [(count, b"["), part, (count, b"]")])
            tried(module, [b'"t"() {a = ', (count, b"["), part, (count, b"]"), b"}" + TAIL])
    titled("depth-of-dictionaries-and-types",
           "Dictionaries, function types and arrays may be in one another up to 32 levels.")
    for count in (30, 31, 32, 33):
        tried(attr, [(count, b"{a = "), b"1", (count, b"}")])
        tried(attr, [(count, b"{a = "), b"{a}", (count, b"}")])
        tried(module, [b'"t"() <{a', (count, b"={a"), (count, b"}"), b"}>" + TAIL])
        tried(module, [b'"t"() : () -> (', (count, b"("), (count, b") -> ()"), b")"])
        tried(module, [b'"t"() : () -> (', (count, b"() -> ("), (count, b")"), b")"])
        tried(module, [b'"t"() ({^b(%a: ', (count, b"("), (count, b") -> ()"), b"):})" + TAIL])
        tried(module, [b'"t"() {a = ', (count, b"("), b"i1", (count, b") -> ()"), b"}" + TAIL])
        tried(module, [b'"t"() {a = ', (count, b"("), b""])
        tried(module, [b'"t"() {a = ', (count, b"("), b","])
        tried(attr, [(count, b"[("), b"i1", (count, b") -> ()]")])
        tried(attr, [(count // 2, b"[{a = "), b"1", (count // 2, b"}]")])
    hand = (([(33, b"["), (33, b"]")], (10, 32)), ([(32, b"["), b" unit", (32, b"]")], (10, 33)),
            ([(32, b"["), b")", (32, b"]")], (2, 32)),
            ([(31, b"["), b"{b}", (31, b"]")], (10, 32)), ([(31, b"["), b"{b = 1}", (31, b"]")], (10, 36)),
            ([(31, b"["), b"(i32) -> i32", (31, b"]")], (10, 32)), ([(32, b"["), (32, b"]")], "[" * 32 + "]" * 32))
    for text, want in hand:
        attr(text, want)
    titled("depth-refused-at", "The byte at which a depth of more than 32 is refused.")
    module([b'"t"() {a = ', (33, b"["), (33, b"]"), b"}" + TAIL], (10, 43))
    module([b'"t"() <{a', (32, b"={a"), (32, b"}"), b"}>" + TAIL], (10, 104))
    module([b'"t"() : () -> (', (33, b"("), (33, b") -> ()"), b")"], (10, 47))
    module([b'"t"() ({^b(%a: ', (33, b"("), (33, b") -> ()"), b"):})" + TAIL], (10, 47))
    module([b'"t"() {a = ', (32, b"("), b"i1", (32, b") -> ()"), b"}" + TAIL], (10, 43))
    module([b'"t"() {a = ', (33, b"(")], (10, 43))
    module([b'"t"() {a = ', (32, b"("), b","], (2, 43))


# Operations and modules.

def modules():
    titled("printed", "Modules are printed as written by hand, and each printed text is printed again the same.")
    for text, want in ((FUNCTION, FUNCTION_PRINTED), (FUNCTION.replace(b"(%a, %c)", b"(%c, %c)"), TWICE_PRINTED),
                       (THREE, THREE_PRINTED),
                       (PACKS, PACKS_PRINTED), (b"", EMPTY), (b" \t\r\n// only a comment", EMPTY),
                       (b'"builtin.module"() ({^a:}) : () -> ()', EMPTY),
                       (b'"builtin.module"() ({}) : () -> ()', '"builtin.module"() ({}) : () -> ()\n'),
                       (b'"builtin.module"() ({^a:}) : () -> () "test.a"() : () -> ()', TWO),
                       (b'"builtin.module"() ({"test.a"() : () -> ()}) {b, sym_name = "m"} : () -> ()', NAMED),
                       (b'%0 = "arith.constant"() <{value = 1 : i32}> : () -> i32\n"builtin.module"() ({ %0 = '
                        b'"test.d"() : () -> i32 "test.u"(%0) : (i32) -> () }) : () -> ()', HIDDEN)):
        module(text, want)
    for printed in (FUNCTION_PRINTED, TWICE_PRINTED, THREE_PRINTED, PACKS_PRINTED, EMPTY, TWO, NAMED, HIDDEN):
        module(printed.encode(), printed)
    module(LOOP)
    titled("values-and-widths",
           "A value from outside of a module, a literal out of range and a width of 129 are refused.")
    op(ATTRIBUTES, "#9 " + ATTRIBUTES_PRINTED)
    op(SIX, "#9 " + SIX_PRINTED)
    op(b'"test.a"() {f = 7, e = false, d = 255 : ui8, c = -1 : i1, b = 0 : i8, a = -1 : i8} : () -> ()',
       '#9 "test.a"() {a = -1 : i8, b = 0 : i8, c = true, d = 255 : ui8, e = false, f = 7 : i64} : () -> ()\n')
    module(b'%0 = "arith.constant"() <{value = 1 : i32}> : () -> i32\n"builtin.module"() ({ "test.u"(%0) : (i32) -> '
           b'() }) : () -> ()', (3, 87))
    module(b'"test.a"() {a = 256 : i8} : () -> ()', (7, 16))
    module(b'"test.a"() {a = 1 : i65} : () -> ()', (6, 20) if rules.MOST_WIDTH == 64 else None)
    module(b'"test.a"() {a = 1 : i129} : () -> ()', (6, 20))
    for name, sentence, rows in (
            ("modules-at-the-top", "A module at the top is the root if it is alone and has no operands and results.", (
                b'"builtin.module"() : () -> ()', b'"builtin.module"() ({}, {}) : () -> ()',
                b'%a = "builtin.module"() ({}) : () -> i1', b'"builtin.module"() ({}) : () -> i1',
                b'"builtin.module"() ({^a(%a: i1):}) : () -> ()', b'"builtin.module"() ({}) : () -> () // end',
                b'%a = "t"() : () -> i1 "builtin.module"(%a) ({}) : (i1) -> ()',
                b'"builtin.module"() ({}) : () -> () "builtin.module"() ({}) : () -> ()',
                b'"Builtin.module"() ({}) : () -> ()')),
            ("regions-and-scopes",
             "Names are seen in the regions inside, and several results have a name with a count.", (
                b'"t"() ({"t"() ({"t"() ({}) : () -> ()}, {}) : () -> ()}) : () -> ()',
                b'"t"() ({^a(%a: i1, %b: i2): "u"(%b, %a) ({^b(%c: i3):}, {^c(%c: i4): "v"(%c, %a) : (i4, i1) -> '
                 b'()}) : (i2, i1) -> ()}) : () -> ()',
                b'%a = "t"() ({%a = "u"() : () -> i2 "v"(%a) : (i2) -> ()}) : () -> i1 "w"(%a) : (i1) -> ()',
                b'%a:3 = "t"() ({%b:2, %c = "u"() : () -> (i1, i2, i3) "v"(%b#1, %c) : (i2, i3) -> ()}) : () -> (i4, '
                 b'i5, i6) "w"(%a#2, %a) : (i6, i4) -> ()',
                b'"t"() : () -> i1 %a = "t"() : () -> i2 "t"() : () -> (i3, i4) %b = "u"(%a) : (i2) -> i5 "v"(%b, '
                 b'%a) : (i5, i2) -> ()')),
            ("blocks-and-properties",
             "Blocks may have no label or no arguments, and properties and attributes may be empty.", (
                b'"t"() ({^a():}, {^a(): "u"() : () -> ()}, {"v"() : () -> ()}) : () -> ()',
                b'"t"() <{}> ({}) {} : () -> ()')),
            ("blanks-and-names-of-operations",
             "Names of operations may have escapes, and blanks and comments may be between tokens.", (
                b'"a\\22\\5Cb"() : () -> ()', b'"\\00"() : () -> ()', b'"t" ( ) : ( ) -> ( )',
                b'//\n"t"//\n(//\n)//\n://\n(//\n)//\n->//\n(//\n)//'))):
        titled(name, sentence)
        for text in rows:
            module(text)
    for name, sentence, rows in (
            ("labels-refused",
             "A label without a block in front of it, a second block and a name without an operation are refused.", (
                (b'"t"() : () -> () ^a:', (2, 17)), (b'"t"() ({}) : () -> () ^a:', (2, 22)),
                (b'"{"() : () -> () ^a:', (2, 17)), (b'"}"() ({^a: ^b:}) : () -> ()', (8, 12)),
                (b'"t"() {a = {b}} : () -> () ^a:', (2, 27)), (b'"t"() <{a}> ({^a:}) : () -> () // {\n^a:', (2, 36)),
                (b'"t"() ({%a = ^b', (2, 13)), (b'"t"() ({^a: %b = ^c', (2, 17)),
                (b'"t"() ({"u"() ({}) : () -> () ^b:}) : () -> ()', (8, 30)), (b'"t"() ({^a: %b = #c', (2, 17)),
                (b'"t"() ({^a: #c', (13, 12)), (b'"t"() ({^a: !c', (13, 12)), (b'"t"() ({^a: %b = x', (13, 17)))),
            ("regions-refused", "Regions need operations or a label, commas between them, and brackets.", (
                (b'"t"() ({x}) : () -> ()', (13, 8)), (b'"t"() ({} {}) : () -> ()', (2, 10)),
                (b'"t"() ({},) : () -> ()', (2, 10)), (b'"t"() (', (2, 7)), (b'"t"() ()', (2, 7)))),
            ("arguments-refused",
             "A block's arguments need names, types, commas between them, and a colon after them.", (
                (b'"t"() ({^a)', (2, 10)), (b'"t"() ({^a(%a: i1 %b: i1):})', (2, 18)),
                (b'"t"() ({^a(%a: i1,):})', (2, 18)), (b'"t"() ({^a(%a: i1) "u"', (2, 19)),
                (b'"t"() ({^a(%a#0: i1):})', (2, 13)), (b'"t"() ({^a(^b):})', (2, 11)))),
            ("types-and-locations-refused",
             "An operation needs its type, and a location after it or after an argument is not supported.", (
                (b'"t"() -> ()', (2, 6)), (b'"t"() : () -> () loc("x")', (13, 17)),
                (b'"t"() ({^a(%a: i1 loc("x")):})', (13, 18)), (b'%a = "t"() : () -> () loc("x")', (5, 11)))),
            ("parts-in-other-order",
             "The parts of an operation come in one order: operands, properties, regions, attributes, type.", (
                (b'"t"() : () -> () {a}', (2, 17)), (b'"t"() {a} <{b}> : () -> ()', (2, 10)),
                (b'"t"() ({}) <{b}> : () -> ()', (2, 11)), (b'"t"() {a} ({}) : () -> ()', (2, 10)),
                (b'"t"() <{a}> [^a] : () -> ()', (2, 12)), (b'"t"() ({}) [^a] : () -> ()', (2, 11)))),
            ("counts-refused", "A count of results is a number from 1 to 256, with or without blanks.", (
                (b'%a:340282366920938463463374607431768211456 = "t"', (11, 3)),
                (b'%a:0x100000000000000000000000000000001 = "t"', (11, 3)), (b'%a:-1 = "t"', (2, 3)),
                (b'%a:1.5 = "t"', (2, 3)), (b'%a#0 = "t"', (2, 2)), (b'%a : 2 = "t"() : () -> (i1, i1)', None))),
            ("results-refused", "Names of results need an equals sign and an operation after them.", (
                (b'%a, %b', (2, 6)), (b'%a', (2, 2)), (b'%a =', (2, 4)), (b'%a = %b', (2, 5)), (b'%a = $', (1, 5)))),
            ("operands-refused", "Operands are names that are defined.", (
                (b'"t"(%a#0)', (3, 4)), (b'"t"(,)', (2, 4)), (b'"t"("a")', (2, 4)), (b'"t"(@a)', (2, 4)))),
            ("names-of-operations",
             "A byte order mark begins no operation, and the name of an operation may be any bytes.", (
                (b'\xEF\xBB\xBF"t"() : () -> ()', (1, 0)), (b'"\\C3\\00"() : () -> ()', None))),
            ("keys-of-attributes", "A key may be a keyword, and is no number, value or lone sign.", (
                (b'"t"() {true, unit = unit, loc = 1, array = i1, none} : () -> ()', None),
                (b'"t"() {1 = 1} : () -> ()', (2, 7)), (b'"t"() {%a} : () -> ()', (2, 7)),
                (b'"t"() {a.b.c = @true::@unit} : () -> ()', None), (b'"t"() {# a}', (1, 7)))),
            ("dimensions-with-zeros", "A dimension may have zeros in front, and is below 2^63.", (
                (b'"t"() {a = memref<000009223372036854775808xi1>}', (7, 18)),
                (b'"t"() : () -> memref<00009223372036854775807xi1>', None)))):
        titled(name, sentence)
        for text, want in rows:
            module(text, want)
    titled("not-utf-8", "Byte sequences that aren't UTF-8 are refused by 14, in comments and after tokens.")
    for bad in (b"\xC0\x80", b"\xC1\xBF", b"\xE0\x80\x80", b"\xED\xA0\x80", b"\xF0\x80\x80\x80", b"\xF4\x90\x80\x80",
                b"\xF5\x80\x80\x80", b"\x80", b"\xBF",
                b"\xC3", b"\xC3(", b"\xE2\x82", b"\xE2\x82(", b"\xF0\x9F\x98", b"\xF0\x9F\x98x", b"\xFE", b"\xFF",
                b"\xED\xBF\xBF"):
        module(b"// ab" + bad, (14, 5))
        module(b"$ \xC3\xA4" + bad + b" ", (14, 4))
        attr(b'"a' + bad + b'"', (14, 2))
        op(b'"t' + bad + b'"() : () -> ()', (14, 2))
    titled("utf-8",
           "The first and last characters of two, three and four bytes are read in comments and strings, and begin "
           "no token.")
    for good in (b"\xC2\x80", b"\xDF\xBF", b"\xE0\xA0\x80", b"\xED\x9F\xBF", b"\xEE\x80\x80", b"\xF0\x90\x80\x80",
                 b"\xF4\x8F\xBF\xBF", b"\xEF\xBF\xBF"):
        module(b"// " + good, EMPTY)
        attr(b'"' + good + b'"', printing.string_text(good))
        module(b'"' + good + b'"() : () -> ()')
        module(good, (1, 0))


def names():
    titled("names-again", "A name may be defined again after its region, and in a function.")
    for text in (b'"t"() ({^a(%a: i1):}, {^a(%a: i1):}) : () -> () %a = "t"() : () -> i1',
                 b'%a = "t"() ({%b = "u"() : () -> i1}, {%b = "u"() : () -> i1}) : () -> i1',
                 b'%a = "t"() : () -> i1 "func.func"() ({%a = "t"() : () -> i1}) : () -> ()',
                 b'%0:1 = "t"() : () -> i1'):
        module(text)
        agree(text, str(printing.module(text)[0]), "True")
    titled("scopes-of-names",
           "Names are seen inside regions, not inside functions and modules, and not after their region.")
    bound = b'%a = "t"() : () -> i1 '
    uses = lambda *of: b" ".join(b'"u"(%' + it + b") : (" + ty + b") -> ()" for it, ty in of)
    inner = lambda name, body: b'"' + name + b'"() ({' + body + b"}) : () -> ()"
    a, b = (b"a", b"i1"), (b"b", b"i2")
    binds_b = b'%b = "t"() : () -> i2 '
    for text in (bound + inner(b"v", uses(a) + binds_b + uses(a, b)) + uses(a), bound + inner(b"v", binds_b) + uses(b),
                 bound + inner(b"v", bound), bound + inner(b"func.func", uses(a)), bound
                 + inner(b"builtin.module", bound + uses(a)),
                 bound + inner(b"v", binds_b + inner(b"func.func", uses(b))), bound
                 + inner(b"func.func", bound + inner(b"v", uses(a))),
                 bound + inner(b"v", binds_b + inner(b"func.func", bound + inner(b"v", uses(a) + bound))),
                 bound + inner(b"v", binds_b + inner(b"func.func", bound + inner(b"v", uses(a))) + uses(a, b)) + uses(a)
                 + binds_b + uses(b),
                 bound + inner(b"func.func", inner(b"v", bound) + bound), bound
                 + inner(b"v", inner(b"v", inner(b"v", uses(a)))),
                 inner(b"func.func", bound) + bound + inner(b"builtin.module", bound) + uses(a), inner(b"v", bound)
                 + inner(b"v", bound) + bound,
                 bound + b'"func.func"() ({^a(%a: i2): "u"(%a) : (i2) -> ()}) : () -> ()', bound
                 + b'"v"() ({^a(%a: i2):}) : () -> ()',
                 bound + b'"func.func"() ({}, {"u"(%a) : (i1) -> ()}) : () -> ()',
                 b'"v"() ({^a(%a: i1):}, {"u"(%a) : (i1) -> ()}) : () -> ()',
                 bound + b'"func.func"(%a) ({}) : (i1) -> ()', bound
                 + b'%b = "func.func"(%a) ({%a = "t"() : () -> i3}) : (i1) -> i2 ' + uses(a, b)):
        module(text)
    listed = b"""builtin.module builtin.unrealized_conversion_cast func.func func.call func.return arith.constant
    arith.addi arith.subi arith.muli arith.shli arith.divsi arith.divui arith.remsi arith.remui arith.andi arith.ori
    arith.xori arith.shrsi arith.shrui arith.maxsi arith.maxui arith.minsi arith.minui arith.cmpi arith.select
    arith.extsi arith.extui arith.trunci arith.index_cast arith.index_castui scf.for scf.if scf.while scf.yield
    scf.condition memref.alloc memref.dealloc memref.load memref.store test.x func builtin.modul""".split()
    keys = sorted({key for row in rules.ROWS.values() for key in row.split()})
    for name in listed:
        word, sees = name.decode(), "doesn't see" if name in rules.ISOLATED else "sees"
        titled(f"operation-{word.replace('.', '-').replace('_', '-')}",
               f"A region of `{word}` {sees} names from outside, and its keys become properties.")
        module(bound + inner(name, uses(a)))
        module(bound + inner(name, bound))
        module(b'"' + name + b'"() {' + b", ".join(key + b" = %d" % n for n, key in enumerate(keys)) + b", x}" + TAIL)
        module(b'"' + name + b'"() <{' + b", ".join(keys) + b", x}>" + TAIL)
        for key in rules.ROWS.get(name, b"").split():
            module(b'"' + name + b'"() {x, ' + key + b" = 1}" + TAIL)
            module(b'"' + name + b'"() <{' + key + b"}> {" + key + b"}" + TAIL)
    titled("keys-twice", "A key that is there twice is refused at its second place.")
    for number, text, at in ((12, b'"func.func"() {sym_name = "f", sym_name = "f"}' + TAIL, 31),
                             (12, b'"t"() <{a}> {b, a}' + TAIL, 16),
                             (12, b'"func.func"() <{sym_name}> {a, sym_name}' + TAIL, 31),
                             (12, b'"t"() {"\\61", a}' + TAIL, 14)):
        module(text, (number, at))


def free_names():
    titled("free-names-in-modules", "In a module names like `%v1.0` are names as others are.")
    other = rules.Outer(40, ("i", 32), ("i", 7))
    op(b'"func.func"(%v007.2) ({\n  "u"(%a12.0.1#0) : (i32) -> ()\n}) : (i32) -> ()',
       '#40 %v7.2 #41 %a12.0.1 "func.func"(%) ({\n  "u"(%) : (index) -> ()\n}) : (index) -> ()\n',
       rules.Outer(40, ("i", 32), ("i", 32)))
    op(b'"t"(%v1.0, %a1.2.3) : (i32, i7) -> ()', '#40 %v1.0 %a1.2.3 "t"(%, %) : (index, index) -> ()\n', other)
    op(b'"t"(%v1.0, %a1.2.3) : (i7, i32) -> ()', (5, 20), other)
    op(b'"builtin.module"(%v3.0) ({\n  "u"(%v3.0) : (i32) -> ()\n}) : (i32) -> ()')
    op(b'"t"(%v4294967295.4294967295) ({\n  "u"(%a4294967295.4294967295.4294967295) : (i32) -> ()\n}) : (i32) -> ()')
    op(b'"t"(%v0.0) ({\n^a(%v3.0: i32):\n  "u"(%v3.0) : (i32) -> ()\n}) : (i32) -> ()',
       '#5 %v0.0 #6 %a5.0.0 "t"(%) ({\n^bb0(%arg0: i32):\n  "u"(%arg0) : (i32) -> ()\n}) : (index) -> ()\n',
       rules.Outer(5, ("i", 32), ("i", 32)))
    for name in (b"v1", b"v1.", b"v.0", b"v1.0.0", b"a1.0", b"a1.0.0.0", b"w1.0", b"vx.0", b"v4294967296.0",
                 b"v0.4294967296", b"v0.0-", b"v-0.0",
                 b"v99999999999999999999999999999999999999999.0", b"V1.0", b"v1_0", b"v0x1.0", b"a1.0.", b"a1..0",
                 b"a.0.0", b"a4294967296.0.0",
                 b"a0.4294967296.0", b"a0.0.4294967296", b"v", b"a", b"1.0", b"v1.0a", b"vv1.0", b"v1.$",
                 b"v18446744073709551617.0", b"v1.18446744073709551616"):
        tried(op, b'"t"(%' + name + b") : (i32) -> ()")
        module(b'"t"(%' + name + b") : (i32) -> ()")
    for name in (b"v0.0", b"v00.00", b"v10.7", b"a0.0.0", b"a1.02.003", b"v4294967295.0",
                 b"v0000000000000004294967295.0", b"a0.0.4294967295"):
        for member in (b"", b"#0", b" #00", b"#1", b"#x", b"#4294967296", b"#0 #0"):
            tried(op, b'"t"(%' + name + member + b") : (i32) -> ()")
        op(b'"t"(%' + name + b") : (i64) -> ()")
        module(b"%" + name + b' = "t"() : () -> i1 "u"(%' + name + b") : (i1) -> ()")
        op(b"%" + name + b' = "t"(%' + name + b") : (i32) -> i32")
        op(b'"t"() ({%' + name + b' = "t"() : () -> i7 "u"(%' + name + b") : (i7) -> ()}, {\"u\"(%" + name
           + b") : (i32) -> ()}) : () -> ()")
        op(b'"t"() ({"u"(%' + name + b") : (i32) -> ()" + b'}, {%' + name + b' = "t"() : () -> i7 "u"(%' + name
           + b") : (i7) -> ()}) : () -> ()")
    for results, arguments in ((None, None), (("i", 32), None), (None, ("i", 32))):
        for text in (b'"t"(%v1.0) : (i32) -> ()', b'"t"(%a1.0.0) : (i32) -> ()',
                     b'"func.func"() ({"u"(%v1.0) : (i32) -> ()}) : () -> ()'):
            op(text, outer=rules.Outer(3, results, arguments))
    op(b'"t"(%v1.0) : (i32) -> ()', (3, 4), rules.Outer(3, None, None))
    op(b'"t"(%v0.0#1) : (i32) -> ()', (3, 9))


def single():
    titled("refused-by-each-number", "Texts for each number of a refusal, of which no other file has these.")
    for text, want in ((b'"t"() : () -> () "u"() : () -> ()', (2, 17)), (b'"t"() : () -> () loc("x")', (13, 17)),
                       (b"", (2, 0)),
                       (b'^a: "t"() : () -> ()', (2, 0)), (b'"t"(%v0.0) : (i64) -> ()', (5, 11)),
                       (b'"t"() : () -> () x', (2, 17)),
                       (b'"t"() : () -> () $', (1, 17)), (b'"t"() : () -> () ^a:', (2, 17)),
                       (b'"t"() : () -> () }', (2, 17)),
                       (b'"t"() : () -> () #a', (2, 17)), (b" // a", (2, 5)), (b"\xFF", (14, 0)), (b"x", (13, 0)),
                       (b'"t"() : () -> () // end', None)):
        op(text, want)
    pair, wrong = b'"t"() ({ "u"() : () -> () }) : () -> ()', b'"t"() ({ "u"() : () -> () }) : () -> (i129)'
    for next in (0, 1, 7, 4293918718, 4293918719, 4293918720, 4294967292, 4294967293, 4294967294, 4294967295):
        outer = rules.Outer(next, None, None)
        op(pair, (32, len(pair)) if next > 4294967293 else None, outer)
        op(wrong, (6, 38), outer)
        op(b'"t"() : () -> ()', (32, 16) if next == 4294967295 else None, outer)
        op(b'"t"() : () -> () x', (2, 17), outer)
        op(b'%a = "t"() : () -> ()', (5, 11), outer)
    for row in tables.GOLDEN:
        op(row[0], row[1:], rules.Outer(7, None, None))
        module(row[0], row[1:])
    assert [row[1] for row in tables.GOLDEN] == list(range(1, 15))
    for text in (FUNCTION, LOOP, PACKS.split(b"\n")[0], b'%a, %b:2 = "t"() : () -> (i1, i2, i3)',
                 b'"builtin.module"() ({^a:}) : () -> ()'):
        op(text)


# Limits.

def counted(front, sign, back, count):
    return [front + b"".join(sign + b"%03d" % n + back for n in range(count + 1))]


def nested(count, back=b"", front=()):
    return [*front, (count, b'"t"() ({'), b'%a = "u"() : () -> i1', (count + len(front), b"})" + TAIL), back]


def limits():
    around = [b'"builtin.module"() ({']
    titled("limit-of-nesting", "An operation may be inside 128 others, and one deeper is refused before a later fault.")
    for count in (1, 126, 127, 128, 129):
        module(nested(count))
        module(nested(count, front=around))
        op(nested(count))
        op(nested(count, front=around))
        for back in (b" )", b" ^a:", b" x", b" $", b' "t"() : () -> ()', b' "t"() : () -> () )', b' "t"() {a, a}'):
            tried(module, nested(count, back))
            tried(module, nested(count, back, around))
    module(printing.module(bytes_of(nested(127)))[1].encode())
    module(nested(128, front=around), (10, 1050))
    module(nested(129), (10, 1037))
    module(nested(128), (10, 2709))
    module(nested(128, b" )"), (2, 2710))
    module(nested(128, b" ^a:"), (2, 2710))
    op(nested(129), (10, 1037))
    module([(129, b'"t"() ({'), b"%a:0"], (7, 129 * 8 + 3))
    module([(129, b'"t"() ({'), b"x"], (13, 129 * 8))
    module([(129, b'"t"() ({'), b"}"], (2, 129 * 8 + 1))
    titled("limit-of-operands", "An operation may have 256 operands, and one more is refused before a later fault.")
    user = b'%a = "t"() : () -> i1\n"u"('
    module([user, (255, b"%a,"), b"%a) : (", (255, b"i1,"), b"i1) -> ()"])
    for back, want in ((b"%a)", (11, 794)), (b"%b)", (11, 794)), (b")", (2, 794)), (b"$", (1, 794)), (b"x", (2, 794))):
        module([user, (256, b"%a,"), back], want)
    module([user, (255, b"%a,"), b"%a) : (", (256, b"i1,"), b"i1) -> ()"], (5, 795))
    module([user, (255, b"%a,"), b"%a) : (", (254, b"i1,"), b"i1) -> ()"], (5, 795))
    titled("limit-of-result-names", "An operation may name 256 results, and one more is refused.")
    module([(256, b"%a,"), b"%a = "], (11, 768))
    module([(256, b"%a,"), b"= "], (2, 768))
    for text, want in ((b"%b:1 = ", (11, 771)), (b"%b:0 = ", (7, 771)), (b"%b:x", (2, 771)), (b"%b:", (2, 771)),
                       (b"%b, %c", (11, 768)),
                       (b"%b:300", (11, 771)), (b"%b $", (11, 768)), (b"%b:$", (1, 771))):
        module([(256, b"%a,"), text], want)
    titled("limit-of-result-types", "An operation may have 256 types of results, and one more is refused.")
    for count in (254, 255, 256, 257):
        module([b'"t"() : () -> (', (count, b"i1,"), b"i1)"], (11, 783) if count > 255 else None)
        module([b'"t"() : () -> (', (count, b"i1,"), b"i1)"] + [b' "u"() : () -> ()'], (11, 783) if count > 255
               else None)
        module([b'"t"() {a = () -> (', (count, b"i1,"), b"i1)}" + TAIL])
        module([b'"t"() : (', (count, b"i1,"), b"i1) -> ()"], (5, 6))
    module([b'"t"() : () -> (', (256, b"i1,"), b")"], (2, 783))
    titled("limit-of-results", "An operation may have 256 results, with names of their own or one name.")
    names = counted(b"", b"%", b",", 254) + [b'%255 = "t"() : () -> (', (255, b"i1,"), b"i1)"]
    module(names)
    module(names + [b'\n"u"(%255, %000) : (i1, i1) -> ()'])
    pack = [b'%a:256 = "t"() : () -> (', (255, b"i1,"), b'i1)\n"u"(%a#']
    module(pack + [b"255) : (i1) -> ()"])
    module(pack + [b"256) : (i1) -> ()"], (3, 799))
    titled("limit-of-arguments", "A block may have 256 arguments, and one more is refused.")
    arguments = lambda count, back: counted(b'"t"() ({^b(', b"%", b": i1,", count) + [back]
    module(arguments(254, b"%255: i1):})" + TAIL))
    for back, want in ((b"%256: i1):}) : () -> ()", (11, 2315)), (b"%0 x", (11, 2315)), (b"%000", (11, 2315)),
                       (b"):}) : () -> ()", (2, 2315))):
        tried(module, arguments(255, back), want)
    titled("limit-of-entries", "An operation may have 256 attributes and 256 properties, and a dictionary 256 entries.")
    entries = lambda front, count, back: counted(front, b"k", b",", count) + [back]
    module(entries(b'"t"() {', 254, b"k255}" + TAIL))
    module(entries(b'"t"() <{', 254, b"k255}>" + TAIL))
    module(entries(b'"t"() {', 255, b"k256}" + TAIL), (11, 1287))
    module(entries(b'"t"() <{', 255, b"k256 x"), (11, 1288))
    module(entries(b'"t"() {', 255, b"k007}" + TAIL), (12, 1287))
    module(entries(b'"t"() {', 255, b"}" + TAIL), (2, 1287))
    module(entries(b'"func.func"() {', 255, b'sym_name = "f"}' + TAIL))
    module(entries(b'"func.func"() {sym_name = "f",', 254, b"k255}" + TAIL))
    module(entries(b'"func.func"() {sym_name = "f",', 255, b"k256}" + TAIL), (11, 15 + 15 + 256 * 5))
    module(entries(b'"func.func"() <{', 254, b'k255}> {sym_name = "f"}' + TAIL), (11, 1299))
    module(entries(b'"func.func"() <{', 253, b'k254}> {sym_name = "f"}' + TAIL))
    module(entries(b'"func.func"() <{', 253, b'sym_name}> {res_attrs}' + TAIL))
    module(entries(b'"func.func"() <{', 254, b'sym_name}> {res_attrs}' + TAIL), (11, 1303))
    module(entries(b'"func.func"() <{', 254, b'sym_name}> {sym_name}' + TAIL), (12, 1303))
    module(entries(b'"func.func"() <{', 254, b'}> {sym_name, res_attrs}' + TAIL), (2, 1291))
    module(entries(b'"func.func"() <{', 253, b'k}> {sym_name, res_attrs}' + TAIL), (11, 1301))
    module(entries(b'"func.func"() <{', 254, b'k255}> {' + b"".join(b"j%03d," % n for n in range(255)) + b"j255}"
                   + TAIL))
    module(entries(b'"t"() {a = {', 254, b"k255}}" + TAIL))
    module(entries(b'"t"() {a = {', 255, b"k256}}" + TAIL), (11, 1292))
    units = [b"{" + b"".join(b"%c%c," % (97 + n // 26, 97 + n % 26) for n in range(256))]
    attr([units[0][:-4] + b",z}"])
    for back, want in ((b"z}", (11, 769)), (b"aa}", (12, 769)), (b"}", (2, 769))):
        attr([units[0] + back], want)
    titled("limit-of-regions", "An operation may have 16 regions, and one more is refused.")
    module([b'"t"() (', (15, b"{},"), b"{})" + TAIL])
    module([b'"t"() (', (16, b"{},"), b"{})" + TAIL], (11, 55))
    module([b'"t"() (', (16, b"{},"), b")" + TAIL], (2, 55))
    for text in (b"[" + b", ".join([b"1"] * 300) + b"]", b"(" + b", ".join([b"i1"] * 300) + b") -> ()", b"array<i8: "
                 + b", ".join([b"1"] * 300) + b">",
                 b"::".join([b"@a"] * 300), b"memref<" + b"1x" * 300 + b"i1>"):
        attr(text)
    part[0] = "large_texts"
    large_texts()


def large_texts():
    titled("limit-of-bytes", "A text may have 16,777,216 bytes, and one more is refused before a fault in it.")
    blank, last = b" " * 16, rules.MOST_BYTES
    empty = shown(EMPTY)
    large(M, [(2**20, blank)], empty)
    large(M, [b"\xFF", (2**20, blank)], (11, last))
    large(M, [(2**20, blank), b"\xFF"], (11, last))
    large(M, [(2**20 - 1, blank), b" " * 15, b"\xFF"], (14, last - 1))
    large(M, [(2**20 - 1, blank), b" " * 15, b"x"], (13, last - 1))
    large(A, [b"1".ljust(16), (2**20 - 1, blank)], shown('"a"() {a = 1 : i64} : () -> ()\n'))
    large(A, [b" ", (2**20, blank)], (11, last))
    large(A, [b'"', (last - 2, b"a"), b'"'], f"{len('x()  {a = } : () -> ()') + 2 + last} bytes")
    large("9/32/32", [b"\xFF", (2**20, blank)], (11, last))
    large("9/32/32", [b'"t"() : () -> ()', (2**20 - 1, blank)], shown('#9 "t"() : () -> ()\n'))
    many_operations()


def many_operations():
    titled("limit-of-operations", "A module may have 1,048,576 operations, and one more is refused.")
    one, most, front, back = b'"t"():()->()', rules.MOST_OPS, b'"builtin.module"()({', b"}):()->()"
    printed = len('"builtin.module"() ({\n') + len("}) : () -> ()\n")
    each = len('  "t"() : () -> ()\n')
    all_there, full = f"{printed + (most - 1) * each} bytes", most * len(one)
    large(M, [(most - 1, one)], all_there)
    for text, want in ((b"", (11, full)), (b" // end", (11, full + 7)), (b")", (2, full)),
                       (b'%a = "t"', (11, full + 5))):
        large(M, [(most, one), text], want)
    inside = len(front) + (most - 1) * len(one)
    large(M, [front, (most - 1, one), back], all_there)
    large(M, [front, (most - 1, one), back, b'%a = "t"'], (11, inside + len(back) + 5))
    large(M, [front, (most - 1, one), b'%a = "t"'], (11, inside + 5))
    large(M, [front, (most - 2, one), back, one], (11, inside + len(back)))
    large(M, [front, (most - 3, one), back, one],
          f"{printed + len('  ') + printed + len('  ') + (most - 3) * (each + 2) + each} bytes")
    last = 4294967295 - most
    large(f"{last}/-/-", [front, (most - 1, one), back], f"#{last} #{last + 1} {all_there}")
    large(f"{last + 1}/-/-", [front, (most - 1, one), back], (32, inside + len(back)))
    large(f"{last + 1}/-/-", [front, (most, one), back], (11, inside))


# Texts that are cut, and made at random.

def cut_texts():
    titled("prefixes", "Each prefix of a module's text is read or refused by a number at a byte.")
    for text in (FUNCTION, FUNCTION_PRINTED.encode(), TWICE_PRINTED.encode(), THREE, PACKS, LOOP, ATTRIBUTES, SIX,
                 HIDDEN.encode(), NAMED.encode(),
                 b'// a\n"t\\0A"() <{"a\\"" = -0x1F : si9, b = @c::@"d"}> {f = memref<?x04x//\nui7>, g = array<i1: '
                 b'true, 0>} : () -> ()',
                 b'"t"() ({^a(%a: (i1, index) -> (memref<i1>, () -> ())): }, {}) {x = #arith.overflow<nuw, nsw>, y = '
                 b'[{}, {z = 1.5}]} : () -> ()'):
        cut(text)


def by_chance(count, seed):
    dice = random.Random(seed)
    while len(all_made) < count:
        text = texts.source(dice)
        if dice.random() < 0.7:
            text = texts.changed(dice, text)
        tried(op if dice.random() < 0.2 else module, text)
        if dice.random() < 0.5:
            part = texts.attr(dice, 4)
            tried(attr, texts.changed(dice, part) if dice.random() < 0.6 else part)


def by_hand():
    for name, sentence, kind, number, rows in tables.REFUSED:
        titled(name, sentence)
        for text, at in rows:
            KINDS[kind](text, (number, at))


def write(rows):
    for file, column in (("stdin", 0), ("stdout", 1)):
        (CRATE / file).write_text("".join(row[column] + "\n" for row in rows))


SECTIONS = [by_hand, fronts, tokens, marks, strings, types, widths, literals, attributes, depths, modules, names,
            free_names, single, limits, cut_texts]


def main():
    for section in SECTIONS:
        part[0] = section.__name__
        section()
    part[0] = "by_chance"
    titled("random", "Random modules and attributes, most of them with a change, are read or refused.")
    by_chance(len(all_made) + 700, 1)
    left = ir_text_golden.kept(all_made)
    write(left)
    print(f"{len(all_made)} texts; crates/ir_text_cases: {len(left)}")


if __name__ == "__main__":
    main()
