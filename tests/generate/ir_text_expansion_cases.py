#!/usr/bin/env python3
"""Writes stdin and stdout of crates/ir_text_expansion_cases: texts with aliases and locations, one a line, and their
expansion by the rules in Python (oracle/aliases.py). Run it at the top of the repository."""
import random
import re

from checkout import ROOT

from oracle import aliases
from tests.generate import opaque_cases

CRATE = ROOT / "crates/ir_text_expansion_cases"
MOST_SHOWN, MOST_PLACES, LONGEST = 400, 1000, 1200
PIECE = re.compile(rb"[#!%^@]?[A-Za-z0-9$._-]+|\s+|->|.", re.S)
# Texts by hand, in addition to those of opaque_cases.py.
TEXTS = [
    b"", b" ", b"// c", b"#", b"!t", b"#a = 1", b"#a", b'#a=1#b=#a#c=#b"t"(){x=#c,y=#b}:()->()',
    # Symbols in quotes end no value. A string in one that nothing ends is refused at its quote between brackets, and
    # else where its token begins.
    b'#a = @"x" #b = @"y"::@z\n"t"() {x = #b, y = #a} : () -> ()',
    b'#a = @"x', b'#a = [@"x', b'#a = ["x',
    # A name may end with a minus, after which no alias is refused; and may be the type that a location follows.
    b'#a = 1\n"t"(%b-#a', b'!t- = i8\n"t"() : () -> !t- loc("f")',
    b'#a = 1\n"t"() {x = - #a}', b'#a = 1\n"t"() {x = - // c\n #a}',
    # Dimensions, and what only looks like them.
    b"!e = i8\n!t = tensor<4x!e>\n!u = vector<[4]x!e>\n!v = memref<?x!e>\n!w = memref<*x!e>\n"
    b'"t"() {a = !t, b = !u, c = !v, d = !w}',
    b'!e = i8\n"t"() {a4x!e, %4x!e, 4 x!e, x!e, xx!e, 4xx!e, 12x!e}',
    # Locations within locations, and what is none.
    b'#l = loc("f":1:2)\n#m = loc(fused[#l, #l])\n#n = loc ( callsite(#l at #m) )\n'
    b'"t"() {x = #n, y = loc(#n), z = loc2(#l), w = [loc(#l)]} : () -> ()',
    b'#l = location\n"t"() {x = loc(#l)}', b'#l = loc()\n"t"() {x = loc(#l), y = loc(-#l)}',
    b'"t"() : () -> i8 loc("f" "g") loc("h")',
    b'"t"() : () -> i8 loc', b'"t"() : () -> i8 loc("f', b'"t"() : () -> i8 loc(@f)', b'"t"() : () -> i8 loc("f"\n)',
    b'"t"() : () -> i8 loc(#a)', b'"t"() : () -> i8 loc(\xc3\xa4)', b'"t"() : () -> i8 loc(// c\n)',
    b'"t"() : () -> loc("f")', b'"t"() : loc("f")', b'"t"() : () -> (i8 loc("f"))',
    b'"t"() : () -> i8 // c\n loc // d\n ("f")',
    b'"t"() : () -> i8 loc(' + 31 * b"[" + 31 * b"]" + b")", b'"t"() : () -> i8 loc(' + 32 * b"[" + 32 * b"]" + b")",
    b'"t"() ({\n^b(%a: i8 loc("f"), %c: !d.t loc("g")):\n "u"() : () -> () loc("h")\n}) : () -> () loc("i")',
    b'"t"() ({\n^b(%a loc("f"):\n "u"() : () -> () loc("h")\n "v"() : () -> ()\n}, {}) {a = loc("k")} : (i8) -> (i8)'
    b' loc("i")\n#l = loc("m")',
    # After the last operation.
    b'"t"() : () -> ()\n#l = loc("f")\n!t = i8', b'"t"() : () -> ()\n#l = loc("f")\n\n// c\n#m = loc("g") ',
    b'"t"() : () -> () loc("f")\n#l = loc', b'"t"() : () -> ()\n#l = loc "f"', b'"t"() : () -> ()\n#l = loc(',
    b'#l = 1\n"t"() : () -> ()\n#l = loc("f")', b'"t"() : () -> ()\n#l = loc("f"', b'"t"() : () -> () #l = loc2("f")',
    b'#a = i8\n"t"() : () -> #a\n#b = loc(#a)', b'"t"()\n#l = loc("f")',
]

# An arrow is no part of the name before it: what follows it is in the body.
ARROWS = [
    b'%0 = "t"() : () -> !d<%a-> loc("f")>', b'%0:2 = "t"() : () -> (tensor<^a->loc("f")>, i8) loc("g")',
    b'"t"() ({\n^b(%a: !d<%-> loc("f")> loc("g")):\n}) : () -> ()', b'%0 = "t"() : () -> tuple<%a- > loc("f")',
    b'#a = 1\n"t"() {x = #d<%b->#a, ^c-->#a>, y = #d<#e.f->}',
]

VALUES = b"""1 : i32|-1|- 7|1.5e-3 : f32|0x1F : i8|true|unit|"s"|"s" : !t.u|@f|@f::@g|@"a b"::@c ::@d|[1, 2]|{a}|index
tensor<4xf32>|(i32) -> i32|() -> (i8, i16)|() -> !t.v|!t.v|!t.v<x>|#t.a|#t.a<1>|#t<x y>|#t.a<x> : i32|#t.a : (i8) -> ()
dense<1> : tensor<4xi32>|sparse<0, 1> : tensor<4xi8>|dense_resource<r> : !t.v|array<i32: 1>|affine_map<(d0) -> (d0)>
affine_set<(d0) : (d0 >= 0)>|strided<[1]>|distinct[0]<1>|loc("f":1:2)|memref<?xi8>|complex<f32>|si8|ui16|none|vector<i8>
i|i0|si|xi8|foo|dense<1>|tensor|distinct[0]|loc|#0|!0|#|!|@|"|-|- -|-x|->|: i8|1 :|1 : 2|1 : #b|@f::|@f::g|(i8)|(i8) ->
(i8) -> (i8|() -> () -> ()|i8<x>|unit : i8|[1] : i8|#t.a : i8 : i8|%0|^b|?|$|\x01""".replace(b"\n", b"|").split(b"|")
ENDS = [
    # Each kind of value, with what follows it at once, and values that aren't whole.
    *(b"#a = %s#b = [#a]" % it for it in VALUES), *(b"!a = %s!b = tuple<!a>" % it for it in VALUES),
    *(b'#a = 1 %s\n"t"() {x = #a}' % it for it in VALUES), *(b"#a = %s" % it[:-1] for it in VALUES),
    # Types that are spelled within themselves, and such that only look so.
    b'!a = !d.s<x, i8>!b = !d.s<x, !a>', b'!a = !d.s<x, i8>!b = !d.s<xx, !a>', b'!a = !d.s<"x", i8>!b = !d.s<"x", !a>',
    b'!a = !d.s<x, i8>!b = !d.s<x , !a>', b'!a = !d.s<x>!b = !d.s<x, !a>', b'!a = !d.s<i8, i8>!b = !d.s<i8, !a>',
    b'!a = !d.s<4, i8>!b = !d.s<4, !a>', b'!a = !d.s<x, i8>!b = tuple<!d.s<x, !a>>', b'#b = !d.s<x, !d.s<x, i8>>',
    b'!b = !d.s<"x", !d.s<"x, i8>>', b'!b = !d<x, !d<x, i8>>', b'!b = !d.s<x, !d.sx, [!d.s<x]>',
]


def texts():
    """Each text: those by hand, the shorter modules with aliases, those with some pieces changed, arrows, and ends."""
    yield from TEXTS
    yield from (text.encode() for text, _ in opaque_cases.texts() if "#" in text or "!" in text or "loc" in text)
    found = [it.text for it in opaque_cases.modules() if it.has_aliases and len(it.text) <= LONGEST]
    yield from found
    chance = random.Random(19)
    sources = TEXTS + found
    for _ in range(400):
        yield changed(chance, chance.choice(sources))
    yield from ARROWS
    yield from ENDS


def changed(chance, text):
    """The text with a few pieces dropped, doubled, exchanged or cut off."""
    parts = PIECE.findall(text)
    for _ in range(chance.randint(1, 3)):
        if not parts:
            break
        at, other = chance.randrange(len(parts)), chance.randrange(len(parts))
        kind = chance.randrange(5)
        if kind == 0:
            del parts[at]
        elif kind == 1:
            parts.insert(at, parts[other])
        elif kind == 2:
            parts[at], parts[other] = parts[other], parts[at]
        elif kind == 3:
            parts[at] = chance.choice((b"#a", b"!t", b"loc(", b")", b"-", b"\"", b"@", b"->", b"x", b" ", b"=", b"//"))
        elif len(parts) > 4 and chance.random() < 0.3:
            del parts[chance.randrange(len(parts) // 2, len(parts)):]
    return b"".join(parts)


def summed(numbers):
    found = 0
    for number in numbers:
        found = (found * 1000003 + number) % 2**64
    return found


def answer(text):
    out = aliases.expanded(text)
    found = out.text()
    fault = f"{out.fault.number} at {out.fault.at}" if out.fault else "whole"
    step = len(found) // MOST_PLACES + 1
    places = summed(out.place(at) for at in [*range(0, len(found), step), len(found)])
    shown = "".join(chr(byte) if 32 <= byte < 126 else "." for byte in found) if len(found) <= MOST_SHOWN else ""
    return f"{fault}, places {places:016x}, {len(found)} bytes {summed(found):016x} {shown}"


def escaped(text):
    return "".join(chr(byte) if 32 <= byte < 126 else f"~{byte:02X}~" for byte in text)


def main():
    lines = dict.fromkeys(texts())
    CRATE.joinpath("stdin").write_text("".join(f"{escaped(it)}\n" for it in lines))
    CRATE.joinpath("stdout").write_text("".join(f"{answer(it)}\n" for it in lines))
    print(f"{len(lines)} texts")


if __name__ == "__main__":
    main()
