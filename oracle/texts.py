"""Random texts of the generic form, most of them valid, and texts with a few changes."""

import re

TOKEN = re.compile(rb'"(?:[^"\\\n]|\\.)*"|[%@^#!]?[A-Za-z0-9_$.]+|->|::|.', re.S)

NAMES = [b"t", b"func.func", b"builtin.module", b"arith.addi", b"arith.constant", b"scf.for", b"func.call",
         b"memref.load", b"a b", b"x"]
KEYS = [b"a", b"b", b"value", b"sym_name", b"overflowFlags", b"callee", b'"c d"', b'"a"', b"alignment", b"_x.y$z",
        b"true", b"i8"]
TYPES = [b"i1", b"i8", b"i32", b"i64", b"index", b"si8", b"ui8", b"ui64", b"si1", b"i7", b"memref<i8>",
         b"memref<?x4xindex>", b"() -> ()",
         b"(i8) -> i1", b"(i1, index) -> (i8, () -> ())", b"memref<0x07x?xui3>", b"i128", b"si65", b"ui127"]
BLANKS = [b" ", b"", b"\n", b"  ", b"\t", b"// c\n", b" //\n"]
PIECES = [b"(", b")", b"{", b"}", b"[", b"]", b"<", b">", b",", b"=", b":", b"::", b"->", b"-", b"?", b"*", b"%a",
          b"%b#1", b"^a", b"#b", b"!c", b"@d",
          b"1", b"0x1F", b"1.5", b"a", b"i8", b"i0", b"f32", b"true", b"unit", b"array", b"loc", b'"s"', b'"\\q"', b'"',
          b"$", b"\n", b"%v1.0", b"memref",
          b"\xC3\xA4", b"\xFF", b"//", b"99999999999999999999", b"#1", b"#0", b":2", b"none", b"nsw", b"256", b"-129"]

# With opaque terms.
OPEN_TYPES = [b"f32", b"none", b"tensor<4xf32>", b"tensor< 4xf32>", b"vector<[4]x2xi8>", b"complex<f64>",
              b"tuple<i8, f32>", b"!d.t", b"!d.t<>", b'!d<"a>b", (x)>', b"memref<4xf32>", b"memref<2x?x!d.t>",
              b"memref<4xi8, 1>", b"memref<*xf32>", b"(f32) -> !d.t", b"memref<4xmemref<2xbf16>>",
              b"memref<?xf32, affine_map<(d0) -> (d0)>>"]
OPEN_ATTRS = [b"1.5", b"-2.0e+1 : f32", b"- 1.0", b"0x7F : f16", b"-0x7f : f32", b"dense<1> : tensor<i8>",
              b"dense<[[1, -2], [3, 4]]> : tensor<2x2xi8>", b"affine_map<(d0)[s0] -> (d0 + s0)>",
              b"affine_set<(d0) : (d0 >= 0)>", b"#d.a", b"#d.a<x -> y> : index", b"#d<a>", b'"s" : !d.t',
              b"array<f32: 1.0>", b"distinct[0]<42 : i32>", b"distinct[1]", b'loc("f":1:2)',
              b"sparse<0, 1> : tensor<4xi8>", b"dense_resource<r> : tensor<4xf32>", b"strided<[1, ?], offset: 3>",
              b"array<i7: 1>", b'#d.a<"\\"}">', b"#d.a<a != b>", b"f32", b"tensor<2xi8>", b"memref<4xf32, 3>"]
OPEN_PIECES = [b"<", b">", b"->", b"#m", b"!t", b"#d.a", b"!d", b"@f", b"//", b"\t", b"f32", b"tensor", b"dense",
               b"memref", b": f32", b": i8", b"loc(", b"1.5", b"0x1", b"distinct", b"\xC3\xA4", b"#m = 1 ",
               b"!t = f32\n"]


def blank(chance):
    return chance.choice(BLANKS)


def listing(chance, most, part):
    return b", ".join(part() for _ in range(chance.randrange(most + 1)))


def entries(chance, depth, apart=(), more=()):
    """Entries whose keys differ, most of the time; some of the attributes are among further ones."""
    keys = chance.sample([it for it in KEYS if it not in apart], chance.randrange(4))
    if chance.random() < 0.03:
        keys += [chance.choice(KEYS)]
    return keys, b"{" + b", ".join(entry(chance, key, depth, more) for key in keys) + b"}"


def number(chance):
    value = chance.choice([0, 1, 2, 7, 127, 128, 255, 256, 2**31, 2**32 - 1, 2**63 - 1, 2**63, 2**64 - 1, 2**64, 2**127,
                           2**128 - 1, chance.randrange(200)])
    return chance.choice([b"", b"", b"-"]) + (b"%d" % value if chance.random() < 0.8 else b"0x%x" % value)


def string(chance):
    return b'"' + b"".join(chance.choice([b"a", b"b", b" ", b"\\n", b"\\00", b"\\ff", b"\\\\", b'\\"', b"\t",
                                          b"\xC3\xA4", b"~", b"`"])
                           for _ in range(chance.randrange(4))) + b'"'


def attr(chance, depth, more=()):
    if more and chance.random() < 0.4:
        return chance.choice(more)
    inner = lambda: attr(chance, depth - 1, more)
    kind = chance.randrange(14 if depth else 10)
    if kind < 3:
        value = chance.choice([0, 1, 2, 7, 100])
        return b"%d" % value if kind == 0 else b"%s : %s" % (
            number(chance), chance.choice([b"i64", b"i8", b"index", b"ui8", b"si8", b"i32", b"ui64", b"i128",
                                           b"si128"]))
    if kind == 3:
        return string(chance)
    if kind == 4:
        return chance.choice(TYPES)
    if kind == 5:
        return chance.choice([b"true", b"false", b"unit"])
    if kind == 6:
        return b"::".join(b"@" + chance.choice([b"f", b"g.h", b"0", b'"k l"', b'"m"'])
                          for _ in range(chance.randrange(1, 4)))
    if kind == 7:
        return b"#arith.overflow<" + chance.choice([b"none", b"nsw", b"nuw", b"nsw, nuw", b"nuw,nsw"]) + b">"
    if kind < 10:
        items = listing(chance, 3, lambda: b"%d" % chance.choice([0, 1, -1]))
        return b"array<" + chance.choice([b"i1", b"i8", b"i16", b"i32",
                                          b"i64"]) + (b": " + items if items else b"") + b">"
    if kind < 12:
        return b"[" + listing(chance, 3, inner) + b"]"
    return entries(chance, depth - 1, (), more)[1]


def entry(chance, key, depth, more=()):
    return key if chance.random() < 0.3 else key + blank(chance) + b"=" + blank(chance) + attr(chance, depth, more)


class Maker:
    """Operations of some types, with operands that are bound most of the time, and with more attributes than the usual
    ones."""

    def __init__(self, chance, types=TYPES, more=()):
        self.chance, self.types, self.more, self.count = chance, types, more, 0

    def fresh(self):
        self.count += 1
        return b"%" + self.chance.choice([b"a", b"b", b"c", b"d", b""]) + b"%d" % self.count

    def op(self, seen, depth):
        chance, text, results = self.chance, b"", []
        inside = self.regions(seen, depth)
        operands = [chance.choice(seen) for _ in range(chance.randrange(4)) if seen]
        for _ in range(chance.choice([0, 0, 1, 1, 2, 3])):
            count = chance.choice([None, 1, 2])
            results.append((self.fresh(), count, [chance.choice(self.types) for _ in range(count or 1)]))
        if results:
            text = b", ".join(name + (b":%d" % count if count else b"") for name, count, _ in results) + b" = "
        text += b'"' + inside[0] + b'"(' + b", ".join(name for name, _ in operands) + b")"
        keys = []
        if chance.random() < 0.3:
            keys, some = entries(chance, 2, (), self.more)
            text += b" <" + some + b">"
        text += inside[1]
        if chance.random() < 0.3:
            text += blank(chance) + entries(chance, 2, keys, self.more)[1]
        outs = [ty for _, _, types in results for ty in types]
        plain = len(outs) == 1 and not outs[0].startswith(b"(") and chance.random() < 0.7
        text += b" : (" + b", ".join(ty for _,
                                     ty in operands) + b") -> " + (outs[0] if plain else b"(" + b", ".join(outs) + b")")
        for name, count, types in results:
            for k, ty in enumerate(types):
                seen.append((name + (b"#%d" % k if count and count > 1 and (k or chance.random() < 0.5) else b""), ty))
        return text

    def regions(self, seen, depth):
        chance = self.chance
        name = chance.choice(NAMES)
        if not depth or chance.random() < 0.6:
            return name, b""
        isolated = name in (b"func.func", b"builtin.module")
        parts = []
        for _ in range(chance.randrange(1, 3)):
            parts.append(self.region([] if isolated else list(seen), depth))
        return name, b" (" + b", ".join(parts) + b")"

    def region(self, seen, depth):
        chance, text = self.chance, b"{"
        if chance.random() < 0.2:
            return b"{}"
        if chance.random() < 0.5:
            args = [(self.fresh(), chance.choice(self.types)) for _ in range(chance.randrange(3))]
            text += b"^bb" + (b"(" + b", ".join(name + b": " + ty for name, ty in args) + b")" if args
                              else b"") + b":" + blank(chance)
            seen += args
        return text + blank(chance).join(self.op(seen, depth - 1)
                                         for _ in range(chance.randrange(3))) + blank(chance) + b"}"


def source(chance, types=TYPES, more=()):
    maker, seen = Maker(chance, types, more), []
    return b"\n".join(maker.op(seen, 3) for _ in range(chance.randrange(1, 4)))


def open_source(chance):
    """A text with opaque terms."""
    return source(chance, TYPES + OPEN_TYPES, OPEN_ATTRS)


def changed(chance, text, more=()):
    """The text with one to three changes of a token or of bytes, which may put further pieces there."""
    for _ in range(chance.choice([1, 1, 1, 2, 3])):
        text = changed_token(chance, text) if chance.random() < 0.6 else changed_bytes(chance, text, more)
    return text


def changed_token(chance, text):
    """The text with a token less, or twice, or in place of another, or with two that changed places."""
    found = TOKEN.findall(text)
    if not found:
        return text
    one, other = chance.randrange(len(found)), chance.randrange(len(found))
    if chance.random() < 0.5:
        sign = found[one][:1]
        alike = [at for at, it in enumerate(found) if it[:1] == sign and it != found[one]]
        other = chance.choice(alike or [other])
    kind = chance.randrange(4)
    if kind == 0:
        found[one] = b""
    elif kind == 1:
        found[one] = found[one] + chance.choice([b"", b" ", b", "]) + found[one]
    elif kind == 2:
        found[one] = found[other]
    else:
        found[one], found[other] = found[other], found[one]
    return b"".join(found)


def changed_bytes(chance, text, more=()):
    at = chance.randrange(len(text) + 1)
    size = chance.choice([0, 0, 1, 1, 2, 5])
    put = chance.choice([*PIECES, *more]) if chance.random() < 0.7 else b""
    return text[:at] + put + text[at + size:]
