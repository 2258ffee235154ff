"""Attributes with opaque terms, by hand and random; the rules in Python (oracle/opaque.py) say whether they are
accepted."""
import random

from tests.generate import opaque_cases
from oracle import opaque, rules, texts

# Attributes in addition to those of opaque_cases.py.
TEXTS = [
    "memref<4x(i8) -> i8>", "memref<4x*>", "memref<(i8) -> i8>", "memref<2xindex>", "memref <4 x f32>", "memref<f32>",
    "memref<4xf32", "memref<4xf32 3>", "memref", "memref<>", "memref<,>", "memref<(,)>",
    "memref<99999999999999999999xf32>",
    "() -> f32", "() -> (f32, !d.t)", "(tensor<4>, i8) -> ()", "!d", "!d.t : i8", "!1.2", "!d.t.u<x>y",
    "- f32", "-1.5 : f32", "-1.5 : i8", "-0x10 : f32", "-0x10 : i8", "0x10 : memref<4xf32>", "0X10 : f32", "1.5 : #a",
    "dense<1> : i8", "dense<1> : (f32) -> ()", "dense", "dense : f32", "dense <1> : f32", "affine_map<> : f32",
    "strided<[1]>", "sparse<>", "distinct", "distinct[0] <1>", "distinct[0] // c", "distinct<0>", "loc",
    "loc(\"f\") : i8",
    "loc<1>", '"s":f32', '"s" : i8', '"s" : ', '"a\\22b" : f32', "#arith.overflow<nsw> : i8", "#arith.overflow",
    "#a.b : ",
    "#a.b : f32 : f32", "array<", "array<f32", "array<f32>", "array< f32 >", "array<(i8)>", "array<i128: 1>",
    "array<#a.b>",
    "array<1.5>", "array <f32: 1>", "array<si8: 1>", "array<index>", "array<i8 : f32>", "[f32, 1.5, #d<x>, !d.t]",
    "{a = !d.t, b = dense<1> : f32}", "@a : f32", "true : f32", "unit : f32", "tensor<#a>", "tensor<!a>", "tensor<@a>",
    "f32 f32", "none", "tf32", "f128", "f8E4M3", "bf17", "tuple<>", "complex", "vector<4xi8>", "tensor<->>",
    "tensor<)>",
    "tensor<" + "(" * 31 + ")" * 31 + ">", "tensor<" + "(" * 32 + ")" * 32 + ">",
    *(f"{'memref<' * n}f32{'>' * n}" for n in (31, 32, 33)), *(f"{'memref<' * n}i8{'>' * n}" for n in (31, 32, 33)),
    *(f"{'[' * n}{it}{']' * n}" for n in (30, 31, 32) for it in ("f32", "1.5", "#d.a", "!d.t", "#d.a : f32",
    '"s" : f32',
                                                                "dense<1> : memref<4xf32>", "distinct[0]", "loc(1)")),
    *(f"{'[' * n}1 : {'(' * m}{') -> ()' * m}{']' * n}" for n in (30, 31) for m in (1, 2, 31, 32)),
]


def found_texts():
    """Each text: those by hand, and random ones, changed or not."""
    yield from (it.encode() for it in TEXTS)
    yield from (text.encode() for _, _, text, *_ in opaque_cases.TYPES + opaque_cases.ATTRIBUTES)
    yield from texts.OPEN_TYPES + texts.OPEN_ATTRS
    chance = random.Random(23)
    for _ in range(1500):
        text = texts.attr(chance, chance.randrange(4), texts.OPEN_ATTRS + texts.OPEN_TYPES)
        yield text
        yield texts.changed(chance, text, texts.OPEN_PIECES)


def is_read(text):
    """Whether a text is accepted as an attribute, or None if the rules leave open which refusal is reported."""
    try:
        text.decode()
        opaque.Reader(text).one_attr()
        return True
    except rules.Refused:
        return False
    except (opaque.Open, UnicodeDecodeError):
        return None


def asked():
    """Each text for which the rules say whether it is accepted, and the answer."""
    for text in dict.fromkeys(found_texts()):
        said = is_read(text)
        if said is not None:
            yield text, said
