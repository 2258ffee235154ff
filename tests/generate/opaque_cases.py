#!/usr/bin/env python3
"""Texts with opaque terms, aliases and locations, by hand, each with its answers with `--opaque` and without; and the
modules of tests/golden/opaque. At the top of the repository

    tests/generate/opaque_cases.py [PROGRAM]

asks the rules in Python, or a program, and prints the wrong answers."""
import argparse
import subprocess
import sys
import tarfile

from checkout import ROOT

from oracle import rules, script

MODULES = ROOT / "tests/golden/opaque/modules.tar.xz"
# An operation with an attribute, which begins at byte 13, and one with the type of a result, which begins at 21.
ATTRIBUTE, TYPE = '"t.u"() {x = %s} : () -> ()', '%%0 = "t.u"() : () -> %s'
SAME, OPAQUE = "same", "--opaque"
FLOATS = '%%0 = "arith.constant"() <{value = 1.5 : f32}> : () -> %s'
FUNCTION = '"t.f"() ({\n^bb0(%a: i32 loc("f":1:2)):\n  "t.g"(%a) : (i32) -> () loc(#loc1)\n}) : () -> () loc("g")\n'

# Of each: a name, a sentence, the text, the answer with the flag, and without. An answer is what is printed inside the
# module, SAME where that is the text, or the number of a refusal and its byte, or a list of the rows of diagnostics.
TYPES = [
    ("float-type", "A float type is kept.",
     "f32", SAME, (13, 21)),
    ("dialect-type-with-string", "A type of a dialect is kept with its body, also a string with brackets.",
     '!llvm.struct<"a>b", (ptr, i32)>', SAME, (13, 21)),
    ("dialect-type", "A type of a dialect may have no body.",
     "!d.t", SAME, (13, 21)), ("dialect-type-without-name", "A type of a dialect may have a body and no name.",
                               '!d<"x y">', SAME, (13, 21)), ("scalable-vector", "A scalable vector is kept.",
                                                              "vector<[4]x2xi32>", SAME, (13, 21)),
    ("memref-of-floats", "A memref of floats is kept.",
     "memref<2x?xf32>", SAME, (13, 32)),
    ("memref-with-layout", "A memref with a layout and a memory space is kept.",
     "memref<4xi32, strided<[1], offset: ?>, 3>", SAME, (13, 33)),
    ("unranked-memref", "An unranked memref is kept.",
     "memref<*xi32>", SAME, (13, 28)),
    ("memref-of-memrefs", "A memref of memrefs is kept.",
     "memref<4xmemref<2xf32>>", SAME, (13, 30)),
    ("function-type-of-floats", "A function type of floats and types of dialects is kept.",
     "((f32) -> !d.t)", SAME, (13, 23)),
    ("open-body", "A body that isn't closed is refused at its end.",
     "complex<f32", (2, 32), (13, 21)),
    ("unknown-word", "A word that is no type isn't kept.",
     "f33", (13, 21), (13, 21)), ("alias-without-definition", "A type's alias that isn't defined isn't kept.",
                                  "!t", (13, 21), (13, 21)), ("integer-too-wide",
                                                              "An integer of 129 bits is refused by its width.",
                                                              "i129", (6, 21), (6, 21)),
    ("tensor-without-body", "A tensor needs a body.",
     "tensor", (2, 27), (13, 21)),
    ("alias-in-layout", "An alias in a layout that isn't defined isn't kept.",
     "memref<4xf32, #m>", (13, 35), (13, 30)),
    ("blank-before-body", "A blank before the body of a tensor is dropped.",
     "tensor <4xf32>", TYPE % "tensor<4xf32>", (13, 21)),
    ("blank-before-body-of-dialect-type", "A blank before the body of a dialect's type is refused.",
     "!d.t <4>", (2, 26), (13, 21)),
    ("tab-in-body", "A tab in a body isn't kept.",
     "tensor<4\t>", (13, 29), (13, 21)), ("letter-in-body",
                                          "A letter that isn't ASCII is refused outside of strings in a body.",
                                          "tensor<\u00e4>", (1, 28), (13, 21)),
    ("comment-in-body", "A comment in a body isn't kept.",
     "tensor<4 // c\n>", (13, 30), (13, 21)),
    ("line-feed-in-memref", "A line feed in a memref is dropped, since its parts are read.",
     "memref<4x\n f32>", TYPE % "memref<4xf32>", (13, 32)),
    ("tuple-of-dialect-types", "A tuple of types and attributes of dialects is kept.",
     "tuple<!d<a>, #e.f, !1<b>>", SAME, (13, 21)),
]
ATTRIBUTES = [
    ("typed-float", "A float with a type is kept.",
     "1.000000e+00 : f32", SAME, (13, 13)),
    ("array-of-floats", "An array of integers and floats is kept, and the integer gets its type.",
     "[1, 2.5, -0.0 : f16, 0x7FC00000 : f32]", ATTRIBUTE % "[1 : i64, 2.5, -0.0 : f16, 0x7FC00000 : f32]", (13, 17)),
    ("dense-elements", "Dense elements are kept.",
     "dense<[[1, -2], [3, 4]]> : tensor<2x2xi8>", SAME, (13, 13)),
    ("affine-set", "An affine set is kept with its arrows and brackets.",
     "affine_set<(d0)[s0] : (d0 - s0 >= 0, d0 == 1)>", SAME, (13, 13)),
    ("dialect-attribute", "A typed attribute of a dialect is kept with its body.",
     '#d.a<x -> y, {k = "}"}> : index', SAME, (13, 13)),
    ("typed-string", "A string with a type is kept.",
     '"s" : !d.t', SAME, (2, 17)),
    ("dense-array-of-floats", "A dense array of floats is kept.",
     "array<f32: 1.0, 2.0>", SAME, (13, 19)),
    ("dictionary-of-types", "A dictionary of types and dialects' attributes is kept, by keys.",
     "{b = f32, a = [#d.a, unit]}", ATTRIBUTE % "{a = [#d.a, unit], b = f32}", (13, 18)),
    ("distinct-attribute", "A distinct attribute is kept.",
     "distinct[0]<42 : i32>", SAME, (13, 13)), ("distinct-attribute-without-body",
                                                "A distinct attribute may have no body.",
                                                "distinct[1]", SAME, (13, 13)),
    ("dialect-attribute-without-name", "An attribute of a dialect may have a body and no name.",
     "#gpu<dim x>", SAME, (13, 13)), ("location-attribute", "A location is kept as an attribute.",
                                      'loc("f":1:2)', SAME, (13, 13)), ("comparison-in-body",
                                                                        "A comparison inside brackets of a body is "
                                                                        "kept.",
                                                                        "#d.a<(a >= b)>", SAME, (13, 13)),
    ("overflow-flags", "Overflow flags are the same with `--opaque` and without.",
     "#arith.overflow<nsw>", SAME, SAME),
    ("comparison-at-end-of-body", "A comparison's `>` ends a body, and the text after it is refused.",
     "#d.a<a >= b>", (2, 21), (13, 13)),
    ("open-bracket-in-body", "A bracket in a body that isn't closed is refused at the body's end.",
     "#d.a<(x>", (2, 21), (13, 13)),
    ("wrong-bracket-in-body", "A bracket in a body that wasn't opened is refused.",
     "#d.a<x]", (2, 19), (13, 13)), ("blank-before-body-of-attribute",
                                     "A blank before a dialect's attribute's body is refused.",
                                     "#d.a <x>", (2, 18), (13, 13)),
    ("body-too-deep", "A body of 33 brackets is refused by its depth.",
     "#d.a<" + 32 * "(" + 32 * ")" + ">", (10, 49), (13, 13)),
    ("deepest-body", "A body of 32 brackets is kept.",
     "#d.a<" + 31 * "(" + 31 * ")" + ">", SAME, (13, 13)),
    ("line-feed-in-body", "A line feed in a body isn't kept.",
     "#d.a<x,\ny>", (13, 20), (13, 13)),
    ("float-of-integer-type", "A float with an integer type is refused.",
     "1.0 : i32", (5, 19), (13, 13)), ("float-of-function-type", "A float with a function type is refused.",
                                       "1.0 : () -> ()", (5, 19), (13, 13)),
    ("integer-of-float-type", "An integer with a float type is refused.",
     "1 : f32", (5, 17), (13, 17)),
    ("dense-elements-without-type", "Dense elements need a type.",
     "dense<1>", (2, 21), (13, 13)),
    ("open-string-in-body", "A string in a body that isn't closed is refused at its quote.",
     '#d.a<"x>', (1, 18), (13, 13)), ("bad-escape-in-body", "A wrong escape in a body's string is refused.",
                                      '#d.a<"\\q">', (1, 18), (13, 13)),
    ("symbol-in-body", "A symbol in a body isn't kept.",
     "#d.a<@f>", (13, 18), (13, 13)), ("alias-in-body", "An alias in a body that isn't defined isn't kept.",
                                       "#d.a<#m>", (13, 18), (13, 13)), ("operators-in-body",
                                                                         "Operators and numbers with a sign are "
                                                                         "kept in a body.",
                                                                         "#d.a<a != b, #1>", SAME, (13, 13)),
    ("negative-float", "A blank between a minus and a float is dropped.",
     "- 1.5", ATTRIBUTE % "-1.5", (13, 15)),
    ("dense-array-of-i7", "A dense array of `i7` is kept.",
     "array<i7: 1>", SAME, (13, 19)), ("dense-array-of-i0", "A dense array of `i0` is refused by its width.",
                                       "array<i0: 1>", (6, 19), (6, 19)), ("dense-array-without-type",
                                                                           "A dense array needs a type of its items.",
                                                                           "array<1>", (2, 19), (2, 19)),
    ("attribute-alias-without-definition", "An attribute's alias that isn't defined isn't kept.",
     "#m", (13, 13), (13, 13)),
    ("bad-escape-in-typed-string", "A wrong escape in a typed string is refused.",
     '"s\\q" : f32', (1, 15), (1, 15)),
]
WHOLES = [
    ("blank-in-type-of-use", "A type that is written with other blanks is another type.",
     '%0 = "t.u"() : () -> tensor<4xf32>\n"t.v"(%0) : (tensor< 4xf32>) -> ()', (5, 45), (13, 21)),
    ("float-constant", "A constant that is a float breaks no rule.",
     FLOATS % "f32", [], (13, 34)),
    ("float-constant-of-integer-type", "A constant of `i32` with a float value breaks V13.",
     FLOATS % "i32", ["#1 V13"], (13, 34)),
]
# With aliases and locations.
ALIASED = [
    ("aliases-of-map-and-type", "Aliases of a map and a type are put in place, also in one another.",
     '#m = affine_map<(d0) -> (d0)>\n!t = memref<4xf32, #m>\n%0 = "t.u"() {m = #m} : () -> !t',
     '%0 = "t.u"() {m = affine_map<(d0) -> (d0)>} : () -> memref<4xf32, affine_map<(d0) -> (d0)>>', (13, 0)),
    ("alias-defined-twice", "An alias that is defined twice is refused at its second definition.",
     '#m = 1 : i8\n#m = 2 : i8\n"t.u"() : () -> ()', (4, 12), (13, 0)),
    ("alias-of-itself", "An alias isn't seen in its own value.",
     '#m = [#m]\n"t.u"() : () -> ()', (3, 6), (13, 0)),
    ("alias-with-dot", "An alias's name has no dot.",
     '#m.x = 1 : i8\n"t.u"() : () -> ()', (13, 0), (13, 0)),
    # A value is one type or one attribute, and is put in place as spelled.
    ("alias-before-operation", "An alias's value ends before an operation in the same line.",
     '!a = i8 !b = tensor<4x!a>"t.u"() {x = !b} : () -> ()', '"t.u"() {x = tensor<4xi8>} : () -> ()', (13, 0)),
    ("alias-unknown", "An alias that isn't defined is refused where it is used.",
     '#a = 1 : i8\n"t.u"() {x = #b} : () -> ()', (3, 25), (13, 0)),
    ("alias-without-value", "A definition needs a value.",
     '#a =\n"t.u"() {x = #a} : () -> ()', (2, 10), (13, 0)),
    ("alias-of-string", "An alias may be a string.",
     '#a = "s"\n"t.u"() {x = #a} : () -> ()', '"t.u"() {x = "s"} : () -> ()', (13, 0)),
    ("aliases-of-typed-string-and-symbol", "An alias may be a string with a type, or a nested symbol.",
     '#a = "s" : f32 #b = @f :: @"g h"\n"t.u"() {x = [#a, #b]} : () -> ()',
     '"t.u"() {x = ["s" : f32, @f::@"g h"]} : () -> ()', (13, 0)),
    ("aliases-of-function-type-and-dense", "An alias may be a function type, or dense elements.",
     '!a = (i8) -> i8 #b = dense<1> : tensor<2xi8>\n"t.u"() {x = !a, y = #b} : () -> ()',
     '"t.u"() {x = (i8) -> i8, y = dense<1> : tensor<2xi8>} : () -> ()', (13, 0)),
    # What follows a value, and is no definition, is the text of the operations.
    ("word-after-alias", "A word after an alias's value is the text of the operations.",
     "#a = 1 garbage", (13, 7), (13, 0)), ("pretty-module-after-alias",
                                           "A module in the pretty form after an alias is refused at its first word.",
                                           "#a = affine_map<(d0) -> (d0)> module {}", (13, 30), (13, 0)),
    ("number-after-alias", "A number after an alias's value is refused as an operation.",
     '#a = 1 1\n"t.u"() : () -> ()', (2, 7), (13, 0)), ("body-after-alias",
                                                        "A body after a type that has none is refused as an "
                                                        "operation.",
                                                        '!a = i8 <x>\n"t.u"() : () -> ()', (2, 8), (13, 0)),
    ("alias-of-dense-without-type", "An alias of dense elements needs their type.",
     '#a = dense<1>\n"t.u"() : () -> ()', (2, 14), (13, 0)), ("type-alias-of-attribute",
                                                              "A type's alias needs a type.",
                                                              '!a = 1\n"t.u"() : () -> ()', (2, 5), (13, 0)),
    ("alias-of-word", "A word that is no attribute is no alias's value.",
     '#a = foo\n"t.u"() : () -> ()', (2, 5), (13, 0)), ("alias-of-types-in-brackets",
                                                        "Types in brackets without an arrow are no value.",
                                                        '#a = (i8)\n"t.u"() : () -> ()', (2, 10), (13, 0)),
    # A type of a dialect doesn't contain itself through an alias, as far as its bytes show.
    ("type-within-itself-by-alias", "A type of a dialect that contains itself by an alias is refused.",
     '!a = !d.s<x, !d.t<!d.s<x>>>\n!b = !d.s<x, !a>\n"t.u"() : () -> ()', (13, 33), (13, 0)),
    ("type-with-other-parameter-in-itself",
     "A type of a dialect may contain one of its name with another first parameter.",
     '!a = !d.s<"x", i8>\n!b = !d.s<"y", !a>\n"t.u"() {x = !b} : () -> ()',
     '"t.u"() {x = !d.s<"y", !d.s<"x", i8>>} : () -> ()', (13, 0)),
    ("type-with-type-parameter-in-itself",
     "A type of a dialect may contain one of its name if the first parameter is a type.",
     '!a = !d.p<i8, i8>\n!b = !d.p<i8, !a>\n"t.u"() {x = !b} : () -> ()',
     '"t.u"() {x = !d.p<i8, !d.p<i8, i8>>} : () -> ()', (13, 0)),
    ("comma-after-alias", "A comma after an alias's value is refused.",
     '#a = 1, b = 2\n"t.u"() {x = #a} : () -> ()', (2, 6), (13, 0)),
    ("alias-of-open-array", "An array of an alias that isn't closed is refused where it has to be.",
     '#a = [1\n"t.u"() {x = 1} : () -> ()', (2, 34), (13, 0)),
    ("bracket-after-alias", "A bracket after an alias's value is refused.",
     '#a = 1]\n"t.u"() {x = #a} : () -> ()', (2, 6), (13, 0)),
    ("alias-too-deep", "An alias of 33 arrays in one another is refused by its depth.",
     "#a = " + 33 * "[" + 33 * "]", (10, 37), (13, 0)), ("bad-escape-in-alias",
                                                         "A wrong escape in an alias's string is refused.",
                                                         '#a = ["\\q"]', (1, 6), (13, 0)),
    # No spelling becomes a part of the token before it.
    ("alias-after-percent-sign", "An alias's value doesn't become the name of a value.",
     '#a = 0\n%0 = "t.u"() : () -> i8\n"t.v"(%#a) : (i8) -> ()', (1, 37), (13, 0)),
    ("alias-after-key", "An alias's value doesn't become a part of a key.",
     '!a = i8\n"t.u"() {x!a} : () -> ()', (2, 18), (13, 0)),
    ("alias-after-minus", "An alias's value doesn't become a negative number.",
     '#a = 1\n"t.u"() {x = -#a} : () -> ()', (2, 21), (13, 0)),
    ("alias-after-name", "An alias's value doesn't become the place of a name.",
     '#a = 0\n%0 = "t.u"() : () -> i8\n"t.v"(%0#a) : (i8) -> ()', (2, 39), (13, 0)),
    # A fault before an alias's counts first.
    ("fault-before-alias", "A fault before an unknown alias is refused first.",
     '#a = 1 : i8\n"t.u"() {x = i0, y = #b} : () -> ()', (6, 25), (13, 0)),
    # A fault in the spelling of an alias is reported at the alias.
    ("fault-in-alias", "A fault in an alias's value is refused where the alias is used.",
     '#a = i0\n"t.u"() {x = #a} : () -> ()', (6, 21), (13, 0)),
    # Locations.
    ("locations-of-arguments", "Locations of arguments, operations and their aliases are dropped.",
     FUNCTION + '#loc1 = loc("h":3:4)',
     '"t.f"() ({\n^bb0(%arg0: i32):\n  "t.g"(%arg0) : (i32) -> ()\n}) : () -> ()', (13, 24)),
    ("alias-in-location", "An alias in a location that is an attribute is put in place.",
     '#l = loc("f":1:2)\n"t.u"() {x = loc(callsite(#l at "g"))} : () -> () loc(#l)',
     '"t.u"() {x = loc(callsite("f":1:2 at "g"))} : () -> ()', (13, 0)),
    ("open-location", "A location that isn't closed is refused at its end.",
     '"t.u"() : () -> () loc("f"', (2, 26), (13, 19)),
    ("location-after-attribute", "An attribute has no location.",
     '"t.u"() {x = i8 loc("f")} : () -> ()', (2, 16), (2, 16)),
    ("operation-after-location-alias", "No operation comes after a location's alias at the end.",
     '"t.u"() : () -> ()\n#l = loc("f")\n"t.v"() : () -> ()', (2, 33), (13, 19)),
    ("other-alias-at-end", "Only locations' aliases come after the operations.",
     '"t.u"() : () -> ()\n#l = 1', (13, 19), (13, 19)),
    ("location-alias-defined-twice", "A location's alias that is defined twice is refused.",
     '"t.u"() : () -> ()\n#l = loc("f")\n#l = loc("g")', (4, 33), (13, 19)),
]

# A module with operations beyond the table, lines, and what is replied to each.
BEYOND = """"func.func"() <{function_type = (f32, vector<4xi32>, i32) -> (), sym_name = "f"}> ({
^bb0(%f: f32, %v: vector<4xi32>, %i: i32):
  %c = "arith.constant"() <{value = 1.0 : f32}> : () -> f32
  %z = "arith.constant"() <{value = dense<0> : vector<4xi32>}> : () -> vector<4xi32>
  %s = "arith.addi"(%v, %z) : (vector<4xi32>, vector<4xi32>) -> vector<4xi32>
  %t = "arith.constant"() <{value = true}> : () -> i1
  %u = "arith.select"(%t, %f, %c) : (i1, f32, f32) -> f32
  %d = "arith.constant"() <{value = 2.0 : f64}> : () -> f64
  "t.use"(%s, %u) : (vector<4xi32>, f32) -> ()
  "func.return"() : () -> ()
}) : () -> ()
// -----
"""
LINES = [
    ("report diagnostics", "ok"),
    # (an opaque constant isn't known, and no fold is made with one)
    ("report constants", "ok\n%v5.0 true"),
    ("report dead", "ok\n#7"),
    ("set-attr #2 k dense<[1, 2]> : tensor<2xi8>", "ok"),
    ("set-attr #2 k #m", "refused 13 LeftOut at 0"),
    ('set-attr #2 k {a = !d.t, b = #d.a<"x">}', "ok"),
    ('insert before #9 "t.n"(%a1.0.0) : (f32) -> !d.t', "ok #10"),
    ('insert before #9 "t.n"(%a1.0.0) : (f64) -> ()', "refused 5 TypeMismatch at 15"),
    ("replace %v2.0 %a1.0.0", "ok"),
    ("replace %v2.0 %a1.0.1", "refused 24 TypeDiffers"),
    # (`select` takes any type; the first rule takes the truth away that nothing uses then, and both constants of
    # floats; the sum of vectors, which is used, stays with its zero)
    ("canon", "converged 4"),
    ("report uses", "ok\n%a1.0.0 #8 1\n%a1.0.0 #10 0\n%a1.0.1 #4 0\n%v3.0 #4 1\n%v4.0 #8 0"),
    ("set-attr #3 value 1 : i32", "ok"),
    ("report diagnostics", "ok"),
    ("convert partial illegal arith.addi rules 25,26", "refused 51 NotLegalised #4"),
]


def titled_texts():
    """The name and the sentence of each text, the text, and the answers, the last of them without a flag."""
    for form, rows in ((TYPE, TYPES), (ATTRIBUTE, ATTRIBUTES)):
        for name, sentence, text, *answers in rows:
            yield (name, sentence), form % text, answers
    for name, sentence, text, *answers in WHOLES + ALIASED:
        yield (name, sentence), text, answers


def texts():
    """Each text, with the answers, the last of them without a flag."""
    return ((text, answers) for _, text, answers in titled_texts())


def asked_texts():
    """Each text, the words with which it is asked, and the answer."""
    for text, (answer, plain) in texts():
        yield text, (OPAQUE,), answer
        yield text, (), plain


class Module:
    """A module of tests/golden/opaque: its name, its text, what is printed for it or how it is refused, and how it is
    refused without a flag."""

    def __init__(self, name, text, answer, plain):
        self.name, self.text, self.answer, self.plain = name, text, answer, plain
        step = name.partition("/")[0]
        self.has_aliases, self.is_refused = step == "6_alias", step == "refused"


def modules():
    """The modules."""
    with tarfile.open(MODULES) as archive:
        found = {it.name.removeprefix("open/"): archive.extractfile(it).read() for it in archive if it.isfile()}
    lines = [line.split("\t") for line in found["MANIFEST.tsv"].decode().splitlines()[1:]]
    plain = {name: f"module {said}\n".encode() for name, _, _, _, _, said, *_ in lines}
    for name, text in sorted(found.items()):
        front = name.removesuffix(".mlir")
        if front != name:
            yield Module(front, text, found.get(front + ".norm") or found[front + ".refused"], plain[front])


# Runs: `run` gives the status and the output for words and an input.

def by_rules(words, text):
    """What the rules say."""
    return (script.run_opaque if OPAQUE in words else script.run)(text)


def by_program(program):
    """What a program says."""
    def run(words, text):
        ran = subprocess.run([program, "--brief", *words], input=text, capture_output=True, check=False)
        return ran.returncode, ran.stdout
    return run


def case_of(text, answer):
    """An input with a text, and the status and the output that an answer says."""
    if isinstance(answer, tuple):
        number, at = answer
        return text, 3, f"module refused {number} {rules.WORDS[number]} at {at}\n"
    if isinstance(answer, list):
        return f"{text}\n// -----\nreport diagnostics\n", 0, "1 ok\n" + "".join(f"{row}\n" for row in answer)
    lines = "".join(f"  {line}\n" for line in (text if answer == SAME else answer).splitlines())
    return f"{text}\n// -----\nprint\n", 0, '1 ok\n"builtin.module"() ({\n' + lines + "}) : () -> ()\n"


def text_told(run, text, words, answer):
    """What is wrong with the answer for a text, or none."""
    given, status, output = case_of(text, answer)
    found = run(words, given.encode())
    if found == (status, output.encode()):
        return None
    return f"{text!r}, {' '.join(words)}: {found}, and not {(status, output)}"


def whole_script():
    """The script over the operations beyond the table, as an input, and what is written for it."""
    given = BEYOND + "".join(f"{line}\n" for line, _ in LINES)
    return given, "".join(f"{number} {reply}\n" for number, (_, reply) in enumerate(LINES, 1))


def script_told(run):
    """What is wrong with the replies to the lines, or none."""
    given, wanted = whole_script()
    found = run((OPAQUE,), given.encode())
    return None if found == (1, wanted.encode()) else f"beyond the table: {found[1].decode()}, and not {wanted}"


def asked_modules(module):
    """What is asked of a module: words, the input, the status and what is written. It is printed so, without a row of
    diagnostics, and what is printed is read again so; or it is refused so. Without the flag it is refused."""
    yield (), module.text, (3, module.plain)
    if module.is_refused:
        yield (OPAQUE,), module.text, (3, b"module " + module.answer)
        return
    for text in (module.text, module.answer):
        given = text + b"\n" * (not text.endswith(b"\n")) + b"// -----\nprint\nreport diagnostics\n"
        yield (OPAQUE,), given, (0, b"1 ok\n" + module.answer + b"2 ok\n")


def unresolved_told(run, module):
    """The rows that say of a reference that it names nothing, though mlir-opt accepts the module."""
    _, out = run((OPAQUE,), module.text + b"\n// -----\nreport symbols\n")
    return [line.decode() for line in out.splitlines() if line.startswith(b"unresolved ")]


def module_told(run, module):
    """What is wrong with the answers for a module, each."""
    for row in unresolved_told(run, module):
        yield f"{module.name}: {row}"
    for words, text, wanted in asked_modules(module):
        found = run(words, text)
        if found != wanted:
            yield (f"{module.name}, {' '.join(words)}: {found[0]} {found[1][:400]}, and not {wanted[0]} "
                   f"{wanted[1][:400]}")


def faults(run):
    """What is answered otherwise, and how much was asked."""
    told = [script_told(run)] + [text_told(run, *it) for it in asked_texts()]
    for module in modules():
        found = list(module_told(run, module))
        told.append("\n".join(found) if found else None)
    return len(told), [it for it in told if it is not None]


def main():
    parser = argparse.ArgumentParser(description=__doc__, formatter_class=argparse.RawDescriptionHelpFormatter)
    parser.add_argument("program", nargs="?")
    program = parser.parse_args().program
    count, found = faults(by_program(program) if program else by_rules)
    print(*found, sep="\n", end="\n" if found else "")
    print(f"{count - len(found)} right, {len(found)} wrong")
    sys.exit(bool(found))


if __name__ == "__main__":
    main()
