#!/usr/bin/env python3
"""Inserts random text after definitions of aliases, before the next definition, an operation or the end of the text,
and has the program and `mlir-opt-22` read each text, if that is installed: a text that the program reads is one that
mlir-opt reads, and nothing of it is dropped.

usage: tests/compare/opaque_tails.py PROGRAM [CASES [SEED]]

CASES is 2000, SEED 1. Prints each text that the program reads and mlir-opt refuses, unless the program refuses it too
once all its aliases are used: the value of one that isn't used isn't checked. Prints each in which the text after a
definition leaves no trace in what is printed, though it is neither blank nor a definition, with all aliases used. Ends
with status 1 if it prints one. Says how many texts the program reads, and how many mlir-opt alone: those have
operations in a form that the program leaves out."""
import concurrent.futures
import os
import random
import re
import shutil
import subprocess
import sys

TOOL = "mlir-opt-22"
FLAGS = ["--allow-unregistered-dialect", "--mlir-print-op-generic", "--split-input-file"]
SPLIT, DIVIDER = b"\n// -----\n", b"\n// -----\nprint\n"
ERROR = re.compile(rb"^<stdin>:(\d+):\d+: error: ", re.M)
TOGETHER = 100
# Attributes and types, all valid for mlir-opt.
ATTRS = b"""1|1 : i32|-1 : i32|- 7|1.5|1.0 : f32|-2.5e-3 : f64|0x1F : i8|true|false|unit|"s"|"s" : !t.u|@f|@f::@g|[]
@"a b"::@c|[1, 2]|{}|{a, b = 1 : i8}|i32|index|tensor<4xf32>|(i32) -> i32|() -> (i8, i16)|!t.v|!t.v<x>|#t.a|#t.a<1>
#t<x y>|#t.a<x> : i32|dense<1> : tensor<4xi32>|array<i32: 1, 2>|affine_map<(d0) -> (d0)>|affine_set<(d0) : (d0 >= 0)>
strided<[1], offset: 2>|distinct[0]<1>|loc("f":1:2)|loc(unknown)|dense_resource<r> : tensor<4xi8>|#t.a : i8"""
TYPES = b"""i32|si8|ui16|index|f32|bf16|none|tensor<4xf32>|tensor<*xi8>|vector<2x[4]xf32>|complex<f32>|tuple<i1, i2>
!t.v|memref<?x4xi8>|!t.v<x, [1]>|(i32) -> i32|() -> ()|(i8, i8) -> (i8, i16)|!t<x y>|f8E5M2"""
# What is put after a definition: one to four of these.
TAILS = b"""garbage|foo.bar|1|-|1.0|0x1|:|::|,|.|=|->|<|>|<x>|(|)|()|(i32)|[|]|[0]|{|}|{a = 1}|"s"|@f|::@g|i32|f32|!t.w
!t.w<x>|#t.b<x>|: i32|: f32|%0|%0 =|^bb0|^bb0:|*|?|+|/|//|// c|loc("f")|loc|unit|true|tensor|#t.b
-> i8|-> ()|tensor<4xf32>|module|module {}|module {|func.func private @h()|func.func|"t.x"() : () -> ()|"t.x"|#z = 1
!z = i8|#z|!z|dense|dense<1>|affine_map<() -> ()>|x|e5|$|&|;|\\|'|\xc3\xa4|\x01|{-#|#-}|#|!|@|%|^"""
MORE = (b"#z = 1", b"!z = i8")  # what a tail may define
BLANKS = (b"", b" ", b"\n", b"  ", b"\t")
ENDS = (b'"t.u"() {x = #a0} : () -> ()', b'%0 = "t.u"() {y = !b0} : () -> !b0', b"", b'"t.w"() : () -> () loc("f")',
        b'"builtin.module"() ({\n^bb0:\n}) : () -> ()')


def terms(rows):
    return [it for row in rows.split(b"\n") for it in row.split(b"|")]


def definitions(maker):
    """Two definitions, or three."""
    found = [b"#a0 = " + maker.choice(terms(ATTRS)), b"!b0 = " + maker.choice(terms(TYPES))]
    if maker.random() < 0.5:
        found.append(maker.choice((b"#c0 = [#a0]", b"#c0 = #a0", b"!c0 = tuple<!b0>", b"!c0 = (!b0) -> !b0")))
    if maker.random() < 0.5:
        found[:2] = found[1::-1]
    return found


def tail(maker):
    """Some random text."""
    found = b""
    for _ in range(maker.choice((1, 1, 1, 2, 2, 3, 4))):
        piece = maker.choice(terms(TAILS))
        # (a minus directly after the name of a symbol is a part of it here, and none of mlir-opt's)
        found += (b" " if piece[:1] == b"-" else maker.choice(BLANKS)) + piece
    return found


def case(seed, number):
    """The text of a number with a random tail; its definitions with an operation that uses them all, with that tail and
    without; and the tail."""
    maker = random.Random(f"{seed} {number}")
    parts, added, end = definitions(maker), tail(maker), maker.choice(ENDS)
    at = maker.randrange(len(parts))
    between = maker.choice((b"\n", b" ", b"\n\n"))
    more = [it for it in MORE if it[:4] in added]
    names = [it.partition(b" ")[0] for it in (*parts, *more)]
    uses = b'\n"t.x"() {' + b", ".join(b"k%d = %s" % numbered for numbered in enumerate(names)) + b"} : () -> ()"
    plain = b"\n".join((*parts, *more))
    parts[at] += added
    text = b"\n".join(parts)
    return text + between + end, (text + uses, plain + uses), added


def printed(program, text):
    """What the program prints of a text, or none if it refuses it."""
    ran = subprocess.run([program, "--brief", "--opaque"], input=text + DIVIDER, capture_output=True, check=False)
    if ran.returncode not in (0, 3):
        raise ValueError(f"status {ran.returncode} for {text!r}")
    return ran.stdout if ran.returncode == 0 else None


def refused(texts):
    """The numbers of the texts that mlir-opt refuses. Each text has to end with a separate line."""
    lines, firsts = 1, []
    for text in texts:
        firsts.append(lines)
        lines += (text + SPLIT).count(b"\n")
    ran = subprocess.run([TOOL, *FLAGS], input=SPLIT.join(texts), capture_output=True, check=False)
    at = [int(it[1]) for it in ERROR.finditer(ran.stderr)]
    return {max(number for number, first in enumerate(firsts) if first <= line) for line in at}


def is_dropped(text, plain, added, program):
    """Whether a text is read, and as the one without its tail, which is more than blanks, comments and definitions."""
    bare = re.sub(rb"//[^\n]*|#z = 1|!z = i8|\s", b"", added)
    found = printed(program, text)
    return bool(bare) and found is not None and found == printed(program, plain)


def together(program, seed, numbers):
    """What is counted of some texts, and what is wrong."""
    cases = [case(seed, number) for number in numbers]
    read = [printed(program, text) is not None for text, _, _ in cases]
    wrong = refused([text for text, _, _ in cases]) if shutil.which(TOOL) else set()
    found = []
    for number, (text, used, added) in enumerate(cases):
        if read[number] and number in wrong and printed(program, used[0]) is not None:
            found.append(f"read, and refused by {TOOL}: {text!r}")
        if read[number] and is_dropped(*used, added, program):
            found.append(f"read as the text without its tail: {used[0]!r}")
    both = sum(it and number not in wrong for number, it in enumerate(read))
    alone = sum(not it and number not in wrong for number, it in enumerate(read)) if shutil.which(TOOL) else 0
    return both, alone, found


def main():
    words = sys.argv[1:]
    if not words or len(words) > 3 or words[0].startswith("-"):
        print(__doc__)
        return 0
    program, count, seed = words[0], int(words[1]) if len(words) > 1 else 2000, words[2] if len(words) > 2 else "1"
    if not shutil.which(TOOL):
        print(f"{TOOL} isn't installed: only what is dropped is looked for")
    groups = [range(at, min(at + TOGETHER, count)) for at in range(0, count, TOGETHER)]
    with concurrent.futures.ThreadPoolExecutor(os.cpu_count()) as pool:
        rows = list(pool.map(lambda it: together(program, seed, it), groups))
    found = [line for row in rows for line in row[2]]
    for line in found:
        print(line)
    both, alone = sum(row[0] for row in rows), sum(row[1] for row in rows)
    print(f"{count} texts: {both} read, {alone} read by {TOOL} alone, {len(found)} wrong")
    return int(bool(found))


if __name__ == "__main__":
    sys.exit(main())
