"""Inputs with user patterns: texts that are read or refused, with answers by hand; checks at widths; lists that are
read again; patterns applied, with marks; and random scripts from the seed here. mlir_work_cases.py makes golden files
of them, in tests/golden/patterns."""
import pathlib
import random
import re

from tests.generate import named_inputs
from tests.generate import worked_rows
from tests.compare import pattern_lines
from oracle import chance, json_lines, live, patterns, script
from oracle.module import text_of

SEED = 61
# So many patterns of patterns/ hold at all widths at least.
LEAST_PROVED = 100
HERE = pathlib.Path(__file__).resolve().parent
DIVIDER = "// -----\n"
# A product by 8, a sum and a difference, one with flags, a comparison and a choice.
MODULE = """"func.func"() <{function_type = (i32, i32) -> i32, sym_name = "f"}> ({
^bb0(%a: i32, %b: i32):
  %c = "arith.constant"() <{value = 8 : i32}> : () -> i32
  %s = "arith.muli"(%a, %c) <{overflowFlags = #arith.overflow<none>}> : (i32, i32) -> i32
  %t = "arith.addi"(%s, %b) <{overflowFlags = #arith.overflow<nsw>}> : (i32, i32) -> i32
  %u = "arith.subi"(%t, %b) : (i32, i32) -> i32
  %p = "arith.cmpi"(%u, %c) <{predicate = 2 : i64}> : (i32, i32) -> i1
  %r = "arith.select"(%p, %u, %s) : (i1, i32, i32) -> i32
  "func.return"(%r) : (i32) -> ()
}) : () -> ()
"""


def nested(depth, inner="%a"):
    """Sums in one another."""
    return inner if depth == 0 else f"arith.addi({nested(depth - 1, inner)}, %b)"


def many(word, count, part="%a", end=")"):
    return f"{word}({', '.join([part] * count)}{end}"


def names(count, mark="%"):
    """A left side of so many variables, in sums of two."""
    those = [f"{mark}x{number}" for number in range(count)]
    pairs = [f"arith.muli({those[at]}, {those[min(at + 1, count - 1)]})" for at in range(0, count, 2)]
    while len(pairs) > 1:
        pairs = [f"arith.addi({pairs[at]}, {pairs[min(at + 1, len(pairs) - 1)]})" for at in range(0, len(pairs), 2)]
    return pairs[0]


def powers(*counts):
    """A product of sums of so many."""
    sums = ["%a" if count == 1 else f"arith.addi({powers(count - 1)}, %a)" for count in counts]
    return sums[0] if len(sums) == 1 else f"arith.muli({sums[0]}, {powers(*counts[1:])})"


def factors(count):
    """A number that is a product of so many, in pairs."""
    return "c" if count == 1 else f"mul({factors(count // 2)}, {factors(count - count // 2)})"


# The text after `pattern`, and its refusal, or `ok`.
TEXTS = {
    # Tokens, and where they may be.
    "p arith.muli(%a, $c) => %a": "1 BadToken at 17", 'p arith.muli(%a, "c) => %a': "1 BadToken at 17",
    "p arith.muli(%a, c) => %a // \x7f": "ok", "$": "1 BadToken at 0", "1": "2 Unexpected at 0",
    "%p arith.muli(%a, c) => %a": "2 Unexpected at 0", "p.q arith.muli(%a, c) => %a": "2 Unexpected at 0",
    "p": "2 Unexpected at 1", "p // arith.muli(%a, c) => %a": "2 Unexpected at 28", "p %a => %a": "2 Unexpected at 2",
    "p c => c": "2 Unexpected at 2", "p 1 => 1": "2 Unexpected at 2", "p arith.muli": "2 Unexpected at 12",
    "p arith.muli( ": "2 Unexpected at 13", "p arith.muli(%a": "2 Unexpected at 15",
    "p arith.muli(%a,)": "2 Unexpected at 16", "p arith.muli(%a, c)": "2 Unexpected at 19",
    "p arith.muli(%a, c) =": "2 Unexpected at 21", "p arith.muli(%a, c) = > %a": "ok",
    "p arith.muli(%a, c) =>": "2 Unexpected at 22", "p arith.muli(%a, c) => %a %a": "2 Unexpected at 26",
    "p arith.muli(%a, c) => %a where": "2 Unexpected at 31", "p arith.muli(%a, c) => %a where c": "2 Unexpected at 33",
    "p arith.muli(%a, c) => %a where eq()": "2 Unexpected at 35",
    "p arith.muli(%a, c) => %a where eq(c, 1),": "2 Unexpected at 41",
    "p arith.muli(%a, c) => %a where eq(%a, 1)": "2 Unexpected at 35",
    "p arith.muli(%a, -c) => %a": "2 Unexpected at 18", "p arith.muli(%a, add(1, 2)) => %a": "2 Unexpected at 20",
    "p arith.muli(%a, c) => -c": "2 Unexpected at 24", "p arith.muli(%a : 3, c) => %a": "2 Unexpected at 18",
    "p arith.muli(%a : i32.x, c) => %a": "2 Unexpected at 18", "p arith.muli<none>(%a, c) => %a": "ok",
    "p arith.muli<nsw>(%a, c) => %a": "2 Unexpected at 13", "p arith.andi<none>(%a, c) => %a": "2 Unexpected at 12",
    "p arith.muli(%a, c) => arith.muli<none>(%a, c)": "2 Unexpected at 33",
    "p arith.cmpi(%a, c) => 1": "2 Unexpected at 12", "p arith.cmpi<lt>(%a, c) => 1": "2 Unexpected at 13",
    "p arith.cmpi<slt>(%a, c) => 1": "ok", "p arith.muli(%a, c) => %a where eq(c, 1) eq(c, 2)": "2 Unexpected at 41",
    # Blanks, and what is put together.
    "p arith.muli(%a, c) => arith.shli(%a, log2(c)) where ult(c, 8)": "ok",
    "  p arith.muli( %a,c )=>arith.shli(%a , log2(c))where ult(c,8),sgt( c , - 1 )": "ok",
    "p arith.cmpi<ult>(arith.extsi(%a:S):T,7:i32) => arith.cmpi<eq>(%a, add(3, neg(2)) : S) where narrower(S,T)": "ok",
    # Names and functions.
    "p arith.muli(%a, c) => %b": "3 UnknownValue at 23", "p arith.muli(%a, c) => d": "3 UnknownValue at 23",
    "p arith.muli(%a, c) => a": "3 UnknownValue at 23", "p arith.muli(%a, c) => %c": "3 UnknownValue at 23",
    "p arith.muli(%a, c) => arith.addi(%a, log(c))": "3 UnknownValue at 38",
    "p arith.muli(%a, c) => arith.addi(%a, add(c, d))": "3 UnknownValue at 45",
    "p arith.muli(%a, c) => %a where lt(c, 1)": "3 UnknownValue at 32",
    "p arith.muli(%a, c) => %a where eq(d, 1)": "3 UnknownValue at 35",
    # Types.
    "p arith.muli(%a) => %a": "5 TypeMismatch at 2", "p arith.select(%a, %b) => %a": "5 TypeMismatch at 2",
    "p arith.extsi(%a, %b) => %a": "5 TypeMismatch at 2", "p arith.muli(%a, %b) => arith.muli(%a)":
        "5 TypeMismatch at 24", "p arith.muli(%a, c) => arith.addi(%a, add(c))": "5 TypeMismatch at 38",
    "p arith.muli(%a, c) => arith.addi(%a, neg(c, c))": "5 TypeMismatch at 38",
    "p arith.muli(%a : i8, %b : i16) => %a": "5 TypeMismatch at 22", "p arith.muli(%a : i8, %b) : i16 => %a":
        "5 TypeMismatch at 2", "p arith.trunci(%a : i64) : i32 => %a": "5 TypeMismatch at 34",
    "p arith.select(%a : i8, %b, %c) => %b": "5 TypeMismatch at 15", "p arith.cmpi<eq>(%a, %b) : i8 => 1":
        "5 TypeMismatch at 2", "p arith.cmpi<eq>(%a : i8, %b) => %a": "5 TypeMismatch at 33",
    "p arith.addi(%a, %b) => arith.trunci(arith.extsi(%a) : T)": "5 TypeMismatch at 37",
    "p arith.addi(%a, %b) => arith.index_cast(%a)": "5 TypeMismatch at 24",
    "p arith.index_cast(%a : i8) : i8 => %a": "5 TypeMismatch at 2", "p arith.addi(%a, %b) => %a where ult(1, 2)":
        "5 TypeMismatch at 33", "p arith.addi(%a, c) => %a where power_of_two(c, c)": "5 TypeMismatch at 32",
    "p arith.addi(%a, c) => %a where narrower(T)": "5 TypeMismatch at 32",
    "p arith.addi(%a, c) => %a where narrower(T, S)": "5 TypeMismatch at 41",
    # Widths and literals.
    "p arith.addi(%a, 0 : i0) => %a": "6 BadWidth at 21", "p arith.addi(%a : i129, 0) => %a": "6 BadWidth at 18",
    "p arith.addi(%a : i128, 0) => %a": "ok", "p arith.addi(%a : i01, 0) => %a": "6 BadWidth at 18",
    "p arith.addi(%a, 300 : i8) => %a": "7 BadValue at 17", "p arith.addi(%a, 255 : i8) => %a": "ok",
    "p arith.addi(%a, -128 : i8) => %a": "ok", "p arith.addi(%a, -129 : i8) => %a": "7 BadValue at 17",
    "p arith.addi(%a, 300) => %a : i8": "7 BadValue at 17",
    f"p arith.addi(%a, {2 ** 128 - 1}) => %a": "ok", f"p arith.addi(%a, {2 ** 128}) => %a": "7 BadValue at 17",
    # Depths, numbers of things, and what folds.
    f"p {nested(3)} => %a": "ok", f"p {nested(3, 'c')} => c": "10 TooDeep at 35", f"p {nested(4)} => %a":
        "10 TooDeep at 35", f"p arith.addi(%a, %b) => {nested(15)}": "ok",
    f"p arith.addi(%a, %b) => {nested(16)}": "10 TooDeep at 200",
    f"p arith.addi(%a, %b) => {nested(17)}": "10 TooDeep at 200",
    f"p {many('arith.addi', 16)} => %a": "5 TypeMismatch at 2", f"p {many('arith.addi', 17)} => %a": "11 TooMany at 77",
    "p memref.load(%a) => %a": "13 LeftOut at 2", "p test.a(%a) => %a": "13 LeftOut at 2",
    "p arith.constant() => 1": "13 LeftOut at 2", "p arith.addi(%a, %b) => func.call(%a)": "13 LeftOut at 24",
    "p arith.addi(%a, %a, %b) => memref.load(%a": "13 LeftOut at 28",
}
# A name, a sentence, and a text at a limit or over it. The rules in Python alone say the answers.
LIMITS = [
    ("16-variables-too-deep",
           "A left side of 16 variables in pairs of pairs is refused, since it is deeper than three levels.",
           f"p {names(16)} => %x0"), ("17-variables-too-deep", "A left side of 17 variables is too deep as well.",
                                    f"p {names(17)} => %x0"), ("8-constants-too-deep",
                                                             "A left side of 8 constants in pairs of pairs is too "
                                                             "deep too.",
                                                             f"p {names(8, '')} => x0"),
          ("16-conditions", "A pattern may have 16 conditions.",
           "p arith.addi(%a, c) => %a where " + ", ".join(["ult(c, 9)"] * 16)),
          ("17-conditions", "A pattern of 17 conditions is refused.",
           "p arith.addi(%a, c) => %a where " + ", ".join(["ult(c, 9)"] * 17)),
          ("8-levels-on-the-right", "A right side may have 8 levels.",
           f"p arith.addi(%a, %b) => {nested(8)}"), ("unknown-variable-deep-inside",
                                                   "An unknown variable on the right is refused at its place, 8 "
                                                   "levels deep.",
                                                   f"p arith.addi(%a, c) => {many('arith.addi', 2, nested(7))}"),
          ("15-operations-on-the-right", "A right side of two sums of seven operations each is read.",
           f"p arith.addi(%a, c) => {many('arith.addi', 2, nested(7).replace('%b', '%a'))}"),
          ("17-operations-on-the-right", "A right side of two sums of eight operations each is refused.",
           f"p arith.addi(%a, c) => {many('arith.addi', 2, nested(8).replace('%b', '%a'))}"),
          ("number-of-three-levels", "A number of three levels of functions is read.",
           "p arith.addi(%a, c) => arith.addi(%a, " + many("add", 2, many("add", 2, many("add", 2, "c"))) + ")"),
          ("8-conditions-of-numbers", "Eight conditions with numbers of four levels are read.",
           "p arith.addi(%a, c) => %a where " + ", ".join(
              ["eq(" + many("add", 2, many("add", 2, many("mul", 2, many("sub", 2, "c")))) + ", 1)"] * 8)),
          ("16-conditions-of-numbers",
           "Sixteen conditions with numbers of four levels have too many parts, and are refused.",
           "p arith.addi(%a, c) => %a where " + ", ".join(
              ["eq(" + many("add", 2, many("add", 2, many("mul", 2, many("sub", 2, "c")))) + ", 1)"] * 16))]
# A name, a sentence, a pattern, and for what follows `check p` the reply, with its rows.
CHECKED = [
    ("signed-quotient-by-shift",
     "A signed quotient isn't an arithmetic shift, as -2 by -2 shows; widths outside 1 to 12 are refused.",
     "arith.divsi(%a, c) => arith.shrsi(%a, log2(c))", {
         "": "fails 2|%a -2 : i2|c -2 : i2|old 1 : i2|new -1 : i2", " width 1": "holds 1",
         " width 12": "fails 2|%a -2 : i2|c -2 : i2|old 1 : i2|new -1 : i2", " width 13": "refused 50 BadLimit",
         " width 0": "refused 50 BadLimit", " width 4294967295": "refused 50 BadLimit",
         " width 4294967296": "refused 60 BadCommand", " width": "refused 60 BadCommand"}),
    ("unsigned-quotient-by-shift",
     "An unsigned quotient by a power of two is a shift, at each width that is asked for.",
     "arith.divui(%a, c) => arith.shrui(%a, log2(c))", {
         "": "holds 8", " width 4": "holds 4", " width 003": "holds 3"}),
    ("mask-of-8-bits", "A mask of 255 does nothing up to 8 bits, and fails at 9.",
     "arith.andi(%a, 255) => %a", {
         "": "fails 9|%a -256 : i9|old 0 : i9|new -256 : i9",
         " width 9": "fails 9|%a -256 : i9|old 0 : i9|new -256 : i9",
                                   " width 24": "fails 9|%a -256 : i9|old 0 : i9|new -256 : i9",
                                   " width 25": "refused 50 BadLimit"}),
    ("literal-of-10-bits", "A sum with 300 has no case up to 8 bits, and fails at 9.",
     "arith.addi(%a, 300) => %a", {
         "": "fails 9|%a 0 : i9|old -212 : i9|new 0 : i9", " width 9": "fails 9|%a 0 : i9|old -212 : i9|new 0 : i9"}),
    ("sum-of-literals", "A sum of two literals holds for all integers, and has no case at one bit.",
     "arith.addi(1, 2) => 3", {"": "holds", " width 1": "empty 1", " width 64": "holds 64",
                               " width 65": "refused 50 BadLimit"}),
    ("written-type", "A pattern of a written type is proved at that type; a width that is asked for changes nothing.",
     "arith.addi(%a : i8, 0) => %a", {"": "holds", " width 1": "holds 8", " width 24": "holds 8"}),
    ("written-type-too-wide", "A pattern of `i32` has too many values to be checked.",
     "arith.addi(%a : i32, 0) => %a", {"": "refused 50 BadLimit", " width 1": "refused 50 BadLimit"}),
    ("written-index", "A pattern of `index` has too many values to be checked.",
     "arith.addi(%a : index, 0) => %a", {"": "refused 50 BadLimit"}),
    ("associative-sum", "A sum of three values at two bits is associative.",
     "arith.addi(arith.addi(%a, %b), %c) => arith.addi(%a, arith.addi(%b, %c))", {" width 2": "holds 2"}),
    ("shift-of-a-shift",
     "Two shifts aren't one by the sum of their amounts, as an amount of 1 twice at two bits shows.",
     "arith.shli(arith.shli(%a, c), d) => arith.shli(%a, add(c, d))", {
         " width 4": "fails 2|%a 0 : i2|c 1 : i2|d 1 : i2|old 0 : i2|new poison"}),
    ("quotient-sunk-into-a-choice", "A quotient sunk into a choice is undefined by zero.",
     "arith.divui(%a, arith.select(%p, %b, 1)) => arith.select(%p, arith.divui(%a, %b), %a)", {
         " width 3": "fails 1|%a false|%p false|%b false|old false|new undefined"}),
    ("shift-amount-of-the-width", "A shift by a value of the width is poison.",
     "arith.addi(%a, %b) => arith.addi(arith.subi(%a, %b), arith.shrui(%b, 1))", {
         " width 2": "fails 1|%a false|%b false|old false|new poison"}),
    ("sum-and-difference", "A sum of a difference isn't the sum of its first operand.",
     "arith.addi(%a, %b) => arith.addi(arith.subi(%a, %b), %b)", {
         " width 2": "fails 1|%a false|%b true|old true|new false"}),
    ("truncated-extension",
     "A truncation of a sign extension is a smaller extension at all widths, and needs three of them.",
     "arith.trunci(arith.extsi(%a : S) : T) : U => arith.extsi(%a) : U", {"": "holds", " width 1": "empty 1",
                                                                         " width 2": "empty 2", " width 3": "holds 3"}),
    ("truncated-zero-extension", "A truncation of a zero extension isn't a sign extension.",
     "arith.trunci(arith.extui(%a : S) : T) : U => arith.extsi(%a) : U", {
         " width 3": "fails 3|%a true|old 1 : i2|new -1 : i2"}),
    ("remainder-by-minus-one", "The remainder by -1 is zero.",
     "arith.remsi(%a, -1) => 0", {"": "holds 8"}),
    ("arithmetic-shift-as-logical", "An arithmetic shift isn't a logical one.",
     "arith.shrsi(%a, %b) => arith.shrui(%a, %b)", {
         " width 2": "fails 2|%a -2 : i2|%b 1 : i2|old -1 : i2|new 1 : i2"}),
]

# The same of patterns that hold at all widths by their form, of patterns that fail, and of patterns that have neither
# form: claims about bits decide some of these.
SQUARES = "arith.muli(arith.addi(%a, %b), arith.subi(%a, %b)) => arith."
THRICE = "arith.trunci(arith.muli(%a : S, 3)) : T => arith.trunci(arith.addi(arith.addi(%a, %a), %a)) : T"
EVERYWHERE = [
    # One polynomial, or not.
    ("difference-of-squares", "A difference of squares holds at all widths, as one polynomial.",
     SQUARES + "subi(arith.muli(%a, %a), arith.muli(%b, %b))", {"": "holds", " width 4": "holds 4"}),
    ("sum-of-squares", "A sum of squares isn't a product of a sum and a difference.",
     SQUARES + "addi(arith.muli(%a, %a), arith.muli(%b, %b))", {
         "": "fails 2|%a 0 : i2|%b 1 : i2|old -1 : i2|new 1 : i2"}),
    ("sum-with-zero", "A sum with zero holds at all widths, and a check at a width says the width.",
     "arith.addi(%a, 0) => %a", {"": "holds", " width 8": "holds 8", " width 25": "refused 50 BadLimit"}),
    ("doubled-value", "A sum of a value with itself is a product by 2 at all widths, and has no case at one bit.",
     "arith.addi(%a, %a) => arith.muli(%a, 2)", {"": "holds", " width 1": "empty 1"}),
    ("difference-with-itself", "A difference of a value with itself is zero at all widths.",
     "arith.subi(%a, %a) => 0", {"": "holds"}),
    ("difference-with-itself-as-one", "A difference of a value with itself isn't one.",
     "arith.subi(%a, %a) => 1", {"": "fails 1|%a false|old false|new true"}),
    ("product-by-minus-one", "A product by -1 is a difference from zero at all widths.",
     "arith.muli(%a, -1) => arith.subi(0, %a)", {"": "holds"}),
    ("square-as-itself", "A square is the value at one bit alone.",
     "arith.muli(%a, %a) => %a", {"": "fails 2|%a -2 : i2|old 0 : i2|new -2 : i2", " width 1": "holds 1"}),
    # Constants: an opaque subterm counts as a separate variable, wherever it is.
    ("two-constants-added", "Two sums with constants are one sum with the constants' sum, at all widths.",
     "arith.addi(arith.addi(%a, c), d) => arith.addi(%a, add(c, d))", {"": "holds"}),
    ("two-products-added", "Two products by one constant are a product by twice the constant, at all widths.",
     "arith.addi(arith.muli(%a, c), arith.muli(%a, c)) => arith.muli(%a, mul(c, 2))", {"": "holds"}),
    ("difference-as-negated-sum", "A difference with a constant is a sum with its negation, at all widths.",
     "arith.subi(%a, c) => arith.addi(%a, neg(c))", {"": "holds"}),
    ("difference-as-other-sum", "A difference with a constant isn't a sum with 1 minus the constant.",
     "arith.subi(%a, c) => arith.addi(%a, sub(1, c))", {"": "fails 1|%a false|c false|old false|new true"}),
    ("difference-of-constants", "A difference of a constant with itself is zero at all widths.",
     "arith.addi(%a, arith.subi(c, c)) => %a", {"": "holds"}),
    ("width-as-a-number", "The width of a constant cancels itself, which is checked up to 8 bits.",
     "arith.addi(c, 0) => sub(add(c, width(c)), width(c))", {"": "holds 8"}),
    ("product-of-width-and-zero", "A product of the width and zero is zero at all widths.",
     "arith.muli(c, 0) => mul(width(c), 0)", {"": "holds"}),
    ("product-of-logarithm-and-zero", "A product of a logarithm and zero is zero at all widths.",
     "arith.muli(c, 0) => mul(log2(c), 0)", {"": "holds"}),
    ("exclusive-or-as-a-number", "An exclusive or of numbers isn't part of a polynomial, and is proved by its bits.",
     "arith.subi(c, 0) => xor(c, 0)", {"": "holds"}),
    ("negation-of-bits-as-a-number",
     "The negation of a number's bits isn't part of a polynomial, and is proved by its bits.",
     "arith.subi(-1, c) => not(c)", {"": "holds"}),
    ("product-of-negated-bits-and-zero", "A product of negated bits and zero is zero at all widths.",
     "arith.subi(c, c) => mul(not(c), 0)", {"": "holds"}),
    # What is asked of numbers and types is no hindrance.
    ("condition-not-equal", "A condition on a constant doesn't keep a pattern from holding at all widths.",
     "arith.muli(%a, c) => arith.addi(%a, arith.muli(%a, sub(c, 1))) where ne(c, 0)", {"": "holds"}),
    ("condition-equal", "A pattern that needs its condition is proved by its bits.",
     "arith.addi(%a, c) => %a where eq(c, 0)", {"": "holds"}),
    ("condition-never-true", "A condition that is never true leaves no case.",
     "arith.addi(%a, c) => %a where ult(c, 0)", {"": "empty 8"}),
    ("conditions-of-functions",
     "Conditions with functions of a constant don't keep a pattern from holding at all widths.",
     "arith.subi(%a, c) => arith.addi(%a, neg(c)) where power_of_two(c), ult(log2(c), width(c))", {"": "holds"}),
    ("condition-on-a-type", "A condition on a type doesn't keep a pattern from holding at all widths.",
     "arith.addi(%a : T, 0) => %a where narrower(T, i4)", {"": "holds"}),
    ("condition-on-a-type-never-true", "A type isn't narrower than itself, so no case is left.",
     "arith.addi(%a : T, 0) => %a where narrower(T, T)", {"": "empty 8"}),
    # Literals that few types have: if none of the tried types has it, there is no verdict.
    ("literal-without-a-small-type",
     "A pattern with a literal of 10 bits has no case up to 8 bits, and is proved by its bits.",
     "arith.addi(%a, 300) => arith.addi(arith.addi(%a, 100), 200)", {"": "holds", " width 9": "holds 9"}),
    ("literal-of-minus-one-at-8-bits", "255 is -1 at 8 bits alone, and the check says where it isn't.",
     "arith.muli(%a, 255) => arith.subi(0, %a)", {
         "": "fails 9|%a 1 : i9|old 255 : i9|new -1 : i9", " width 9": "fails 9|%a 1 : i9|old 255 : i9|new -1 : i9"}),
    ("literal-of-minus-one-at-128-bits", "A literal of 128 bits has no case up to 8 bits, and is sampled at 128.",
     f"arith.muli(%a, {2 ** 128 - 1}) => arith.subi(0, %a)", {"": "empty 8", " width 128 sampled": "unrefuted 128"}),
    # Types that are written, or several.
    ("polynomial-of-i8", "A polynomial of a written type is proved by its bits.",
     "arith.addi(%a : i8, %a) => arith.muli(%a, 2)", {"": "holds"}),
    ("polynomial-of-i1", "A polynomial of `i1` is proved by its bits.",
     "arith.addi(%a : i1, 1) => arith.subi(%a, 1)", {"": "holds"}),
    ("bits-of-i4", "A bitwise pattern of `i4` is proved by its bits.",
     "arith.xori(%a : i4, -1) => arith.xori(-1, %a)", {"": "holds"}),
    ("polynomials-under-truncation",
     "A polynomial under a truncation isn't one polynomial, and is proved by its bits.",
     THRICE, {"": "holds", " width 1": "empty 1"}),
    # Up to 256 terms, and 64 factors of each.
    ("256-terms", "A polynomial of 256 terms is compared.",
     f"arith.muli(%a, 0) => arith.muli({powers(2, 2, 2, 2, 2, 2, 2, 2)}, 0)", {"": "holds"}),
    ("over-256-terms", "A polynomial of more than 256 terms isn't, and the pattern is checked up to 8 bits.",
     f"arith.muli(%a, 0) => arith.muli({powers(4, 3, 3, 3, 3)}, 0)", {"": "holds 8"}),
    ("64-factors", "A term of 64 factors is compared.",
     f"arith.muli(c, 0) => mul(0, {factors(64)})", {"": "holds"}),
    ("65-factors", "A term of 65 factors isn't, and the pattern is checked up to 8 bits.",
     f"arith.muli(c, 0) => mul(0, {factors(65)})", {"": "holds 8"}),
    # Bit by bit, or not.
    ("de-morgan", "De Morgan's law holds at all widths, bit by bit.",
     "arith.xori(arith.andi(%a, %b), -1) => arith.ori(arith.xori(%a, -1), arith.xori(%b, -1))", {
         "": "holds", " width 4": "holds 4"}),
    ("de-morgan-wrong", "De Morgan's law with two conjunctions fails at one bit.",
     "arith.xori(arith.andi(%a, %b), -1) => arith.andi(arith.xori(%a, -1), arith.xori(%b, -1))", {
         "": "fails 1|%a false|%b true|old true|new false"}),
    ("conjunction-with-ones", "A conjunction with -1 is the value, at all widths.",
     "arith.andi(%a, -1) => %a", {"": "holds"}),
    ("disjunction-with-ones", "A disjunction with -1 is -1, at all widths.",
     "arith.ori(%a, -1) => -1", {"": "holds"}),
    ("conjunction-with-zero", "A conjunction with zero is zero, at all widths.",
     "arith.andi(%a, 0) => 0", {"": "holds"}),
    ("conjunction-with-one", "A conjunction with one isn't zero.",
     "arith.andi(%a, 1) => 0", {"": "fails 1|%a true|old true|new false"}),
    ("two-masks", "Two masks are one conjunction of masks, at all widths.",
     "arith.andi(arith.andi(%a, c), d) => arith.andi(%a, and(c, d))", {"": "holds"}),
    ("negated-twice", "Two negations of bits cancel each other, at all widths.",
     "arith.xori(%a, c) => arith.xori(arith.xori(%a, -1), not(c))", {"": "holds"}),
    ("bits-of-a-constant", "Functions of one constant are compared bit by bit, at all widths.",
     "arith.ori(c, c) => and(or(c, 0), xor(c, 0))", {"": "holds"}),
    ("mask-of-five-swapped",
     "A literal other than 0 and -1 isn't one bit for all, and the pattern is proved by all its bits.",
     "arith.andi(%a, 5) => arith.andi(5, %a)", {"": "holds"}),
    ("mask-of-one-swapped", "A literal 1 isn't one bit for all either, and the pattern is proved by all its bits.",
     "arith.andi(%a, 1) => arith.andi(1, %a)", {"": "holds"}),
    ("mask-of-minus-zero",
     "A literal -0 isn't taken for zero by the bitwise proof, and the pattern is proved by all its bits.",
     "arith.andi(%a, -0) => 0", {"": "holds"}),
    ("bit-of-a-literal", "A bit of a literal fails at the first width that has the bit.",
     "arith.ori(%a, c) => arith.ori(%a, or(c, 4))", {
         "": "fails 3|%a 0 : i3|c 0 : i3|old 0 : i3|new -4 : i3"}),
    ("negation-in-bits", "The negation of a number isn't bitwise, and the pattern is proved by all its bits.",
     "arith.andi(%a, c) => arith.andi(%a, and(c, or(c, neg(c))))", {"": "holds"}),
    ("difference-in-bits", "A difference of numbers isn't bitwise, and the pattern is proved by all its bits.",
     "arith.xori(c, -1) => sub(-1, c)", {"": "holds"}),
    ("width-in-bits", "A mask by the width fails at two bits.",
     "arith.andi(%a, c) => arith.andi(%a, and(c, width(c)))", {
         "": "fails 2|%a 1 : i2|c 1 : i2|old 1 : i2|new 0 : i2"}),
    ("bits-with-condition", "A bitwise pattern with a condition on its constant is proved by all its bits.",
     "arith.andi(%a, c) => arith.andi(c, %a) where ne(c, 0)", {"": "holds"}),
    ("bits-with-condition-on-a-type", "A bitwise pattern with a condition on its type is proved by all its bits.",
     "arith.andi(%a : T, -1) => %a where narrower(T, i64)", {"": "holds"}),
    # Each bit is right, and the sum of both kinds is neither.
    ("bits-and-sums", "A sum of a conjunction and a disjunction is no polynomial, and is proved by its bits.",
     "arith.addi(arith.andi(%a, %b), arith.ori(%a, %b)) => arith.addi(%a, %b)", {"": "holds"}),
    ("shift-by-zero", "A shift by zero is proved at all widths.",
     "arith.shli(%a, 0) => %a", {"": "holds"}),
    ("maximum-with-itself", "A maximum of a value with itself is proved at all widths.",
     "arith.maxui(%a, %a) => %a", {"": "holds"}),
    ("remainder-by-one", "An unsigned remainder by one is proved at all widths.",
     "arith.remui(%a, 1) => 0", {"": "holds"}),
    ("choice-between-one-value",
     "A choice between one value and itself is proved at all widths, with poison.",
     "arith.select(%c, %a, %a) => %a", {"": "holds"}),
    ("comparison-with-itself", "A comparison of a value with itself is proved at all widths.",
     "arith.cmpi<eq>(%a, %a) => 1", {"": "holds"}),
    ("extension-as-itself", "An extension is itself at all widths.",
     "arith.extsi(%a : S) : T => arith.extsi(%a) : T", {"": "holds"}),
]
# A check up to a width tries no poison: of a pattern that matches a choice, or makes a quotient or a remainder, it says
# no more than that nothing refutes it, unless claims about bits decide; of one that makes a choice, or matches a
# quotient, it says more.
UNTRIED = [
    ("choice-as-conjunction",
     "A choice of `i1` as a conjunction fails for poison, which a check up to a width doesn't try.",
     "arith.select(%c, %a : i1, 0) => arith.andi(%c, %a)", {
         "": "fails 1|%c false|%a poison : i1|old false|new poison", " width 3": "unrefuted 1"}),
    ("choice-as-disjunction", "A choice of `i1` as a disjunction fails for poison alone.",
     "arith.select(%c, 1, %a : i1) => arith.ori(%c, %a)", {"": "fails 1|%c true|%a poison : i1|old true|new poison"}),
    ("choice-inside-a-sum", "A matched choice that is made again is proved at all widths, with poison.",
     "arith.addi(arith.select(%c, %a, %b), 0) => arith.select(%c, %a, %b)", {"": "holds"}),
    ("choice-swapped", "A choice with its values swapped fails.",
     "arith.select(%c, %a, %b) => arith.select(%c, %b, %a)", {
         "": "fails 1|%c false|%a false|%b true|old true|new false"}),
    ("choice-without-a-case", "A choice with a literal of 10 bits has no case up to 8 bits, and fails at 9.",
     "arith.select(%c, %a, 300) => %a", {"": "fails 9|%c false|%a 0 : i9|old -212 : i9|new 0 : i9"}),
    ("choice-under-a-sum", "A choice of two values is computed with arithmetic, at all widths and with poison.",
     "arith.select(%c, arith.addi(%a, 1), %a) => arith.addi(%a, arith.extui(%c))", {"": "holds"}),
    ("two-choices-as-one", "Choices by two conditions are one by their conjunction, unless the second is poison.",
     "arith.select(%c, arith.select(%d, %a, %b), %b) => arith.select(arith.andi(%c, %d), %a, %b)", {
         "": "fails 1|%c false|%d poison : i1|%a false|%b false|old false|new poison"}),
    # Wrong at wider types alone, and old sides that are never a number.
    ("cast-to-index-and-back", "A cast to index and back loses bits from 65 bits on.",
     "arith.index_cast(arith.index_cast(%a : S) : index) : S => %a", {
         "": "fails 65|%a -18446744073709551616 : i65|old 0 : i65|new -18446744073709551616 : i65"}),
    ("cast-to-index-and-back-unsigned", "An unsigned cast to index and back loses bits from 65 bits on.",
     "arith.index_castui(arith.index_castui(%a : S) : index) : S => %a", {
         "": "fails 65|%a -18446744073709551616 : i65|old 0 : i65|new -18446744073709551616 : i65"}),
    ("extension-cut-at-40-bits", "A value of at most 40 bits is narrower than i41, and the check finds a wider one.",
     "arith.andi(%a, 1099511627775) => %a", {
         "": "fails 41|%a -1099511627776 : i41|old 0 : i41|new -1099511627776 : i41"}),
    ("shift-by-8", "A shift by 8 is poison up to 8 bits, and a number from 9 bits on.",
     "arith.shrui(%a, 8) => 0", {"": "fails 9|%a -256 : i9|old 1 : i9|new 0 : i9"}),
    ("shift-of-4-bits-by-8", "A shift of 4 bits by 8 is always poison, so the old side is never a number.",
     "arith.shrui(%a : i4, 8) => 0", {"": "empty 4", " width 4": "holds 4"}),
    ("no-number-below-another", "No number is below and above another: the pattern applies nowhere, at any width.",
     "arith.addi(%a, c) => %a where ult(c, 5), ugt(c, 9)", {"": "empty 8"}),
    ("product-that-samples-refute", "A product of two values is beyond claims, and samples of wide types refute it.",
     "arith.muli(%a, arith.andi(%b, 255)) => arith.muli(%a, %b)", {
         "": "fails 16|%a 1 : i16|%b -1 : i16|old 255 : i16|new -1 : i16"}),
    ("product-wrong-at-its-literal",
     "Claims don't decide a product, and samples near the literal refute a pattern that is wrong only there.",
     "arith.cmpi<eq>(arith.extui(arith.muli(%a, %b) : S) : i128, 305419896) => false", {
         "": "fails 32|%a 305419896 : i32|%b 1 : i32|old true|new false", " width 4": "holds 4",
         " width 16 sampled": "unrefuted 16",
         " width 32 sampled": "fails 32|%a 305419896 : i32|%b 1 : i32|old true|new false"}),
    ("product-wrong-after-its-literal",
     "A pattern is wrong for the number after its literal alone, and samples near the literal refute it.",
     "arith.cmpi<ult>(arith.extui(arith.muli(%a, %b) : S) : i128, 305419898) "
     "=> arith.cmpi<ult>(arith.extui(arith.muli(%a, %b) : S) : i128, 305419897)", {
         "": "fails 32|%a 305419897 : i32|%b 1 : i32|old true|new false"}),
    ("product-right-at-its-literal", "A pattern with literals that no sample refutes holds up to the tried width.",
     "arith.cmpi<eq>(arith.extui(arith.muli(%a, %b) : S) : i128, 305419896) "
     "=> arith.cmpi<eq>(arith.extui(arith.muli(%b, %a) : S) : i128, 305419896)", {
         "": "holds 8", " width 32 sampled": "unrefuted 32"}),
    ("made-unsigned-quotient", "A made quotient leaves a pattern unrefuted, since its divisor may be poison.",
     "arith.minui(%b, 1) => arith.divui(%b, arith.maxui(%b, 1))", {"": "unrefuted 8"}),
    ("signed-quotient-as-itself", "A signed quotient that is matched and made is unrefuted.",
     "arith.divsi(%a, 1) => arith.divsi(%a, 1)", {"": "unrefuted 8"}),
    ("unsigned-quotient-as-itself", "An unsigned quotient that is matched and made again is proved at all widths.",
     "arith.divui(%a, 1) => arith.divui(%a, 1)", {"": "holds", " width 2": "unrefuted 2"}),
    ("signed-remainder-as-itself", "A signed remainder that is matched and made is unrefuted.",
     "arith.remsi(%a, 3) => arith.remsi(%a, 3)", {"": "unrefuted 8"}),
    ("unsigned-remainder-as-itself", "An unsigned remainder by a literal that is made again holds.",
     "arith.remui(%a, 3) => arith.remui(%a, 3)", {"": "holds", " width 2": "unrefuted 2"}),
    ("unsigned-remainder-by-a-variable", "An unsigned remainder that is matched and made is unrefuted.",
     "arith.remui(%a, %b) => arith.remui(%a, %b)", {"": "unrefuted 8"}),
    ("matched-quotient", "A quotient that is matched alone holds.",
     "arith.divui(%a, c) => arith.shrui(%a, log2(c))", {"": "holds 8"}),
    # Shifts, quotients and remainders by literals, which automata have, and powers of two.
    ("quotient-as-shift", "A quotient by 2 is a shift by 1 at all widths.",
     "arith.divui(%a, 2) => arith.shrui(%a, 1)", {"": "holds", " width 4": "holds 4"}),
    ("remainder-as-bits", "A remainder by 8 is the three lowest bits at all widths.",
     "arith.remui(%a, 8) => arith.andi(%a, 7)", {"": "holds"}),
    ("two-quotients-as-one", "A quotient of a quotient is a quotient by the product at all widths.",
     "arith.divui(arith.divui(%a, 3), 5) => arith.divui(%a, 15)", {"": "holds"}),
    ("product-as-shift", "A product by 8 is a shift by 3 at all widths.",
     "arith.muli(%a, 8) => arith.shli(%a, 3)", {"": "holds"}),
    ("two-shifts-as-one", "Two shifts by less than the width are one, which may be poison.",
     "arith.shrui(arith.shrui(%a, 1), 2) => arith.shrui(%a, 3)", {"": "fails 3|%a 0 : i3|old 0 : i3|new poison"}),
    ("low-bits-cleared", "Two opposite shifts clear the low bits at all widths.",
     "arith.shli(arith.shrui(%a, 3), 3) => arith.andi(%a, -8)", {"": "holds"}),
    ("sign-shifted-in", "An arithmetic shift keeps the sign, at all widths.",
     "arith.cmpi<slt>(arith.shrsi(%a, 1), 0) => arith.cmpi<slt>(%a, 0)", {"": "holds"}),
    ("arithmetic-shift-back", "An arithmetic shift and one back clear the lowest bit, at all widths.",
     "arith.shli(arith.shrsi(%a, 1), 1) => arith.andi(%a, -2)", {"": "holds"}),
    ("quotient-by-one", "A signed quotient by 1 is the dividend at all widths, also at i1, where 1 is -1.",
     "arith.divsi(%a, 1) => %a", {"": "holds"}),
    ("made-quotient-by-one", "A signed quotient by 1 is undefined for -1 at i1.",
     "arith.addi(%a, 0) => arith.divsi(%a, 1)", {"": "fails 1|%a true|old true|new undefined"}),
    ("least-value", "A power of two below zero is the least value, at all widths.",
     "arith.minsi(%a, c) => c where power_of_two(c), slt(c, 0)", {"": "holds"}),
    ("no-least-value", "A power of two isn't the least value unless it is below zero.",
     "arith.minsi(%a, c) => c where power_of_two(c)", {"": "fails 2|%a 0 : i2|c 1 : i2|old 0 : i2|new 1 : i2"}),
    ("made-choice", "A choice that is made alone holds.",
     "arith.andi(%a, 1) => arith.select(arith.cmpi<eq>(arith.andi(%a, 1), 0), 0, 1)", {"": "holds"}),
]
# What is sampled.
AGREE = "arith.select(arith.cmpi<eq>(arith.extsi(%a : A) : S, arith.extsi(%b : B)), "
SAMPLED = [
    ("sampled-product-by-power", "A product by a power of two is sampled at widths up to 128.",
     "arith.muli(%a, c) => arith.shli(%a, log2(c))", {
         "": "holds 8", " width 13 sampled": "unrefuted 13", " width 32 sampled": "unrefuted 32",
         " width 64 sampled": "unrefuted 64", " width 128 sampled": "unrefuted 128", " width 1 sampled": "unrefuted 1",
         " width 0128 sampled": "unrefuted 128"}),
    ("sampled-mask", "A mask of 255 is unrefuted at 8 bits and fails at 9; other forms of the words are refused.",
     "arith.andi(%a, 255) => %a", {
         " width 8 sampled": "unrefuted 8", " width 9 sampled": "fails 9|%a -1 : i9|old 255 : i9|new -1 : i9",
         " width 32 sampled": "fails 32|%a -1 : i32|old 255 : i32|new -1 : i32",
         "": "fails 9|%a -256 : i9|old 0 : i9|new -256 : i9",
         " width 0 sampled": "refused 50 BadLimit", " width 129 sampled": "refused 50 BadLimit",
         " width 4294967295 sampled": "refused 50 BadLimit", " width 4294967296 sampled": "refused 60 BadCommand",
         " sampled": "refused 60 BadCommand", " sampled width 8": "refused 60 BadCommand",
         " width sampled": "refused 60 BadCommand", " width sampled 8": "refused 60 BadCommand",
         " width 8 sampled 9": "refused 60 BadCommand", " width 8 sampled sampled": "refused 60 BadCommand",
         " width 8 sample": "refused 60 BadCommand", " width 8 Sampled": "refused 60 BadCommand",
         " width x sampled": "refused 60 BadCommand", " \twidth\t 8  sampled\t": "unrefuted 8"}),
    # Where it is wrong at 9 bits alone, and where no level meets its width.
    ("sampled-at-9-bits-alone", "A pattern that is wrong at 9 bits is found there, and not at 8.",
     "arith.addi(%a, 300) => arith.addi(%a, 299)", {
         " width 8 sampled": "unrefuted 8", " width 9 sampled": "fails 9|%a 0 : i9|old -212 : i9|new -213 : i9"}),
    ("sampled-at-a-level",
     "A width is halved down to a level, and a pattern wrong at 9 bits is found from 18 and 39 but not from 40.",
     "arith.muli(%a : T, 1) => 0 where narrower(T, i10), narrower(i8, T)", {
         " width 9 sampled": "fails 9|%a 1 : i9|old 1 : i9|new 0 : i9",
         " width 18 sampled": "fails 9|%a 1 : i9|old 1 : i9|new 0 : i9",
         " width 39 sampled": "fails 9|%a 1 : i9|old 1 : i9|new 0 : i9", " width 40 sampled": "unrefuted 40",
         " width 64 sampled": "unrefuted 64"}),
    # The edges of a first, a second and a third variable.
    ("sampled-edges-of-three", "Edges of three variables refute a product.",
     "arith.addi(%a, arith.muli(%b, %c)) => %a", {
         " width 16 sampled": "fails 16|%a 0 : i16|%b 1 : i16|%c 1 : i16|old 1 : i16|new 0 : i16"}),
    ("sampled-shift-of-a-shift", "A shift past the width is found by sampling.",
     "arith.shli(arith.shli(%a, c), d) => arith.shli(%a, add(c, d))", {
         " width 4 sampled": "fails 4|%a 0 : i4|c 3 : i4|d 1 : i4|old 0 : i4|new poison"}),
    ("sampled-quotient-in-a-choice", "A quotient by zero is found by sampling.",
     "arith.divui(%a, arith.select(%p, %b, 1)) => arith.select(%p, arith.divui(%a, %b), %a)", {
         " width 32 sampled": "fails 32|%a 0 : i32|%p false|%b 0 : i32|old 0 : i32|new undefined"}),
    # Random values, first at the full width: a counterexample at half of it may be an earlier case.
    ("sampled-range", "A range of 100 values is found at 16 bits by random values.",
     "arith.cmpi<ult>(arith.subi(%a, 1000), 100) => 0", {
         " width 16 sampled": "fails 16|%a 1046 : i16|old true|new false"}),
    ("sampled-bits-at-128", "Random values at 128 bits find ten given bits.",
     "arith.cmpi<eq>(arith.shrui(%a, 118), 77) => 0", {
         " width 128 sampled": "fails 128|%a 25773214517640991488335787945246619071 : i128|old true|new false"}),
    ("sampled-bits-of-index", "Random values of `index` have 64 bits whatever width is asked for.",
     "arith.cmpi<eq>(arith.shrui(%a : index, 54), 77) => 0", {
         " width 1 sampled": "fails 64|%a 1397168758598065260 : index|old true|new false"}),
    ("sampled-bits-of-a-product", "Random values of two variables find the bits of a product.",
     "arith.cmpi<eq>(arith.shrui(arith.muli(%a, %b), 54), 77) => 0", {
         " width 64 sampled": "fails 64|%a 983282694769523300 : i64|%b -7726506916221094532 : i64|old true|new false"}),
    ("sampled-smaller-width", "A pattern is refuted at a smaller width than the one that is asked for.",
     "arith.cmpi<eq>(arith.shrui(arith.xori(%a, %b), 22), 777) => 0", {
         " width 64 sampled": "fails 32|%a -1947471955 : i32|%b 1236213324 : i32|old true|new false",
         " width 128 sampled": "fails 32|%a -1947471955 : i32|%b 1236213324 : i32|old true|new false"}),
    # Literals: the first eight, and the numbers before and after them, of two variables all pairs.
    ("sampled-literal", "The literals of a pattern and the numbers next to them are among the samples.",
     "arith.cmpi<eq>(arith.muli(%a, %b), 305419896) => false", {
         " width 32 sampled": "fails 32|%a 305419896 : i32|%b 1 : i32|old true|new false",
         " width 16 sampled": "unrefuted 16", "": "empty 8"}),
    ("sampled-literals-of-two-variables", "Two variables have two literals in one sample.",
     "arith.select(arith.cmpi<eq>(%a, 123456), arith.cmpi<eq>(%b, 654321), false) => false", {
         " width 32 sampled": "fails 32|%a 123456 : i32|%b 654321 : i32|old true|new false"}),
    ("sampled-eighth-literal", "The eighth literal has samples near it.",
     f"arith.andi(%a, -1) => arith.select(arith.cmpi<eq>(%a, {'add(0, ' * 6}30003{')' * 6}), 0, %a)", {
         " width 32 sampled": "fails 32|%a 30003 : i32|old 30003 : i32|new 0 : i32"}),
    ("sampled-ninth-literal", "The ninth literal has no samples near it.",
     f"arith.andi(%a, -1) => arith.select(arith.cmpi<eq>(%a, {'add(0, ' * 7}30003{')' * 7}), 0, %a)", {
         " width 32 sampled": "unrefuted 32"}),
    ("sampled-literal-after-usual-samples", "A usual sample is told before one near a literal.",
     "arith.cmpi<ult>(%a, 305419896) => false", {
         " width 32 sampled": "fails 32|%a 0 : i32|old true|new false"}),
    # Several types: the first one in the text varies slowest, and the widest come first.
    ("sampled-three-types", "A truncated sign extension is sampled at three types.",
     "arith.trunci(arith.extsi(%a : S) : T) : U => arith.extsi(%a) : U", {
         " width 64 sampled": "unrefuted 64", " width 1 sampled": "unrefuted 1"}),
    ("sampled-three-types-wrong", "A truncated zero extension is refuted by samples at 32 bits, and not at 2 and 3.",
     "arith.trunci(arith.extui(%a : S) : T) : U => arith.extsi(%a) : U", {
         " width 32 sampled": "fails 32|%a -1 : i8|old 255 : i16|new -1 : i16",
         " width 3 sampled": "unrefuted 3", " width 2 sampled": "unrefuted 2"}),
    ("sampled-four-types", "A pattern of four types is sampled at 8 bits.",
     AGREE + "%c : T, %c) => %c", {" width 8 sampled": "unrefuted 8"}),
    ("sampled-too-many-types", "A pattern of five types is refused by 50.",
     AGREE + "arith.extsi(%c : C) : T, %d) => %d", {
         " width 8 sampled": "refused 50 BadLimit", " width 1 sampled": "refused 50 BadLimit"}),
    # No type variable, or no variable at all.
    ("sampled-i8", "A pattern of `i8` is refuted at 8 bits, whatever width is asked for.",
     "arith.addi(%a : i8, 1) => %a", {
         " width 1 sampled": "fails 8|%a 0 : i8|old 1 : i8|new 0 : i8",
         " width 128 sampled": "fails 8|%a 0 : i8|old 1 : i8|new 0 : i8"}),
    ("sampled-i32", "A pattern of `i32` can be sampled, but not checked.",
     "arith.addi(%a : i32, 0) => %a", {"": "refused 50 BadLimit", " width 32 sampled": "unrefuted 32"}),
    ("sampled-literals", "A pattern of literals is sampled at the width, and checked at the widths below.",
     "arith.addi(1, 2) => 4", {
         " width 1 sampled": "unrefuted 1", " width 2 sampled": "unrefuted 2",
         " width 5 sampled": "fails 5|old 3 : i5|new 4 : i5", " width 8": "fails 3|old 3 : i3|new -4 : i3"}),
    # Index has 64 bits.
    ("sampled-index", "A pattern of `index` is sampled at 64 bits.",
     "arith.addi(%a : index, 0) => %a", {"": "refused 50 BadLimit", " width 7 sampled": "unrefuted 64"}),
    ("sampled-index-wrong", "A wrong pattern of `index` is refuted at 64 bits.",
     "arith.addi(%a : index, 1) => %a", {
         " width 3 sampled": "fails 64|%a 0 : index|old 1 : index|new 0 : index"}),
    ("sampled-index-cast", "A cast to `index` and back loses bits of 65.",
     "arith.index_cast(arith.index_cast(%a : T) : index) : T => %a", {
         " width 64 sampled": "unrefuted 64",
         " width 65 sampled": f"fails 65|%a {-2 ** 64} : i65|old 0 : i65|new {-2 ** 64} : i65"}),
]


def asked(*lines):
    """A script over an empty module."""
    return (DIVIDER + "".join(line + "\n" for line in lines)).encode("latin-1")


def over(*lines):
    """A script over the module."""
    return MODULE.encode() + asked(*lines)


def rows(whole, title):
    """The inputs of pattern_rows.txt."""
    for row in worked_rows.rows(HERE / "pattern_rows.txt"):
        title(row.name, row.sentence)
        whole(row.input)
        if len(row.input) < 2000:
            whole(row.input, False)


def texts(whole, title):
    """Each text that is read or refused."""
    for text, wanted in TEXTS.items():
        _, out = script.run(asked("pattern " + text))
        told = "ok" if wanted == "ok" else f"refused {wanted}"
        assert out == f"1 {told}\n".encode(), (text, wanted, out)
    title("texts", "Texts of patterns are read or refused at a byte, and those that are read are listed.")
    for at in range(0, len(TEXTS), 20):
        part = list(TEXTS)[at:at + 20]
        # (each under its own name, where it has one)
        whole(asked(*(f"pattern {text}" for text in part), "patterns"))
        whole(asked(*("pattern " + re.sub(r"^p\b(?!\.)", f"p{number:02}", text) for number, text in enumerate(part)),
                    "patterns"))
    for name, sentence, text in LIMITS:
        title(f"limit-{name}", sentence)
        whole(asked(f"pattern {text}", "patterns"))
    title("256-patterns", "256 patterns can be defined, and the next ones are refused.")
    whole(asked(*(f"pattern p{number} arith.addi(%a, %b) => %a" for number in range(258)), "check p255 width 1",
                "check p256 width 1", "patterns"))
    for name, line, sentence in (
            ("refused-pattern", "pattern p arith.muli(%a) => %a", "No listing follows a refused pattern."),
            ("defined-pattern", "pattern p arith.muli(%a, 0) => 0", "No listing follows a defined pattern."),
            ("pattern-without-text", "pattern",
             "`pattern` without a text is a bad command, after which the listing follows."),
            ("no-patterns", "patterns", "No listing follows `patterns`, also if no pattern is defined."),
            ("patterns-with-a-word", "patterns x",
             "`patterns` with a word is a bad command, after which the listing follows."),
            ("check-unknown", "check p", "No listing follows the refused check of a pattern that isn't defined."),
            ("check-number", "check 4", "`check` of a number is a bad command, after which the listing follows.")):
        title(f"full-{name}", sentence)
        whole(over(line), False)


def beginnings(whole, title):
    """Beginnings of a line, and lines with a byte less or more."""
    title("prefixes-and-changed-bytes",
          "Each prefix of a pattern's line, and each line with a byte less or more, is refused or defines a pattern.")
    line = "pattern sh arith.shli<none>(arith.shli(%a : T, c), -1) => arith.shli(%a, add(c, 2)) where ult(c, width(c))"
    whole(asked(*(line[:count] for count in range(len(line) + 1)), "patterns"))
    whole(asked(*(line[:at] + line[at + 1:] for at in range(len(line))), "patterns"))
    for more in "$%,(<":
        whole(asked(*(line[:at] + more + line[at:] for at in range(len("pattern "), len(line), 3)), "patterns"))


def checks(whole, title):
    """Each pattern checked up to each width."""
    for name, sentence, text, those in CHECKED + EVERYWHERE + UNTRIED + SAMPLED:
        title(f"check-{name}", sentence)
        lines, wanted = [f"pattern p {text}"], ["1 ok"]
        for number, (behind, answer) in enumerate(those.items(), 2):
            lines.append(f"check p{behind}")
            first, *rest = answer.split("|")
            wanted += [f"{number} {first}", *rest]
        _, out = script.run(asked(*lines))
        assert out.decode() == "\n".join(wanted) + "\n", (text, out)
        whole(asked(*lines, "patterns"))
    title("check-expected-refusals", "Refusals of `check` are expected by number and by word.")
    whole(asked("check p", "pattern p arith.addi(%a, 0) => %a", "expect 26 check p", "expect 50 check p width 0",
                "expect 50 check p width 2", "expect BadLimit check p width 99", "check q", "expect 26 check q",
                "expect 60 check", "patterns"))
    title("check-expected-but-done", "A check that isn't refused as expected reports that its pattern fails.")
    whole(asked("pattern p arith.addi(%a, 1) => %a", "expect 26 check p width 2", "check p width 2"))
    title("check-recorded", "`patterns` shows the last check of each pattern, also after a rollback.")
    whole(asked("check p width 8 sampled", "check p width 0 sampled", "expect 26 check p width 129 sampled",
                "pattern p arith.addi(%a, 0) => %a", "expect 50 check p width 129 sampled",
                "expect 60 check p sampled", "expect 50 check p width 8 sampled", "patterns", "check p", "patterns",
                "begin", "check p width 3 sampled", "check p width 3 sampled", "rollback", "patterns",
                "pattern q arith.addi(%a, 1) => %a", "check q width 3 sampled", "patterns"), False)


def listed(whole, title):
    """The patterns of patterns/, listed, defined again as they are listed, and checked."""
    title("pattern-files",
          "The patterns of patterns/ are defined and checked, defined again as they are listed, and sampled.")
    book = pattern_lines.book()
    for at in range(0, len(book), 30):
        part = book[at:at + 30]
        text = asked(*(f"pattern {line}" for line in part), "patterns", *(f"check {line.split()[0]} width 2" for line in
                                                                          part), "patterns")
        whole(text)
        _, out = script.run(text)
        lines = [line for line in out.decode().split("\n") if re.search(" // (holds|empty|unrefuted)", line)]
        assert len(lines) == len(part), out
        whole(asked(*(f"pattern {line}" for line in lines), "patterns"))
        # (with two variables there are many values for the rules in Python)
        alone = [it for it in map(patterns.read, map(str.encode, part)) if len(it.variables) < 2]
        text = asked(*(f"pattern {line}" for line in part), *(f"check {it.name}" for it in alone), "patterns",
                     *(f"check {line.split()[0]} width 128 sampled" for line in part), "patterns")
        assert b" fails " not in script.run(text)[1], text
        whole(text)


def of_rules(whole, title):
    """The patterns of patterns/rules.patterns."""
    title("rules-as-patterns", "Each rule of `canon` that a pattern can say is right at every width.")
    book = pattern_lines.book("rules")
    text = asked(*(f"pattern {line}" for line in book), *(f"check {line.split()[0]}" for line in book))
    assert script.run(text)[1].count(b" holds\n") == len(book), script.run(text)
    whole(text)


def applied(whole, title):
    """Patterns applied at operations, with marks."""
    shift = "pattern shift arith.muli(%a, c) => arith.shli(%a, log2(c))"
    back = "pattern back arith.subi(arith.addi(%a, %b), %b) => %a"
    shows = ["report uses", "report constants", "report dead", "report diagnostics", "print"]
    title("apply-twice", "A pattern is applied where it matches, and not again where its operation is gone.")
    for brief in (True, False):
        whole(over(shift, back, "apply shift #3", "apply shift #3", "apply back #5", "apply back #4"), brief)
    title("apply-under-marks", "Applied patterns are rolled back and committed, with the rows of analyses.")
    whole(over(shift, back, "begin", "apply shift #3", "begin", "apply back #5", *shows, "rollback", *shows, "rollback",
               *shows, "patterns", "apply back #5", "commit", "print ids"))
    title("rollback-keeps-patterns", "A rollback takes no pattern and no check away.")
    whole(over("begin", shift, "rollback", "patterns", "apply shift #3", "check shift width 3", "begin", "rollback",
               "patterns", "detach dead", "apply shift #3", "attach dead", *shows))
    title("apply-each-at-each", "Each of nine patterns is applied at each operation of a function, and rolled back.")
    for op in range(10):
        whole(over(shift, back, "pattern any arith.addi(%x, %y) => arith.addi(%y, %x)",
                   "pattern bare arith.addi<none>(%x, %y) => arith.addi(%y, %x)",
                   "pattern less arith.cmpi<slt>(%x, %y) => arith.cmpi<sgt>(%y, %x)",
                   "pattern other arith.cmpi<sle>(%x, %y) => arith.cmpi<sge>(%y, %x)",
                   "pattern one arith.select(%p, %x, %y) => %x", "pattern zero arith.muli(%x, 8) => 0",
                   "pattern wide arith.muli(%x : i64, c) => %x", "pattern typed arith.muli(%x : i32, c) => %x",
                   *(line for name in "shift back any bare less other one zero wide typed".split() for line in (
                       "begin", f"apply {name} #{op}", "print", "rollback"))))
    title("apply-refused", "Some forms of `apply` and `rewrite` are refused, and others only don't apply.")
    whole(over(shift, "apply shift", "apply shift 3", "apply shift #3 x", "apply nope #3", "apply shift #99",
               "apply nope #99", "apply 31 #3", "apply shift #0", "apply shift #1", "rewrite shift", "rewrite 1,shift",
               "expect 26 rewrite shift", "expect 20 apply shift #99", "expect 26 apply shift #3", "canon", "print"))
    title("apply-to-wrong-operations", "An operation with a diagnostic or with a further property isn't matched.")
    whole(over(shift, back, "set-attr #3 x 1", "apply shift #3", "drop-attr #3 x", "set-attr #3 overflowFlags 1 : i8",
               "apply shift #3", "drop-attr #3 overflowFlags", "apply shift #3", "set-attr #4 overflowFlags 1 : i8",
               "apply back #5", "print"))
    title("one-variable-twice", "A variable or a constant that is there twice matches one value or one number.")
    text = """%a = "t.a"() : () -> i8
%b = "t.a"() : () -> i8
%c = "arith.constant"() <{value = 3 : i8}> : () -> i8
%d = "arith.constant"() <{value = 3 : i8}> : () -> i8
%e = "arith.constant"() <{value = -1 : i8}> : () -> i8
%1 = "arith.subi"(%a, %a) : (i8, i8) -> i8
%2 = "arith.subi"(%a, %b) : (i8, i8) -> i8
%3 = "arith.subi"(%c, %d) : (i8, i8) -> i8
%4 = "arith.subi"(%c, %e) : (i8, i8) -> i8
%5 = "arith.subi"(%e, %e) : (i8, i8) -> i8
"t.u"(%1, %2, %3, %4, %5) : (i8, i8, i8, i8, i8) -> ()
"""
    lines = ["pattern same arith.subi(%x, %x) => 0", "pattern equal arith.subi(c, c) => 0",
             "pattern ones arith.subi(%x, -1) => arith.addi(%x, 1)", "pattern all arith.subi(%x, 255) => %x",
             "pattern most arith.subi(c, d) => sub(c, d) where ne(c, d)", "pattern none arith.subi(%x, 256) => %x"]
    for op in range(6, 11):
        tried = [line for name in "same equal ones all most none".split()
                 for line in ("begin", f"apply {name} #{op}", "print", "rollback")]
        whole(text.encode() + asked(*lines, *tried))


def registry(whole, title):
    """Patterns that are forgotten, in a session whose registry is listed."""
    one, two = "pattern one arith.addi(%a, 0) => %a", "pattern two arith.andi(%a, 255) => %a"
    title("forget-first", "The first pattern is forgotten, and the second one stays with its check.")
    whole(asked(one, two, "check one", "check two", "forget one", "patterns"))
    title("forget-last", "The last pattern is forgotten, and the first one stays with its check.")
    whole(asked(one, two, "check one", "forget two", "patterns"))
    title("forget-check-too", "A pattern that is forgotten and defined again is not checked.")
    whole(asked(one, "check one", "patterns", "forget one", "patterns", one, "patterns"))
    title("forget-for-another-text", "A forgotten name can get another text, which is the last one in the list.")
    whole(asked(one, two, "forget one", one.replace("addi", "subi"), "patterns", "check one"))
    title("forget-unknown-name", "A name that no pattern has is refused, also after it was forgotten.")
    whole(asked("forget one", one, "forget two", "forget one", "forget one", "patterns", "expect 26 forget one"))
    title("forget-rule-name", "A rule can't be forgotten by its word.")
    whole(over("forget drop-zero", "forget erase-dead", "apply drop-zero #4"))
    title("forget-wrong-words", "`forget` takes one name, which doesn't begin with a digit.")
    whole(asked(one, "forget", "forget one two", "forget 4", "forget #1", "forget one,two", " \tforget \t one \t",
                "patterns"))
    title("forget-used-pattern", "A forgotten pattern isn't applied, and isn't part of a list.")
    whole(over("pattern shift arith.muli(%a, c) => arith.shli(%a, log2(c))", "begin", "apply shift #3", "rollback",
               "forget shift", "apply shift #3", "rewrite 1,shift", "check shift", "print"))
    title("forget-under-marks", "A rollback doesn't bring a forgotten pattern back.")
    whole(over(one, "begin", "forget one", "rollback", "patterns"))


def lists(whole, title):
    """Lists of rules and patterns: ranges, and the word `canon`."""
    shift = "pattern shift arith.muli(%a, c) => arith.shli(%a, log2(c))"
    back = "pattern back arith.subi(arith.addi(%a, %b), %b) => %a"
    title("list-range", "A range stands for its rule numbers, and one of a single rule for this rule.")
    whole(over(back, "begin", "rewrite back,1-3 trace", "rollback", "begin", "rewrite back,1,2,3 trace", "rollback",
               "rewrite back,1-1 trace", "print"))
    title("list-range-of-rules", "A list of ranges alone rewrites by these rules.")
    sums = """%a = "arith.constant"() <{value = 3 : i8}> : () -> i8
%x = "t.a"() : () -> i8
%b = "arith.addi"(%a, %a) : (i8, i8) -> i8
%c = "arith.addi"(%b, %x) : (i8, i8) -> i8
"t.u"(%c) : (i8) -> ()
""".encode()
    whole(sums + asked("begin", "rewrite 1-24 trace", "rollback", "begin", "rewrite 3-9,1,2-2 trace limit 2",
                       "rollback", "canon only 1-2 trace", "rewrite 3-3 trace", "print"))
    title("list-canon", "`canon` in a list stands for the rules 1 to 24.")
    whole(over(back, "begin", "rewrite canon,back trace", "rollback", "begin", "rewrite 1-24,back trace", "rollback",
               "begin", "rewrite canon", "rollback", "canon only back,canon trace", "print"))
    title("list-order", "The order of a list decides what is applied first.")
    whole(over(shift, "pattern eight arith.muli(%a, 8) => arith.shli(%a, 3)", "begin",
               "rewrite shift,eight,canon trace", "rollback", "rewrite eight,shift,canon trace"))
    title("list-with-a-pattern-named-canon", "If a pattern is named `canon`, the word stands for this pattern alone.")
    whole(over("pattern canon arith.muli(%a, c) => arith.shli(%a, log2(c))", back, "begin", "rewrite canon trace",
               "rollback", "begin", "rewrite 1-24,canon trace", "rollback", "forget canon", "rewrite canon trace"))
    title("list-wrong-ranges", "A range begins and ends with a rule from 1 to 24, and doesn't go down.")
    whole(over("rewrite 0-3", "rewrite 1-25", "rewrite 24-30", "rewrite 3-1", "rewrite 1-", "rewrite -3",
               "rewrite 1-3-5", "rewrite 1--3", "rewrite 1-x", "rewrite 1-4294967297", "rewrite 1-3,", "rewrite ,1-3",
               "rewrite 001-0003", "rewrite 1-3,nope", "rewrite canon,nope", "rewrite canons", "apply canon #3",
               "why #3 canon", "apply 1-3 #3", "convert partial rules 25-27"))


def by_chance(whole, title):
    """Scripts about patterns that fit their modules."""
    title("random", "Random scripts define, check and apply patterns that fit their random modules.")
    for number in range(60):
        maker = random.Random(f"{SEED} {number}")
        text = text_of(chance.module(maker, maker.randrange(4, 24), maker.choice([0, 0, 0.1]),
                                     maker.choice(sorted(chance.TASTES)))).encode()
        run, lines = script.Run(script.read(text)), []
        scripter = chance.Scripter(maker, run)
        for _ in range(maker.randrange(6, 20)):
            pick = maker.random()
            line = pattern_lines.line_of(maker, run) if pick < 0.75 else scripter.mark() if pick < 0.9 else \
                scripter.edit()
            run.reply(line)
            lines.append(line)
        whole(text + asked(*lines, "print", "patterns"), maker.random() < 0.9)


def rewritten(whole, title):
    """Lists with patterns: how often they are applied, in which order, limits, traces, marks."""
    shift = "pattern shift arith.muli(%a, c) => arith.shli(%a, log2(c))"
    back = "pattern back arith.subi(arith.addi(%a, %b), %b) => %a"
    swap = "pattern swap arith.addi(%x, %y) => arith.addi(%y, %x)"
    kinds = ("uses", "constants", "dead", "diagnostics", "effects", "symbols", "unreached")
    shows = [f"report {kind}" for kind in kinds]
    defined = (shift, back, swap)
    title("rewrite-patterns", "`rewrite` applies two patterns until none applies.")
    for brief in (True, False):
        whole(over(*defined, "rewrite shift,back", "rewrite shift,back", "print"), brief)
    title("rewrite-lists-and-limits",
          "Lists of patterns and rules are tried in their order, up to a limit, traced and not.")
    for names in ("shift", "back", "1,shift,back", "shift,1,back", "shift,back,1", "back,erase-dead,shift",
                  "1,2,3,shift", "shift,shift", "swap,1", "1,swap"):
        for limit in ("", " limit 1", " limit 2", " limit 3"):
            whole(over(*defined, f"rewrite {names} trace{limit or ' limit 40'}", "print",
                       f"rewrite {names}{limit or ' limit 40'}", *shows, "print"))
    title("rewrite-under-a-mark", "All analyses follow rewrites by patterns, and a rollback undoes them.")
    whole(over(*defined, *shows, "begin", "rewrite shift,back,1 trace", *shows, "print ids", "rollback", *shows,
               "print ids", "patterns"), False)
    title("rewrite-under-two-marks", "Rewrites by patterns under two marks are rolled back and committed.")
    whole(over(*defined, "begin", "rewrite back,1 limit 1", "begin", "rewrite shift,1 trace limit 2", *shows,
               "rollback", "commit", "rollback", "rewrite 1,back", "canon", "print"))
    title("rewrite-first-that-applies", "At an operation the first rule or pattern of the list that applies is taken.")
    zero, one = "pattern zero arith.muli(%a, 8) => 0", "pattern one arith.muli(%a, 8) => 1"
    for names in ("zero,one", "one,zero", "shift,zero", "zero,shift,9", "9,zero", "2,one,zero"):
        whole(over(shift, zero, one, f"rewrite {names} trace", "print"))
    title("rewrite-endless-pattern", "A pattern that always applies again is stopped by the limit.")
    whole(over(swap, "rewrite swap limit 1", "rewrite swap limit 7", "rewrite swap trace limit 3",
               "rewrite swap,1 limit 5"))
    title("rewrite-there-and-back", "Two patterns that undo each other are stopped by the limit.")
    whole(over("pattern there arith.addi(%x, %y) => arith.subi(%x, arith.subi(0, %y))",
               "pattern and arith.subi(%x, arith.subi(0, %y)) => arith.addi(%x, %y)", "rewrite there,and trace limit 5",
               "rewrite and,there trace limit 5", "rewrite and trace", "print"))
    title("rewrite-refused", "Unknown names, conversion rules, bad limits and bad lists are refused.")
    whole(over(shift, "rewrite nope", "rewrite shift,nope", "rewrite nope,shift trace", "rewrite shift,25",
               "rewrite shift,0", "rewrite shift,31", "rewrite shift,", "rewrite ,shift", "rewrite shift limit 0",
               "rewrite shift,nope limit 0", "rewrite shift limit 1000001", "rewrite shift limit",
               "rewrite shift trace trace", "rewrite shift limit 3 trace", "canon only shift",
               "canon only shift,1 trace limit 4", "canon shift", "expect 26 rewrite nope,shift",
               "rewrite shift,expand-min-max", "rewrite shift,30", "rewrite shift, 1", "rewrite Shift", "print"))
    title("rewrite-three-levels",
          "Patterns of three levels with constants and types apply to operations with several users.")
    text = """%a = "t.a"() : () -> i16
%b = "t.a"() : () -> i16
%c = "arith.constant"() <{value = 3 : i16}> : () -> i16
%d = "arith.constant"() <{value = 5 : i16}> : () -> i16
%1 = "arith.addi"(%a, %c) <{overflowFlags = #arith.overflow<none>}> : (i16, i16) -> i16
%2 = "arith.addi"(%1, %d) <{overflowFlags = #arith.overflow<none>}> : (i16, i16) -> i16
%3 = "arith.addi"(%2, %c) <{overflowFlags = #arith.overflow<none>}> : (i16, i16) -> i16
%4 = "arith.addi"(%3, %d) <{overflowFlags = #arith.overflow<none>}> : (i16, i16) -> i16
%5 = "arith.extsi"(%4) : (i16) -> i32
%6 = "arith.trunci"(%5) <{overflowFlags = #arith.overflow<none>}> : (i32) -> i16
%7 = "arith.muli"(%6, %2) <{overflowFlags = #arith.overflow<none>}> : (i16, i16) -> i16
"t.u"(%7, %2, %b) : (i16, i16, i16) -> ()
"""
    lines = ["pattern chain arith.addi(arith.addi(%x, c), d) => arith.addi(%x, add(c, d))",
             "pattern cut arith.trunci(arith.extsi(%x : S) : T) : S => %x",
             "pattern three arith.addi(arith.addi(arith.addi(%x, %y), %z), c) => arith.addi(arith.addi(%x, c), "
             "arith.addi(%y, %z))"]
    for names in ("chain", "chain,cut", "cut,chain,1", "three", "1,three,chain", "three,1,cut"):
        whole(text.encode() + asked(*lines, "begin", f"rewrite {names} trace limit 12", *shows, "print", "rollback",
                                    f"rewrite {names} limit 12", "print"))


def rewritten_by_chance(whole, title):
    """Lists of rules and patterns over random modules."""
    title("rewrite-random", "Random lists of rules and patterns rewrite random modules.")
    for number in range(60):
        maker = random.Random(f"{SEED} mixed {number}")
        text = text_of(chance.module(maker, maker.randrange(4, 24), maker.choice([0, 0, 0.1]),
                                     maker.choice(sorted(chance.TASTES)))).encode()
        run, lines = script.Run(script.read(text)), []
        while len(run.book) < 4 and len(lines) < 40:
            lines.append(pattern_lines.line_of(maker, run))
            run.reply(lines[-1])
        for _ in range(maker.randrange(2, 6)):
            names = [maker.choice([*run.book, *map(str, range(1, 25))] if run.book else ["1"]) for _ in range(
                maker.randrange(1, 5))]
            lines.append(f"rewrite {','.join(names)}{maker.choice(['', ' trace'])} limit {maker.randrange(1, 9)}")
            run.reply(lines[-1])
        whole(text + asked(*lines, "print", "report uses", "report dead"), maker.random() < 0.9)


def answer(words, text):
    """What a run gives for an input with these words of the command line."""
    brief, strict = "--brief" in words, "--strict" in words
    if "--interactive" in words:
        return live.run(text, brief, strict=strict)
    is_json = "json" in words
    status, out = script.run(text, brief, explained=is_json, strict=strict)
    return status, json_lines.json_of(out) if is_json else out


def unproved(case):
    """Rewrites by patterns that no check proves for the module. The first line of each script is the case's sentence.
    """
    for name, words, text in named_inputs.UNPROVED:
        sentence = re.search(DIVIDER + "// (.*)", text)[1]
        case(words, text.encode(), answer(words, text.encode()), title=(f"unproved-{name}", sentence))


PARTS = (rows, texts, beginnings, checks, listed, of_rules, applied, registry, lists, rewritten, by_chance,
         rewritten_by_chance)


def all_cases(whole, begin, case, title):
    """Adds each input: `whole` takes a text and whether to be brief, `begin` a file, `case` the program's words, a
    text, an answer, and a title, and `title` the name and the sentence of the next cases."""
    for part in PARTS:
        begin(f"patterns/{part.__name__}")
        part(whole, title)
    begin("patterns/unproved")
    unproved(case)
