"""Inputs about user patterns that have a name and a sentence each: `true` and `false`, literals whose types
follow from what is written elsewhere, the number that a check reports, and patterns of MLIR that are wrong. The
answers are written by hand, and those of oracle are compared with them. mlir_work_cases.py makes golden files
of them, in tests/golden/patterns/named.cases, where a comment of the script has the sentence."""
from oracle import script
from tests.compare import pattern_lines

DIVIDER = "// -----\n"
# A value that is cast to index and back, at a width.
THERE_AND_BACK = """"func.func"() <{function_type = (iN) -> iN, sym_name = "f"}> ({
^bb0(%a: iN):
  %m = "arith.index_cast"(%a) : (iN) -> index
  %n = "arith.index_cast"(%m) : (index) -> iN
  "func.return"(%n) : (iN) -> ()
}) : () -> ()
"""
# A choice by two conditions.
CHOICES = """"func.func"() <{function_type = (i1, i1, i32, i32) -> i32, sym_name = "f"}> ({
^bb0(%c: i1, %d: i1, %a: i32, %b: i32):
  %0 = "arith.select"(%d, %a, %b) : (i1, i32, i32) -> i32
  %1 = "arith.select"(%c, %0, %b) : (i1, i32, i32) -> i32
  "func.return"(%1) : (i32) -> ()
}) : () -> ()
"""
# A choice between the two constants of i1, and a condition that is inverted.
TRUTHS = """"func.func"() <{function_type = (i1) -> i1, sym_name = "f"}> ({
^bb0(%c: i1):
  %t = "arith.constant"() <{value = true}> : () -> i1
  %f = "arith.constant"() <{value = false}> : () -> i1
  %0 = "arith.select"(%c, %t, %f) : (i1, i1, i1) -> i1
  %1 = "arith.select"(%c, %f, %t) : (i1, i1, i1) -> i1
  %2 = "arith.andi"(%0, %1) : (i1, i1) -> i1
  "func.return"(%2) : (i1) -> ()
}) : () -> ()
"""
PRODUCT = """"func.func"() <{function_type = (i32) -> i32, sym_name = "f"}> ({
^bb0(%a: i32):
  %k = "arith.constant"() <{value = 255 : i32}> : () -> i32
  %m = "arith.muli"(%a, %k) : (i32, i32) -> i32
  "func.return"(%m) : (i32) -> ()
}) : () -> ()
"""
BOOK = {line.split()[0]: line for line in pattern_lines.book()}
BACK, BACK_BY_MLIR = BOOK["index_cast_back"], "mlir arith.index_cast(arith.index_cast(%a : S) : index) : S => %a"
BACK_UNSIGNED = BOOK["index_castui_back"]

# A name, its sentence, the module, and the lines of the script, each with its reply and the rows below it.
CASES = {
    "truth-of-a-choice": (
        "A choice between `true` and `false` is its condition: both are literals of i1.", TRUTHS,
        [("pattern same arith.select(%c, true, false) => %c", "ok"), ("check same", "holds"),
         ("apply same #4", "applied 1"),
         ("apply same #5", "applied 0")]),
    "truth-on-the-right": (
        "`true` on the right makes a constant of i1.", TRUTHS,
        [("pattern not arith.select(%c, false, true) => arith.xori(%c, true)", "ok"), ("check not", "holds"),
         ("rewrite not trace", "converged 1|rewrote not #5 made #8,#9 erased #5"),
         ("report constants", "ok|%v2.0 true|%v3.0 false|%v8.0 true")]),
    "truth-in-a-number": (
        "`true` and `false` stand in numbers and conditions as well, which are of i1 by that.", "",
        [("pattern p arith.xori(c, true) => not(c) where ne(c, false)", "ok"), ("check p", "holds"),
         ("pattern q arith.addi(c, 1) => xor(c, true)", "ok"), ("check q", "holds"),
         ("pattern r arith.addi(c : i8, 1) => xor(c, true)", "refused 5 TypeMismatch at 34"),
         ("pattern r arith.addi(%a, c) => %a where eq(c, true), eq(c, false)", "ok"), ("check r", "empty 1")]),
    "truth-where-it-is-wrong": (
        "A wrong pattern with `true` fails by its values, without a row for `true`.", "",
        [("pattern p arith.select(%c, true, %a) => arith.andi(%c, %a)", "ok"),
         ("check p", "fails 1|%c false|%a true|old true|new false")]),
    "truth-of-another-type": (
        "Where another type is forced `true` is refused as `1 : i1` is.", "",
        [("pattern p arith.addi(%a : i8, 1 : i1) => %a", "refused 5 TypeMismatch at 22"),
         ("pattern p arith.addi(%a : i8, true) => %a", "refused 5 TypeMismatch at 22"),
         ("pattern p arith.addi(%a, false : i8) => %a", "refused 5 TypeMismatch at 17"),
         ("pattern p arith.cmpi<eq>(%a : i8, %b) => arith.addi(%a, true)", "refused 5 TypeMismatch at 48"),
         ("pattern p arith.addi(%a, true : i1) => %a", "ok"), ("pattern q arith.addi(%a, true : T) => %a : T", "ok")]),
    "truth-is-printed": (
        "What is written as `true` is listed as `true`, which is read again.", "",
        [("pattern p arith.select(%c, true, 0) => %c", "ok"), ("pattern q arith.select(%c, 1 : i1, false) => %c", "ok"),
         ("pattern r arith.select(%c, true, %a) => arith.ori(%c, and(true,-1) : i1) where ne(true, c)",
          "refused 3 UnknownValue at 80"),
         ("pattern r arith.select(%c, true, c) => arith.ori(%c, or(true,c) : i1) where ne(true, c)", "ok"),
         ("patterns", "ok|p arith.select(%c, true, 0) => %c // not checked|"
                      "q arith.select(%c, 1 : i1, false) => %c // not checked|r arith.select(%c, true, c) => "
                      "arith.ori(%c, or(true, c) : i1) where ne(true, c) // not checked")]),
    "truth-as-other-names": (
        "`true` names a value, a type or a pattern as any word does; as a function it is unknown.", "",
        [("pattern true arith.addi(%true : false, 0) => %true", "ok"), ("check true", "holds"),
         ("pattern p arith.addi(True, TRUE) => add(True, TRUE)", "ok"),
         ("pattern q arith.muli(%a, c) => true(c)", "refused 3 UnknownValue at 23"),
         ("pattern q arith.muli(%a, true(c)) => %a", "refused 2 Unexpected at 21"),
         ("pattern q arith.muli(%a, -true) => %a", "refused 2 Unexpected at 18")]),
    "truth-says-the-type-of-a-condition": (
        "A condition without a name is refused, as its type isn't known; with `true` or `false` it is i1.", "",
        [("pattern p arith.addi(%a, 0) => %a where eq(0, 0)", "refused 5 TypeMismatch at 32"),
         ("pattern p arith.addi(%a, 0) => %a where eq(false, 0)", "ok"), ("check p", "holds"),
         ("pattern q arith.addi(%a, 0) => %a where ult(1, true), power_of_two(true)", "ok"), ("check q", "empty 8"),
         ("pattern r arith.addi(%a, 0) => %a where eq(true, 2)", "refused 7 BadValue at 41"),
         ("pattern s arith.addi(%a : i4, 0) => %a where power_of_two(true)", "ok"), ("check s", "holds")]),
    "literal-of-a-type-beside-it": (
        "A literal that isn't one of its type is refused, also where the type is written at another operand.", "",
        [("pattern p arith.addi(%a, 300 : i8) => %a", "refused 7 BadValue at 17"),
         ("pattern p arith.addi(%a : i8, 300) => %a", "refused 7 BadValue at 22"),
         ("pattern p arith.addi(300, %a : i8) => %a", "refused 7 BadValue at 13"),
         ("pattern p arith.addi(%a : i8, -129) => %a", "refused 7 BadValue at 22"),
         ("pattern p arith.addi(%a : i8, 255) => arith.addi(%a, -1)", "ok"), ("check p", "holds"),
         ("pattern q arith.addi(%a : i8, -128) => arith.addi(%a, 128)", "ok"), ("check q", "holds"),
         (f"pattern r arith.addi(%a : index, {2 ** 63}) => %a", "refused 7 BadValue at 25"),
         (f"pattern r arith.addi(%a : index, {2 ** 63 - 1}) => %a", "ok")]),
    "literal-of-a-type-that-follows": (
        "So is one whose type follows from an operation, from the other side, or through a type variable.", "",
        [("pattern p arith.select(2, %a, %b) => %a", "refused 7 BadValue at 15"),
         ("pattern p arith.cmpi<eq>(%a, 5) => 2", "refused 7 BadValue at 27"),
         ("pattern p arith.addi(%a, 300) => %a : i8", "refused 7 BadValue at 17"),
         ("pattern p arith.addi(%a : S, 300 : S) => arith.addi(%a, 300) : i8", "refused 7 BadValue at 21"),
         ("pattern p arith.addi(%a, 300) => arith.addi(300, %a)", "ok"), ("check p", "holds")]),
    "literal-in-a-number": (
        "So is one in a number or in a condition.", "",
        [("pattern p arith.addi(%a : i8, c) => arith.addi(%a, add(c, 256))", "refused 7 BadValue at 50"),
         ("pattern p arith.addi(%a : i8, c) => %a where ult(c, 256)", "refused 7 BadValue at 44"),
         ("pattern p arith.addi(%a : i8, c) => arith.subi(%a, neg(c)) where ult(c, 255)", "ok"),
         ("check p", "holds")]),
    "literal-behind-unknown-types": (
        "A type that isn't known is refused before a literal that isn't one of its type, and a cast of index later.",
        "",
        [("pattern p arith.addi(%a : i8, 300) => arith.trunci(arith.extsi(%a) : T)", "refused 5 TypeMismatch at 43"),
         ("pattern p arith.index_cast(arith.addi(%a : i8, 300)) : i16 => 0", "refused 7 BadValue at 39")]),
    "number-of-one-type": (
        "A check of a pattern without type variables tells the width of its widest type, whatever width is asked.", "",
        [("pattern s arith.select(%c, %a : i1, false) => arith.ori(%c, %a)", "ok"),
         *[(f"check s{width}", "fails 1|%c false|%a true|old false|new true")
           for width in ("", " width 3", " width 64")],
         ("patterns", "ok|s arith.select(%c, %a : i1, false) => arith.ori(%c, %a) // fails 1"),
         ("pattern t arith.select(%c, %a, true : i1) => arith.ori(arith.xori(%c, 1), %a)", "ok"),
         ("check t width 3", "unrefuted 1"), ("check t width 128 sampled", "unrefuted 1"), ("check s width 9 sampled",
          "fails 1|%c true|%a false|old false|new true")]),
    "number-of-written-types": (
        "All values of written types are tried, so the number is theirs, and not the one that is asked.", "",
        [("pattern p arith.addi(%a : i16, 0) => %a", "ok"), ("check p", "holds"), ("check p width 3", "holds 16"),
         ("check p width 65", "refused 50 BadLimit"),
         ("pattern q arith.trunci(arith.extui(%a : i4) : i32) : i8 => arith.extui(%a) : i8", "ok"),
         ("check q", "holds"), ("pattern r arith.subi(%a : i4, %a) => 1", "ok"),
         ("check r", "fails 4|%a 0 : i4|old 0 : i4|new 1 : i4"),
         ("pattern e arith.addi(%a : i4, c) => %a where ult(c, 0)", "ok"), ("check e width 2", "empty 4"),
         ("pattern n arith.addi(%a : i4, 0) => %a where narrower(i4, i40)", "ok"), ("check n", "holds")]),
    "number-of-index": (
        "Index counts with the 64 bits that it is sampled at.", "",
        [("pattern p arith.addi(%a : index, 0) => %a", "ok"), ("check p width 3", "refused 50 BadLimit"),
         ("check p width 3 sampled", "unrefuted 64"), ("pattern q arith.addi(%a : index, 1) => %a", "ok"),
         ("check q width 3 sampled", "fails 64|%a 0 : index|old 1 : index|new 0 : index"),
         ("pattern r arith.index_cast(%a : i4) : index => arith.index_castui(%a) : index", "ok"),
         ("check r", "fails 64|%a -8 : i4|old -8 : index|new 8 : index")]),
    "number-of-type-variables": (
        "Where a type is variable the number is its width, also beside a wider type that is written.", "",
        [("pattern p arith.trunci(arith.extui(%a : S) : i32) : S => %a", "ok"), ("check p width 3", "holds 3"),
         ("pattern q arith.trunci(arith.extui(%a : S) : i32) : S => arith.addi(%a, 1)", "ok"),
         ("check q width 3", "fails 1|%a false|old false|new true")]),
    "index-cast-back-of-the-book": (
        "The patterns of the book that cast to index and back apply at types of at most 64 bits.",
        THERE_AND_BACK.replace("iN", "i128"),
        [(f"pattern {BACK}", "ok"), ("rewrite index_cast_back trace", "converged 0|unproved index_cast_back unchecked"),
         ("check index_cast_back", "holds"),
         ("check index_cast_back width 128 sampled", "unrefuted 128"), (f"pattern {BACK_UNSIGNED}", "ok"),
         ("check index_castui_back width 128 sampled", "unrefuted 128"),
         ("check index_castui_back width 65 sampled", "unrefuted 65")]),
    "index-cast-back-at-64-bits": (
        "At 64 bits they apply.", THERE_AND_BACK.replace("iN", "i64"),
        [(f"pattern {BACK}", "ok"),
         ("rewrite index_cast_back trace",
          "converged 1|unproved index_cast_back unchecked|rewrote index_cast_back #3 erased #3")]),
    "index-cast-back-of-mlir": (
        "MLIR 22.1.8 folds a cast to index and back at any width; a check refutes that at 65 bits.", "",
        [(f"pattern {BACK_BY_MLIR}", "ok"),
         ("check mlir", f"fails 65|%a {-2 ** 64} : i65|old 0 : i65|new {-2 ** 64} : i65"),
         ("check mlir width 64 sampled", "unrefuted 64"),
         ("check mlir width 128 sampled",
          f"fails 128|%a {-2 ** 127} : i128|old 0 : i128|new {-2 ** 127} : i128")]),
    "index-cast-of-index-of-mlir": (
        "It folds a cast of index to a narrow type and back as well, which is refuted at once.", "",
        [("pattern p arith.index_cast(arith.index_cast(%a : index) : S) : index => %a", "ok"),
         ("check p", "refused 50 BadLimit"),
         ("check p width 8 sampled", f"fails 8|%a {-2 ** 63} : index|old 0 : index|new {-2 ** 63} : index"),
         ("check p width 64 sampled", f"fails 32|%a {-2 ** 63} : index|old 0 : index|new {-2 ** 63} : index")]),
    "choices-by-two-conditions": (
        "The book has no pattern that joins the conditions of two choices: a poison second condition would count then.",
        CHOICES,
        [*((f"pattern {line}", "ok") for name, line in BOOK.items() if name.startswith("select_")),
         (f"rewrite {','.join(name for name in BOOK if name.startswith('select_'))} trace", "|".join(
             ["converged 0", *(f"unproved {name} unchecked" for name in BOOK if name.startswith("select_"))])),
         ("rewrite select_and", "refused 26 NoSuchKey"), ("rewrite select_or_not", "refused 26 NoSuchKey")]),
    "values-alone": (
        "A choice as a conjunction fails for poison, and what no claim decides is at best `unrefuted`, as pages say.",
        "",
        [("pattern p1 arith.select(%c, %a : i1, 0) => arith.andi(%c, %a)", "ok"),
         ("check p1", "fails 1|%c false|%a poison : i1|old false|new poison"), ("check p1 width 8", "unrefuted 1"),
         ("pattern p2 arith.minui(%b, 1) => arith.divui(%b, arith.maxui(%b, 1))", "ok"), ("check p2", "unrefuted 8"),
         ("pattern p5 arith.select(%c, %a, %b) => arith.select(arith.xori(%c,1), %b, %a)", "ok"),
         ("check p5", "holds")]),
    "narrow-types-alone": (
        "What is wrong at wider types alone fails at the first width at which a value tells, without a width.",
        "",
        [("pattern n2 arith.addi(%a, -128) => arith.subi(%a, 128)", "ok"), ("check n2", "holds"),
         ("pattern n3 arith.muli(arith.muli(%a, 16), 16) => 0", "ok"), ("check n3 width 8", "holds 8"),
         ("check n3", "fails 9|%a 1 : i9|old -256 : i9|new 0 : i9"),
         ("check n3 width 9", "fails 9|%a 1 : i9|old -256 : i9|new 0 : i9"),
         ("pattern n4 arith.shrui(%a, 8) => 0", "ok"), ("check n4 width 8", "holds 8"),
         ("check n4", "fails 9|%a -256 : i9|old 1 : i9|new 0 : i9"),
         ("check n4 width 9", "fails 9|%a -256 : i9|old 1 : i9|new 0 : i9"),
         ("pattern n5 arith.shrsi(%a, 8) => arith.remui(%a, 0)", "ok"),
         ("check n5", "fails 4|%a 0 : i4|old poison|new undefined"),
         ("pattern n6 arith.divui(%a, 0) => 7", "ok"), ("check n6", "empty 8")]),
    "no-patterns": (
        "Each text that is no pattern is refused by a number, and at the byte where it goes wrong.", "",
        [("pattern e arith.addi(%a, 0) -> %a", "refused 2 Unexpected at 20"),
         ("pattern e arith.addi(%a) => %a", "refused 5 TypeMismatch at 2"),
         ("pattern e arith.addi(%a, c) => arith.addi(%b, c)", "refused 3 UnknownValue at 34"),
         ("pattern e arith.cmpi(%a, %b) => arith.cmpi<eq>(%a, %b)", "refused 2 Unexpected at 12"),
         ("pattern e arith.addi<nsw>(%a, %b) => arith.addi(%b, %a)", "refused 2 Unexpected at 13"),
         ("pattern e arith.addi(%a, 0) => %a where a_power(c)", "refused 3 UnknownValue at 32"),
         ("pattern e arith.muli(%a, c) => arith.shli(%a, log3(c))", "refused 3 UnknownValue at 38"),
         ("pattern e arith.addi(%a, %b) => arith.addi(%b, %a) where not eq(1,1)", "refused 2 Unexpected at 53"),
         ("pattern e arith.addi(%a : vector<4xi32>, 0) => %a", "refused 2 Unexpected at 24"),
         ("pattern e (arith.addi %a 0) => %a", "refused 2 Unexpected at 2"),
         ("pattern e arith.muli(%a, c) => arith.shli(%a, log2(c)) where power_of_two(c) or eq(c, 1)",
          "refused 2 Unexpected at 69"),
         ("pattern e arith.addi(%a, %a) => arith.muli(%a, 2) where ne(%a, 0)", "refused 2 Unexpected at 51"),
         ("pattern e arith.divui<exact>(%a, c) => arith.shrui(%a, log2(c))", "refused 2 Unexpected at 13")]),
    "operations-that-patterns-dont-know": (
        "An operation that no pattern may name is refused by 13 at its name.", "",
        [(f"pattern e {operation} => %a", "refused 13 LeftOut at 2")
         for operation in ("my.relu(%a)", "arith.addf(%a, %b)", "arith.addui_extended(%a, %b)",
                           "arith.mulsi_extended(%a, %b)", "arith.ceildivsi(%a, %b)", "arith.floordivsi(%a, %b)",
                           "math.ctpop(%a)", "index.add(%a, 0)", "arith.bitcast(%a : S) : S")]),
    "patterns-that-look-wrong": (
        "A comparison of i1 may become its operand, and a cast takes its type from the root: both are patterns.",
        "",
        [("pattern e arith.cmpi<eq>(%a, %b) => %a", "ok"),
         ("pattern f arith.extui(%a : i1) : i8 => arith.extui(%a)", "ok"),
         ("check nope", "refused 26 NoSuchKey"), ("check g width 99", "refused 26 NoSuchKey")]),
    "patterns-that-dont-apply": (
        "A pattern that matches nothing is applied 0 times; `why` says which part doesn't match.", PRODUCT,
        [("pattern n1 arith.muli(%a, 254) => arith.subi(0, %a)", "ok"),
         ("why #3 n1", "ok|why #3 n1 operand 1 expected 254 : i32 found 255 : i32"),
         ("why #3 times-one", "refused 26 NoSuchKey"), ("apply n1 #3", "applied 0|unproved n1 unchecked"),
         ("apply n1 #4", "applied 0|unproved n1 unchecked"), ("pattern c1 arith.muli(255, %a) => %a", "ok"),
         ("apply c1 #3", "applied 0|unproved c1 unchecked"),
         ("rewrite n1,c1", "converged 0|unproved n1 unchecked|unproved c1 unchecked")]),
    "maxima-with-zero": (
        "Patterns of an operation of another dialect, each written with what it computes: a product may wrap.", "",
        [("pattern r1 arith.maxsi(arith.maxsi(%a, 0), 0) => arith.maxsi(%a, 0)", "ok"), ("check r1", "holds"),
         ("pattern r2 arith.maxsi(arith.muli(%a, c), 0) => arith.muli(arith.maxsi(%a, 0), c) where sgt(c, 0)", "ok"),
         ("check r2", "fails 3|%a 2 : i3|c 2 : i3|old 0 : i3|new -4 : i3"),
         ("pattern r3 arith.maxsi(arith.maxsi(%a, %b), 0) => arith.maxsi(arith.maxsi(%a, 0), arith.maxsi(%b, 0))",
          "ok"),
         ("check r3", "holds 8"),
         ("pattern r4 arith.subi(arith.maxsi(%a, 0), arith.maxsi(arith.subi(0, %a), 0)) => %a",
          "refused 10 TooDeep at 57")]),
    "deep-and-loose-patterns": (
        "A shift through a wider type fails where its amount is chosen freely; four levels are too deep.", "",
        [("pattern p3 arith.trunci(arith.shrui(arith.extui(%a : S) : T, c : T)) : S => arith.shrui(%a, 1)", "ok"),
         ("check p3", "fails 2|%a false|c 0 : i2|old false|new poison"),
         ("pattern p4 arith.addi<none>(%a, %b) => arith.addi(%b, %a)", "ok"), ("check p4", "holds"),
         ("pattern h4 arith.ori(arith.andi(%a, %b), arith.andi(%a, arith.xori(%b, -1))) => %a",
          "refused 10 TooDeep at 63")]),
    "sign-of-an-index": (
        "A pattern on index is sampled, and has too many values to be tried.", "",
        [("pattern n7 arith.cmpi<slt>(%a : index, 0) => arith.cmpi<ne>(arith.shrui(%a, 63), 0)", "ok"),
         ("check n7", "refused 50 BadLimit"), ("check n7 width 64 sampled", "unrefuted 64"),
         ("pattern n6 arith.divui(%a, 0) => 7", "ok"), ("check n6 width 64 sampled", "unrefuted 64")]),
    "literals-that-few-types-have": (
        "What is right at 8 bits alone holds up to 8, and fails with the first width behind it.", PRODUCT,
        [("pattern n1 arith.muli(%a, 255) => arith.subi(0, %a)", "ok"), ("check n1 width 8", "holds 8"),
         ("check n1", "fails 9|%a 1 : i9|old 255 : i9|new -1 : i9"),
         ("check n1 width 9", "fails 9|%a 1 : i9|old 255 : i9|new -1 : i9"),
         ("check n1 width 32 sampled", "fails 32|%a 1 : i32|old 255 : i32|new -1 : i32")]),
}


def replied(number, answer):
    """A reply with its number, and the rows below it."""
    first, *rest = answer.split("|")
    return "".join(line + "\n" for line in [f"{number} {first}", *rest])


def all_cases(case):
    """Hands each case on: its name, the program's words, the input and the answer."""
    for name, (sentence, module, lines) in CASES.items():
        text = f"{module}{DIVIDER}// {sentence}\n" + "".join(line + "\n" for line, _ in lines)
        wanted = "".join(replied(number, answer) for number, (_, answer) in enumerate(lines, 1))
        status, out = script.run(text.encode())
        assert out.decode() == wanted, (name, out.decode(), wanted)
        case(["--brief"], text.encode(), (status, out), title=(name, sentence))
