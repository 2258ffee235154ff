"""Inputs with a name and a sentence of intent, which is the first line of the script."""

ONE = """"func.func"() <{function_type = (TYPE) -> TYPE, sym_name = "f"}> ({
^bb0(%a: TYPE):
  %k = "arith.constant"() <{value = 1 : TYPE}> : () -> TYPE
  %m = "arith.shli"(%a, %k) : (TYPE, TYPE) -> TYPE
  "func.return"(%m) : (TYPE) -> ()
}) : () -> ()
"""
# Claims don't have the width of a type, so a check with this condition tries values alone. The number is 1.
BY_ONE = "where eq(c, add(1, mul(0, width(c))))\n"
SHIFT = f"pattern shift arith.shli(%x, c) => arith.addi(%x, %x) {BY_ONE}"
GOOD = "pattern good arith.addi(%x, 0) => %x\ncheck good\n"


def script(intent, lines, module=ONE, ty="i8"):
    """A script over a module with values of a type."""
    return f"{module.replace('TYPE', ty)}// -----\n// {intent}\n{lines}"


# A name, words of the command line, and an input.
UNPROVED = [
    ("unchecked", ["--brief"], script(
        "A pattern that was never checked is named below the reply, whether it applies or not.",
        SHIFT + "apply shift #3\napply shift #2\nrewrite shift\nrewrite shift trace limit 2\n")),
    ("refused", ["--brief"], script(
        "A command that is refused names no pattern.",
        SHIFT + "apply shift #9\nrewrite shift limit 0\nrewrite shift,nope\nexpect 20 apply shift #9\n")),
    ("narrow", ["--brief"], script(
        "A pattern that holds up to 8 bits is proved for a module whose values have at most 8 bits.",
        SHIFT + "check shift\napply shift #3\ncheck shift width 7\nrewrite shift\n")),
    ("wide-argument", ["--brief"], script(
        "One argument that is wider than the check is enough, also of an operation that no pattern matches.",
        SHIFT + "check shift\nrewrite shift trace\n",
        ONE.replace("(TYPE) -> TYPE", "(TYPE, i9) -> TYPE").replace("%a: TYPE", "%a: TYPE, %b: i9"))),
    ("wide-result", ["--brief"], script(
        "One result that is wider than the check is enough; the pattern is proved again once that operation is erased.",
        SHIFT + "check shift\nbegin\nrewrite shift\nrollback\nerase #5\nrewrite shift\n",
        ONE + "%w = \"test.wide\"() : () -> si16\n")),
    ("index", ["--brief"], script(
        "A value of type index is enough: no width of a check covers it.",
        SHIFT + "check shift\napply shift #3\n", ONE + "%w = \"test.index\"() : () -> index\n")),
    ("other-types", ["--brief"], script(
        "Types inside of a memref or a function type, and those of attributes, don't count.",
        SHIFT + "check shift\nrewrite shift trace\n",
        ONE + "%w = \"test.a\"() {a = 5 : i64} : () -> memref<4xi32>\n%v = \"test.b\"() : () -> ((i64) -> index)\n")),
    ("every-width", ["--brief"], script(
        "A pattern that holds at every width is proved for each module.",
        SHIFT + "pattern double arith.addi(%x, %x) => arith.muli(%x, 2)\ncheck double\n"
        "rewrite double,shift trace limit 4\n", ty="index")),
    ("written-types", ["--brief"], script(
        "A check that holds proves a pattern whose types are all written, whatever types the module has.",
        f"pattern typed arith.shli(%x : i8, c) => arith.addi(%x, %x) {BY_ONE}rewrite typed limit 1\ncheck typed\n"
        "rewrite typed\n", ONE + "%w = \"test.wide\"() : () -> i32\n")),
    ("list", ["--brief"], script(
        "The patterns of a list are named in its order, each once, and before the lines of a trace; rules never are.",
        GOOD + SHIFT + "pattern one arith.muli(%x, 1) => %x\npattern wrong arith.ori(%x, 1) => %x\ncheck wrong\n"
        "pattern sel arith.select(%c, %x : i1, 0) => arith.andi(%c, %x)\ncheck sel\n"
        "pattern none arith.addi(%x, 300) => %x\ncheck none\n"
        "rewrite wrong,1,shift,good,one,erase-dead,shift,wrong,sel,none trace\npatterns\n")),
    ("sampled", ["--brief"], script(
        "A pattern that was sampled last is named, also if a check before said that it holds.",
        GOOD + "check good width 64 sampled\nrewrite good\ncheck good\nrewrite good\n", ty="i64")),
    ("after", ["--brief"], script(
        "The module before the command counts: the first rewrite makes a value that is wider than the check.",
        "pattern wide arith.shli(%x : i8, 1) => arith.trunci(arith.shli(arith.extui(%x) : i16, 1)) : i8\ncheck wide\n"
        "apply wide #3\nrewrite wide\n")),
    ("marks", ["--brief"], script(
        "A rollback leaves what the last check said.",
        SHIFT + "begin\ncheck shift\nrollback\nrewrite shift\n")),
    ("listing", [], script(
        "The lines are above the module and the rows that follow an edit.", SHIFT + "apply shift #3\n")),
    ("strict", ["--brief", "--strict"], script(
        "With --strict the status is 1 if a reply names a pattern.", SHIFT + "rewrite shift\n")),
    ("strict-and-proved", ["--brief", "--strict"], script(
        "With --strict the status is 0 if each pattern is proved.", SHIFT + "check shift\nrewrite shift trace\n")),
    ("strict-and-rules", ["--brief", "--strict"], script(
        "With --strict the status is 0 if rules alone rewrite.", SHIFT
        + "rewrite 1,2,3 trace\napply 1 #3\ncanon trace\n")),
    ("strict-and-expected", ["--brief", "--strict"], script(
        "With --strict the status is 0 if a rewrite by such a pattern is refused as it is expected.",
        SHIFT + "expect 50 rewrite shift limit 0\nexpect 20 apply shift #9\nexpect 26 rewrite shift,nope\n")),
    ("strict-and-prints", ["--brief", "--strict"], script(
        "With --strict a script that only prints has status 0.", "print\nprint\n")),
    ("strict-and-unchecked-alone", ["--brief", "--strict"], script(
        "With --strict a pattern that fails or isn't checked is no fault as long as no command rewrites by it.",
        SHIFT + "patterns\nrewrite 1\n")),
    ("as-json", ["--brief", "--format", "json"], script(
        "As JSON a line that names a pattern is an object of its own kind, with a width if the check said one.",
        SHIFT + "rewrite shift trace limit 1\npattern unproved arith.ori(%x, holds : i8) => %x\napply unproved #3\n"
        "check unproved\nrewrite unproved,shift\npatterns\n"
        "pattern holds arith.addi(%x, unproved : i8) => %x\nrewrite holds\ncheck holds\npatterns\n")),
    ("strict-as-json", ["--brief", "--strict", "--format", "json"], script(
        "With --strict the status is that of text as JSON too.", SHIFT + "apply shift #3\n")),
    ("strict-and-interactive", ["--brief", "--strict", "--interactive"], script(
        "With --strict the status at the end of a live run is 1 too.", SHIFT + "apply shift #3\nprint\n")),
    ("negated-by-255", ["--brief"], """"func.func"() <{function_type = (i32) -> i32, sym_name = "f"}> ({
^bb0(%a: i32):
%k = "arith.constant"() <{value = 255 : i32}> : () -> i32
%m = "arith.muli"(%a, %k) : (i32, i32) -> i32
"func.return"(%m) : (i32) -> ()
}) : () -> ()
// -----
// A product by 255 is negated at 8 bits alone: the reply says so where it is at 32.
pattern n1 arith.muli(%a, 255) => arith.subi(0, %a)
check n1
rewrite n1 trace
patterns
print
"""),
    ("guarded-shift", ["--brief"], """"func.func"() <{function_type = (i32, i32, i1) -> i32, sym_name = "f"}> ({
^bb0(%a: i32, %n: i32, %c: i1):
%k = "arith.constant"() <{value = 8 : i32}> : () -> i32
%k2 = "arith.constant"() <{value = 32 : i32}> : () -> i32
%z = "arith.constant"() <{value = false}> : () -> i1
%m = "arith.addi"(%k, %k2) : (i32, i32) -> i32
%q = "arith.cmpi"(%n, %k2) <{predicate = 6 : i64}> : (i32, i32) -> i1
%s = "arith.shrui"(%a, %n) : (i32, i32) -> i32
%t = "arith.trunci"(%s) : (i32) -> i1
%r = "arith.select"(%q, %t, %z) : (i1, i1, i1) -> i1
%e = "arith.extui"(%r) : (i1) -> i32
%x = "arith.addi"(%e, %m) : (i32, i32) -> i32
"func.return"(%x) : (i32) -> ()
}) : () -> ()
// -----
// A choice that guards a shift becomes an operation that is poison: no check says that it holds.
pattern swap arith.addi(c, %a) => arith.addi(%a, c)
check swap
rewrite swap limit 50
pattern grow arith.addi(%a, %b) => arith.addi(arith.addi(%a, %b), 0)
check grow
rewrite grow limit 20
pattern sel arith.select(%c, %a : i1, 0) => arith.andi(%c, %a)
check sel
rewrite sel trace
print
"""),
    ("sampled-literals", ["--brief"], """// -----
// Patterns with literals, most of them wrong at wide types alone, checked and sampled.
pattern s1 arith.cmpi<ugt>(%a, 1000) => arith.cmpi<uge>(%a, 1000)
check s1 width 32 sampled
pattern s2 arith.cmpi<ult>(%a, 255) => arith.cmpi<ne>(%a, -1)
check s2 width 32 sampled
pattern s3 arith.divui(%a, 255) => arith.extui(arith.cmpi<eq>(%a, 255))
check s3 width 32 sampled
pattern s4 arith.shli(%a, 9) => 0
check s4
check s4 width 32 sampled
pattern s5 arith.ori(%a, arith.shrui(%a, 8)) => 0
check s5
check s5 width 16 sampled
pattern s6 arith.muli(arith.muli(%a, 16), 16) => 0
check s6 width 32 sampled
pattern s7 arith.cmpi<eq>(%a, 123456789) => 0
check s7 width 32 sampled
pattern s8 arith.divui(%a, 7) => arith.divui(%a, 7)
check s8
pattern s9 arith.divui(%a, 10) => arith.shrui(arith.muli(%a, 205), 11)
check s9
check s9 width 24
check s9 width 32 sampled
pattern s10 arith.trunci(arith.shrui(arith.muli(arith.extui(%a : i32) : i64, 3435973837), 35)) : i32 => \
arith.divui(%a, 10)
check s10
check s10 width 24
check s10 width 64 sampled
pattern s11 arith.divui(%a : i32, 10) => \
arith.trunci(arith.shrui(arith.muli(arith.extui(%a) : i64, 3435973837), 35)) : i32
check s11
check s11 width 64 sampled
pattern s12 arith.divui(%a : i32, 10) => \
arith.trunci(arith.shrui(arith.muli(arith.extui(%a) : i64, 3435973836), 35)) : i32
check s12
check s12 width 64 sampled
pattern s13 arith.divui(%a : i16, 10) => arith.trunci(arith.shrui(arith.muli(arith.extui(%a) : i32, 52429), 19)) : i16
check s13
check s13 width 16
pattern s14 arith.divui(%a : i32, 7) => \
arith.trunci(arith.shrui(arith.muli(arith.extui(%a) : i64, 613566757), 32)) : i32
check s14 width 64 sampled
pattern s15 arith.divui(%a, c) => arith.shrui(%a, log2(c)) where ugt(c, 300)
check s15
"""),
]
