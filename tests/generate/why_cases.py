"""Inputs that ask why rules don't apply at an operation, by `why #N [RULE]`, and that canonicalize one operation, by
`canon at #N`: each condition by hand, each example of docs/CANONICALIZE.md, refusals, marks, listings, lines answered
one by one, and as JSON; and random modules from the seed here. mlir_work_cases.py makes golden files of them. The first
answers are written by hand; all answers are those of the rules in Python."""
import random
import re

from tests.compare import rules_page
from oracle import chance, reasons, rewrites, script
from oracle.module import text_of, walk

from tests.generate.trace_cases import SUMS, Cases, over

SEED = 63
ROWS = "report uses\nreport dead\nreport constants\n"
X = '%x = "t.x"() : () -> i32\n'
TWO = '%a = "arith.constant"() <{value = 2 : i32}> : () -> i32\n'
FLAGS = "<{overflowFlags = #arith.overflow<none>}>"
SUM = f'%s = "arith.addi"(%x, %a) {FLAGS} : (i32, i32) -> i32\n'
SELECT = f'%c = "t.c"() : () -> i1\n{X}%s = "arith.select"(%c, %x, %x) : (i1, i32, i32) -> i32\n'
BITS = """%c = "t.c"() : () -> i1
%t = "arith.constant"() <{value = true}> : () -> i1
%s = "arith.select"(%c, %t, %t) : (i1, i1, i1) -> i1
"""
OPPOSITE = """%c = "t.c"() : () -> i1
%d = "t.d"() : () -> i1
%o = "arith.xori"(%c, %d) : (i1, i1) -> i1
%s = "arith.select"(%o, %c, %d) : (i1, i1, i1) -> i1
"""


def loop(lower, upper, body='"scf.yield"() : () -> ()'):
    return (f'%l = {lower} : () -> index\n%u = {upper} : () -> index\n'
            '%e = "arith.constant"() <{value = 1 : index}> : () -> index\n'
            f'"scf.for"(%l, %u, %e) ({{\n^bb0(%i: index):\n  {body}\n}}) : (index, index, index) -> ()\n')


def number(value):
    return f'"arith.constant"() <{{value = {value} : index}}>'


BRANCH = """%c = "arith.constant"() <{value = true}> : () -> i1
"scf.if"(%c) ({
  "scf.yield"(%c) : (i1) -> ()
}, {
}) : (i1) -> ()
"""
WHILE = """%c = "t.c"() : () -> i1
"scf.while"() ({
  "scf.condition"(%c) : (i1) -> ()
}, {
  "scf.yield"() : () -> ()
}) : () -> ()
"""
# Each condition by its word: a module, an operation, and a rule for which it is reported.
HAND = [
    ("root", X, 0, "erase-dead"), ("not-clean", '%s = "arith.addi"() : () -> i32\n', 1, "drop-zero"),
    ("other-operation", X + TWO + SUM, 3, "drop-one"), ("used", X + TWO + SUM, 2, "erase-dead"),
    ("has-effects", loop('"t.l"()', '"t.u"()', '"memref.dealloc"(%m) : (memref<i32>) -> ()\n  "scf.yield"() : () -> ()')
     .replace("%l = ", '%m = "t.m"() : () -> memref<i32>\n%l = ', 1), 5, "erase-dead"),
    ("constant-not-clean", X + TWO.replace(": i32}", ": i8}") + SUM, 3, "fold-to-constant"),
    ("operand-not-constant", X + TWO + SUM, 3, "fold-to-constant"),
    ("does-not-fold", TWO + '%z = "arith.constant"() <{value = 0 : i32}> : () -> i32\n'
     '%s = "arith.divui"(%a, %z) : (i32, i32) -> i32\n', 3, "fold-to-constant"),
    ("first-not-constant", X + TWO + SUM, 3, "swap-constant"),
    ("second-constant", TWO + SUM.replace("%x", "%a"), 2, "swap-constant"),
    ("second-not-constant", X + SUM.replace("%a", "%x"), 2, "drop-zero"),
    ("second-not-zero", X + TWO + SUM, 3, "drop-zero"),
    ("second-not-one", X + TWO + SUM.replace("addi", "muli"), 3, "drop-one"),
    ("second-not-all-ones", X + TWO + SUM.replace("addi", "andi").replace(f" {FLAGS}", ""), 3, "drop-all-ones"),
    ("third-not-zero", BITS, 3, "choose-truth"),
    ("operands-differ", X + TWO + SUM.replace("addi", "subi"), 3, "cancel-itself"),
    ("other-predicate", X + TWO.replace("= 2", "= 0")
     + '%s = "arith.cmpi"(%x, %a) <{predicate = 0 : i64}> : (i32, i32) -> i1\n', 3, "compare-zero"),
    ("other-type", SELECT, 3, "choose-truth"), ("no-inner-operation", X + TWO + SUM, 3, "regroup-constants"),
    ("inner-not-constant", X + TWO + SUM.replace("%a", "%x") + SUM.replace("%s", "%r").replace("%x", "%s"), 4,
     "regroup-constants"),
    ("inner-not-one", OPPOSITE, 4, "choose-opposite"),
    ("fewer-bits", '%x = "t.x"() : () -> index\n%n = "arith.index_cast"(%x) : (index) -> i32\n'
     '%s = "arith.index_cast"(%n) : (i32) -> index\n', 3, "cast-back"),
    ("bound-not-constant", loop('"t.l"()', number(3)), 4, "open-loop"),
    ("goes-on", loop(number(0), number(3)), 4, "open-loop"), ("condition-not-false", WHILE, 2, "stop-loop"),
    ("block-not-clean", BRANCH, 2, "open-branch"), ("no-index", X + TWO + SUM, 3, "lower-index")]
BAD_END = '"scf.yield"(%i) : (index) -> ()'
END = '"scf.yield"(%a) : (index) -> ()'
USED_LOOP = loop('"t.l"()', '"t.u"()', f'"memref.dealloc"(%m) : (memref<i32>) -> ()\n  {END}')
for old, new in (("%l = ", '%m = "t.m"() : () -> memref<i32>\n%l = '),
                 ('"scf.for"(%l, %u, %e)', '%r = "scf.for"(%l, %u, %e, %l)'), ("%i: index", "%i: index, %a: index"),
                 ("(index, index, index) -> ()", "(index, index, index, index) -> index")):
    USED_LOOP = USED_LOOP.replace(old, new, 1)
USED_LOOP += '"t.v"(%r) : (index) -> ()\n'
# Operations at which two conditions of a rule don't hold: the first one is reported. A block that isn't read isn't
# asked about.
FIRST = [
    ("used", "erase-dead", USED_LOOP, 5), ("bound-not-constant", "open-loop", loop('"t.l"()', number(3), BAD_END), 4),
    ("block-not-clean", "open-loop", loop(number(0), number(3), BAD_END), 4),
    ("applies", "open-loop", loop(number(3), number(0), BAD_END), 4),
    ("first-not-constant", "open-branch", BRANCH.replace('"arith.constant"() <{value = true}>', '"t.c"()'), 2),
    ("block-not-clean", "stop-loop", WHILE.replace("(%c) : (i1)", "(%c, %c) : (i1, i1)"), 2),
    ("no-index", "lower-loop", loop('"t.l"()', '"t.u"()', BAD_END).replace("index", "i32"), 4),
    ("block-not-clean", "lower-loop", loop('"t.l"()', '"t.u"()', BAD_END), 4), ("no-index", "lower-choice", BRANCH, 2)]
TOLD_OF_SUM = """why #3 1 erase-dead applies
why #3 2 fold-to-constant operand-not-constant
why #3 3 swap-constant first-not-constant
why #3 4 drop-zero second-not-zero
why #3 10 regroup-constants no-inner-operation
why #3 28 lower-index no-index
"""
REFUSED = {
    20: ("why #99", "why #99 4", "why #4294967295 drop-zero", "canon at #99", "canon at #99 limit 1"),
    26: ("why #3 nope", "why #99 nope", "why #3 Drop-zero", "why #3 drop_zero"),
    50: ("canon at #3 limit 0", "canon at #3 limit 1000001", "canon at #99 limit 0"),
    60: ("why", "why 3", "why #", "why #x", "why #3 0", "why #3 31", "why #3 4294967296", "why #3 4 5",
         "why #3 drop-zero x", "why drop-zero #3", "why #4294967296", "Why #3", "whys #3", "canon at", "canon at 3",
         "canon at #3 x",
         "canon at #3 limit", "canon at #3 limit x", "canon at #3 limit 1 x", "canon at #3 trace", "canon at #3 #4",
         "canon #3", "canon trace at #3", "canon only 1 at #3", "at #3")}
TABLE = re.compile(r"^\| `([a-z-]+)` \|", re.M)


def by_hand(cases):
    """Each condition once, and it is one of the page's list; an operation with the rules of its name."""
    page = rules_page.PAGE.read_text()
    listed = TABLE.findall(page[page.index("## Why a rule doesn't apply"):])
    assert [word for word, *_ in HAND] == listed, listed
    for word, module, op, rule in HAND:
        cases.title(f"why-{word}", f"`{rule}` doesn't apply, for which `why` reports `{word}`.")
        at = rewrites.WORDS.index(rule) + 1
        out = cases.run(over(module, f"why #{op} {rule}", f"why #{op} {at}"))
        told = f"why #{op} {at} {rule} {word}\n"
        assert out == f"1 ok\n{told}2 ok\n{told}", out
        cases.run(over(module, f"why #{op}", f"apply {at} #{op}", f"canon at #{op}", "print"), False)
    cases.title("why-all-rules",
                "`why` without a rule reports each rule for the operation's name, and nothing for others.")
    out = cases.both(over(X + TWO + SUM, "why #3", "why #1", "why #0", "why #2 lower-index"))
    assert out == f"1 ok\n{TOLD_OF_SUM}2 ok\n3 ok\n4 ok\nwhy #2 28 lower-index no-index\n", out


def first_of_two(cases):
    """The first condition that doesn't hold, where a later one doesn't hold either."""
    for number, (word, rule, module, op) in enumerate(FIRST, 1):
        cases.title(f"why-first-{number}", f"`why` reports `{word}` for `{rule}`, the first condition that decides.")
        at = rewrites.WORDS.index(rule) + 1
        out = cases.run(over(module, f"why #{op} {rule}"))
        assert out == f"1 ok\nwhy #{op} {at} {rule} {word}\n", out


def rules(cases):
    """Each example of docs/CANONICALIZE.md and CONVERT.md: the answer for each rule, before and after the rewrite."""
    for page in (rules_page.PAGE, rules_page.PAGE.with_name("CONVERT.md")):
        for number, _, module, op, _ in rules_page.EXAMPLE.findall(page.read_text()):
            word = rewrites.WORDS[int(number) - 1]
            cases.title(f"why-{word}", f"The example of `{word}`: `why` reports that it applies, and why not after it.")
            out = cases.run(over(module, f"why #{op} {number}", f"why #{op}", f"apply {number} #{op}",
                                 *(f"why #{it} {number}" for it in range(1, 9)), "print"))
            assert out.startswith(f"1 ok\nwhy #{op} {number} {word} applies\n"), out
            cases.run(over(module, "begin", f"canon at #{op} limit 1", "print", "rollback", f"canon at #{op}", "print"))


def alone(cases):
    """One operation alone: others stay, and it is gone or no rule applies there."""
    cases.title("canon-at", "`canon at` rewrites one operation alone until it is erased or no rule applies.")
    out = cases.both(over(SUMS, "canon at #5", "canon at #7 limit 1", "canon at #7", "canon at #7", "print ids"))
    assert out.startswith("1 converged 1\n2 limit 1\n3 converged 1\n4 refused 20 NoSuchOp\n"), out
    cases.title("canon-at-under-marks", "`canon at` is rolled back and committed.")
    cases.run(over(SUMS, "begin", "canon at #7", "rollback", "begin", "canon at #4", "canon at #5", "commit", ROWS,
                   "canon at #0", "canon trace"))
    for limit in (1, 2, 3):
        cases.title(f"canon-at-with-limit-{limit}", f"`--limit {limit}` limits the rewrites of `canon at`.")
        cases.run(over(SUMS, "canon at #7", "print"), True, limit)


def refused(cases):
    """Each refusal, for each reason: there is no answer, and the module stays."""
    for number, lines in REFUSED.items():
        cases.title(f"why-refused-{number}",
                    f"Lines of `why` and `canon at` that are refused by {number} change nothing.")
        out = cases.run(over(SUMS, *lines, "print"))
        told = out.splitlines()[:len(lines)]
        assert all(line.startswith(f"{at} refused {number} ") for at, line in enumerate(told, 1)), out
        cases.run(over(SUMS, *(f"expect {number} {line}" for line in lines)))
        cases.both(over(SUMS, lines[0], "why #5", lines[1], ROWS))
    cases.title("why-expected-refusals", "A `why` that isn't refused as expected reports after the expectation.")
    out = cases.both(over(X + TWO + SUM, "expect 20 why #3", "expect 26 canon at #3", "expect 20 canon at #3"))
    assert out.startswith(f"1 ok\n1 expected 20 NoSuchOp\n{TOLD_OF_SUM}2 converged 1\n"), out
    cases.title("why-user-pattern", "`why` says that a user pattern applies, and `apply` applies it.")
    cases.run(over(SUMS, "pattern one arith.muli(1, %a) => %a", "why #7 one", "apply one #7"))


def opaque(cases):
    """Modules with unknown types and attributes: beyond the table only the first rule applies."""
    cases.title("why-opaque", "`why` and `canon at` beside floats: only the first rule is for an operation with them.")
    module = X + '%f = "t.f"() {k = #d.a<1>} : () -> f32\n%g = "arith.select"(%h, %f, %f) : (i1, f32, f32) -> f32\n'
    module = module.replace("%f = ", '%h = "t.h"() : () -> i1\n%f = ', 1)
    lines = ["why #4", "why #4 1", "why #4 15", "why #3", "canon at #4", "why #4"]
    for brief in (True, False):
        text = over(module, *lines)
        cases.case(["--brief"] * brief + ["--opaque"], text, script.run_opaque(text, brief))
        cases.case(["--brief"] * brief, text, script.run(text, brief))


def lived(cases):
    """Runs that answer each line as soon as it arrives."""
    cases.title("why-interactive", "`why` and `canon at` are answered line by line.")
    for module in (SUMS, ""):
        for brief in (True, False):
            cases.lived(over(module, "why #5", "why #5 10", "canon at #5", "why #5", "", "// none", "why #0 1",
                             "print"), brief)
    cases.lived(over(SUMS, "begin", "canon at #5", "rollback", "why #5") + b"why #7 3")


def by_chance(cases):
    """Random modules: each operation is asked about, between edits and marks; and exactly the rules that are reported
    to apply do."""
    cases.title("why-random", "`why` reports about operations of random modules, between edits, marks and `canon at`.")
    for number in range(40):
        maker = random.Random(f"{SEED} {number}")
        text = text_of(chance.module(maker, maker.randrange(6, 30), maker.choice([0, 0, 0.1]),
                                     maker.choice(sorted(chance.TASTES))))
        here = script.Run(script.read(text.encode()))
        scripter, lines = chance.Scripter(maker, here), []
        for _ in range(maker.randrange(3, 9)):
            op = maker.choice([*walk(here.module.root)]).id
            rule = maker.choice(["", "", f" {maker.randrange(1, 31)}", f" {maker.choice(rewrites.WORDS)}"])
            line = maker.choice([f"why #{op}{rule}", f"why #{op}{rule}", f"canon at #{op}", scripter.edit(),
                                 scripter.mark()])
            here.reply(line)
            lines.append(line)
        lines += [f"why #{op.id}" for op in walk(here.module.root)]
        cases.run(over(text, *lines, "print"), maker.random() < 0.9)


def as_json(cases):
    """The same as JSON, with listings and without."""
    cases.title("why-and-canon-at", "JSON has the reasons of `why`, its refusals, and the replies of `canon at`.")
    for brief in (True, False):
        cases.run(over(X + TWO + SUM, "why #3", "why #3 4", "why #0 1", "why #9", "why #3 nope", "expect 20 why #3 1",
                       "canon at #3", "why #3"), brief, form="json")


FILES = {"runs/asking": (by_hand, first_of_two, alone, refused, opaque, lived, by_chance), "rules/asked": (rules,),
         "json/asking": (as_json,)}


def all_cases(case, begin, title):
    """Adds each input: `case` takes the program's words, an input and an answer, `begin` a file, and `title` the name
    and the sentence of the next cases."""
    for name, parts in FILES.items():
        begin(name)
        for part in parts:
            part(Cases(case, title))
