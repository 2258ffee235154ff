"""Inputs with traced conversions, by `convert trace MODE CLAUSES`: chains of rules, undone rules, each reason why an
operation stays, what isn't traced, refusals, marks, listings, lines answered one by one, and as JSON; each example of
docs/CONVERT.md, and random modules from the seed here. mlir_work_cases.py makes golden files of them. The first traces
are written by hand; all answers are those of the rules in Python."""
import random
import re

from tests.compare import rules_page
from oracle import chance, script
from oracle.module import text_of, walk

from tests.generate.conversion_cases import AROUND, CAST, INDEXED, MAX, NESTED, REM, USERS
from tests.generate.conversion_cases import constant, function, of_two, on_two, returned
from tests.generate.trace_cases import ROWS, Cases, over

SEED = 67
# What rules replace, and what they make.
REPLACED = {*INDEXED, "scf.for", "scf.if"}
MADE = [f"arith.{word}" for word in "addi cmpi constant divsi divui muli select subi xori".split()]
PAGE = rules_page.PAGE.with_name("CONVERT.md")
# A remainder of two that are known, and a difference that isn't; and operations whose rules want more.
KNOWN = function(["i64"], ["i64"], constant("a", 7, "i64") + constant("b", 3, "i64")
                 + on_two("remsi", "%a", "%b", "i64", "r") + on_two("subi", "%r", "%a0", "i64")
                 + returned("%x", "i64"))
BY_ZERO = function([], ["i64"], constant("a", 7, "i64") + on_two("subi", "%a", "%a", "i64", "z")
                   + on_two("divsi", "%a", "%z", "i64") + returned("%x", "i64"))
INDEX_SUM = of_two("addi", "index")
CHOICE = """%c = "t.c"() : () -> i1
%r = "scf.if"(%c) ({
  %v = "t.v"() : () -> i8
  "scf.yield"(%v) : (i8) -> ()
}, {
  %w = "t.w"() : () -> i8
  "scf.yield"(%w) : (i8) -> ()
}) : (i1) -> i8
"t.u"(%r) : (i8) -> ()
"""
TWICE = function(["i32", "i32"], ["i32"], on_two("remsi", name="r") + on_two("subi", "%r", "%a0", name="s")
                 + on_two("maxsi", "%r", "%s") + returned("%x", "i32"))
CHAIN = "rewrote 27 expand-remainder #2 made #4,#5,#6 erased #2\n"
BEHIND = "rewrote 26 expand-difference #6 made #7,#8,#9,#10,#11 erased #6\n"
BOTH = "arith.remsi,arith.subi"
# (a name, a sentence, a module, what follows `convert trace`, the reply, and what is reported below it)
TOLD = [
    ("chain-of-two-rules", "A remainder is expanded, and the difference that the rule made too.",
     REM, f"partial illegal {BOTH} rules 27,26", "converted 2", CHAIN + BEHIND),
    ("chain-with-clauses-in-other-order", "The order of clauses and of rules changes nothing in a chain of two rules.",
     REM, f"partial depth 2 rules 26,27 illegal {BOTH}", "converted 2", CHAIN + BEHIND),
    ("one-rule", "A conversion by one rule reports one rewrite.",
     REM, "partial illegal arith.remsi rules 27", "converted 1", CHAIN),
    ("full-mode", "Full mode reports the same two rewrites if all that they make is legal.",
     REM, f"full legal {AROUND},arith.divsi,arith.muli illegal {BOTH} dynamic arith.xori,arith.addi,arith.constant "
          "rules 2,25,26,27,28,29,30", "converted 2", CHAIN + BEHIND),
    # There is nothing to do, and no trace.
    ("nothing-illegal", "A partial conversion of a module without illegal operations reports nothing.",
     REM, "partial", "converted 0", ""), ("legal-operation",
                                          "A legal operation isn't rewritten, and nothing is reported.",
                                          REM, "partial legal arith.remsi rules 27", "converted 0", ""),
    ("full-mode-of-empty-module", "A full conversion of an empty module reports nothing.",
     "", "full legal builtin.module", "converted 0", ""),
    # A fold erases the difference that a rule made. An operation that is gone isn't in the trace.
    ("made-operations-fold", "A made quotient and a made product fold, each reported after the rule that made them.",
     KNOWN, "partial illegal arith.remsi,arith.divsi,arith.muli rules 27,2", "converted 3",
     "rewrote 27 expand-remainder #4 made #7,#8,#9 erased #4\nrewrote 2 fold-to-constant #7 made #10 erased #7\n"
     "rewrote 2 fold-to-constant #8 made #11 erased #8\n"),
    ("fold-before-expansion", "A remainder folds first, and then a difference is expanded.",
     KNOWN, "partial illegal arith.remsi,arith.subi rules 2,26", "converted 2",
     "rewrote 2 fold-to-constant #4 made #7 erased #4\n"
     "rewrote 26 expand-difference #5 made #8,#9,#10,#11,#12 erased #5\n"),
    # Rule 27 is undone at the difference that it made, and its numbers are given out again.
    ("undone-rule", "A rule that is undone at the depth limit isn't reported, and its ids are given again.",
     KNOWN, "partial illegal arith.remsi,arith.muli rules 27,2 depth 1", "converted 1",
     "rewrote 2 fold-to-constant #4 made #7 erased #4\n"),
    # The last rule is for another operation; it reaches the depth limit all the same.
    ("depth-reached-by-second-rule", "At depth 1 the last rule of the list is the reason reported for 52.",
     REM, f"partial illegal {BOTH} rules 27,26 depth 1", "refused 52 ChainTooDeep #2",
     "stays #2 26 expand-difference other-operation\n"),
    ("depth-reached-in-other-order", "At depth 1 in the other order the reason is `makes-illegal`.",
     REM, f"partial illegal {BOTH} rules 26,27 depth 1", "refused 52 ChainTooDeep #2",
     "stays #2 27 expand-remainder makes-illegal\n"),
    ("no-rule", "Without rules the reason is `no-rule`.",
     REM, "partial illegal arith.remsi", "refused 51 NotLegalised #2", "stays #2 no-rule\n"),
    ("full-mode-without-rules", "In full mode the first operation that isn't legal is the root, with `no-rule`.",
     REM, "full depth 3", "refused 51 NotLegalised #0", "stays #0 no-rule\n"),
    ("full-mode-root", "No rule applies to the root.",
     REM, "full rules 27", "refused 51 NotLegalised #0", "stays #0 27 expand-remainder root\n"),
    ("full-mode-function", "In full mode a function stays, since the last rule is for another operation.",
     REM, "full legal builtin.module rules 27,25", "refused 51 NotLegalised #1",
     "stays #1 25 expand-min-max other-operation\n"),
    ("makes-illegal", "A rule that makes an illegal operation is undone, with `makes-illegal`.",
     MAX, "partial illegal arith.maxsi,arith.select rules 25", "refused 51 NotLegalised #2",
     "stays #2 25 expand-min-max makes-illegal\n"),
    ("makes-illegal-twice", "A rule that is in the list twice is tried twice, with the same reason.",
     MAX, "partial illegal arith.maxsi,arith.select rules 25,25", "refused 51 NotLegalised #2",
     "stays #2 25 expand-min-max makes-illegal\n"),
    ("no-index", "Rule 28 doesn't apply without `index`.",
     MAX, "partial illegal arith.maxsi rules 28", "refused 51 NotLegalised #2", "stays #2 28 lower-index no-index\n"),
    ("operand-not-constant", "Rule 2 doesn't apply without constant operands.",
     MAX, "partial illegal arith.maxsi rules 2", "refused 51 NotLegalised #2",
     "stays #2 2 fold-to-constant operand-not-constant\n"),
    ("branch-without-index", "Rule 30 doesn't apply to a branch without results of `index`.",
     CHOICE, "partial illegal scf.if rules 30", "refused 51 NotLegalised #2", "stays #2 30 lower-choice no-index\n"),
    ("comparison-without-index", "Rule 28 doesn't apply to a comparison of `i32`, and the last rule is reported.",
     of_two("arith.cmpi"), "partial illegal arith.cmpi rules 30,28", "refused 51 NotLegalised #2",
     "stays #2 28 lower-index no-index\n"),
    ("not-clean", "A rule doesn't apply to a remainder with a further property.",
     function(["i32", "i32"], ["i32"], on_two("remsi").replace(") :", ") <{p = 1 : i8}> :") + returned("%x", "i32")),
     "partial illegal arith.remsi rules 26,27", "refused 51 NotLegalised #2",
     "stays #2 27 expand-remainder not-clean\n"),
    # After an operation that was legalised: the reason why another one stays is that of the module at that moment. Once
    # the divisor is known, the quotient doesn't fold; at the start no operand but the first is a constant.
    ("reason-after-legalization", "The reason is that of the module as it is then: by then the divisor is zero.",
     BY_ZERO, "partial illegal arith.subi,arith.divsi rules 2", "refused 51 NotLegalised #4",
     "stays #4 2 fold-to-constant does-not-fold\n"),
    ("reason-at-the-start", "At the start the divisor isn't constant.",
     BY_ZERO, "partial illegal arith.divsi rules 2", "refused 51 NotLegalised #4",
     "stays #4 2 fold-to-constant operand-not-constant\n"),
    ("stays-after-fold", "A difference stays after the remainder before it folded.",
     KNOWN, "partial illegal arith.remsi,arith.subi rules 2", "refused 51 NotLegalised #5",
     "stays #5 2 fold-to-constant operand-not-constant\n"),
    ("two-operations", "Two operations are rewritten, each reported in its turn.",
     TWICE, "partial illegal arith.remsi,arith.maxsi rules 27,25", "converted 2",
     "rewrote 27 expand-remainder #2 made #6,#7,#8 erased #2\nrewrote 25 expand-min-max #4 made #9,#10 erased #4\n"),
    ("stays-after-a-chain", "A maximum stays after a chain of two rules, and the chain isn't reported.",
     TWICE, f"partial illegal {BOTH},arith.maxsi rules 27,26", "refused 51 NotLegalised #4",
     "stays #4 26 expand-difference other-operation\n"),
    # Not for a cast that is left, nor for the check of full mode.
    ("unreconciled-cast", "A cast that is left has no reason reported.",
     '%0 = "t.d"() : () -> i32\n' + f'%1 = "{CAST}"(%0) : (i32) -> index\n' + '"t.u"(%1) : (index) -> ()\n',
     "partial illegal arith.remsi rules 27", "refused 53 Unreconciled #2", ""),
    ("illegal-cast-in-full-mode", "An `arith.index_cast` that full mode finds at the end has no reason reported.",
     INDEX_SUM, "full legal builtin.module,func.func,func.return dynamic arith.addi rules 28",
     "refused 51 NotLegalised #8", ""),
    ("legal-cast-in-full-mode", "If `arith.index_cast` is legal, the rewrite is reported.",
     INDEX_SUM, "full legal builtin.module,func.func,func.return,arith.index_cast dynamic arith.addi rules 28",
     "converted 1", "rewrote 28 lower-index #2 made #4,#5,#6,#7 erased #2\n"),
    # Nor where the target isn't accepted, nor a line that has no form.
    ("rule-outside-of-conversions", "A target with rule 1 is refused by 54, with no reason.",
     REM, "partial rules 1", "refused 54 BadTarget", ""), ("depth-over-16",
                                                           "A target of depth 17 is refused by 54, with no reason.",
                                                           REM, "partial depth 17", "refused 54 BadTarget", ""),
    ("legal-and-illegal", "A target with one name legal and illegal is refused by 54, with no reason.",
     REM, "partial illegal arith.remsi legal arith.remsi", "refused 54 BadTarget", ""),
    ("cast-in-target", "A target with the cast itself is refused by 54, with no reason.",
     REM, f"full illegal {CAST}", "refused 54 BadTarget", ""),
]
BAD = ("convert trace", "convert trace legal a", "convert trace Partial", "convert trace trace partial",
       "convert partial trace", "convert trace partial trace", "convert trace full legal",
       "convert trace full legal a,", "convert trace full legal a legal b", "convert trace partial rules x",
       "convert trace partial depth 1,2",
       "convert trace partial limit 1", "convert trace,partial", "convert traces partial", "convert Trace partial",
       "convert tracepartial", "converttrace partial", "convert trace partial // x", "trace convert partial",
       "convert trace limit 1", "convert trace at #2", "convert only trace partial")
LOOPS = f"dynamic {USERS},scf.for,scf.if rules 28,29,30"


def by_hand(cases):
    """Each traced conversion: plainly, with listings, and next to the same conversion without trace."""
    for name, sentence, module, clauses, reply, told in TOLD:
        cases.title(f"trace-{name}", sentence)
        out = cases.both(over(module, f"convert trace {clauses}", "print ids"))
        assert out.startswith(f"1 {reply}\n{told}2 ok\n"), (clauses, out)
        untold = cases.run(over(module, f"convert {clauses}", "print ids"))
        assert untold.startswith(f"1 {reply}\n2 ok\n") and out.replace(told, "", 1) == untold, (clauses, out)
        assert told.count("rewrote ") == int((re.match(r"converted (\d+)", reply) or [0, 0])[1]), clauses
    cases.title("trace-with-blanks",
                "Blanks, tabs and a carriage return around the words of `convert trace` are skipped.")
    out = cases.run(over(REM, f"\tconvert \t trace\tpartial  rules 027,26\t illegal {BOTH} \r"))
    assert out == f"1 converted 2\n{CHAIN}{BEHIND}", out


def marks(cases):
    """After a rollback the trace is the same, with the same ids; a refusal uses up no id."""
    cases.title("trace-under-marks", "After a rollback the same rewrites are reported with the same ids.")
    line = f"convert trace partial illegal {BOTH} rules 27,26"
    out = cases.both(over(REM, "begin", line, "rollback", line + " depth 1", line, "begin", "commit", line))
    assert out == (f"1 ok\n2 converted 2\n{CHAIN}{BEHIND}3 ok\n4 refused 52 ChainTooDeep #2\n"
                   "stays #2 26 expand-difference other-operation\n"
                   f"5 converted 2\n{CHAIN}{BEHIND}6 ok\n7 ok\n8 converted 0\n"), out
    for name, module in (("loops", NESTED), ("two-operations", TWICE), ("constants", KNOWN)):
        cases.title(f"trace-{name}-with-rollback",
                    "Rewrites are reported, rolled back, and reported again after others.")
        for clauses in (LOOPS, f"illegal {BOTH},arith.maxsi rules 2,25,26,27", f"illegal {BOTH} rules 27,2"):
            told = f"convert trace partial {clauses}"
            cases.run(over(module, "begin", told, ROWS + "print ids", "rollback", "print ids", "begin", "canon trace",
                           told, "rollback", told, ROWS, "canon trace", "print"))
        cases.title(f"trace-{name}-with-detached-analyses",
                    "Analyses are detached before a conversion and attached after it.")
        cases.both(over(module, "detach dead", "detach constants", "begin", f"convert trace partial {LOOPS}",
                        "attach dead", ROWS, "rollback", "attach constants", "resync uses", ROWS))


def refused(cases):
    """Lines that have no form, and what is expected and doesn't come."""
    cases.title("trace-bad-commands",
                "Lines that are no `convert trace` are bad commands, also where that is expected.")
    out = cases.run(over(REM, *BAD, "print"))
    assert all(line == f"{at} refused 60 BadCommand" for at, line in enumerate(out.splitlines()[:len(BAD)], 1)), out
    cases.run(over(REM, *(f"expect 60 {line}" for line in BAD)))
    cases.both(over(REM, *BAD[:3]))
    cases.title("trace-expected-refusals", "The line of an expectation comes between the reply and what is reported.")
    told = f"convert trace partial illegal {BOTH}"
    out = cases.both(over(REM, f"expect 51 {told}", f"expect 52 {told}", f"expect ChainTooDeep {told} rules 27 depth 1",
                          f"expect 54 {told} rules 1", f"expect 22 {told} rules 27,26", f"expect 60 {told}"))
    assert out == ("1 refused 51 NotLegalised #2\nstays #2 no-rule\n"
                   "2 refused 51 NotLegalised #2\n2 expected 52 ChainTooDeep\nstays #2 no-rule\n"
                   "3 refused 52 ChainTooDeep #2\nstays #2 27 expand-remainder makes-illegal\n4 refused 54 BadTarget\n"
                   f"5 converted 2\n5 expected 22 HasUses\n{CHAIN}{BEHIND}6 converted 0\n6 expected 60 BadCommand\n"
                   ), out


def nested(cases):
    """Loops and choices inside one another, at each depth."""
    cases.title("trace-nested-loops",
                "Conversions of loops and branches inside one another are reported, for five targets at each depth.")
    for depth in ("", *(f" depth {depth}" for depth in range(1, 5))):
        for clauses in (LOOPS, LOOPS.replace("28,29,30", "30,29,28"), f"{LOOPS},2", "dynamic scf.for rules 29",
                        f"illegal arith.addi,arith.cmpi,arith.muli {LOOPS.replace('arith.addi,', '', 1)}"):
            cases.run(over(NESTED, f"convert trace partial {clauses}{depth}", "report diagnostics"))


def pages(cases):
    """Each conversion of docs/CONVERT.md over its module."""
    for part in re.findall(r"^```mlir\n(.*?)^```\n(.*?)(?=^```mlir\n|\Z)", PAGE.read_text(), re.M | re.S):
        lines = re.findall(r"^    > convert (.*)$", part[1], re.M)
        cases.title("trace-examples-of-page", "Each conversion of docs/CONVERT.md is reported over its module.")
        for line in lines:
            told = "convert trace " + line.removeprefix("trace ")
            cases.run(over(part[0], told, "print ids"))


def other_refusals(cases):
    """A cast that no rule made, impossible targets, and lines of another form."""
    cases.title("trace-cast-and-targets",
                "A cast of i32 to index is refused by 53, impossible targets by 54, and lines of another form by 60.")
    module = '''%0 = "test.d"() : () -> i32
%1 = "builtin.unrealized_conversion_cast"(%0) : (i32) -> index
"test.use"(%1) : (index) -> ()
'''
    for line in ("partial", "partial legal a.b illegal a.b", "partial illegal builtin.unrealized_conversion_cast",
                 "partial rules 1", "partial depth 17", "illegal arith.subi rules 26",
                 "partial illegal arith.subi, arith.addi", "partial illegal arith.subi illegal arith.addi",
                 "partial trace"):
        cases.run(over(module, f"convert trace {line}", "print ids"))


def opaque(cases):
    """Modules with unknown types and attributes."""
    cases.title("trace-opaque",
                "A conversion beside floats is reported with `--opaque`, and without it the module is refused.")
    module = REM + '%f = "t.f"() {k = #d.a<1>} : () -> f32\n"t.g"(%f) : (f32) -> ()\n'
    for brief in (True, False):
        text = over(module, f"convert trace partial illegal {BOTH} rules 27,26", "convert trace partial illegal t.g",
                    "convert trace full rules 30", "print")
        cases.case(["--brief"] * brief + ["--opaque"], text, script.run_opaque(text, brief))
        cases.case(["--brief"] * brief, text, script.run(text, brief))


def lived(cases):
    """Runs that answer each line as soon as it arrives."""
    cases.title("trace-interactive", "Traced conversions are answered line by line.")
    line = f"convert trace partial illegal {BOTH} rules 27,26"
    for module in (REM, ""):
        for brief in (True, False):
            cases.lived(over(module, f"{line} depth 1", "convert trace", line, "", "// none", line, "print"), brief)
    cases.lived(over(REM, "begin", line, "rollback", f"expect 51 {line}") + b"convert trace full")


def target(maker, module):
    """A target in which operations of a module that rules replace are illegal or dynamic, and now and then what rules
    make."""
    names = sorted({op.name.decode() for op in walk(module.root)} - {CAST})
    named = [name for name in names if name in REPLACED or maker.random() < 0.05]
    named += maker.sample(MADE, 1) * (maker.random() < 0.4)
    illegal = {name for name in named if maker.random() < 0.6}
    dynamic = sorted(set(named) - illegal)
    rules = maker.sample([2, *range(25, 31)], maker.choice([7, 7, 7, maker.randrange(8)]))
    lists = {"illegal": sorted(illegal), "dynamic": dynamic}
    clauses = [f"{word} {','.join(them)}" for word, them in lists.items() if them]
    clauses += [f"rules {','.join(map(str, rules))}"] * bool(rules)
    clauses += [f"depth {maker.randrange(1, 5)}"] * (maker.random() < 0.4)
    is_full = maker.random() < 0.2
    legal = sorted({*names, *MADE, "arith.index_cast", "scf.yield"} - illegal - set(dynamic))
    clauses += [f"legal {','.join(legal[maker.random() < 0.3:])}"] * is_full
    maker.shuffle(clauses)
    return " ".join(["full" if is_full else "partial", *clauses])


def by_chance(cases):
    """Random modules, with marks and edits between. The module afterwards is that of the conversions without trace, and
    that of the traced rules, applied one by one, with casts reconciled."""
    cases.title("trace-random", "Conversions of random modules are reported, with marks and edits between them.")
    for number in range(60):
        maker = random.Random(f"{SEED} {number}")
        text = text_of(chance.module(maker, maker.randrange(6, 40), maker.choice([0, 0, 0.1]),
                                     maker.choice(["any", "constants"])))
        run = script.Run(script.read(text.encode()))
        scripter, lines, steps = chance.Scripter(maker, run), [], []
        for _ in range(maker.randrange(2, 7)):
            line = maker.choice([scripter.edit(), scripter.mark()])
            if maker.random() < 0.7:
                line = f"convert trace {target(maker, run.module)}"
            reply, _ = run.reply(line)
            told = re.findall(r"^rewrote (\d+) \S+ #(\d+)", reply, re.M)
            is_made = reply.startswith(" converted ")
            steps += [f"apply {rule} #{op}" for rule, op in told] + ["convert partial"] if is_made else [
                line.replace("convert trace", "convert")]
            lines.append(line)
        cases.run(over(text, *lines, "print ids"), maker.random() < 0.8)
        alone = [line.replace(" trace", "") for line in lines]
        traced, untraced, stepped = (script.run(over(text, *those, "print ids"))[1].decode()
                                     for those in (lines, alone, steps))
        kept = [line for line in traced.splitlines() if not line.startswith(("rewrote ", "stays "))]
        assert kept == untraced.splitlines(), text
        assert traced[traced.rindex('"builtin.module"'):] == stepped[stepped.rindex('"builtin.module"'):], text


def as_json(cases):
    """The same as JSON, with listings and without."""
    cases.title("traced-conversions", "JSON has the rewrites of conversions, reasons and expectations.")
    line = f"convert trace partial illegal {BOTH}"
    for brief in (True, False):
        cases.run(over(REM, line, f"{line} rules 26,27 depth 1", f"{line} rules 1", "convert trace",
                       f"expect 22 {line} rules 26", f"expect 22 {line} rules 26,27"), brief, form="json")


FILES = {"conversion/traced": (by_hand, marks, refused, nested, pages, other_refusals, opaque,
                               lived),
         "conversion/traced_by_chance": (by_chance,), "json/converting": (as_json,)}


def all_cases(case, begin, title):
    """Adds each input: `case` takes the program's words, an input and an answer, `begin` a file, and `title` the name
    and the sentence of the next cases."""
    for name, parts in FILES.items():
        begin(name)
        for part in parts:
            part(Cases(case, title))
