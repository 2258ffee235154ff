"""Runs with conversions; mlir_work_cases.py makes cases of them. The output is that of the rules
(oracle/conversion.py). For most runs the replies are also written by hand here."""
import itertools
import random

from oracle import script
from oracle.operations import BINARY
from oracle.rewrites import CAST

SEED = 23
DIVIDER = "// -----\n"
CAST = CAST.decode()
INDEXED = sorted(name.decode() for name in BINARY) + ["arith.constant", "arith.cmpi", "arith.select"]
AROUND = "builtin.module,func.func,func.return"


def function(inputs, outputs, body):
    """A function of arguments %a0, %a1 and so on."""
    types = ", ".join(inputs)
    arguments = ", ".join(f"%a{place}: {ty}" for place, ty in enumerate(inputs))
    return (f'"func.func"() <{{function_type = ({types}) -> ({", ".join(outputs)}), sym_name = "f"}}> '
            f'({{\n^bb0({arguments}):\n{body}}}) : () -> ()\n')


def returned(value, ty):
    return f'"func.return"({value}) : ({ty}) -> ()\n'


def constant(name, number, ty="index"):
    return f'%{name} = "arith.constant"() <{{value = {number} : {ty}}}> : () -> {ty}\n'


def on_two(word, a="%a0", b="%a1", ty="i32", name="x"):
    word = word.removeprefix("arith.")
    if word == "cmpi":
        return f'%{name} = "arith.cmpi"({a}, {b}) <{{predicate = 2 : i64}}> : ({ty}, {ty}) -> i1\n'
    return f'%{name} = "arith.{word}"({a}, {b}) : ({ty}, {ty}) -> {ty}\n'


def of_two(word, ty="i32"):
    """A function of two values that one operation is applied to; the operation is #2."""
    out = "i1" if word == "arith.cmpi" else ty
    return function([ty, ty], [out], on_two(word, ty=ty) + returned("%x", out))


REM, MAX = of_two("remsi"), of_two("maxsi")


class Cases:
    def __init__(self, run, title):
        self.run, self.title = run, title

    def due(self, text, answers=None, both=True):
        """A run, brief and with listings; `answers` are those of its conversions, without their numbers."""
        for brief in (True, False)[:1 + both]:
            out = self.run(script.BOXES, text.encode(), brief).decode()
        if answers is not None:
            lines = [line.strip(" \t\r") for line in text.partition(DIVIDER)[2].splitlines()]
            said = [line for line in lines if line and not line.startswith("//")]
            asked = [str(number) for number, line in enumerate(said, 1) if line.startswith("convert")]
            found = [line.split(" ", 1)[1] for line in out.splitlines() if line.split(" ")[0] in asked and " " in line]
            assert found == answers, (text, found)

    def answers(self, module, answers, behind="print\nreport diagnostics\n", both=True):
        """Conversions of one module, each with its answer; the last lines follow each."""
        lines = "".join(f"begin\n{line}\n{behind}rollback\n" for line, _ in answers)
        self.due(module + DIVIDER + lines, [answer for _, answer in answers], both)


BAD, WRONG, NONE = "refused 60 BadCommand", "refused 54 BadTarget", "converted 0"


def clauses(cases):
    """Each clause on both sides of its form and of what it may say."""
    lists = []
    for word in ("legal", "illegal", "dynamic"):
        lists += [(f"{word} t.a", NONE), (f"{word} t.a,t.b,t", NONE), (f"{word} t.a,t.a", WRONG),
                  (f"{word} t.a,t.b,t.a", WRONG), (f"{word} {CAST}", WRONG), (f"{word} t.a,{CAST},t.b", WRONG),
                  (f"{word} {CAST}s", NONE), (f"{word} t.a,", BAD), (f"{word} ,t.a", BAD), (f"{word} t.a,,t.b", BAD),
                  (word, BAD), (f"{word} t.a t.b", BAD), (f"{word} t.a {word} t.b", BAD),
                  (f"{word} t.a,t.a,", BAD), (f'{word} "t.a",#1,//,%v1.0', NONE), (f"{word} \xe9,\xe8", NONE),
                  (f"{word} \xe9,\xe9", WRONG), (f"{word} {word}", NONE)]
    for one, two in itertools.permutations(("legal", "illegal", "dynamic"), 2):
        lists += [(f"{one} t.a {two} t.b", NONE), (f"{one} t.b,t.a {two} t.c,t.a", WRONG)]
    lists += [("dynamic t.c illegal t.b legal t.a", NONE), ("dynamic t.a illegal t.b legal t.a", WRONG),
              ("legal t.a illegal t.b dynamic t.c,t.b", WRONG)]
    rules = [(f"rules {rule}", NONE if rule == 2 or 25 <= rule <= 30 else WRONG) for rule in range(34)]
    rules += [("rules 2,2", NONE), ("rules 30,29,28,27,26,25,2", NONE), ("rules 2,25,1", WRONG), ("rules 24,2", WRONG),
              ("rules 0030", NONE), ("rules 258", WRONG), ("rules 281", WRONG), ("rules 4294967295", WRONG),
              ("rules 4294967298", BAD), ("rules 4294967296", BAD), ("rules 2,", BAD), ("rules ,2", BAD),
              ("rules 2,,25", BAD), ("rules 2,x", BAD), ("rules x", BAD), ("rules -2", BAD), ("rules +2", BAD),
              ("rules", BAD), ("rules 2 rules 2", BAD)]
    depths = [(f"depth {depth}", NONE if 1 <= depth <= 16 else WRONG) for depth in range(20)]
    depths += [("depth 016", NONE), ("depth 00", WRONG), ("depth 257", WRONG), ("depth 4294967295", WRONG),
               ("depth 4294967296", BAD), ("depth 4294967297", BAD), ("depth 1,2", BAD), ("depth", BAD),
               ("depth 1 depth 1", BAD), ("depth x", BAD)]
    others = [("", NONE), ("depth 16 rules 2 dynamic t.a", NONE), ("depth 17 rules 1", WRONG),
              ("legal t.a rules 1 depth 0", WRONG), ("rule 2", BAD), ("Legal t.a", BAD), ("limit 1", BAD),
              ("legal t.a depth 1 x", BAD), ("//", BAD)]
    module = '"t.b"() : () -> ()\n'
    mended = [(clause, answer.replace(NONE, "refused 51 NotLegalised #1") if illegal_in(clause) else answer) for clause,
              answer in lists + rules + depths + others]
    cases.title("clauses", "Each clause of `convert` accepts some names, rules and depths, and refuses others.")
    for part in range(0, len(mended), 24):
        cases.due(module + DIVIDER + "".join(f"convert partial {clause}\n" for clause, _ in mended[part:part + 24])
                  + "print\n", [answer for _, answer in mended[part:part + 24]], both=False)
    cases.title("modes", "`convert` needs `full` or `partial` in small letters before its clauses.")
    cases.answers("", [("convert", BAD), ("convert full", "refused 51 NotLegalised #0"), ("convert partial", NONE),
                       ("convert Partial", BAD), ("convert partial full", BAD), ("convert legal t.a", BAD),
                       ("convert full legal builtin.module", NONE), ("convert\tfull\t legal  builtin.module\r", NONE),
                       ("convert partially", BAD), ("converts partial", BAD),
                       ("convert full dynamic builtin.module", NONE),
                       ("convert full illegal builtin.module", "refused 51 NotLegalised #0"),
                       ("convert partial illegal builtin.module rules 2,25,26,27,28,29,30",
                        "refused 51 NotLegalised #0")])


def illegal_in(clause):
    """Whether a clause that is accepted names t.b as illegal."""
    words = clause.split()
    return any(word == "illegal" and "t.b" in names.split(",") for word, names in zip(words[::2], words[1::2]))


def partial_and_full(cases):
    """Which operations are legal, and what each mode asks for in the end."""
    cases.title("partial-and-full",
                "Full mode refuses each operation that isn't legal, partial mode illegal ones alone.")
    both = "illegal arith.remsi rules 27"
    cases.answers(REM, [("convert partial illegal arith.remsi", "refused 51 NotLegalised #2"),
                        ("convert partial illegal arith.remsi rules 25,26,28", "refused 51 NotLegalised #2"),
                        ("convert partial legal arith.remsi", NONE), ("convert partial", NONE),
                        ("convert full " + both, "refused 51 NotLegalised #0"),
                        ("convert full legal builtin.module " + both, "refused 51 NotLegalised #1"),
                        (f"convert full legal builtin.module,func.func {both}", "refused 51 NotLegalised #2"),
                        (f"convert full legal {AROUND} {both}", "refused 51 NotLegalised #2"),
                        (f"convert full legal {AROUND},arith.divsi,arith.subi {both}", "refused 51 NotLegalised #2"),
                        (f"convert full legal {AROUND},arith.divsi,arith.muli,arith.subi {both}", "converted 1"),
                        (f"convert full legal {AROUND},arith.divsi,arith.muli,arith.subi",
                         "refused 51 NotLegalised #2"), ("convert partial illegal arith.divsi,arith.muli", NONE)])
    cases.title("conversions-in-a-row",
                "Conversions of one module, each of what the one before it made, and one refused between them.")
    cases.due(REM + DIVIDER
              + f"convert partial {both}\nconvert full legal {AROUND},arith.divsi,arith.muli,arith.subi\nconvert "
                f"partial illegal arith.divsi,arith.muli\nconvert partial illegal arith.subi rules 26\nprint\n",
              ["converted 1", NONE, "refused 51 NotLegalised #4", "converted 1"])
    # What is legal at its turn and isn't any more at the end: full mode looks again, partial mode doesn't.
    cases.title("dynamic-operations",
                "A dynamic operation is legal as long as it has no `index`, and full mode checks again "
                "at the end.")
    dynamic = "dynamic func.func,func.return,builtin.module,test.d,test.u"
    cases.answers('%0 = "test.d"() : () -> index\n"test.u"(%0) : (index) -> ()\n',
                  [("convert partial " + dynamic, "refused 51 NotLegalised #1"),
                   ("convert partial dynamic test.u", "refused 51 NotLegalised #2"),
                   ("convert partial legal test.d,test.u", NONE),
                   ("convert full legal builtin.module,test.d dynamic test.u", "refused 51 NotLegalised #2"),
                   ("convert full legal builtin.module dynamic test.u,test.d", "refused 51 NotLegalised #1"),
                   ("convert full legal builtin.module,test.u,test.d", NONE)])
    cases.title("refused-conversion-takes-no-id", "A refused conversion gives no id away.")
    cases.due(REM + DIVIDER
              + 'begin\nconvert partial illegal arith.remsi,arith.divsi rules 27\ninsert end #0 0 "t.z"() : () -> '
                '()\nrollback\nconvert partial illegal arith.remsi rules 27\n'
              'insert end #0 0 "t.z"() : () -> ()\nreport uses\nrollback\nprint\n',
              ["refused 51 NotLegalised #2", "converted 1"])
    cases.title("conversion-under-marks", "A conversion is rolled back, made again and committed.")
    cases.due(REM + DIVIDER
              + 'begin\nconvert partial illegal arith.remsi rules 27\nreport uses\nrollback\nreport '
                'uses\nprint\nbegin\nconvert partial illegal arith.remsi rules 27\ncommit\nreport uses\nprint\n',
                ["converted 1"] * 2)


def depths(cases):
    """Chains of rules, each depth on both sides."""
    names = "arith.remsi,arith.subi,arith.addi"
    for depth, answers in ((1, ["refused 52 ChainTooDeep #2"] * 3),
                           (2, ["refused 52 ChainTooDeep #2", "converted 2", "refused 52 ChainTooDeep #2"]),
                           (3, ["refused 51 NotLegalised #2", "converted 2", "refused 51 NotLegalised #2"]),
                           (4, ["refused 51 NotLegalised #2", "converted 2", "refused 51 NotLegalised #2"])):
        cases.title(f"depth-{depth}-of-two-rules",
                    f"Depth {depth} allows chains of up to {depth} rules, in two orders of rules.")
        cases.answers(REM, list(zip((f"convert partial illegal {names} rules 27,26 depth {depth}",
                                     f"convert partial illegal arith.remsi,arith.subi rules 27,26 depth {depth}",
                                     f"convert partial illegal {names} rules 26,27 depth {depth}"), answers)))
    # An index, a remainder of i64, a difference, a sum: three rules after one another, each of those that are made at
    # the next level.
    cases.title("depths-of-three-rules",
                "A remainder of `index` is converted by as many rules as the depth allows, in five orders of rules.")
    wide = of_two("remsi", "index")
    for rules in ("28,27,26", "26,27,28", "27,28,26", "27,26,28,2", "2,28,27,26"):
        for depth in (1, 2, 3, 4, 16):
            cases.due(wide + DIVIDER
                      + f"convert partial illegal arith.remsi,arith.subi rules {rules} depth {depth}\nprint\n",
                      both=depth == 3)
            cases.due(wide + DIVIDER
                      + f"convert partial illegal arith.subi dynamic arith.remsi rules {rules} depth {depth}\nprint\n",
                      both=False)
            cases.due(wide + DIVIDER
                      + f"convert full legal {AROUND},arith.muli,arith.divsi,arith.xori,arith.addi,arith.constant "
                        f"illegal arith.remsi,arith.subi rules {rules} depth {depth}\nprint\n", both=False)
    cases.title("depths-of-folds", "Operations that a rule made fold, at depths 1 to 4 and in six orders of rules.")
    # With known constants: the operations that a rule made fold, some of them after another rule.
    known = function([], ["i64"], constant("a", 7, "i64") + constant("b", 3, "i64") + on_two("remsi", "%a", "%b", "i64")
                     + returned("%x", "i64"))
    illegal = "illegal arith.remsi,arith.divsi,arith.muli,arith.subi,arith.xori,arith.addi"
    for rules, depth in itertools.product(("27,26,2", "27,2,26", "2,27", "26,27", "27,2", "27,27,2,2"), (1, 2, 3, 4)):
        cases.due(known + DIVIDER + f"convert partial {illegal} rules {rules} depth {depth}\nprint\n", both=rules
                  == "27,26,2")


def each_rule(cases):
    """Rules 25 to 30 at each operation of arith, of i32, i1 and index, alone and with the rule that hands an index
    on."""
    for name, ty in itertools.product(INDEXED, ("i32", "i1", "index")):
        cases.title(f"{name.replace('.', '-')}-of-{ty}",
                    f"`{name}` of `{ty}` is converted or stays under each rule alone and under all rules.")
        if name == "arith.constant":
            module = function([], [ty], constant("x", 1 if ty != "i1" else -1, ty) + returned("%x", ty))
        elif name == "arith.select":
            module = function(["i1", ty, ty], [ty], f'%x = "arith.select"(%a0, %a1, %a2) : (i1, {ty}, {ty}) -> {ty}\n'
                              + returned("%x", ty))
        else:
            module = of_two(name, ty)
        for rules in ("28", "2,25,26,27,28,29,30") if ty == "i1" else (
            "25", "26", "27", "28", "2", "2,25,26,27,28,29,30", "30,29,28,27,26,25,2"):
            lines = [f"convert {mode} {word} {name} rules {rules}" for mode,
                     word in (("partial", "illegal"), ("partial", "dynamic"))]
            if "," in rules:
                others = ",".join(it for it in INDEXED if it != name)
                lines += [f"convert full legal {AROUND},arith.index_cast,{others} {word} {name} rules {rules}"
                          for word in ("dynamic", "illegal")]
            cases.due(module + DIVIDER + "begin\n" + "".join(f"{line}\nprint\nrollback\nbegin\n" for line in lines),
                      both=False)


LOOP = """%r:2 = "scf.for"(%a0, %a1, %a2, %a0, %a3) ({
^bb0(%i: index, %x: index, %y: i32):
  %s = "arith.addi"(%i, %x) : (index, index) -> index
  %c = "arith.cmpi"(%s, %a1) <{predicate = 6 : i64}> : (index, index) -> i1
  %t:2 = "scf.if"(%c) ({
    %u = "arith.muli"(%s, %i) : (index, index) -> index
    "scf.yield"(%u, %y) : (index, i32) -> ()
  }, {
    %v:2 = "scf.for"(%i, %a1, %a2, %y, %x) ({
    ^bb1(%j: index, %z: i32, %w: index):
      %m = "memref.load"(%a4, %j) : (memref<4xi32>, index) -> i32
      %n = "arith.maxui"(%w, %j) : (index, index) -> index
      "scf.yield"(%m, %n) : (i32, index) -> ()
    }) {k = 1 : index} : (index, index, index, i32, index) -> (i32, index)
    "scf.yield"(%v#1, %v#0) : (index, i32) -> ()
  }) : (i1) -> (index, i32)
  "scf.yield"(%t#0, %t#1) : (index, i32) -> ()
}) : (index, index, index, index, i32) -> (index, i32)
"""
NESTED = function(["index", "index", "index", "i32", "memref<4xi32>"], ["index", "i32"], LOOP
                  + '"func.return"(%r#0, %r#1) : (index, i32) -> ()\n')
BRANCHES = function(["i1", "index"], ["index"], """%r:3 = "scf.if"(%a0) ({
  %p:2 = "scf.if"(%a0) ({
    "scf.yield"(%a1, %a1) : (index, index) -> ()
  }, {
    %q = "test.d"() : () -> index
    "scf.yield"(%q, %a1) : (index, index) -> ()
  }) : (i1) -> (index, index)
  "scf.yield"(%p#1, %a0, %p#0) : (index, i1, index) -> ()
}, {
  "scf.yield"(%a1, %a0, %a1) : (index, i1, index) -> ()
}) {k = "v"} : (i1) -> (index, i1, index)
"scf.if"(%r#1) ({
  "test.u"(%r#2) : (index) -> ()
  "scf.yield"() : () -> ()
}, {}) : (i1) -> ()
""" + returned("%r#0", "index"))
SMALL = function(["i32", "i32", "i32"], ["i32"], """%r = "scf.for"(%a0, %a1, %a2, %a0) ({
^bb0(%i: i32, %x: i32):
  "scf.yield"(%x) : (i32) -> ()
}) : (i32, i32, i32, i32) -> i32
""" + returned("%r", "i32"))
USERS = ",".join(INDEXED)


def nested(cases):
    """Loops and choices of index, inside one another, with arguments and results of index."""
    targets = ["dynamic scf.for rules 29", "dynamic scf.if rules 30", "dynamic scf.for,scf.if rules 29,30",
               "dynamic scf.for,scf.if rules 30,29", f"dynamic {USERS} rules 28",
               f"dynamic {USERS},scf.for,scf.if rules 28,29,30",
               f"dynamic {USERS},scf.for,scf.if,scf.yield rules 28,29,30",
               f"dynamic {USERS},scf.for,scf.if,memref.load rules 28,29,30", "illegal scf.for rules 29",
               "illegal scf.if rules 30", "illegal scf.for,scf.if rules 29,30 depth 1",
               "dynamic scf.for illegal scf.if rules 29,30", "dynamic scf.for,func.func rules 29",
               "dynamic scf.for,scf.if rules 28", f"dynamic {USERS},scf.for,scf.if rules 2,30,29,28,2",
               f"dynamic {USERS},scf.for,scf.if rules 30,29,28,27,26,25"]
    full = [f"legal {AROUND},arith.index_cast,memref.load,scf.yield,test.u,test.d dynamic {USERS},scf.for,scf.if "
            f"rules 28,29,30", f"legal {AROUND},arith.index_cast,memref.load,test.u,test.d dynamic "
                               f"scf.yield,{USERS},scf.for,scf.if rules 28,29,30",
            f"legal {AROUND},memref.load,scf.yield,test.u,test.d dynamic {USERS},scf.for,scf.if rules 28,29,30",
            f"legal {AROUND},arith.index_cast,scf.yield dynamic {USERS},scf.for,scf.if rules 28,29,30"]
    titles = {NESTED: ("loops-in-a-loop",
                       "A loop of `index` with a branch and a loop inside is converted for each target and depth."),
              BRANCHES: ("branch-in-a-branch",
                         "Branches with results of `index` are converted for each target and depth."),
              SMALL: ("loop-without-index", "A loop of `i32` is lowered by no rule, for each target and depth.")}
    for module, depth in itertools.product((NESTED, BRANCHES, SMALL),
                                           ("", " depth 1", " depth 2", " depth 3", " depth 4")):
        cases.title(*titles[module])
        for mode, clauses in [("partial", it) for it in targets] + [("full", it) for it in full]:
            if "depth" not in clauses:
                cases.due(module + DIVIDER + f"convert {mode} {clauses}{depth}\nprint\nreport diagnostics\n"
                          + 'insert end #0 0 "t.z"() : () -> ()\n', both=not depth and mode == "full")
    cases.title("one-rule-after-another",
                "Loops, branches and the rest are lowered at once, canonicalized, rolled back, and "
                "lowered one rule at a time.")
    for module in (NESTED, BRANCHES):
        cases.due(module + DIVIDER
                  + f"begin\nconvert partial dynamic {USERS},scf.for,scf.if rules "
                    f"28,29,30\ncanon\nprint\nrollback\nconvert partial dynamic scf.for rules 29\nconvert partial "
                    f"dynamic scf.if rules 30\n"
                  f"convert partial dynamic {USERS} rules 28\nconvert partial dynamic {USERS},scf.for,scf.if\nprint\n")


def unclean(cases):
    """Rules don't apply at operations that are wrong or have further properties."""
    wrong = "A rule doesn't apply to a remainder with {}."
    for name, sentence, body in (
            ("further-property", wrong.format("a further property"),
             on_two("remsi").replace(") :", ") <{p = 1 : i32}> :")),
            ("attribute", "An attribute of a remainder doesn't keep a rule from it.",
             on_two("remsi").replace(") :", ") {k = 1 : index} :")),
            ("two-results", wrong.format("two results"),
             '%x, %y = "arith.remsi"(%a0, %a1) : (i32, i32) -> (i32, i32)\n'),
            ("one-operand", wrong.format("one operand"), '%x = "arith.remsi"(%a0) : (i32) -> i32\n'),
            ("operands-of-two-types", wrong.format("operands of two types"),
             '%x = "arith.remsi"(%a0, %b) : (i32, i64) -> i32\n'),
            ("region", wrong.format("a region"), '%x = "arith.remsi"(%a0, %a1) ({}) : (i32, i32) -> i32\n')):
        cases.title(f"remainder-with-{name}", sentence)
        module = function(["i32", "i32"], ["i32"], constant("b", 1, "i64") + body + returned("%x", "i32"))
        answer = "converted 1" if name == "attribute" else "refused 51 NotLegalised #3"
        cases.answers(module, [("convert partial illegal arith.remsi rules 27,26,2", answer)])
    for name, line in (("attribute", "set-attr #2 k unit"),
                       ("overflow-flags", "set-attr #2 overflowFlags #arith.overflow<nsw>"),
                       ("operand-of-return", "set-operand #3 0 %a1.0.0"),
                       ("function-type-dropped", "drop-attr #1 function_type")):
        cases.title(f"converted-after-edit-of-{name}", f"A difference is converted after `{line}`.")
        cases.due(of_two("subi") + DIVIDER
                  + f"{line}\nconvert partial illegal arith.subi rules 26\nprint\nreport diagnostics\n")
    cases.title("flags-and-attributes", "A difference with overflow flags and an attribute is converted.")
    flagged = of_two("subi").replace("%a1) :", "%a1) <{overflowFlags = #arith.overflow<nsw, nuw>}> {k = 1 : i8} :")
    cases.answers(flagged, [("convert partial illegal arith.subi rules 26", "converted 1")])
    cases.title("flags-and-attributes-of-index",
                "A difference of `index` with flags is converted by one rule or by two.")
    cases.answers(flagged.replace("i32", "index"),
                  [("convert partial dynamic arith.subi rules 28", "converted 1"),
                   ("convert partial illegal arith.subi rules 28,26", "converted 2")])


def cast(value, start, end, name="c", more=""):
    starts, ends = ", ".join(start), ", ".join(end)
    names = f"%{name}:{len(end)} = " if len(end) > 1 else f"%{name} = " if end else ""
    return f'{names}"{CAST}"({value}){more} : ({starts}) -> ({ends})\n'


def user(value="%c", ty="index"):
    return f'"test.u"({value}) : ({ty}) -> ()\n'


def casts(cases):
    """Casts are reconciled, or can't be."""
    given = lambda ty, name="d": f'%{name} = "test.d"() : () -> {ty}\n'
    left = "refused 53 Unreconciled "
    for name, sentence, text, answer in (("cast-of-i64-to-index",
                                          "A used cast of `i64` to `index` becomes an `arith.index_cast`.",
                                          given("i64") + cast("%d", ["i64"], ["index"]) + user(), NONE),
                         ("cast-of-index-to-i64", "A used cast of `index` to `i64` becomes an `arith.index_cast`.",
                          given("index") + cast("%d", ["index"], ["i64"]) + user(ty="i64"), NONE),
                         ("cast-of-i32-to-index", "A used cast of `i32` to `index` is left, and refused by 53.",
                          given("i32") + cast("%d", ["i32"], ["index"]) + user(), left + "#2"),
                         ("cast-of-i32-to-i64", "A used cast of `i32` to `i64` is left, and refused by 53.",
                          given("i32") + cast("%d", ["i32"], ["i64"]) + user(ty="i64"), left + "#2"),
                         ("cast-to-same-type", "A cast of a type to itself goes, and its operand is used.",
                          given("i32") + cast("%d", ["i32"], ["i32"]) + user(ty="i32"), NONE),
                         ("cast-of-index-to-index", "A cast of `index` to itself goes too.",
                          given("index") + cast("%d", ["index"], ["index"]) + user(), NONE),
                         ("unused-cast", "An unused cast is erased, whatever its types are.",
                          given("i32") + cast("%d", ["i32"], ["i64"]), NONE), ("unused-cast-without-operand",
                                                                               "An unused cast without an operand "
                                                                               "is erased.",
                                                                               cast("", [], ["index"]), NONE),
                         ("used-cast-without-operand", "A used cast without an operand is left.",
                          cast("", [], ["index"]) + user(), left + "#1"), ("cast-of-nothing",
                                                                           "A cast without operands and results is "
                                                                           "erased.",
                                                                           cast("", [], []), NONE),
                         ("cast-without-results", "A cast without results is erased.",
                          given("i64") + cast("%d", ["i64"], []), NONE),
                         ("cast-of-two-values", "A used cast of two values is left.",
                          given("i64") + cast("%d, %d", ["i64", "i64"], ["index"]) + user(), left + "#2"),
                         ("cast-to-two-values", "A cast to two values of which one is used is left.",
                          given("i64") + cast("%d", ["i64"], ["index", "index"]) + user("%c#1"), left + "#2"),
                         ("cast-with-property-and-attribute",
                          "A property and an attribute don't keep a cast from becoming an `arith.index_cast`.",
                          given("i64") + cast("%d", ["i64"], ["index"], more=" <{p = 1 : i32}> {k}") + user(), NONE),
                         ("cast-with-region",
                          "A region doesn't keep a cast from becoming an `arith.index_cast`, and is erased with it.",
                          given("i64") + cast("%d", ["i64"], ["index"], more=' ({ "test.a"() : () -> () })') + user(),
                          NONE),
                         ("cast-with-cast-inside",
                          "A cast that can't be reconciled is erased with the cast around it.",
                          given("i64") + cast("%d", ["i64"], ["index"], more=' ({ %e = "test.d"() : () -> i32\n'
                                              + cast("%e", ["i32"], ["index"], "f") + user("%f") + " })") + user(),
                                              NONE),
                         ("cast-there-and-back", "Two casts of `i32` to `index` and back go, and the value is used.",
                          given("i32") + cast("%d", ["i32"], ["index"]) + cast("%c", ["index"], ["i32"], "e")
                          + user("%e", "i32"), NONE),
                          ("cast-there-and-back-both-used",
                           "If the first of two casts there and back is used, it is left.",
                           given("i32") + cast("%d", ["i32"], ["index"]) + cast("%c", ["index"], ["i32"], "e")
                           + user("%e", "i32") + user(), left + "#2"),
                         ("cast-to-third-type", "Two casts that end at another type are left.",
                          given("i32") + cast("%d", ["i32"], ["index"]) + cast("%c", ["index"], ["i64"], "e")
                          + user("%e", "i64"), left + "#2"),
                          ("cast-of-index-there-and-back", "Two casts of `index` to `i64` and back go.",
                           given("index") + cast("%d", ["index"], ["i64"]) + cast("%c", ["i64"], ["index"], "e")
                           + user("%e"), NONE),
                         ("cast-through-i32-to-index",
                          "Two casts of `i64` to `i32` and to `index` are left, and the first is reported.",
                          given("i64") + cast("%d", ["i64"], ["i32"]) + cast("%c", ["i32"], ["index"], "e")
                          + user("%e"), left + "#2"),
                         ("cast-three-times", "Of three casts there, back and there the last one is left.",
                          given("i8") + cast("%d", ["i8"], ["i16"]) + cast("%c", ["i16"], ["i8"], "e")
                          + cast("%e", ["i8"], ["i16"], "g") + user("%g", "i16"), left + "#4"),
                         ("cast-there-with-property-and-back", "A first cast with a property is left.",
                          given("i8") + cast("%d", ["i8"], ["i16"], more=" <{p}>") + cast("%c", ["i16"], ["i8"], "e")
                          + user("%e", "i8"), left + "#2"),
                         ("cast-there-and-back-with-attribute",
                          "A second cast with an attribute goes with the first one.",
                          given("i8") + cast("%d", ["i8"], ["i16"]) + cast("%c", ["i16"], ["i8"], "e", " {k}")
                          + user("%e", "i8"), NONE),
                         ("cast-of-i128-there-and-back", "Two casts of `i128` to `index` and back go.",
                          given("i128") + cast("%d", ["i128"], ["index"]) + cast("%c", ["index"], ["i128"], "e")
                          + user("%e", "i128"), NONE),
                          ("two-casts-of-which-one-is-left",
                           "Of two casts to `index`, of `i64` and of `i8`, the second is left and reported.",
                           given("i64") + given("i8", "e") + cast("%e", ["i8"], ["index"], "f")
                           + cast("%d", ["i64"], ["index"]) + user() + user("%f"), left + "#3")):
        cases.title(name, sentence)
        cases.answers(text, [("convert partial", answer), ("convert partial rules 28", answer)],
                      'print\nreport dead\nreport uses\ninsert end #0 0 "t.z"() : () -> ()\n')
        cases.answers(text, [("convert full legal builtin.module,test.d,test.u,test.a", answer if "index_cast" in answer
                              or answer != NONE else full_answer(text))])
    cases.title("cast-inside-a-cast", "A cast inside a cast that is unused is erased with it.")
    cases.answers(f'"{CAST}"() ({{ {given("i64")} {cast("%d", ["i64"], ["index"])} {user()} }}) : () -> ()\n',
                  [("convert partial", NONE)])
    # A loop and what is around it: casts that its rules made collapse with those of others.
    pair = function(["i64", "i64", "i64"], [], cast("%a0", ["i64"], ["index"], "l")
                    + cast("%a1", ["i64"], ["index"], "u") + cast("%a2", ["i64"], ["index"], "s")
                    + '"scf.for"(%l, %u, %s) ({\n^bb0(%i: index):\n' + cast("%i", ["index"], ["i64"], "j")
                    + user("%j", "i64") + '"scf.yield"() : () -> ()\n}) : (index, index, index) -> '
                                          '()\n"func.return"() : () -> ()\n')
    cases.title("casts-around-a-loop",
                "Casts around and inside a loop are reconciled, before and after the loop is lowered.")
    cases.answers(pair, [("convert partial", NONE), ("convert partial dynamic scf.for rules 29", "converted 1")])
    cases.title("full-conversion-after-lowering", "A lowered loop is legal in full mode, since its casts are gone.")
    cases.due(pair + DIVIDER
              + f"convert partial dynamic scf.for rules 29\nconvert full legal {AROUND},test.u,scf.yield dynamic "
                f"scf.for\nprint\nreport uses\n", ["converted 1", NONE])


def full_answer(text):
    """Where casts are reconciled by `arith.index_cast`, full mode finds that it is no legal operation."""
    module = script.read(text.encode())
    reconciled = script.conversion.reconciled(module)
    made = [number for number, op in sorted(reconciled.ops().items()) if op.name == b"arith.index_cast"]
    order = [op.id for op in script.conversion.walk(reconciled.root)]
    return f"refused 51 NotLegalised #{min(made, key=order.index)}" if made else NONE


def by_chance(cases):
    """Several random conversions of one module, each after a mark that is rolled back or not."""
    cases.title("random-conversions",
                "Seven modules are converted for random targets, under marks that are rolled back or not.")
    maker = random.Random(SEED)
    modules = [NESTED, BRANCHES, SMALL, REM, MAX, of_two("remui", "index"), of_two("minui", "index")]
    for _ in range(160):
        lines = []
        for _ in range(maker.randrange(1, 4)):
            names = maker.sample(INDEXED + ["scf.for", "scf.if", "scf.yield", "arith.index_cast"],
                                 maker.randrange(1, 9))
            cuts = sorted(maker.randrange(len(names) + 1) for _ in range(2))
            lists = {"legal": names[:cuts[0]], "illegal": names[cuts[0]:cuts[1]], "dynamic": names[cuts[1]:]}
            clauses = [f"{word} {','.join(them)}" for word, them in lists.items() if them]
            clauses += ["rules " + ",".join(map(str, maker.sample([2, 25, 26, 27, 28, 29, 30], maker.randrange(1, 8)))),
                        f"depth {maker.choice([1, 2, 3, 4, 16])}"]
            maker.shuffle(clauses)
            lines += maker.choice([["begin"], [],
                                   []]) + [f"convert {maker.choice(['partial', 'partial', 'full'])} "
                                           f"{' '.join(clauses)}"] + maker.choice(
                                               [["rollback"], ["report constants"], []])
        cases.due(maker.choice(modules) + DIVIDER + "\n".join(lines) + "\nreport dead\nprint\n", both=False)


def all_cases(run, begin, title):
    """Makes all cases. `begin` is given the file of each part of them, and `title` the names of the next cases."""
    cases = Cases(run, title)
    for part in (clauses, partial_and_full, depths, each_rule, nested, unclean, casts, by_chance):
        begin(f"conversion/{part.__name__}")
        part(cases)
