"""Inputs that show operations as JSON objects, by `show all` and `show #N [COUNT]`: by hand, refusals, edits and marks,
opaque terms, lines answered one by one, and as JSON; and random modules from the seed here. mlir_work_cases.py makes
golden files of them. The first answers are written by hand; all answers are those of the rules in Python."""
import json
import random

from oracle import chance, script
from oracle.module import text_of, walk

from tests.generate.trace_cases import SUMS, Cases, over

SEED = 81
BLOCKS = """%0 = "arith.constant"() <{value = 5 : i32}> {tag = "a\\22b\\\\", "two words", z = [1 : i8]} : () -> i32
%1:2 = "test.pair"(%0, %0) ({}, {
^bb0(%a: i64, %b: memref<2xi32>):
  "test.inner"(%0, %a) : (i32, i64) -> ()
  "test.\\C3\\A9 \\22\\\\\\0A"() ({}) : () -> ()
}) : (i32, i32) -> (i1, i64)
"test.last"(%1#1) : (i64) -> ()
"""
FIRST = ('{"attributes":{"tag":"\\"a\\\\22b\\\\\\\\\\"","two words":"unit","z":"[1 : i8]"},"id":"#1",'
         '"kind":"operation","name":"arith.constant","operands":[],"parent":"#0","place":0,'
         '"properties":{"value":"5 : i32"},"region":0,'
         '"regions":[],"results":["i32"]}\n')
PAIR = ('{"attributes":{},"id":"#2","kind":"operation","name":"test.pair","operands":["%v1.0","%v1.0"],"parent":"#0",'
        '"place":1,"properties":{},"region":0,"regions":[[],["i64","memref<2xi32>"]],"results":["i1","i64"]}\n')
ODD = ('{"attributes":{},"id":"#4","kind":"operation","name":"test.\\\\C3\\\\A9 \\\\22\\\\\\\\\\\\0A","operands":[],'
       '"parent":"#2","place":1,"properties":{},"region":1,"regions":[[]],"results":[]}\n')
REFUSED = {
    20: ("show #99", "show #99 4", "show #4294967295", "show #99 0"),
    60: ("show", "show 3", "show #", "show #x", "show #3 -1", "show #3 4294967296", "show #3 4 5", "show #3 all",
         "show all 3", "show all #3", "show #4294967296", "Show all", "shows all", "show All", "show#3", "show %v1.0",
         "show #1 #2", "showall")}


def by_hand(cases):
    """All operations, one, and pages, each with its members."""
    cases.title("show-operations", "An object has the name, operands, types, entries and place of an operation.")
    out = cases.both(over(BLOCKS, "show #1", "show #2 1", "show #4"))
    assert [it + "\n" for it in out.split("\n") if it[:1] == "{"] == [FIRST, PAIR, ODD], out
    cases.title("show-all", "`show all` shows the operations in pre-order, the root first.")
    for module in (BLOCKS, SUMS, ""):
        out = cases.both(over(module, "show all", "show #0", "show #0 4294967295"))
        ids = [json.loads(line)["id"] for line in out.split("\n") if line[:1] == "{"]
        assert ids[:1] == ["#0"] and len(ids) % 2, out
    cases.title("show-pages", "A page begins at an operation and has at most so many.")
    out = cases.both(over(BLOCKS, *[f"show #{op} {count}" for op in (0, 2, 3, 5) for count in (0, 1, 2, 3, 9)]))
    assert out.count('"id":"#5"') == 8, out


def edited(cases):
    """What edits, rewrites and rollbacks leave."""
    cases.title("show-after-edits", "The objects have the places after each edit, and new operations.")
    cases.run(over(BLOCKS, "move #4 before #2", "show #2 3", 'insert after #5 "test.new"(%v1.0) : (i32) -> i8',
                   "show #5 9", "erase #5", "show #5", "show all"))
    cases.title("show-under-marks", "A rollback restores the objects.")
    cases.run(over(SUMS, "begin", "canon", "show all", "rollback", "show all", "set-attr #3 k \"a\\0A\\22\"",
                   "set-operand #4 0 %v3.0", "show #3 2"))


def refused(cases):
    for number, lines in REFUSED.items():
        cases.title(f"show-refused-{number}", f"Lines of `show` that are refused by {number}.")
        out = cases.both(over(SUMS, *lines))
        assert out.count(f" refused {number} ") == len(lines), out
    cases.title("show-expected", "A line may expect a refusal of `show`.")
    cases.both(over(SUMS, "expect 20 show #99", "expect 60 show", "expect 20 show #1", "expect 26 show #99"))


def opaque(cases):
    """Types and attributes that are kept as their texts."""
    cases.title("show-opaque", "Objects have opaque types and attributes as their texts.")
    module = ('%0 = "t.a"() {k = dense<[1, 2]> : tensor<2xi8>, l = #d.x<"é\\"{">, f = 1.5 : f32} : () -> !d.t<"ü">\n'
              '"t.b"(%0) ({\n^bb0(%a: f32):\n}) : (!d.t<"ü">) -> ()\n')
    for brief in (True, False):
        text = over(module, "show all", "show #1")
        cases.case(["--brief"] * brief + ["--opaque"], text, script.run_opaque(text, brief))
        cases.case(["--brief"] * brief, text, script.run(text, brief))


def lived(cases):
    """Runs that answer each line as soon as it arrives."""
    cases.title("show-interactive", "`show` is answered line by line.")
    for module in (BLOCKS, ""):
        for brief in (True, False):
            cases.lived(over(module, "show all", "show #2 2", "erase #5", "show #2 9", "", "// none", "show #9",
                             "print"), brief)
    cases.lived(over(SUMS, "begin", "show #1") + b"show #0 3")


def by_chance(cases):
    """Random modules: pages between edits and marks."""
    cases.title("show-random", "`show` shows pages of random modules, between edits and marks.")
    for number in range(30):
        maker = random.Random(f"{SEED} {number}")
        text = text_of(chance.module(maker, maker.randrange(6, 30), maker.choice([0, 0, 0.1]),
                                     maker.choice(sorted(chance.TASTES))))
        here = script.Run(script.read(text.encode()))
        scripter, lines = chance.Scripter(maker, here), []
        for _ in range(maker.randrange(3, 9)):
            op = maker.choice([*walk(here.module.root)]).id
            line = maker.choice([f"show #{op}", f"show #{op} {maker.randrange(9)}", scripter.edit(), scripter.mark()])
            here.reply(line)
            lines.append(line)
        cases.run(over(text, *lines, "show all", "print ids"), maker.random() < 0.9)


def as_json(cases):
    """The same as JSON, with listings and without."""
    cases.title("show", "JSON has the objects of `show` as they are, and its refusals.")
    for brief in (True, False):
        cases.run(over(BLOCKS, "show all", "show #2 2", "show #9", "show", "expect 20 show #9", "erase #5", "show #0"),
                  brief, form="json")


FILES = {"runs/showing": (by_hand, edited, refused, opaque, lived, by_chance), "json/showing": (as_json,)}


def all_cases(case, begin, title):
    """Adds each input: `case` takes the program's words, an input and an answer, `begin` a file, and `title` the name
    and the sentence of the next cases."""
    for name, parts in FILES.items():
        begin(name)
        for part in parts:
            part(Cases(case, title))
