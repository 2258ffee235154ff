"""Whole runs with the listeners of uses and diagnostics, and what they write by the rules (oracle);
analyses_cases.py makes cases of them. `case` adds a case of a text, and `title` names the next cases.

The first cases are those of oracle/examples.py, whose rows are written by hand: for each rule a module that breaks
it and one that doesn't, what silences what, unlisted operations, edges. Then each listed operation with one change of
each kind (oracle/variations.py), scripts that set operands, and random modules, from the seed below."""
import random

from oracle import chance, examples, script, variations
from oracle.module import text_of

SEED = 18
MODULES = 500
BOXES = ("uses", "diagnostics")
ASKED = b"// -----\nreport diagnostics\n"


def by_hand(case, title):
    """The examples, whose rows must be the same by the rules."""
    for number, (broken, rows, mended) in examples.RULES.items():
        name, sentence = examples.TITLES[number]
        title(name, sentence)
        assert case(broken.encode() + ASKED).decode().splitlines()[1:] == rows, broken
        title(f"{name}-mended", f"The module that breaks V{number} is mended, and breaks no rule.")
        assert case(mended.encode() + ASKED).decode().splitlines()[1:] == [], mended
    for name, sentence, text, want in examples.SILENCED + examples.UNLISTED + examples.EDGES:
        title(name, sentence)
        assert case(text.encode() + ASKED).decode().splitlines()[1:] == want, text


TYPED = """%a = "test.d"() : () -> i32
%b = "test.d"() : () -> i64
%c = "test.d"() : () -> i1
%i = "test.d"() : () -> index
%m = "test.d"() : () -> memref<?xi32>
"""
# A name, a sentence, a module, and edits. The rows are reported after each edit.
SCRIPTS = [
    ("edits-of-a-sum", "Rows of a sum as its operands and those of its user change.",
     TYPED + '%0 = "arith.addi"(%a, %a) : (i32, i32) -> i32\n"test.u"(%0) : (i32) -> ()\n',
     ["#6 0 %v2.0", "#6 1 %v2.0", "#6 0 %v1.0", "#7 0 %v2.0", "#6 1 %v1.0", "#6 2 %v1.0", "#6 0 %v6.0"]),
    ("edits-of-memory-operations", "Rows of a load and a store as their memref, index and value change.",
     TYPED + '%0 = "memref.load"(%m, %i) : (memref<?xi32>, index) -> i32\n"memref.store"(%a, %m, %i) : (i32, '
             'memref<?xi32>, index) -> ()\n',
     ["#6 0 %v1.0", "#6 1 %v1.0", "#6 0 %v5.0", "#6 1 %v4.0", "#7 0 %v2.0", "#7 1 %v3.0", "#7 2 %v1.0", "#7 1 %v5.0",
      "#7 0 %v6.0"]),
    ("edits-of-a-branch", "Rows of a branch and its two yields as their operands change.",
     TYPED + '%0 = "scf.if"(%c) ({\n"scf.yield"(%a) : (i32) -> ()\n}, {\n"scf.yield"(%a) : (i32) -> ()\n}) : (i1) -> '
             'i32\n',
     ["#7 0 %v2.0", "#8 0 %v3.0", "#6 0 %v1.0", "#7 0 %v1.0", "#8 0 %v1.0", "#6 0 %v3.0"]),
    ("edits-of-a-loop", "Rows of a loop and its yield as bounds, initial value and yielded value change.",
     TYPED + '%0 = "scf.for"(%i, %i, %i, %a) ({\n^bb0(%k: index, %x: i32):\n%y = "arith.addi"(%x, %a) : (i32, i32) -> '
             'i32\n"scf.yield"(%y) : (i32) -> ()\n})'
     ' : (index, index, index, i32) -> i32\n',
     ["#8 0 %a6.0.0", "#6 0 %v1.0", "#6 3 %v2.0", "#8 0 %a6.0.1", "#6 1 %v1.0", "#6 2 %v1.0", "#6 0 %v4.0"]),
    ("edits-of-a-while-loop", "Rows of a while loop, its condition and its yield as their operands change.",
     TYPED + '%0 = "scf.while"(%a) ({\n^bb0(%x: i32):\n"scf.condition"(%c, %b) : (i1, i64) -> ()\n}, {\n^bb0(%y: '
             'i64):\n"scf.yield"(%a) : (i32) -> ()\n}) : (i32) -> i64\n',
     ["#7 1 %a6.0.0", "#7 0 %v1.0", "#8 0 %a6.1.0", "#7 1 %v2.0", "#7 0 %v3.0", "#8 0 %v1.0", "#6 0 %v2.0"]),
    ("edits-of-a-return", "The row of a return as its operand changes.",
     '"func.func"() <{function_type = (i32, i64) -> i32, sym_name = "f"}> ({\n^bb0(%a: i32, %b: '
     'i64):\n"func.return"(%a) : (i32) -> ()\n}) : () -> ()\n',
     ["#2 0 %a1.0.1", "#2 0 %a1.0.0", "#2 1 %a1.0.0", "#2 0 %v2.0"]),
    ("edits-of-casts-and-an-allocation", "Rows of two casts and an allocation as their operands change.",
     TYPED + '%0 = "arith.extsi"(%a) : (i32) -> i64\n%1 = "arith.index_cast"(%i) : (index) -> i32\n%2 = '
             '"memref.alloc"(%i) : (index) -> memref<?xi32>\n',
     ["#6 0 %v2.0", "#6 0 %v4.0", "#7 0 %v1.0", "#8 0 %v7.0", "#6 0 %v3.0", "#7 0 %v5.0"]),
]


def scripts(case, title):
    for name, sentence, text, edits in SCRIPTS:
        title(name, sentence)
        commands = "".join(f"set-operand {edit}\nreport diagnostics\n" for edit in edits)
        case((text + "// -----\nreport diagnostics\n" + commands).encode())
        case((text + "// -----\n" + "".join(f"set-operand {edit}\n" for edit in edits)).encode(), brief=False)
    title("reports-of-empty-module", "Reports of an empty module have no rows.")
    case(b"// -----\nreport diagnostics\nreport uses\nreport symbols\nprint\njump\n", brief=False)
    title("refused-edit-keeps-rows", "A refused edit changes no row, of a module for each rule.")
    for broken, _, _ in examples.RULES.values():
        case((broken + "// -----\nset-operand #0 0 %v1.0\nreport diagnostics\n").encode(), brief=False)


def edited(maker, text):
    """A module with a script that sets operands."""
    run = script.Run(script.read(text), BOXES, script.FIRST)
    scripter, lines = chance.Scripter(maker, run), ["report diagnostics"]
    for _ in range(maker.randrange(1, 5)):
        line = scripter.set_operand()
        run.reply(line)
        lines += [line, "report diagnostics"]
    return text + ("// -----\n" + "\n".join(lines) + "\n").encode()


def by_chance(case):
    maker = random.Random(SEED)
    for number in range(MODULES):
        text = text_of(chance.module(maker, maker.randrange(4, 15), maker.choice([0.05, 0.2, 0.35]))).encode()
        case(edited(maker, text) if number % 4 == 0 else text + ASKED, brief=number % 20 != 0)


def all_cases(case, begin, title):
    """Makes a case of each: of a text, and whether the module is not listed after each command."""
    begin("verifier/by_hand")
    by_hand(case, title)
    begin("verifier/scripts")
    scripts(case, title)
    begin("verifier/variations")
    for name, text in variations.named_texts():
        if name:
            title(f"changed-{name.replace('.', '-').replace('_', '-')}",
                  f"A right `{name}` breaks no rule, and one change of an operand, result, region or property may.")
        else:
            title("operations-in-each-parent",
                  "Terminators, functions, modules and others break rules by their parents.")
        case(text + ASKED)
    begin("verifier/by_chance", "random-modules",
          "Random modules break the rules that are reported, also after random edits of operands.")
    by_chance(case)
