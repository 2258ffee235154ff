"""Reports of one operation or one value; mlir_work_cases.py makes golden files of them. The answers are those of the
rules (oracle). Random cases come from the seed below."""
import random

from tests.generate.analyses_cases import NEAR
from oracle import chance, script
from oracle.module import text_of, value_text, walk

SEED = 56
MODULES, EDITED = 3, 3
DIVIDER = "// -----\n"
# Of each kind a module, and for words of it the rows.
BY_HAND = {
    "uses": ('%a:2 = "t.a"() : () -> (i8, i8)\n"t.b"(%a#1, %a#0, %a#1) ({\n^bb0(%x: i1, %y: i8):\n'
             '  "t.c"(%y, %x, %a#0) : (i8, i1, i8) -> ()\n}) : (i8, i8, i8) -> ()\n',
             {"#1": ["%v1.0 #2 1", "%v1.0 #3 2", "%v1.1 #2 0", "%v1.1 #2 2"], "%v1.0": ["%v1.0 #2 1", "%v1.0 #3 2"],
              "%v1.1": ["%v1.1 #2 0", "%v1.1 #2 2"], "#2": ["%a2.0.0 #3 1", "%a2.0.1 #3 0"],
              "%a2.0.1": ["%a2.0.1 #3 0"], "#3": [], "#0": []}),
    "symbols": ('"func.func"() <{function_type = () -> (), sym_name = "f a"}> ({}) : () -> ()\n'
                '"func.func"() <{function_type = () -> (), sym_name = "f a"}> ({}) : () -> ()\n'
                '"func.call"() <{callee = @"f a"}> {k = [@g, @"f a"]} : () -> i32\n'
                '"builtin.module"() <{sym_name = "g"}> ({\n'
                '  "func.func"() <{function_type = () -> (), sym_name = "h"}> ({}) : () -> ()\n}) : () -> ()\n'
                '"t.r"() {k = @g::@h, l = @g::@i} : () -> ()\n',
                {"#0": [], "#1": ['def #0 @"f a" #1'], "#2": ['def #0 @"f a" #2', 'duplicate #0 @"f a" #2'],
                 "#3": ['use #3 @"f a" #1', "use #3 @g #4", "mismatch #3 #1"], "#4": ["def #0 @g #4"],
                 "#5": ["def #4 @h #5"], "#6": ["use #6 @g::@h #5", "unresolved #6 @g::@i"], "%v3.0": []}),
    "diagnostics": ('%a = "arith.constant"() <{value = 1 : i8}> : () -> i32\n"func.return"() : () -> ()\n'
                    '%b = "arith.muli"() ({}) : () -> i32\n"t.u"() : () -> ()\n',
                    {"#1": ["#1 V14"], "#2": ["#2 V10", "#2 V11"], "#3": ["#3 V1", "#3 V5"], "#4": [], "%v1.0": [],
                     "#0": []}),
    "effects": ('%m = "memref.alloc"() : () -> memref<i8>\n%t = "t.t"() : () -> i1\n"scf.if"(%t) ({\n'
                '  %x = "memref.load"(%m) : (memref<i8>) -> i8\n  "memref.store"(%x, %m) : (i8, memref<i8>) -> ()\n'
                '  "scf.yield"() : () -> ()\n}, {}) : (i1) -> ()\n"memref.dealloc"(%m) : (memref<i8>) -> ()\n',
                {"#0": ["#0 unknown"], "#1": ["#1 allocate"], "#3": ["#3 read write"], "#4": ["#4 read"], "#6": [],
                 "#7": ["#7 free"], "%v1.0": []}),
    "dead": ('%a = "arith.constant"() <{value = 6 : i32}> : () -> i32\n'
             '%b = "arith.muli"(%a, %a) : (i32, i32) -> i32\n"t.u"() : () -> ()\n',
             {"#1": [], "#2": ["#2"], "%v2.0": [], "#3": [], "#0": []}),
    "constants": ('%a = "arith.constant"() <{value = 6 : i32}> : () -> i32\n'
                  '%b = "arith.muli"(%a, %a) : (i32, i32) -> i32\n%c:2 = "t.c"(%b) : (i32) -> (i32, i32)\n',
                  {"#1": ["%v1.0 6 : i32"], "%v1.0": ["%v1.0 6 : i32"], "#2": ["%v2.0 36 : i32"],
                   "%v2.0": ["%v2.0 36 : i32"], "#3": [], "%v3.1": []}),
    "unreached": ('"func.func"() <{function_type = () -> (), sym_name = "a", sym_visibility = "private"}> ({}) : () '
                  '-> ()\n"func.func"() <{function_type = () -> (), sym_name = "b", sym_visibility = "private"}> ({}) '
                  ': () -> ()\n"func.call"() <{callee = @b}> : () -> ()\n', {"#1": ["#1 @a"], "#2": [], "#3": []}),
}


def about(kind, things):
    return "".join(f"report {kind} of {thing}\n" for thing in things)


def things_of(module):
    """All that a report may be asked about, and what isn't there: an operation, a result, an argument, a region."""
    found = []
    for op in walk(module.root):
        found.append(f"#{op.id}")
        found += [value_text(("v", op.id, place)) for place in range(len(op.results) + 1)]
        for region in range(len(op.regions) + 1):
            block = op.regions[region] if region < len(op.regions) else None
            found += [value_text(("a", op.id, region, place)) for place in range((len(block.args) if block else 0) + 1)]
    return found + [f"#{module.next}", f"%v{module.next}.0", f"%a{module.next}.0.0"]


def by_hand(run, title):
    """The rows of each kind; and no listing follows."""
    for kind, (text, wanted) in BY_HAND.items():
        title(f"about-{kind}", f"Rows of `{kind}` of each operation and of values; no listing follows a report.")
        for brief in (True, False):
            out = run((text + DIVIDER + about(kind, wanted)).encode(), brief)
            if brief:
                rows = [row for number, there in enumerate(wanted.values(), 1) for row in (f"{number} ok", *there)]
                assert out.decode().splitlines() == rows, (kind, rows, out)
        # Those of all operations are the rows of the report, each once.
        module = script.read(text.encode())
        rows = script.ANALYSES[kind](module)
        told = [row for op in walk(module.root) for row in rows if script.is_about(row, op.id)]
        assert sorted(told) == sorted(rows), kind


def absent(run, title):
    """What isn't in the module is refused before the kind is looked for; an analysis that was dropped, and one that
    there is none of."""
    text = NEAR + DIVIDER
    for kind in script.BOXES:
        title(f"about-{kind}-absent", f"What isn't in the module is refused, before a detached `{kind}` is.")
        run((text + about(kind, ("#13", "%a9.0.0", "#14", "%v13.0", "%a9.0.1", "%a9.1.0", "%a1.0.0"))
             + f"detach {kind}\n" + about(kind, ("#13", "#14", "%v99.0")) + f"attach {kind}\n" + about(kind, ("#9",)))
            .encode())
    title("about-unknown-kind", "What isn't in the module is refused by 20 or 21, and then an unknown analysis by 41.")
    run((text + about("kind9", ("#13", "#99", "%v2.0", "%v2.1")) + "expect 20 report uses of #14\n"
         "expect 21 report dead of %v14.0\nexpect 41 report kind255 of #0\nexpect 22 report uses of #2\n").encode())


def behind_edits(run, title):
    """The rows are those of the current module. An erased operation has none."""
    asked = "".join(about(kind, ("#2", "%v2.0", "#11", "%v11.0", "#9", "%a9.0.0")) for kind in script.BOXES)
    for what, edits in (("a replacement and an erasure", ["replace %v11.0 %v10.0", "erase #11"]),
                        ("edits of attributes", ["set-attr #9 sym_visibility \"private\"", "drop-attr #9 sym_name"]),
                        ("erasures and their rollback", ["begin", "erase #13", "erase #9", "rollback"]),
                        ("an operand and canon", ["set-operand #3 0 %v2.0", "canon"]),
                        ("a move and a sweep", ["begin", "move #9 end #7 1", "sweep", "rollback",
                                                "insert end #0 0 \"t.n\"(%v2.0) : (i32) -> ()"])):
        title(f"about-after-{what.replace(' ', '-')}",
              f"All seven analyses report about operations and values after {what}.")
        run((NEAR + DIVIDER + asked + "".join(edit + "\n" + asked for edit in edits)).encode())


def by_chance(run, maker):
    for kind in script.BOXES * MODULES:
        taste = kind if kind in chance.TASTES else "any"
        text = text_of(chance.module(maker, maker.randrange(4, 12), maker.choice([0, 0.1, 0.3]), taste))
        asked = about(kind, things_of(script.read(text.encode())))
        lines = chance.commands(maker, text.encode(), EDITED, chance.Scripter.edit_or_mark)
        run((text + DIVIDER + asked + "".join(f"{line}\n{asked}" for line in lines)).encode())


def all_cases(make, begin, title):
    """Makes all cases. `begin` is given the file of each part of them, and `title` the names of the next cases."""

    def run(text, brief=True):
        return make(script.BOXES, text, brief)

    begin("analyses/about")
    by_hand(run, title)
    absent(run, title)
    behind_edits(run, title)
    begin("analyses/about_by_chance", "about-random",
          "Each analysis reports about each operation and value of random modules, also after random edits.")
    by_chance(run, random.Random(SEED))
