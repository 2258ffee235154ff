"""Whole runs with some listeners, and what they write by the rules (oracle); mlir_work_cases.py makes cases of
them.

For diagnostics there are the cases of verifier_cases.py. For each other listener there are modules by hand, random
modules, and scripts that set operands; for all seven together edits by hand that change rows elsewhere, and scripts of
edits, marks and rollbacks with all rows after each command. Random cases come from the seed below."""
import random

from tests.generate import verifier_cases
from oracle import chance, script
from oracle.module import text_of

SEED = 20
MODULES, SCRIPTS, COMMANDS = 300, 100, 10
KINDS = tuple(kind for kind in script.BOXES if kind not in verifier_cases.BOXES)
GROUPS = (("symbols",), ("effects", "dead"), ("constants",), ("unreached",))


class Cases:
    """Cases with some listeners; `make` makes a case of these, a text, and whether only replies are written, and gives
    what is written. `title` names the next cases."""

    def __init__(self, kinds, make, title):
        self.kinds, self.make, self.title = kinds, make, title

    def run(self, text, brief=True, name=""):
        return self.make(self.kinds, text, brief, name)


def function(name, ty, args, body, more=""):
    return (f'"func.func"() <{{function_type = {ty}, sym_name = "{name}"{more}}}> ({{\n^bb0{args}:\n{body}}}) : () -> '
            f'()\n')


def declared(name, ty="() -> ()"):
    return (f'"func.func"() <{{function_type = {ty}, sym_name = "{name}", sym_visibility = "private"}}> ({{}}) : () '
            f'-> ()\n')


def module(name, body):
    return f'"builtin.module"() <{{sym_name = "{name}"}}> ({{\n{body}}}) : () -> ()\n'


def known(*values):
    """Constants %0, %1, .."""
    return "".join(f'%{k} = "arith.constant"() <{{value = {value}}}> : () -> {ty}\n'
                   for k, (value, ty) in enumerate((it, "i1" if it in ("true", "false") else it.split(" : ")[1])
                                                   for it in values))


CALL = '"func.call"() <{callee = @f}> : () -> ()\n'
YIELD = '"scf.yield"() : () -> ()\n'
TRUE = '%true = "test.d"() : () -> i1\n'
RETURN = '"func.return"() : () -> ()\n'
PRIVATE = ', sym_visibility = "private"'
# Names, sentences, and modules with their rows of one kind, written by hand.
BY_HAND = {
    "symbols": [
        ("duplicate-and-call",
         "Two functions of one name are a definition and a duplicate, and a call uses the first.",
         declared("f") + declared("f", "(i32) -> ()")
         + function("g", "() -> ()", "", CALL + '"func.return"() : () -> ()\n'),
         ["def #0 @f #1", "def #0 @f #2", "def #0 @g #3", "duplicate #0 @f #2", "use #4 @f #1"]),
        # The nearest table around counts, for a nested module the one around it; nothing is looked for further out.
        ("nested-module-hides-outer", "A reference is looked up in the nearest module alone.",
         declared("f") + module("m", CALL), ["def #0 @f #1", "def #0 @m #2", "unresolved #3 @f"]),
        ("call-of-other-type", "A call resolves in its own module, and one of another type is a mismatch.",
         declared("f") + module("m", declared("f", "(i32) -> ()") + CALL),
         ["def #0 @f #1", "def #0 @m #2", "def #2 @f #3", "use #4 @f #3", "mismatch #4 #3"]),
        ("nested-references", "Each part of a nested reference is a use, in arrays and dictionaries too.",
         module("m", declared("f")) + '"test.a"() {k = @m::@f, l = [@m, {a = @m::@g, b = @m::@f}]} : () -> ()\n',
         ["def #0 @m #1", "def #1 @f #2", "use #3 @m::@f #2", "use #3 @m #1", "unresolved #3 @m::@g"]),
        # A further part resolves in a module alone.
        ("nested-in-function", "A nested part isn't looked up in a function, which is no symbol table.",
         function("f", "() -> ()", "", declared("g") + '"func.return"() : () -> ()\n')
         + '"test.a"() {k = @f::@g} : () -> ()\n', ["def #0 @f #1", "unresolved #4 @f::@g"]),
        # A definition is directly inside a module, and its name is a string property.
        ("definition-outside-of-table",
         "A function in an unregistered operation, or a name among an unregistered operation's properties, defines "
         "nothing.",
         '"test.r"() ({\n' + declared("f") + '}) : () -> ()\n"test.a"() <{sym_name = "f"}> : () -> ()\n' + CALL,
         ["unresolved #4 @f"]),
        ("name-not-a-string", "A symbol name that isn't a string defines nothing.",
         '"func.func"() <{function_type = () -> (), sym_name = @f}> ({}) : () -> ()\n"builtin.module"() <{sym_name = '
         '1 : i8}> ({\n^bb0:\n}) : () -> ()\n', ["unresolved #1 @f"]),
        # A call of what is no function of its type.
        ("call-of-module", "A call of a module is a mismatch, and one of a function in it isn't.",
         module("f", declared("f")) + CALL + '"func.call"() <{callee = @f::@f}> : () -> ()\n',
         ["def #0 @f #1", "def #1 @f #2", "use #3 @f #1", "use #4 @f::@f #2", "mismatch #3 #1"]),
        ("call-types",
         "A call with another result type is a mismatch; calls of unregistered operations and strings as callees "
         "aren't.",
         declared("f", "(i32) -> i64")
         + '%0 = "test.d"() : () -> i32\n%1 = "func.call"(%0) <{callee = @f}> : (i32) -> i64\n%2 = "func.call"(%0) '
           '<{callee = @f}> : (i32) -> i32\n'
         + '%3 = "test.call"(%0) {callee = @f} : (i32) -> i8\n%4 = "func.call"(%0) <{callee = "f"}> : (i32) -> i8\n',
         ["def #0 @f #1", "use #3 @f #1", "use #4 @f #1", "use #5 @f #1", "mismatch #4 #1"]),
        # Each reference once, by its first place: properties, then attributes, by key, depth first.
        ("references-once",
         "Each reference has one row for each operation, in the order of properties and attributes.",
         declared("f") + declared("g")
         + '"func.call"() <{callee = @f, res_attrs = [@g, @h]}> {a = @f, b = {z = @g, y = @"i j"}, c = @g::@h} : () '
           '-> ()\n',
         ["def #0 @f #1", "def #0 @g #2", "use #3 @f #1", "use #3 @g #2", "unresolved #3 @h", 'unresolved #3 @"i j"',
          "unresolved #3 @g::@h"]),
        ("references-of-module", "A module's attributes are looked up in the module itself.",
         '"builtin.module"() <{sym_name = "m"}> ({\n' + module("n", CALL) + '}) {k = @n, l = @m} : () -> ()\n',
         ["def #0 @n #1", "use #0 @n #1", "unresolved #0 @m", "unresolved #2 @f"]),
        ("references-of-nested-module",
         "A nested module's attributes are looked up in the module around it.",
         '"builtin.module"() <{sym_name = "m"}> ({\n"builtin.module"() <{sym_name = "n"}> ({\n^bb0:\n}) {k = @n} : () '
         '-> ()\n}) : () -> ()\n', ["def #0 @n #1", "use #1 @n #1"]),
    ],
    "unreached": [
        ("empty-module", "An empty module has no unreached symbol.",
         "", []),
        # Who calls one another, and is called by nobody else; a function that only itself calls.
        ("private-cycle",
         "Private functions that only call each other are unreached, and one called by a public function isn't.",
         function("m", "() -> ()", "", CALL.replace("@f", "@a") + RETURN)
         + function("a", "() -> ()", "", RETURN, PRIVATE)
         + "".join(function(one, "() -> ()", "", CALL.replace("@f", other) + RETURN, PRIVATE) for one,
                   other in (("b", "@c"), ("c", "@b"))), ["#6 @b", "#9 @c"]),
        ("calls-itself", "A private function that only calls itself is unreached.",
         function("f", "() -> ()", "", CALL + RETURN, PRIVATE), ["#1 @f"]),
        ("references-itself", "A private function that only its own attribute references is unreached.",
         function("f", "() -> ()", "", RETURN, PRIVATE).replace('}) : ', '}) {k = @f} : '), ["#1 @f"]),
        # References from properties and attributes, inside arrays and dictionaries.
        ("called", "A private function that is called is reached.",
         declared("f") + CALL, []),
        ("references-in-attributes",
         "References in arrays and dictionaries of properties and attributes reach a symbol.",
         declared("f") + declared("g") + declared("h") + '"test.a"() <{p = [{a = @f}]}> {k = {b = [@g]}} : () -> ()\n',
         ["#3 @h"]),
        ("called-by-unreached", "What only an unreached function calls is unreached too.",
         declared("f") + function("g", "() -> ()", "", CALL + RETURN, PRIVATE), ["#1 @f", "#2 @g"]),
        # Only the string "private" among the properties makes a definition private.
        ("other-visibilities",
         "Functions that are nested or public, and those whose visibility isn't a string, are no private ones.",
         declared("f").replace('"private"', '"nested"') + declared("g").replace(', sym_visibility = "private"', "")
         + '"func.func"() <{sym_name = "h", sym_visibility = @private}> ({}) : () -> ()\n', []),
        # Each front of a reference counts, also where a further part isn't there.
        ("nested-reference", "A nested reference reaches the module and the function.",
         module("m", declared("f")).replace('"m"', '"m"' + PRIVATE) + '"test.a"() {k = @m::@f} : () -> ()\n', []),
        ("nested-reference-unresolved", "A nested reference whose last part isn't there reaches the module alone.",
         module("m", declared("f")).replace('"m"', '"m"' + PRIVATE) + '"test.a"() {k = @m::@g} : () -> ()\n',
         ["#2 @f"]),
        ("private-module", "A function in an unreached private module is unreached.",
         module("m", declared("f")).replace('"m"', '"m"' + PRIVATE) + CALL, ["#1 @m", "#2 @f"]),
        # Operations in a private module count if the module is reached.
        ("call-inside-unreached-module", "A call inside an unreached module reaches nothing.",
         module("m", declared("f") + CALL).replace('"m"', '"m"' + PRIVATE) + '"test.a"() : () -> ()\n',
         ["#1 @m", "#2 @f"]),
        ("call-inside-reached-module", "A call inside a reached module reaches its function.",
         module("m", declared("f") + CALL).replace('"m"', '"m"' + PRIVATE) + '"test.a"() {k = @m} : () -> ()\n', []),
        ("other-function-of-reached-module",
         "Another private function of a reached module is unreached, and what it calls is reached by the reference.",
         module("m", function("n", "() -> ()", "", CALL + RETURN, PRIVATE) + declared("f"))
         + '"test.a"() {k = @m::@f} : () -> ()\n', ["#2 @n"]),
        # Of several definitions of a name the first counts; a reference looks in the nearest table alone.
        ("second-of-one-name", "The second of two private functions of one name is unreached.",
         declared("f") + declared("f") + CALL, ["#2 @f"]),
        ("nearest-table-only", "A call in a nested module doesn't reach a function outside of it.",
         declared("f") + module("m", CALL), ["#1 @f"]),
        # An operation outside every symbol table is no definition.
        ("not-in-a-table", "A private function in an unregistered operation is no definition.",
         '"test.r"() ({\n' + declared("f") + '}) : () -> ()\n', []),
    ],
    "effects": [
        ("empty-module", "The module itself has unknown effects.",
         "", ["#0 unknown"]),
        ("nested-branches", "A branch has the effects of all operations inside it.",
         TRUE + '"scf.if"(%true) ({\n%m = "memref.alloc"() : () -> memref<i32>\n'
         f'"memref.dealloc"(%m) : (memref<i32>) -> ()\n{YIELD}}}, {{\n'
         f'"scf.if"(%true) ({{\n"test.a"() : () -> ()\n{YIELD}}}, {{}}) : (i1) -> ()\n{YIELD}}}) : (i1) -> ()\n',
         ["#0 unknown", "#1 unknown", "#2 unknown allocate free", "#3 allocate", "#4 free", "#6 unknown",
          "#7 unknown"]),
        ("memory-operations", "Allocation, load, store and call have their own effects.",
         '%m = "memref.alloc"() : () -> memref<i32>\n%0 = "memref.load"(%m) : (memref<i32>) -> '
         'i32\n"memref.store"(%0, %m) : (i32, memref<i32>) -> ()\n"func.call"() : () -> ()\n',
         ["#0 unknown", "#1 allocate", "#2 read", "#3 write", "#4 unknown"]),
        ("casts-and-branches", "A function has unknown effects; a cast and a branch without blocks have none.",
         function("f", "() -> ()", "", '"func.return"() : () -> ()\n')
         + '%0 = "builtin.unrealized_conversion_cast"() : () -> i1\n"scf.if"(%0) ({}, {}) : (i1) -> ()\n',
         ["#0 unknown", "#1 unknown"]),
        # What an operation does isn't asked of its rules.
        ("wrong-form", "Effects don't depend on the verifier's rules.",
         '"memref.store"() ({\n"test.a"() : () -> ()\n}) : () -> ()\n"arith.addi"() ({\n"memref.load"() : () -> '
         '()\n}) : () -> ()\n', ["#0 unknown", "#1 write", "#2 unknown", "#4 read"]),
    ],
    "dead": [
        ("allocation-and-load", "An unused allocation and an unused load are dead, and a loaded allocation isn't.",
         '%m = "memref.alloc"() : () -> memref<i32>\n%n = "memref.alloc"() : () -> memref<i32>\n%0 = '
         '"memref.load"(%n) : (memref<i32>) -> i32\n', ["#1", "#3"]),
        ("branches", "A branch without effects is dead inside one that has some, and so is an unused constant.",
         known("1 : i32") + '%i = "builtin.unrealized_conversion_cast"() : () -> i1\n"scf.if"(%i) '
         f'({{\n"scf.if"(%i) ({{\n"memref.store"() : () -> ()\n{YIELD}}}, {{}}) : (i1) -> ()\n{YIELD}}},'
         f' {{\n"scf.if"(%i) ({{\n{YIELD}}}, {{}}) : (i1) -> ()\n{YIELD}}}) : (i1) -> ()\n', ["#1", "#8"]),
        ("functions-and-modules", "A function, a module and a yield are never dead.",
         function("f", "() -> ()", "", '"func.return"() : () -> ()\n')
         + '"builtin.module"() ({\n^bb0:\n}) : () -> ()\n"scf.yield"() : () -> ()\n', []),
        ("unused-results",
         "An operation without results and effects is dead; used, unregistered and calling ones aren't.",
         '"arith.addi"() : () -> ()\n%0:2 = "scf.if"() : () -> (i32, i32)\n"test.u"(%0#1) : (i32) -> ()\n%1 = '
         '"test.d"() : () -> i32\n"func.call"() : () -> ()\n', ["#1"]),
    ],
    "constants": [
        ("division", "Signed and unsigned divisions and remainders of 7 and -3 fold.",
         known("7 : i8", "-3 : i8")
         + '%a = "arith.divsi"(%0, %1) : (i8, i8) -> i8\n%b = "arith.remsi"(%0, %1) : (i8, i8) -> i8\n%c = '
           '"arith.divui"(%0, %1) : (i8, i8) -> i8\n'
         '%d = "arith.remui"(%0, %1) : (i8, i8) -> i8\n',
         ["%v1.0 7 : i8", "%v2.0 -3 : i8", "%v3.0 -2 : i8", "%v4.0 1 : i8", "%v5.0 0 : i8", "%v6.0 7 : i8"]),
        ("undefined",
         "A division that overflows, one by zero and a shift by too much have no constant, and a product that "
         "wraps has.",
         known("-128 : i8", "-1 : i8", "0 : i8")
         + '%a = "arith.divsi"(%0, %1) : (i8, i8) -> i8\n%b = "arith.remsi"(%0, %1) : (i8, i8) -> i8\n%c = '
           '"arith.divui"(%0, %2) : (i8, i8) -> i8\n'
         '%d = "arith.shli"(%0, %1) : (i8, i8) -> i8\n%e = "arith.muli"(%0, %1) : (i8, i8) -> i8\n',
         ["%v1.0 -128 : i8", "%v2.0 -1 : i8", "%v3.0 0 : i8", "%v8.0 -128 : i8"]),
        ("absorbing-operand",
         "A product or conjunction with zero and a disjunction with -1 are constant, if the types agree or not.",
         '%x = "test.d"() : () -> i32\n%y = "test.d"() : () -> i64\n' + known("0 : i32", "-1 : i32", "0 : i64") +
         '%a = "arith.muli"(%0, %x) : (i32, i32) -> i32\n%b = "arith.andi"(%y, %0) : (i64, i32) -> i32\n%c = '
         '"arith.ori"(%x, %1) : (i32, i32) -> i32\n%d = "arith.muli"(%x, %2) : (i32, i64) -> i32\n'
         '%e = "arith.andi"(%x, %1) : (i32, i32) -> i32\n',
         ["%v3.0 0 : i32", "%v4.0 -1 : i32", "%v5.0 0 : i64", "%v6.0 0 : i32", "%v7.0 0 : i32", "%v8.0 -1 : i32"]),
        ("select", "A choice by a constant has the chosen constant, if its type is the result's.",
         '%x = "test.d"() : () -> i32\n' + known("true", "5 : i32", "false", "6 : i64") +
         '%a = "arith.select"(%0, %1, %x) : (i1, i32, i32) -> i32\n%b = "arith.select"(%2, %1, %x) : (i1, i32, i32) '
         '-> i32\n%c = "arith.select"(%0, %3, %1) : (i1, i64, i32) -> i32\n'
         '%d = "arith.select"(%2, %x, %3) : (i1, i32, i64) -> i64\n',
         ["%v2.0 true", "%v3.0 5 : i32", "%v4.0 false", "%v5.0 6 : i64", "%v6.0 5 : i32", "%v9.0 6 : i64"]),
        ("casts", "Extensions, truncations and index casts of constants fold where the widths allow it.",
         known("-1 : i8", "200 : i8")
         + '%a = "arith.extsi"(%0) : (i8) -> i16\n%b = "arith.extui"(%0) : (i8) -> i16\n%c = "arith.extsi"(%1) : (i8) '
           '-> i4\n%d = "arith.trunci"(%1) : (i8) -> i4\n'
         '%e = "arith.trunci"(%1) : (i8) -> i8\n%f = "arith.index_cast"(%0) : (i8) -> index\n%g = '
         '"arith.index_castui"(%0) : (i8) -> index\n%h = "arith.index_cast"(%0) : (i8) -> i16\n',
         ["%v1.0 -1 : i8", "%v2.0 -56 : i8", "%v3.0 -1 : i16", "%v4.0 255 : i16", "%v5.0 -8 : i4", "%v6.0 -8 : i4",
          "%v8.0 -1 : index", "%v9.0 255 : index", "%v10.0 -1 : i16"]),
        # A property outside the row, or of a wrong kind, a count that isn't the row's, another type.
        ("wrong-form",
         "Constants and sums with wrong properties, counts or types have no constant, and those with a region or "
         "attribute have.",
         '%a = "arith.constant"() <{value = 1 : i8, x}> : () -> i8\n%b = "arith.constant"() <{value = 1 : i8}> : () '
         '-> i16\n%c:2 = "arith.constant"() <{value = 1 : i8}> : () -> (i8, i8)\n'
         '%d = "arith.constant"() <{value = 1 : ui8}> : () -> ui8\n%e = "arith.constant"() <{value = 1 : i8}> ({}) '
         '{x} : () -> i8\n'
         '%f = "arith.addi"(%e, %e) <{overflowFlags = 1 : i8}> : (i8, i8) -> i8\n%g = "arith.addi"(%e) : (i8) -> '
         'i8\n%h = "arith.addi"(%e, %e) <{overflowFlags = #arith.overflow<nsw>}> : (i8, i8) -> i8\n'
         '%i = "arith.addi"(%e, %e) : (i8, i8) -> i16\n', ["%v5.0 1 : i8", "%v8.0 2 : i8"]),
        ("comparison-of-index",
         "A comparison of `index` with a predicate of 0 to 9 folds, and a difference inside a branch folds too.",
         known("3 : index", "4 : index")
         + '%a = "arith.cmpi"(%0, %1) <{predicate = 2 : i64}> : (index, index) -> i1\n%b = "arith.cmpi"(%0, %1) : '
           '(index, index) -> i1\n'
         '%c = "arith.cmpi"(%0, %1) <{predicate = 10 : i64}> : (index, index) -> i1\n"scf.if"(%a) ({\n%d = '
         '"arith.subi"(%0, %1) : (index, index) -> index\n"scf.yield"() : () -> ()\n}, {}) : (i1) -> ()\n',
         ["%v1.0 3 : index", "%v2.0 4 : index", "%v3.0 true", "%v7.0 -1 : index"]),
    ],
}
for number, word in enumerate("eq ne slt sle sgt sge ult ule ugt uge".split()):
    rows = {"eq": "false false true", "ne": "true true false", "slt": "true false false", "sle": "true false true",
            "sgt": "false true false",
            "sge": "false true true", "ult": "false true false", "ule": "false true true", "ugt": "true false false",
            "uge": "true false true"}[word].split()
    pairs = (("%0", "%1"), ("%1", "%0"), ("%0", "%0"))
    compared = "".join(f'%c{k} = "arith.cmpi"({a}, {b}) <{{predicate = {number} : i64}}> : (i8, i8) -> i1\n' for k,
                       (a, b) in enumerate(pairs))
    BY_HAND["constants"].append((f"comparison-{word}",
                                 f"A comparison by `{word}` of -1 and 1, of 1 and -1, and of -1 and -1 folds.",
                                 known("-1 : i8", "1 : i8") + compared, ["%v1.0 -1 : i8", "%v2.0 1 : i8"]
                                 + [f"%v{k + 3}.0 {row}" for k, row in enumerate(rows)]))

# A module. Then names, sentences, and edits. All rows are reported after each edit, which changes rows of an
# operation that isn't the edited one.
NEAR = """%t = "test.d"() : () -> i1
%a = "test.d"() : () -> i32
%r = "scf.if"(%t) ({
  "test.a"() : () -> ()
  "scf.yield"(%a) : (i32) -> ()
}, {
  "scf.yield"(%a) : (i32) -> ()
}) : (i1) -> i32
"test.r"() ({
  "test.b"() : () -> ()
}, {
^bb0:
}) : () -> ()
"func.func"() <{function_type = (i32) -> i32, sym_name = "f"}> ({
^bb0(%x: i32):
  %c = "arith.constant"() <{value = 5 : i32}> : () -> i32
  %s = "arith.addi"(%x, %c) : (i32, i32) -> i32
  "func.return"(%s) : (i32) -> ()
}) : () -> ()
"func.call"() <{callee = @f}> : () -> ()
"""
EDITS = [
    # The last operation of a block goes, comes, and is shifted away and back.
    ("terminators-of-a-branch",
     "The last operation of a branch's block is erased, inserted and moved, which changes the branch's rows.",
     ["begin", "erase #5", "insert end #3 0 \"scf.yield\"(%v2.0) : (i32) -> ()", "move #4 end #3 0", "rollback",
     "move #5 start #3 0", "move #4 before #5", "move #5 start #7 1",
     "move #5 end #3 0", "move #6 end #3 0", "move #6 end #3 1"]),
    ("second-block-of-a-branch", "The second block of a branch gets and loses operations and a terminator.",
     ["erase #6", "insert end #3 1 \"test.c\"() : () -> ()", "insert end #3 1 \"scf.yield\"(%v2.0) : (i32) -> ()",
     "erase #14", "move #5 end #3 1"]),
    ("erase-and-roll-back", "An erased branch, moves out of it and an erased return are undone by rollbacks.",
     ["begin", "erase #3", "rollback", "begin", "move #5 after #6", "move #6 end #0 0", "rollback", "begin",
      "erase #12",
     "insert end #9 0 \"test.c\"() : () -> ()", "rollback"]),
    # Properties of the operation around, of a callee, of a constant.
    ("properties-of-a-function",
     "The type, the name and the callee of a function change rows of its return and its calls.",
     ["set-attr #9 function_type (i32) -> i64", "set-attr #9 function_type (i64) -> i32", "drop-attr #9 function_type",
     "set-attr #9 function_type () -> ()",
     "set-attr #9 function_type (i32) -> i32", "set-attr #9 sym_name 3 : i8", "set-attr #9 sym_name \"g\"",
     "set-attr #13 callee @g", "drop-attr #9 sym_name"]),
    ("properties-of-a-constant", "The value of a constant changes rows of the sum that uses it.",
     ["set-attr #10 value 6 : i32", "set-attr #10 value 6 : i64", "drop-attr #10 value", "set-attr #10 value \"x\"",
     "set-attr #10 value -1 : i32", "set-attr #11 extra unit", "drop-attr #11 extra",
     "set-attr #11 overflowFlags 1 : i32", "set-attr #11 overflowFlags #arith.overflow<nsw>"]),
    # Operands.
    ("operands", "Operands of a yield, a branch, a sum and a return are set and set back.",
     ["set-operand #5 0 %v1.0", "set-operand #3 0 %v2.0", "set-operand #5 0 %v2.0", "set-operand #11 0 %v10.0",
     "set-operand #12 0 %v10.0", "set-operand #11 1 %a9.0.0", "set-operand #12 0 %a9.0.0"]),
    ("replace-and-erase",
     "Results are replaced and their operations erased, up to the function itself, and rolled back.",
     ["replace %v11.0 %v10.0", "erase #11", "replace %v10.0 %a9.0.0", "erase #10", "begin", "erase #9", "rollback"]),
    # Functions and modules under other operations.
    ("functions-under-other-operations",
     "A function moves into a region, a branch and a module, and a call is resolved anew.",
     ["move #9 start #7 1", "move #9 start #3 0", "move #9 end #3 0", "move #9 end #0 0", "move #13 start #0 0",
     "insert end #0 0 \"builtin.module\"() <{sym_name = \"m\"}> ({ ^bb0: }) : () -> ()",
     "insert end #14 0 \"func.func\"() <{function_type = () -> (), sym_name = \"f\", sym_visibility = \"private\"}> "
     "({}) : () -> ()", "set-attr #13 callee @m::@f", "set-attr #8 k [@m::@f, @f]",
     "erase #15", "erase #14", "set-attr #13 callee @f"]),
    # Memory inside.
    ("memory-in-a-branch",
     "An allocation and a store come into a branch and leave it, and constants go and come back.",
     ["insert before #4 %m = \"memref.alloc\"() : () -> memref<i32>",
     "insert before #4 \"memref.store\"(%v2.0, %v14.0) : (i32, memref<i32>) -> ()", "move #4 end #0 0", "erase #15",
     "erase #14",
     "set-operand #12 0 %a9.0.0", "erase #11", "begin", "begin", "erase #10",
     "insert before #12 \"arith.constant\"() <{value = 5 : i32}> : () -> i32", "rollback", "commit", "rollback"]),
]


def asked(kinds):
    return "".join(f"report {kind}\n" for kind in kinds)


def script_of(text, lines, below):
    """A module, and a script with the same commands before the first line and after each."""
    return text + ("// -----\n" + below + "".join(f"{line}\n{below}" for line in lines)).encode()


def by_hand(cases, kind):
    for name, sentence, text, want in BY_HAND[kind]:
        cases.title(f"{kind}-{name}", sentence)
        found = cases.run((text + "// -----\n" + asked([kind])).encode()).decode().splitlines()[1:]
        assert found == want, (text, found, want)


def by_chance(cases, kind, maker):
    for number in range(MODULES):
        text = text_of(chance.module(maker, maker.randrange(4, 16), maker.choice([0, 0.1, 0.3]), kind)).encode()
        if number % 5:
            cases.run(text + f"// -----\nreport {kind}\n".encode())
        else:
            lines = chance.commands(maker, text, 4, chance.Scripter.set_operand)
            cases.run(script_of(text, lines, asked([kind]) if number % 25 else ""), number % 25 != 0)


def by_edits(cases):
    for name, sentence, edits in EDITS:
        cases.title(name, sentence)
        cases.run(script_of(NEAR.encode(), edits, asked(script.BOXES)))
        cases.run(script_of(NEAR.encode(), edits, ""), brief=False)


def by_scripts(cases, maker):
    for number in range(SCRIPTS):
        text = text_of(chance.module(maker, maker.randrange(5, 14), maker.choice([0, 0.1, 0.3]),
                                     (KINDS + ("any",))[number % 6])).encode()
        lines, brief = chance.commands(maker, text, COMMANDS, chance.Scripter.edit_or_mark), number % 10 != 0
        cases.run(script_of(text, lines, asked(script.BOXES) if brief else ""), brief)


def all_cases(make, begin, title):
    """Makes all cases. `begin` is given the file of each part of them, and `title` the names of the next cases."""
    maker = random.Random(SEED)
    for kinds in GROUPS:
        cases = Cases(("uses", *kinds), make, title)
        for kind in kinds:
            begin(f"analyses/{kind}")
            by_hand(cases, kind)
            begin(f"analyses/{kind}_by_chance", f"{kind}-random",
                  f"`{kind}` reports the rows of random modules, also after edits of operands.")
            by_chance(cases, kind, maker)
    verifier_cases.all_cases(Cases(verifier_cases.BOXES, make, title).run, begin, title)
    cases = Cases(script.BOXES, make, title)
    begin("analyses/edits")
    by_edits(cases)
    begin("analyses/scripts_by_chance", "random-scripts",
          "All analyses report the module after each of random edits, marks and rollbacks.")
    by_scripts(cases, maker)
