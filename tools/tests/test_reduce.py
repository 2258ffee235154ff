"""Modules are made smaller, and show what they showed: by single runs and by one live process."""
import argparse
import os
import pathlib
import subprocess
import sys
import tempfile
import unittest
import unittest.mock

from support import ROOT, program, session

from mlir_work import operations
from mlir_work.cli import reduce, ways
from test_live import LIVE

MODULE = '''"func.func"() <{function_type = (i32, i32) -> i32, sym_name = "g"}> ({
^bb0(%a: i32, %b: i32):
  %s = "arith.addi"(%a, %b) : (i32, i32) -> i32
  "func.return"(%s) : (i32) -> ()
}) : () -> ()
"func.func"() <{function_type = (i32, i32) -> i64, sym_name = "f"}> ({
^bb0(%a: i32, %b: i32):
  %c = "arith.constant"() <{value = 8 : i32}> : () -> i32
  %d = "arith.constant"() <{value = true}> : () -> i1
  %s = "arith.muli"(%a, %c) : (i32, i32) -> i32
  %t = "arith.addi"(%s, %b) {k} : (i32, i32) -> i32
  %u = "scf.if"(%d) ({
    %x = "arith.subi"(%t, %s) : (i32, i32) -> i32
    "scf.yield"(%x) : (i32) -> ()
  }, {
    "scf.yield"(%t) : (i32) -> ()
  }) {k = 3 : i8} : (i1) -> i32
  %v = "arith.addi"(%u, %t) {k} : (i32, i32) -> i32
  "func.return"(%v) : (i32) -> ()
}) : () -> ()
'''.encode()
# What is left of it where `#14 V15` is to stay.
RETURN = '''"builtin.module"() ({
  "func.func"() <{function_type = (i32, i32) -> i64, sym_name = "f"}> ({
  ^bb0(%arg0: i32, %arg1: i32):
    "func.return"(%arg1) : (i32) -> ()
  }) : () -> ()
}) : () -> ()
'''


def printed(reducer):
    """The module that is left."""
    return reducer.way.answer(reducer.kept, "print").shown


class Reduced(unittest.TestCase):
    def reduced(self, goal, module=MODULE):
        """What makes a module smaller, once it did, and what is left."""
        reducer = reduce.Reducer(module, goal)
        self.addCleanup(reducer.way.stop)
        self.assertTrue(reducer.go())
        return reducer, printed(reducer)

    def check_script(self, reducer, left, module=MODULE):
        """Checks that each line of the script is accepted, and that the script gives the reduced module."""
        run = program.asked(module, [*reducer.kept, "print"])
        self.assertEqual((run.status, run.lines[len(reducer.kept) + 1:]), (0, left.splitlines()))

    def test_a_row(self):
        reducer, left = self.reduced(reduce.Row("diagnostics  #14 V15"))
        self.check_script(reducer, left)
        self.assertEqual(left.replace("%arg0)", "%arg1)"), RETURN)

    def test_a_refusal(self):
        goal = "convert partial illegal arith.subi rules 28 = 51"
        reducer, left = self.reduced(reduce.Refusal(goal))
        self.check_script(reducer, left)
        self.assertEqual(program.asked(left.encode(), [goal.partition(" =")[0]]).status, 1)
        self.assertLessEqual(left.count('"arith.'), 2)
        self.assertFalse(reduce.Reducer(MODULE, reduce.Refusal("erase #3 = NotVisible")).go())
        self.assertEqual(self.reduced(reduce.Refusal("erase #13=HasUses"))[0].goal.reason, ["HasUses"])

    def test_a_command(self):
        for command in ("cat | grep -q arith.muli", 'grep -q arith.muli "$1"'):
            _, left = self.reduced(reduce.Test(command))
            self.assertIn('"arith.muli"(', left)
            self.assertEqual(left.count('"arith.'), 1)

    def test_a_live_process(self):
        goals = [reduce.Row("diagnostics #14 V15"), reduce.Refusal("convert full rules 28 = 51 NotLegalised")]
        alone = [printed(self.reduced(goal)[0]) for goal in goals]
        with unittest.mock.patch.dict(os.environ, {"MLIR_WORK": LIVE}):
            with unittest.mock.patch.object(program, "written", side_effect=AssertionError):
                for goal, left in zip(goals, alone):
                    reducer, found = self.reduced(goal)
                    self.assertIsInstance(reducer.way, ways.Live)
                    self.assertEqual(found, left)

    def test_each_operation_is_listed(self):
        for file in (ROOT / "examples").glob("*.mlir"):
            here = session.Session(file.read_bytes())
            here.begin(b"")
            those = reduce.candidates(operations.read(here.way.answer([], "print ids").shown))
            self.assertEqual(sorted(it.number for it in those), list(range(1, len(those) + 1)))
            self.assertEqual({it for op in those for it in op.results}, {
                it for it in here.listing().values if it.startswith("%v")})

    def test_keys(self):
        """Each entry of an operation is tried by its key: also one that looks like a type or isn't bare; and nothing
        inside an attribute or a type is taken for a key."""
        text = ('"test.a"() <{i1 = 1 : i8}> {i32 = 5 : i8, index, "a b" = {i8 = 3 : i8}} : () -> ()\n'
                '%0 = "test.b"() ({"test.c"() : () -> ()}, {}) {index = 4 : i8} : () -> i32\n')
        reducer, left = self.reduced(reduce.Test('grep -q test.a && grep -q test.c "$1"'), text.encode())
        self.check_script(reducer, left, text.encode())
        self.assertEqual([line for line in reducer.kept if line.startswith("drop-attr #1")],
                         [f"drop-attr #1 {key}" for key in ("i1", '"a b"', "i32", "index")])
        self.assertNotIn("{i", left)
        text = ('"builtin.module"() ({ // #0\n'
                '  "t.a"() <{p = #d.a<q = 1, (a > b)>}> ({ // #1\n'
                '    "t.b"() ({}) : () -> () // #2\n'
                '  }, {}) {r, s = {t = 1}} : (!d<u = 1>) -> i1 // #1\n'
                '}) : () -> () // #0\n')
        self.assertEqual([(it.number, it.keys) for it in reduce.candidates(operations.read(text))],
                         [(2, []), (1, ["p", "r", "s"])])

    def test_goals(self):
        for make, text in ((reduce.Row, "deaf #1"), (reduce.Row, "dead"), (reduce.Refusal, "erase #1"),
                           (reduce.Refusal, "= 51")):
            with self.assertRaises(argparse.ArgumentTypeError):
                make(text)
        self.assertEqual(reduce.Row("uses %v14.0 #15 0").renamed({"14": "2", "15": "3"}), "uses %v2.0 #3 0")


class CommandLine(unittest.TestCase):
    def ran(self, text, *given):
        """A run over a file, and what it wrote there."""
        with tempfile.TemporaryDirectory() as folder:
            name = pathlib.Path(folder, "m.mlir")
            name.write_bytes(text)
            words = [sys.executable, ROOT / "tools/mlir_work.py", "reduce", name.name, *given]
            more = {"MLIR_WORK": LIVE} if os.environ.get("MLIR_WORK") == "reference" else {}
            it = subprocess.run(words, cwd=folder, capture_output=True, text=True, check=False,
                                env={**os.environ, **more})
            return it, {file.name: file.read_text() for file in pathlib.Path(folder).glob("out*")}

    def test_files(self):
        text = b'"test.a"() : () -> ()\n"arith.addi"() {k} : () -> ()\n'
        it, files = self.ran(text, "--keep", "diagnostics #2 V1", "-o", "out.mlir")
        self.assertEqual((it.returncode, it.stdout), (0, ""))
        self.assertIn("1 of 2 operations are left, by 2 edits", it.stderr)
        self.assertTrue(it.stderr.endswith(": diagnostics #1 V1\n"))
        script = "erase #1\ndrop-attr #2 k\n"
        module = '"builtin.module"() ({\n  "arith.addi"() : () -> ()\n}) : () -> ()\n'
        self.assertEqual(files, {"out.mlir": module, "out.mlir.script": script})
        it, _ = self.ran(text, "--keep", "diagnostics #2 V1")
        self.assertEqual(it.stdout, "// m.mlir, reduced by:\n//   erase #1\n//   drop-attr #2 k\n" + module)

    def test_a_name_that_is_not_utf8(self):
        """The name of the module may have any bytes: what is found is written all the same."""
        with tempfile.TemporaryDirectory() as folder:
            name = os.fsencode(folder) + b"/m\xff.mlir"
            with open(name, "wb") as file:
                file.write(b'"test.a"() : () -> ()\n')
            more = {"MLIR_WORK": LIVE} if os.environ.get("MLIR_WORK") == "reference" else {}
            words = [sys.executable, ROOT / "tools/mlir_work.py", "reduce", name, "--test", 'grep -q test.a "$1"']
            it = subprocess.run(words, capture_output=True, check=False, env={**os.environ, **more})
        self.assertEqual(it.returncode, 0, it.stderr)
        head = b'// m\xff.mlir, reduced by:\n"builtin.module"() ({\n  "test.a"()'
        self.assertTrue(it.stdout.startswith(head), it.stdout)

    def test_wrong(self):
        it, _ = self.ran(b"", "--keep", "dead #9")
        self.assertEqual((it.returncode, it.stderr), (1, "m.mlir doesn't show `dead #9`: nothing to reduce\n"))
        it, _ = self.ran(b'"a"(', "--keep", "dead #9")
        self.assertEqual((it.returncode, it.stdout), (4, ""))
        self.assertIn("m.mlir:1:5: 2 Unexpected", it.stderr)
        self.assertEqual(self.ran(b"", "--keep", "deaf #9")[0].returncode, 2)
        self.assertEqual(self.ran(b"")[0].returncode, 2)


if __name__ == "__main__":
    unittest.main()
