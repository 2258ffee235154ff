"""Two modules are compared by running them."""
import contextlib
import io
import pathlib
import signal
import subprocess
import sys
import tempfile
import unittest

from support import ROOT, program

from mlir_work.cli import main


def function(body, takes="i4, i4", gives="i4", name="f", more=""):
    """A function of two arguments %a and %b."""
    types = takes.split(", ")
    inside = ", ".join(f"%{letter}: {ty}" for letter, ty in zip("abc", types))
    head = f'"func.func"() <{{function_type = ({takes}) -> {gives}, sym_name = "{name}"{more}}}>'
    return f"{head} ({{\n^bb0({inside}):\n{body}\n}}) : () -> ()\n"


def binary(word, operands, ty="i4"):
    """A function that gives what an operation does."""
    return function(f'%r = "arith.{word}"({operands}) : ({ty}, {ty}) -> {ty}\n"func.return"(%r) : ({ty}) -> ()',
                    f"{ty}, {ty}", ty)


def ends(value="%r", ty="i4"):
    """The end of a function."""
    return f'"func.return"({value}) : ({ty}) -> ()'


PRIVATE = ', sym_visibility = "private"'
CALLED = function(f'%r = "arith.addi"(%a, %b) : (i4, i4) -> i4\n{ends()}', name="g", more=PRIVATE)
MEMORY = "memref<4xi4>, index"
LOAD = '%r = "memref.load"(%a, %b) : (memref<4xi4>, index) -> i4\n'
STORE = '"memref.store"({}, %a, %b) : (i4, memref<4xi4>, index) -> ()\n'
ONE = '%one = "arith.constant"() <{value = 1 : i4}> : () -> i4\n'
FOUR = '%four = "arith.constant"() <{value = 4 : i4}> : () -> i4\n'
DECLARED = """"func.func"() <{function_type = (i4, i4) -> i4, sym_name = "f", sym_visibility = "private"}> ({
}) : () -> ()
"""
USE = '"test.use"({}) : (i4) -> ()\n'
# A quotient if there is one, or else 0.
QUOTIENT = '''%zero = "arith.constant"() <{value = 0 : i4}> : () -> i4
%t = "arith.cmpi"(%b, %zero) <{predicate = 0 : i64}> : (i4, i4) -> i1
%r = "scf.if"(%t) ({
"scf.yield"(%zero) : (i4) -> ()
}, {
%q = "arith.divui"(%a, %b) : (i4, i4) -> i4
"scf.yield"(%q) : (i4) -> ()
}) : (i1) -> i4
'''
SAME = {
    "operands of a sum swapped": (binary("addi", "%a, %b"), binary("addi", "%b, %a")),
    "a division guarded": (binary("divui", "%a, %b"), function(f'{QUOTIENT}{ends("%r")}')),
    "a call inlined": (CALLED + function(f'%r = "func.call"(%a, %b) <{{callee = @g}}> : (i4, i4) -> i4\n{ends()}'),
                       binary("addi", "%a, %b")),
    "a dead load removed": (function(LOAD + ends("%b", "index"), MEMORY, "index"),
                            function(ends("%b", "index"), MEMORY, "index")),
    "a load made once": (function(LOAD + LOAD.replace("%r", "%s") + ends("%s"), MEMORY),
                         function(LOAD + ends(), MEMORY)),
    "a quotient that is rounded up": (binary("ceildivsi", "%a, %b"), binary("ceildivsi", "%a, %b")),
    "sampled": (binary("muli", "%a, %b", "i64"), binary("muli", "%b, %a", "i64")),
    "a poison value replaced": (binary("shli", "%a, %b"), function(
        f'%s = "arith.shli"(%a, %b) : (i4, i4) -> i4\n{FOUR}'
        '%t = "arith.cmpi"(%b, %four) <{predicate = 6 : i64}> : (i4, i4) -> i1\n'
        f'%r = "arith.select"(%t, %s, %four) : (i1, i4, i4) -> i4\n{ends()}')),
}
DIFFERENT = {
    "operands of a difference swapped": (binary("subi", "%a, %b"), binary("subi", "%b, %a")),
    "a load moved past a store": (function(LOAD + ONE + STORE.format("%one") + ends(), MEMORY),
                                  function(ONE + STORE.format("%one") + LOAD + ends(), MEMORY)),
    "other types": (binary("addi", "%a, %b"), binary("addi", "%a, %b", "i8")),
    "a quotient that is rounded up, swapped": (binary("ceildivsi", "%a, %b"), binary("ceildivsi", "%b, %a")),
    "a guard removed": SAME["a division guarded"][::-1],
    "a public function removed": (binary("addi", "%a, %b") + CALLED.replace(PRIVATE, ""), binary("addi", "%a, %b")),
}
UNKNOWN = {
    "an operation that isn't listed": (function(USE.format("%a") + ends("%a")),
                                       function(USE.format("%a") + ends("%a"))),
    "operations that aren't listed, swapped": (function(USE.format("%a") + USE.format("%b") + ends("%a")),
                                               function(USE.format("%b") + USE.format("%a") + ends("%a"))),
    "poison on every input": (function(f'{FOUR}%r = "arith.shli"(%a, %four) : (i4, i4) -> i4\n{ends()}'),
                              function(ends("%a"))),
    "a body that is only in one module": (binary("addi", "%a, %b"), DECLARED),
}
UNFIT = {
    "no function": ('"test.a"() : () -> ()\n', CALLED),
    "not read": ("pretty\n", binary("addi", "%a, %b")),
    "a rule is broken": (binary("addi", "%a"), binary("addi", "%a, %b")),
    "a script": (binary("addi", "%a, %b") + "// -----\nprint\n", binary("addi", "%a, %b")),
    "one name twice": (binary("addi", "%a, %b") * 2, binary("addi", "%a, %b")),
    "only declarations": (DECLARED, DECLARED),
}
ENDLESS = function("""%t = "arith.constant"() <{value = true}> : () -> i1
"scf.while"() ({
"scf.condition"(%t) : (i1) -> ()
}, {
"scf.yield"() : () -> ()
}) : () -> ()
""" + ends("%a"), name="g")


def compared(before, after, *more):
    """The status, and what is written."""
    with tempfile.TemporaryDirectory() as folder:
        names = [pathlib.Path(folder, name) for name in ("before", "after")]
        for name, text in zip(names, (before, after)):
            name.write_text(text)
        with contextlib.redirect_stdout(io.StringIO()) as out, contextlib.redirect_stderr(out):
            out.reconfigure = lambda **_: None
            status = main.main(["compare", *map(str, names), *more])
        return status, out.getvalue().replace(folder + "/", "")


class Compared(unittest.TestCase):
    def each(self, pairs, status, word):
        """Each pair has a status and a verdict."""
        for name, (before, after) in pairs.items():
            with self.subTest(name):
                found, said = compared(before, after)
                self.assertEqual(found, status, said)
                self.assertIn(f": {word}", said)

    def test_same(self):
        self.each(SAME, 0, "same on ")

    def test_differs(self):
        self.each(DIFFERENT, 1, "differs")

    def test_unknown(self):
        self.each(UNKNOWN, 3, "unknown: ")

    def test_unfit(self):
        self.each(UNFIT, 2, "")

    def test_how_many_are_said(self):
        self.assertEqual(compared(*SAME["operands of a sum swapped"])[1],
                         "@f: same on all 289 inputs\nof 1 function: 1 same\n")
        self.assertRegex(compared(*SAME["sampled"], "--inputs", "50")[1], "same on 1[0-9][0-9] of over 2.128 inputs\n")
        self.assertIn("all 289 inputs\n  before is undefined on 34 of them, which show nothing\n",
                      compared(*SAME["a division guarded"])[1])
        self.assertIn("@g: not compared: only in before, and private\nof 2 functions: 1 same, 1 not compared\n",
                      compared(*SAME["a call inlined"])[1])

    def test_an_input_is_shown(self):
        _, said = compared(*DIFFERENT["operands of a difference swapped"])
        self.assertEqual(said, "@f: differs for\n  %arg0 = 0 : i4\n  %arg1 = 1 : i4\nbefore gives\n  -1 : i4\n"
                               "after gives\n  1 : i4\nof 1 function: 1 differs\n")
        _, said = compared(*DIFFERENT["a load moved past a store"])
        self.assertIn("\nafter gives\n  1 : i4\n  %arg0[1] = 1 : i4\n", said)

    def test_one_function(self):
        before, after = DIFFERENT["a public function removed"]
        self.assertEqual(compared(before, after, "--function", "f")[0], 0)
        status, said = compared(before, after, "--function", "@g")
        self.assertEqual((status, said), (2, "mlir-work: after has no function @g: it has @f\n"))

    def test_a_difference_counts_most(self):
        before = binary("subi", "%a, %b") + UNKNOWN["an operation that isn't listed"][0].replace('"f"', '"h"')
        status, said = compared(before, before.replace("(%a, %b)", "(%b, %a)"))
        self.assertEqual((status, said.splitlines()[-1]), (1, "of 2 functions: 1 differs, 1 unknown"))

    def test_steps(self):
        """A limit of steps is an option, and numbers below the least are refused."""
        loop = function(f'{QUOTIENT}{ends("%r")}')
        self.assertEqual(compared(loop, loop, "--steps", "1")[0], 3)
        self.assertEqual(compared(loop, loop, "--steps", "100")[0], 0)
        for words in (["--steps", "0"], ["--inputs", "-5"], ["--inputs", "x"]):
            with self.assertRaises(SystemExit) as ended:
                compared(loop, loop, *words)
            self.assertEqual(ended.exception.code, 2)

    def test_examples(self):
        """The examples after `canon` compare as the same."""
        for name in ("fold", "canon"):
            text = (ROOT / f"examples/{name}.mlir").read_text()
            printed = program.asked(text.encode(), ["canon", "print"]).lines[2:]
            status, said = compared(text, "\n".join([*printed, ""]), "--inputs", "50")
            self.assertEqual(status, 0, said)

    def test_interrupted(self):
        """Ctrl-C ends with status 130, after what was compared so far."""
        with tempfile.NamedTemporaryFile("w", suffix=".mlir") as file:
            file.write(binary("addi", "%a, %b") + ENDLESS)
            file.flush()
            words = [sys.executable, ROOT / "tools/mlir_work.py", "compare", file.name, file.name]
            with subprocess.Popen([*words, "--steps", str(10 ** 12)], stdout=subprocess.PIPE, text=True) as it:
                first = it.stdout.readline()
                it.send_signal(signal.SIGINT)
                said = it.stdout.read()
        self.assertEqual((it.returncode, first), (130, "@f: same on all 289 inputs\n"))
        self.assertEqual(said.splitlines()[-1], "of 2 functions: 1 same; interrupted with 1 to go")


if __name__ == "__main__":
    unittest.main()
