"""The prompt: the module with numbers, what changed, and lines that are taken back or refused."""
import pathlib
import subprocess
import sys
import tempfile
import unittest
import unittest.mock

import support
from support import ROOT, mistakes, program, session

from mlir_work.reply import Transcript

# Operations with each form of regions, several results, a string that looks like a value, and dictionaries.
MODULE = b'''%a:2 = "test.a"() {z = 1 : i8, a = "%0 %a"} : () -> (i32, i32)
"test.regions"(%a#1) ({}, {^b(%x: i32, %y: i1): %s = "test.s"(%x, %a#0) : (i32, i32) -> i32}, {}, {^c:}) : (i32) -> ()
"builtin.module"() ({
"func.func"() <{function_type = () -> (), sym_name = "f", sym_visibility = "private"}> ({}) {k} : () -> ()
}) : () -> ()
"test.last"(%a#1, %a#0) {zz} : (i32, i32) -> ()
'''
LISTED = '''    #0  "builtin.module"() ({
    #1    %v1.0, %v1.1 = "test.a"() {a = "%0 %a", z = 1 : i8} : () -> (i32, i32)
    #2    "test.regions"(%v1.1) ({}, {
          ^bb0(%a2.1.0: i32, %a2.1.1: i1):
    #3      %v3.0 = "test.s"(%a2.1.0, %v1.0) : (i32, i32) -> i32
          }, {}, {
          ^bb0:
          }) : (i32) -> ()
    #4    "builtin.module"() ({
    #5      "func.func"() <{function_type = () -> (), sym_name = "f", sym_visibility = "private"}> ({}) {k} : () -> ()
          }) : () -> ()
    #6    "test.last"(%v1.1, %v1.0) {zz} : (i32, i32) -> ()
        }) : () -> ()'''.splitlines()
# A shift whose result has a use.
TWICE = b'''%a = "test.a"() : () -> i32
%one = "arith.constant"() <{value = 1 : i32}> : () -> i32
%s = "arith.shli"(%a, %one) : (i32, i32) -> i32
"test.use"(%s) : (i32) -> ()
'''


def begun(module, script=b""):
    """A session over a module."""
    here = session.Session(module)
    here.begin(script)
    return here


def example(name):
    """A session over the module of an example."""
    return begun((ROOT / f"examples/{name}.mlir").read_bytes())


class Listed(unittest.TestCase):
    def test_each_form(self):
        self.assertEqual(begun(MODULE).answer("ids"), LISTED)

    def test_no_operation(self):
        self.assertEqual(begun(b"").answer("ids")[0], '    #0  "builtin.module"() ({')
        empty = '"builtin.module"() ({}) : () -> ()'
        self.assertEqual(begun(empty.encode()).answer("ids"), ["    #0  " + empty])

    def test_the_key_is_taken(self):
        line = '"test.a"() {workbench.id = 7 : i64} : () -> ()'
        self.assertEqual(begun(line.encode()).answer("ids")[1], "    #1    " + line)

    def test_a_full_dictionary(self):
        full = ", ".join(f"k{number:03}" for number in range(256))
        self.assertTrue(begun(f'"test.a"() {{{full}}} : () -> ()'.encode()).answer("ids")[1].startswith("    #1  "))

    def test_at(self):
        here = begun(MODULE)
        self.assertEqual(here.answer("at #3 1"), LISTED[3:6])
        self.assertEqual(here.answer("at 0"), LISTED[:4])
        self.assertEqual(here.answer("at #9"), ["#9 isn't in the module"])
        self.assertIn("at #N", here.answer("at x")[0])

    def test_values_can_be_named_so(self):
        here = begun(MODULE)
        line = '"test.t"(%v3.0, %a2.1.1, %v1.1) : (i32, i1, i32) -> ()'
        self.assertEqual(here.answer("insert after #3 " + line), ["ok #7"])
        self.assertEqual(here.answer("at #7 0"), ["    #7      " + line])


class Changed(unittest.TestCase):
    def test_a_move(self):
        here = begun(MODULE)
        here.answer("move #6 before #2")
        self.assertEqual(here.answer("diff"), ["+" + LISTED[-2], "-" + LISTED[-2]])

    def test_in_place(self):
        here = begun(MODULE)
        here.answer("set-operand #6 1 %v1.1")
        self.assertEqual(here.answer("diff"), ["-" + LISTED[-2], "+" + LISTED[-2].replace("%v1.0", "%v1.1")])
        self.assertEqual(here.answer("diff"), ["nothing changed"])
        here.answer("undo")
        self.assertEqual(here.answer("diff"), ["-" + LISTED[-2].replace("%v1.0", "%v1.1"), "+" + LISTED[-2]])

    def test_behind_a_command(self):
        here = begun(MODULE)
        with unittest.mock.patch.object(session, "WITH_DIFF", {"erase"}):
            self.assertEqual(here.answer("erase #6"), ["ok", "-" + LISTED[-2]])

    def test_keys(self):
        for name in ("hoist", "outline", "signature"):
            keys = example(name).listing().keys
            self.assertEqual(len(keys), len(set(keys)))

    def test_out_of_a_region(self):
        here = example("hoist")
        here.answer("move #8 before #7")
        around, came, gone = here.answer("diff")
        self.assertEqual((around, came[:7], gone[:7]), ("@@ @rows #1", "+    #8", "-    #8"))
        self.assertEqual(came[7:].strip(), gone[7:].strip())


class Typed(unittest.TestCase):
    def test_undo(self):
        here = example("strength")
        self.assertEqual(here.answer("undo"), ["there is no edit to undo"])
        here.answer("begin")
        self.assertEqual(here.answer('insert before #8 "test.a"() : () -> ()'), ["ok #19"])
        here.answer("rollback")
        here.answer("uses")
        self.assertEqual(here.answer("undo"), ["undone: rollback"])
        self.assertEqual(here.answer("at #19 0"), ['   #19        "test.a"() : () -> ()'])
        self.assertEqual(here.answer("rollback"), ["ok"])

    def test_save(self):
        script = b"// a pattern\nbegin\n\nerase #99\nreport dead\n"
        here = begun((ROOT / "examples/strength.mlir").read_bytes(), script)
        for line in ("// typed", "erase #98", "replace %v8.0 %v7.0", "dead", "dead #8", "print x"):
            here.answer(line)
        with tempfile.TemporaryDirectory() as folder:
            file = pathlib.Path(folder, "saved")
            here.answer(f"save {file}")
            self.assertEqual(file.read_bytes(), script + b"// typed\nreplace %v8.0 %v7.0\nreport dead\nreport dead\n")
            self.assertIn("No such file", here.answer(f"save {folder}/none/saved")[0])

    def test_rows(self):
        here = example("strength")
        self.assertEqual(here.answer("uses %v8.0"), ["%v8.0 #9 0", "%v8.0 #10 1"])
        self.assertEqual(here.answer("symbols use"), ["use #16 @scale #1", "use #17 @ext #13"])
        self.assertEqual(here.answer("dead"), ["no rows"])
        here.answer("detach dead")
        self.assertTrue(here.answer("dead")[0].startswith("refused 41 NoSuchKind: "))

    def test_refused(self):
        here = example("strength")
        self.assertEqual(here.answer("erase  8")[-2:], ["    erase  8", "           ^"])
        self.assertEqual(here.answer("report dead"), ["ok"])
        self.assertEqual(here.entries[-1].line, "report dead")
        self.assertEqual(len(here.entries), 1)

    def test_help(self):
        text = "\n".join(example("strength").answer("help"))
        for word in [*session.Session(b"").words, *mistakes.forms()]:
            self.assertIn(f"\n  {word}", "\n" + text)

    def test_a_script_that_is_too_long(self):
        here = session.Session(b"")
        with unittest.mock.patch.object(program, "written", lambda text, *_: (1, "1 refused 60 BadCommand\n")):
            self.assertEqual(here.begin(b"begin\ncommit\n")[0], 1)
        self.assertEqual(here.kept(), [])

    def test_a_module_that_is_refused(self):
        here = session.Session(b'"a"(')
        self.assertEqual(here.begin(b""), (3, "module refused 2 Unexpected at 5\n"))
        self.assertIsNone(here.seen)


    def test_rewrites(self):
        here = example("canon")
        self.assertEqual(here.answer("canon trace limit 2"),
                         ["limit 2", "rewrote 10 regroup-constants #6 made #16,#17 erased #6",
                          "rewrote 1 erase-dead #3 erased #3"])
        self.assertEqual(here.answer("undo"), ["undone: canon trace limit 2"])
        self.assertEqual(here.answer("canon fired limit 2"),
                         ["limit 2", "fired 10 regroup-constants 1", "fired 1 erase-dead 1"])
        self.assertEqual(here.answer("undo"), ["undone: canon fired limit 2"])
        reply, around, *lines = here.answer("rewrite 1,10 limit 2")
        self.assertEqual((reply, around[:2], {line[0] for line in lines}), ("limit 2", "@@", {"+", "-"}))
        self.assertEqual(here.answer("rewrite 1,10 trace")[-1].split()[0], "rewrote")
        self.assertEqual(here.answer("canon only 1,10 trace"), ["converged 0"])
        self.assertEqual(here.answer("canon only 1"), ["converged 0", "nothing changed"])
        self.assertTrue(here.answer("canon trace limit 0")[0].startswith("refused 50 BadLimit: "))
        self.assertEqual(here.kept(), ["rewrite 1,10 limit 2", "rewrite 1,10 trace", "canon only 1,10 trace",
                                       "canon only 1"])


class Texts(unittest.TestCase):
    """Traces with the texts of operations (`--texts`)."""

    def begun(self, module):
        """A session over a module that shows the texts."""
        here = begun(module)
        here.shows_texts = True
        return here

    def test_texts_of_a_trace(self):
        """Below each rewrite are its operation before the command, and the new operations after the command."""
        here = self.begun((ROOT / "examples/canon.mlir").read_bytes())
        flags = "<{overflowFlags = #arith.overflow<none>}>"
        wanted = ["limit 2", "rewrote 10 regroup-constants #6 made #16,#17 erased #6",
                  f'    #6  %v6.0 = "arith.addi"(%v5.0, %v3.0) {flags} : (i32, i32) -> i32',
                  '    #16  %v16.0 = "arith.constant"() <{value = 5 : i32}> : () -> i32',
                  f'    #17  %v17.0 = "arith.addi"(%a1.0.0, %v16.0) {flags} : (i32, i32) -> i32',
                  "rewrote 1 erase-dead #3 erased #3",
                  '    #3  %v3.0 = "arith.constant"() <{value = 3 : i32}> : () -> i32']
        for line in ("canon trace limit 2", "rewrite canon trace limit 2", "canon only 1-24 \ttrace limit 2"):
            self.assertEqual(here.answer(line), wanted, line)
            self.assertEqual(here.kept(), [line])
            here.answer("undo")
        self.assertEqual(here.answer("rewrite canon proved trace limit 2")[:7], wanted)

    def test_operation_that_an_earlier_rewrite_made(self):
        """An operation that the trace itself made is shown as it is after the command, or not at all if it is gone."""
        here = self.begun(TWICE)
        here.answer("pattern twice arith.shli(%a, 1) => arith.muli(2, %a)")
        made = '%v6.0 = "arith.muli"(%v1.0, %v5.0) <{overflowFlags = #arith.overflow<none>}> : (i32, i32) -> i32'
        self.assertEqual(here.answer("rewrite twice,swap-constant trace"), [
            "converged 2", "unproved twice unchecked", "rewrote twice #3 made #5,#6 erased #3",
            '    #3  %v3.0 = "arith.shli"(%v1.0, %v2.0) : (i32, i32) -> i32',
            '    #5  %v5.0 = "arith.constant"() <{value = 2 : i32}> : () -> i32', f"    #6  {made}",
            "rewrote 3 swap-constant #6", f"    #6  {made}"])
        here = self.begun((ROOT / "examples/canon.mlir").read_bytes())
        said = here.answer("canon trace")
        self.assertIn("rewrote 1 erase-dead #17 erased #17\nrewrote ", "\n".join(said))
        self.assertEqual([line for line in said if line.startswith(("    #17 ", "    #18 "))], [])
        self.assertIn('    #10  %v10.0 = "scf.if"(%v9.0) ({', said)

    def test_conversion(self):
        """A traced conversion has texts too. A refused one is explained as without them, and `fired` has none."""
        module = TWICE.replace(b"arith.shli", b"arith.remsi")
        line, here, plain = "convert trace partial illegal arith.remsi rules 27", self.begun(module), begun(module)
        said = here.answer(line)
        self.assertEqual([it for it in said if it[0] != " "], plain.answer(line))
        self.assertEqual([it.split()[0] for it in said[2:]], ["#3", "#5", "#6", "#7"])
        for line in ("convert trace partial illegal arith.divsi", "canon trace limit 0"):
            self.assertEqual(here.answer(line), plain.answer(line))
        self.assertEqual(here.refusals, 2)
        with unittest.mock.patch.object(here.way, "rewritten", None):
            self.assertEqual(here.answer("canon fired"), plain.answer("canon fired"))

    def test_command_line(self):
        """`--texts` is an option of the prompt. Without it a trace has no texts, and asks for no listing."""
        words = [sys.executable, ROOT / "tools/session.py", ROOT / "examples/canon.mlir"]
        text = "rewrite 19 trace\n"
        told, more = [subprocess.run([*words, *options], input=text, stdout=subprocess.PIPE, text=True, check=True)
                      .stdout.splitlines() for options in ([], ["--texts"])]
        self.assertEqual(told, ["> rewrite 19 trace", "converged 1",
                                "rewrote 19 extend-extension #12 made #16 erased #12"])
        self.assertEqual(more, [*told, '    #12  %v12.0 = "arith.extsi"(%v11.0) : (i16) -> i32',
                                '    #16  %v16.0 = "arith.extui"(%a1.0.2) : (i8) -> i32'])
        here = example("canon")
        with unittest.mock.patch.object(here.way, "rewritten", None):
            self.assertEqual(here.answer("rewrite 19 trace"), told[1:])


class Replied(unittest.TestCase):
    def test_replies(self):
        run = Transcript(1, "1 ok #3\n2 ok\n%v1.0 #2 0\n3 refused 22 HasUses\n")
        self.assertEqual(support.replies(run), [("ok #3", []), ("ok", ["%v1.0 #2 0"]), ("refused 22 HasUses", [])])


if __name__ == "__main__":
    unittest.main()
