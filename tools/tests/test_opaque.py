"""The tools where types and attributes that aren't known are kept: `--opaque`."""
import contextlib
import io
import pathlib
import tempfile
import unittest

from support import explain, listing, program, session

from mlir_work import ModuleRefused
from mlir_work.cli import main, reduce

MODULE = r"""%a = "t.a"() {k = #d.a<%x, "q\"%y"#0>, l = "s" : !d.t} : () -> tensor<4xf32>
%c = "arith.constant"() <{value = 1.0 : f32}> : () -> f32
"t.b"(%a, %c) ({
^bb0(%x: vector<[4]xi8>):
  "t.c"(%x, %a) : (vector<[4]xi8>, tensor<4xf32>) -> ()
}) : (tensor<4xf32>, f32) -> ()
""".encode()
SHOWN = r"""    #0  "builtin.module"() ({
    #1    %v1.0 = "t.a"() {k = #d.a<%x, "q\"%y"#0>, l = "s" : !d.t} : () -> tensor<4xf32>
    #2    %v2.0 = "arith.constant"() <{value = 1.0 : f32}> : () -> f32
    #3    "t.b"(%v1.0, %v2.0) ({
          ^bb0(%a3.0.0: vector<[4]xi8>):
    #4      "t.c"(%a3.0.0, %v1.0) : (vector<[4]xi8>, tensor<4xf32>) -> ()
          }) : (tensor<4xf32>, f32) -> ()
        }) : () -> ()""".splitlines()


class Kept(unittest.TestCase):
    def setUp(self):
        self.addCleanup(program.ask, False)
        try:
            program.ask(True)
        except program.Fault as fault:
            self.skipTest(str(fault))

    def test_a_session(self):
        found = session.Session(MODULE)
        self.addCleanup(found.way.stop)
        found.begin(b"")
        self.assertEqual(found.answer("ids"), SHOWN)
        line = 'insert end #0 0 "t.d"(%v1.0) {k = dense<0> : tensor<i8>} : (tensor<4xf32>) -> ()'
        self.assertEqual(found.answer(line), ["ok #5"])
        self.assertEqual(found.answer("set-attr #5 k #d.b"), ["ok"])
        self.assertIn("refused 13 LeftOut", found.answer("set-attr #5 k #m")[0])
        self.assertEqual(found.answer("find t.d"),
                         ['    #5    "t.d"(%v1.0) {k = #d.b} : (tensor<4xf32>) -> ()'])

    def test_lines_end_at_line_feeds_alone(self):
        text = '"t.a"() {k = #d.a<"\x1c\u2028\x85">} : () -> ()\n'.encode()
        self.assertEqual(len(program.asked(text, ["print"]).lines), 4)
        self.assertEqual(len(listing.listed(text, []).texts), 3)

    def test_what_is_refused_is_told(self):
        told = explain.module_refused("m", b'"t.a"() {k = #d.a<(x>} : () -> ()', ModuleRefused(2, "Unexpected", 20))
        self.assertEqual(told[0].split(": ")[:2], ["m:1:21", "2 Unexpected"])

    def test_words_of_the_command_line(self):
        with tempfile.TemporaryDirectory() as room:
            module, script = pathlib.Path(room, "m.mlir"), pathlib.Path(room, "s")
            module.write_bytes(MODULE)
            script.write_text("set-attr #1 k #d.a<\n")
            for words, status in ((["explain", "--opaque", str(module), str(script)], 1),
                                  (["explain", str(module), str(script)], 3)):
                with contextlib.redirect_stdout(io.TextIOWrapper(io.BytesIO())):
                    self.assertEqual(main.main(words), status, words)

    def test_a_module_made_smaller(self):
        reducer = reduce.Reducer(MODULE, reduce.Row("uses %v1.0 #4 1"))
        self.addCleanup(reducer.way.stop)
        self.assertTrue(reducer.go())
        self.assertEqual(program.asked(MODULE, [*reducer.kept, "print"]).lines[-5:], [
            "  \"t.b\"(%0, %1) ({", "  ^bb0(%arg0: vector<[4]xi8>):",
            "    \"t.c\"(%arg0, %0) : (vector<[4]xi8>, tensor<4xf32>) -> ()", "  }) : (tensor<4xf32>, f32) -> ()",
            "}) : () -> ()"])


if __name__ == "__main__":
    unittest.main()
