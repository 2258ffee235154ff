"""A session over one live process answers as one that runs all edits for each line."""
import os
import pathlib
import shlex
import sys
import tempfile
import unittest
import unittest.mock

from support import ROOT, program, session

from mlir_work.cli import ways

LIVE = shlex.join([sys.executable, str(pathlib.Path(__file__).with_name("live.py"))])
LINES = {
    "strength": ["ids", "at #8 1", "uses %v8.0", "begin here", 'insert before #8 "test.a"() : () -> ()', "erase #4",
                 "diff", "undo", "diff here", "redo", "ids", "begin", "erase #19", "rollback here", "diff start",
                 "dead", "erase #1", "print"],
    "canon": ["canon limit 1", "canon limit 3", "undo 2", "diff", "canon", "diff start", "erase #3", "ids"],
    "index": ["convert partial dynamic arith.constant,scf.for rules 28", "detach dead", "dead", "undo", "dead",
              "convert partial dynamic arith.constant,arith.addi,arith.muli,scf.for rules 28,29", "at #10 1"],
}


def module(name):
    """The module of an example."""
    return (ROOT / f"examples/{name}.mlir").read_bytes()


def answers(text, way, lines):
    """What a session answers to lines."""
    here = session.Session(text, way)
    here.begin(b"")
    return [here.answer(line) for line in lines], here


class Live(unittest.TestCase):
    def setUp(self):
        folder = tempfile.TemporaryDirectory()
        self.addCleanup(folder.cleanup)
        self.gone = pathlib.Path(folder.name, "gone")
        self.ways = []

    def live(self, text, **more):
        """A live process over a module."""
        environment = unittest.mock.patch.dict(os.environ, {"MLIR_WORK": LIVE, "GONE": str(self.gone), **more})
        environment.start()
        self.addCleanup(environment.stop)
        way = ways.Live(text)
        self.addCleanup(way.stop)
        return way

    def ask(self, text, lines, **more):
        """What a session over a live process answers, where nothing else may run the program."""
        way = self.live(text, **more)
        with unittest.mock.patch.object(program, "written", side_effect=AssertionError):
            return answers(text, way, lines)

    def test_the_same_answers(self):
        for name, lines in LINES.items():
            wanted, _ = answers(module(name), ways.Again(module(name)), lines)
            for line, said, want in zip(lines, self.ask(module(name), lines)[0], wanted):
                with self.subTest(name, line=line):
                    self.assertEqual(said, want)

    def test_it_is_found_by_the_help(self):
        self.live(b"")
        self.assertIsInstance(ways.fitting(b""), ways.Live)

    def test_many_lines(self):
        way = self.live(b"")
        kept = ['insert end #0 0 "test.a"() : () -> ()'] * 100
        self.assertEqual(way.answer(kept, "erase #101").text, "refused 20 NoSuchOp")
        self.assertEqual(way.answer(kept, "erase #100").text, "ok")

    def test_all_marks_are_open(self):
        said, here = self.ask(module("canon"), [*["begin"] * 16, "ids", "erase #14", "rollback", "commit"])
        self.assertIn('"func.func"', said[16][1])
        self.assertEqual([it[0] for it in said[18:]], ["ok", "ok"])
        self.assertEqual(len(here.marks()), 14)

    def test_it_is_killed(self):
        said, here = self.ask(module("canon"), ["set-attr #1 k 1", "dead", "set-attr #1 k 2"], FAIL_AT="3")
        self.assertTrue(self.gone.exists())
        self.assertEqual(said, [["ok"], ["no rows"], ["ok"]])
        self.assertEqual(here.kept(), ["set-attr #1 k 1", "set-attr #1 k 2"])

    def test_it_always_ends(self):
        self.live(b"")
        with unittest.mock.patch.dict(os.environ, {"MLIR_WORK": "false"}), self.assertRaises(program.Fault):
            ways.Live(b"").answer([], "begin")

    def test_a_module_that_is_refused(self):
        here = session.Session(b'"a"(', self.live(b'"a"('))
        with unittest.mock.patch.object(program, "written", lambda text: (3, "module refused 2 Unexpected at 5\n")):
            self.assertEqual(here.begin(b"")[0], 3)

    def test_an_interrupt(self):
        way = self.live(b"")
        way.answer([], "begin")
        with unittest.mock.patch.object(program.Process, "lines", side_effect=KeyboardInterrupt):
            with self.assertRaises(KeyboardInterrupt):
                way.answer(["begin"], "commit")
        self.assertIsNone(way.process)
        self.assertEqual(way.answer(["begin"], "commit").text, "ok")


if __name__ == "__main__":
    unittest.main()
