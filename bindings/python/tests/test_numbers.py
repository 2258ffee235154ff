"""Edits by interned numbers and report rows as cells, over the library. If there is no library of these sources, the
tests are skipped."""
import unittest

from support import Case, shared_object

import mlir_work
from mlir_work import Argument, Cell, Result, after, end

SHARED = shared_object()
MODULE = """%0 = "arith.constant"() <{value = 5 : i32}> : () -> i32
"test.use"(%0) : (i32) -> ()
"""


class Numbers(Case):
    def setUp(self):
        if not SHARED:
            self.skipTest("there is no library of these sources")
        super().setUp()

    def session(self):
        """A session over the library."""
        s = mlir_work.Session(MODULE, way=mlir_work.Library(SHARED))
        self.addCleanup(s.close)
        return s

    def test_insert(self):
        """An operation is inserted with operands, results and entries, whose order doesn't matter."""
        s = self.session()
        made = s.numbers.insert(after(1), "test.new", [Result(1), "%v1.0"], ["i1", "i32"], {"b": "1 : i8", "a": "unit"},
                                {"two words": "@f"})
        self.assertEqual((made, s.operation(3).name, s.operation(2).previous), (3, "test.new", s.operation(3)))
        self.assertEqual(s.operation(3).properties, {"a": "unit", "b": "1 : i8"})
        self.assertEqual(s.operation(3).attributes, {"two words": "@f"})
        self.assertEqual([it.type for it in s.operation(3).results], ["i1", "i32"])
        self.assertEqual([it.number for it in s.operations()], [0, 1, 3, 2])

    def test_entries(self):
        """An operation that is inserted by numbers has the dictionaries, or the refusal, of the same text."""
        for name, properties, attributes in (
                ("test.new", {"b": "unit", "a": "1 : i8"}, {"d": "unit", "c": "2 : i8"}),
                ("test.new", {}, {"value": "5 : i32"}), ("arith.constant", {}, {"value": "5 : i32", "tag": "unit"}),
                ("arith.addi", {"a": "unit"}, {"overflowFlags": "#arith.overflow<none>"}),
                ("test.new", {"a": "unit"}, {"b": "unit", "a": "unit"}),
                ("arith.constant", {"value": "5 : i32"}, {"value": "6 : i32"}),
                ("test.new", {}, {f"k{it}": "unit" for it in range(257)})):
            with self.subTest(name=name, properties=properties, attributes=attributes):
                by_text, by_numbers = self.session(), self.session()
                given, others = (", ".join(f"{key} = {it}" for key, it in them.items()) for them in
                                 (properties, attributes))
                text = f'"{name}"() <{{{given}}}> {{{others}}} : () -> ()'
                self.assertEqual(
                    self.refusal(lambda: by_text.insert(after(1), text)),
                    self.refusal(lambda: by_numbers.numbers.insert(after(1), name, (), (), properties, attributes)))
                self.assertEqual(by_text.print(), by_numbers.print())

    def refusal(self, edit):
        """The number of the refusal of an edit, or 0."""
        try:
            edit()
        except mlir_work.Refused as refused:
            return refused.number
        return 0

    def test_numbers_are_kept(self):
        """A text is interned once, and equal texts have equal numbers."""
        s = self.session()
        self.assertEqual(s.numbers.type("i32"), s.numbers.type("i32"))
        self.assertNotEqual(s.numbers.type("i32"), s.numbers.type("i33"))
        self.assertEqual(s.numbers.attribute("5 : i32"), s.numbers.attribute("5 : i32"))
        self.assertNotEqual(s.numbers.name("value"), s.numbers.name("test.fresh"))

    def test_refusals(self):
        """What is refused raises as a command does, and changes nothing."""
        s = self.session()
        before = s.print()
        for number, edit in ((20, lambda it: it.erase(9)), (22, lambda it: it.erase(1)),
                             (13, lambda it: it.insert(end(0), "test.a", [], ["what"])),
                             (21, lambda it: it.insert(end(0), "test.a", [Argument(1, 0, 0)])),
                             (29, lambda it: it.insert(after(0), "test.a")),
                             (26, lambda it: it.drop_attribute(1, "test.none"))):
            with self.subTest(number=number), self.assertRaises(mlir_work.Refused) as refused:
                edit(s.numbers)
            self.assertEqual(refused.exception.number, number)
        self.assertEqual(s.print(), before)

    def test_edits(self):
        """Entries, operands, uses and places are changed as by commands."""
        s = self.session()
        s.numbers.set_attribute(1, "value", "6 : i32")
        s.numbers.set_attribute(2, "tag", '"t"')
        made = s.numbers.insert(after(1), "test.other", [], ["i32"])
        s.numbers.set_operand(2, 0, Result(made))
        s.numbers.replace(Result(made), "%v1.0")
        s.numbers.move(made, end(0))
        s.numbers.drop_attribute(2, "tag")
        s.numbers.erase(made)
        self.assertEqual(s.print(), mlir_work.Session(MODULE.replace("5", "6"), way=mlir_work.Library(SHARED)).print())

    def test_report(self):
        """The cells of a report are what its rows have."""
        s = self.session()
        self.assertEqual(s.numbers.report("uses"),
                         [(Cell("value", Result(1)), Cell("operation", 2), Cell("number", 0))])
        self.assertEqual(s.numbers.report("constants"), [(Cell("value", Result(1)), Cell("constant", (5, 32)))])
        self.assertEqual(s.numbers.report("effects"), [(Cell("operation", 0), Cell("word", "unknown")),
                                                       (Cell("operation", 2), Cell("word", "unknown"))])
        s.detach("uses")
        with self.assertRaises(mlir_work.Refused) as refused:
            s.numbers.report("uses")
        self.assertEqual(refused.exception.number, 41)

    def test_process(self):
        """A session over a process has no numbers."""
        with mlir_work.Session(MODULE) as s:
            if not isinstance(s._way, mlir_work.Library):
                self.assertRaises(mlir_work.Error, lambda: s.numbers)


if __name__ == "__main__":
    unittest.main()
