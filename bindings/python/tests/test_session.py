"""What a session says and does, call by call."""
import pathlib
import random
import sys
import tempfile
import threading
import typing
import unittest

from support import ROOT, Case, Referred, example, knows_opaque, session

import mlir_work
from mlir_work import Argument, Dead, Result, Symbol, after, before, end, quoted, start
from mlir_work.cli import forms
from oracle import chance, opaque, rules, script
from oracle.module import printing, text_of, value_text, walk
from tests.compare import script_lines

PAIR = """%a = "arith.constant"() <{value = 1 : i32}> : () -> i32
%b = "arith.constant"() <{value = 2 : i32}> : () -> i32
"test.pair"(%a, %b) : (i32, i32) -> ()
"""
SWAPPED = """%a = "test.a"() : () -> i32
%1 = "arith.constant"() <{value = 1 : i32}> : () -> i32
%p = "arith.muli"(%1, %a) : (i32, i32) -> i32
"test.u"(%p) : (i32) -> ()
"""
REMAINDER = """%a = "test.a"() : () -> i32
%r = "arith.remsi"(%a, %a) : (i32, i32) -> i32
"test.u"(%r) : (i32) -> ()
"""
ODD = '''"func.func"() <{function_type = () -> (), sym_name = "a b\\0A\\"#3",
                  sym_visibility = "private"}> ({}) : () -> ()
"func.func"() <{function_type = () -> (), sym_name = "f"}> ({}) : () -> ()
"func.func"() <{function_type = () -> (), sym_name = "f"}> ({}) : () -> ()
"func.call"() <{callee = @f}> : () -> i32
"test.a"() {k = @"a b\\0A\\"#3"::@"#1 @x", l = @none} : () -> ()
'''


# The parts of random bodies of opaque terms.
PARTS = ["a", "<=", ">=", "->", "<", ">", "(", ")", "[", "]", "{", "}", '"x,>"', ",", "=", "-", "1", "#b.c", "!d<e>",
         " ", r'"\">"', "%0", ":", "#b.c-"]


def is_body(text):
    """Whether a text is the body of an opaque term, by the rules in Python."""
    try:
        return opaque.body_end(text.encode(), 0) == len(text)
    except rules.Refused:
        return False


def type_of(attribute):
    """The opaque type with the body of an opaque attribute."""
    return "!" + attribute[1:]


def lines(s):
    """The lines of a module, without the module around them."""
    return [it.strip() for it in s.print().splitlines()[1:-1]]


class Calls(Case):
    def setUp(self):
        super().setUp()
        self.s = session(PAIR)
        self.addCleanup(self.s.close)

    def tearDown(self):
        self.s.close()
        super().tearDown()

    def test_operands(self):
        s = self.s
        s.set_operand(3, 1, Result(1))
        self.assertEqual(s.report("uses"), [(Result(1, 0), 3, 0), (Result(1, 0), 3, 1)])
        s.set_operand(3, 0, "%v2.0")
        self.assertEqual([it.value for it in s.report("uses")], [Result(1), Result(2)])
        s.replace(Result(1), "%v2.0")
        self.assertEqual(s.report("dead"), [Dead(1)])
        s.erase(1)
        self.assertEqual(s.report("dead"), [])

    def test_rows_about_one_thing(self):
        s = self.s
        rows = s.report("uses", of=Result(1))
        self.assertEqual(rows, [row for row in s.report("uses") if row.value == Result(1)])
        self.assertEqual((rows, s.report("uses", of=1), s.report("uses", "%v1.0")), (rows, rows, rows))
        self.assertEqual(s.report("constants", of=Result(2)), [(Result(2), "2 : i32")])
        self.assertEqual((s.report("dead", of=1), s.report("dead", of=3)), ([], []))
        for of, number in ((9, 20), (Result(9), 21), ("%v1.9", 21)):
            with self.assertRaises(mlir_work.Refused) as caught:
                s.report("uses", of=of)
            self.assertEqual(caught.exception.number, number)

    def test_places(self):
        s = self.s
        self.assertEqual(s.insert(before(3), '"test.a"() ({}) : () -> ()'), 4)
        self.assertEqual(s.insert(after(3), '"test.b"() ({^bb0: }) : () -> ()'), 5)
        self.assertEqual(s.insert(start(5), '"test.c"() : () -> ()'), 6)
        self.assertEqual(s.insert(end(5, 0), '"test.d"() ({"test.e"() : () -> ()}) : () -> ()'), 7)
        self.assertEqual(s.insert(end(0), '"test.f"() : () -> ()'), 9)
        self.assertEqual([it.number for it in s], [0, 1, 2, 4, 3, 5, 6, 7, 8, 9])
        s.move(9, before(1))
        s.move(4, start(7))
        self.assertEqual([it.number for it in s], [0, 9, 1, 2, 3, 5, 6, 7, 4, 8])

    def test_hoisting(self):
        """Operations of arith that don't depend on a loop move out of it, as LICM moves them; others are refused."""
        folder = ROOT / "tests/golden/embed"
        with session((folder / "hoist.before").read_text()) as s:
            loop, = (op for op in s.operations() if op.name == "scf.for")
            moved = [op.number for op in s.operations()
                     if op.parent == loop.number and op.name.startswith("arith.") and self.is_moved(s, op, loop)]
            uses = s.report("uses", of=Result(moved[0], 0))
            self.assertEqual(moved, [5, 6])
            self.assertEqual([(row.user, row.operand) for row in uses], [(6, 1)])
            self.assertEqual(s.report("diagnostics"), [])
            wanted = (folder / "hoist.after").read_text().partition("\n")[2]
            self.assertEqual(s.print(), wanted)

    def is_moved(self, s, op, loop):
        """Moves an operation before a loop, and returns whether that was accepted."""
        try:
            s.move(op, before(loop))
        except mlir_work.Refused:
            return False
        return True

    def test_entries(self):
        s = self.s
        for key, attribute in (("k", "5"), ("a b", "@f"), ('"\\', quoted('x"y\\z\n')), ("ä", quoted("ö"))):
            s.set_attr(3, key, attribute)
        operation = s.operations()[3]
        self.assertEqual(operation.attributes, {"k": "5 : i64", "a b": "@f", '"\\': r'"x\22y\\z\0A"',
                                                "ä": r'"\C3\B6"'})
        for key in operation.attributes:
            s.drop_attr(operation, key)
        self.assertEqual(s.operations()[3].attributes, {})
        s.set_attr(1, "value", "7 : i32")
        self.assertEqual(s.operations()[1].properties, {"value": "7 : i32"})

    def test_marks(self):
        s = self.s
        s.begin()
        s.erase(3)
        s.begin()
        self.assertEqual(s.marks, 2)
        s.erase(2)
        s.commit()
        s.rollback()
        self.assertEqual((s.marks, len(lines(s))), (0, 3))
        with self.assertRaises(mlir_work.Refused) as caught:
            s.commit()
        self.assertEqual((caught.exception.number, caught.exception.word), (35, "NoMark"))
        self.assertEqual(s.marks, 0)

    def test_analyses(self):
        s = self.s
        s.resync("dead")
        s.detach("dead")
        with self.assertRaises(mlir_work.Refused) as caught:
            s.report("dead")
        self.assertEqual(caught.exception.number, 41)
        self.assertEqual(s.report("constants"), [(Result(1), "1 : i32"), (Result(2), "2 : i32")])

    def test_patterns(self):
        s = self.s
        s.pattern("half arith.divsi(%a, c) => arith.shrsi(%a, log2(c))")
        s.pattern("double arith.muli(%a, 2) =>\n  arith.addi(%a, %a) // a comment")
        s.pattern("never arith.addi(%a, c) => %a where ult(c, 5), ugt(c, 9)")
        found = s.check("half", 4)
        self.assertEqual(found, ("fails", 2, (("%a", "-2 : i2"), ("c", "-2 : i2"), ("old", "1 : i2"),
                                              ("new", "-1 : i2"))))
        self.assertFalse(found.is_right)
        self.assertEqual([s.check("double", 9), s.check("never")], [("holds", 9, ()), ("empty", 8, ())])
        self.assertEqual([(it.name, it.said) for it in s.patterns()],
                         [("half", "fails 2"), ("double", "holds 9"), ("never", "empty 8")])
        self.assertEqual([s.check("double"), s.check("half", 8, sampled=True).verdict], [("holds", 0, ()), "fails"])
        s.pattern("twice arith.shli(%a, 1) => arith.addi(%a, %a)")
        self.assertEqual(s.check("twice", 64, sampled=True), ("unrefuted", 64, ()))
        self.assertEqual([(it.name, it.said) for it in s.patterns()],
                         [("half", "fails 8"), ("double", "holds"), ("never", "empty 8"), ("twice", "unrefuted 64")])
        with session(PAIR) as other:
            for it in s.patterns():
                other.pattern(it.text)
            self.assertEqual([it.text for it in other.patterns()], [it.text for it in s.patterns()])
        with s.mark():
            made = s.insert(after(2), '"arith.muli"(%v1.0, %v2.0) : (i32, i32) -> i32')
            self.assertTrue(s.apply("double", made))
            self.assertFalse(s.apply("double", 1))
            self.assertEqual(s.unproved, ())
            self.assertFalse(s.apply("half", 1))
            self.assertEqual(s.unproved, (mlir_work.Unproved("half", "fails 8"),))
            traced = s.trace(["never", "double", "twice", "never"])
            self.assertEqual((traced.rewrites, s.unproved), ([], (("never", "empty 8"), ("twice", "unrefuted 64"))))
            self.assertEqual((s.rewrite(["double"]).rewrites, s.unproved), (0, ()))
            self.assertEqual(s.command("rewrite twice,half").unproved,
                             (("twice", "unrefuted 64"), ("half", "fails 8")))
        self.assertTrue(any(line.startswith('%2 = "arith.addi"(%0, %0)') for line in lines(s)))
        for line, number, at in (("check nope", 26, None), ("apply nope #1", 26, None),
                                 ("check half width 0", 50, None), ("check half width 129 sampled", 50, None),
                                 ("check half sampled", 60, None),
                                 ("pattern half arith.addi(%a, %b) => %a", 4, 0),
                                 ("pattern p arith.addi(%a, %b) => %c", 3, 24)):
            with self.assertRaises(mlir_work.Refused) as caught:
                s.command(line)
            self.assertEqual((caught.exception.number, caught.exception.at), (number, at), line)
        s.forget("twice")
        self.assertEqual([it.name for it in s.patterns()], ["half", "double", "never"])
        with self.assertRaises(mlir_work.Refused):
            s.forget("twice")
        self.assertEqual(s.close(), 1)

    def test_all_patterns(self):
        with session(PAIR) as s:
            self.assertEqual(s.check_all(), {})
            s.pattern("mask arith.andi(%a, 255) => %a")
            s.pattern("wide arith.addi(%a : index, 0) => %a")
            s.pattern("times arith.muli(%a, c) => arith.shli(%a, log2(c))")
            self.assertEqual(s.check_all(), {
                "mask": ("fails", 9, (("%a", "-256 : i9"), ("old", "0 : i9"), ("new", "-256 : i9"))),
                "wide": ("refused", 0, ()), "times": ("holds", 8, ())})
            s.pattern("mask arith.addi(%a, 0) => %a", replace=True)
            self.assertEqual([(it.name, it.said) for it in s.patterns()],
                             [("mask", "not checked"), ("wide", "not checked"), ("times", "holds 8")])
            with self.assertRaises(mlir_work.Refused) as caught:
                s.rewrite(["mask", "times"], proved=True)
            fault = caught.exception
            self.assertEqual((fault.number, fault.unproved), (61, (("mask", "unchecked"), ("times", "holds 8"))))
            s.check("mask")
            self.assertEqual(s.rewrite(["mask"], proved=True).is_done, True)
            self.assertEqual(s.trace(["mask"], 5, proved=True).rewrites, [])

    def test_rewrites(self):
        with session(example("canon")) as s:
            self.assertEqual(s.canon(1), (1, False))
            self.assertEqual(s.canon(limit=3), (3, False))
            self.assertEqual(s.canon(), (11, True))
            self.assertEqual(s.canon(), (0, True))
        with session(example("index")) as s:
            named = ["arith.constant", "arith.addi", "arith.muli", "scf.for"]
            with self.assertRaises(mlir_work.Refused) as caught:
                s.convert(dynamic=named, rules=[28])
            fault = caught.exception
            self.assertEqual((fault.number, fault.word, fault.at, fault.operation), (51, "NotLegalised", None, 7))
            self.assertEqual(s.convert("partial", dynamic=named, rules=[28, 29], depth=16), 7)
            self.assertEqual(s.convert("full", legal={it.name for it in s}), 0)
            self.assertEqual(s.convert(legal="arith.constant"), 0)
        with session(example("sweep")) as s:
            self.assertEqual(s.report("unreached"), [(7, "@even"), (10, "@odd"), (13, "@log")])
            self.assertEqual((s.sweep(), s.sweep()), (3, 0))
        with session(PAIR) as s:
            self.assertFalse(s.apply(4, 3))
            s.erase(3)
            self.assertTrue(s.apply("erase-dead", 2))

    def test_rewrites_that_are_told(self):
        with session(example("canon")) as s:
            s.begin()
            regroup, dead = (10, "regroup-constants", 6, (16, 17), True), (1, "erase-dead", 3, (), True)
            self.assertEqual(s.trace(limit=2), ([regroup, dead], False))
            s.rollback()
            self.assertEqual(s.trace([10], 1), ([regroup], True))
            told = s.trace()
            self.assertEqual((len(told.rewrites), told.is_done, told.rewrites[0].word), (14, True, "erase-dead"))
            self.assertEqual((s.trace(), s.trace(["drop-one", 2])), (([], True), ([], True)))
            for limit, rules, number in ((0, None, 50), (1, ["nope"], 26), (0, ["nope"], 26), (0, [4], 50)):
                with self.assertRaises(mlir_work.Refused) as caught:
                    s.trace(rules, limit)
                self.assertEqual(caught.exception.number, number)
        with session(SWAPPED) as s:
            told = s.trace("swap-constant,5")
            self.assertEqual(told.rewrites[0], mlir_work.Rewrite(3, "swap-constant", 3))
            self.assertEqual([(it.rule, it.operation, it.is_erased) for it in told.rewrites[1:]], [(5, 3, True)])
            self.assertEqual(s.rewrite("erase-dead"), (1, True))

    def test_what_fired(self):
        with session(example("canon")) as s:
            regroup, dead = (10, "regroup-constants", 1), (1, "erase-dead", 1)
            self.assertEqual(s.fired(limit=2), (2, False, [regroup, dead]))
            self.assertEqual(s.fired([10], 1), (0, True, []))
            self.assertEqual(s.fired(), (13, True, []))
            for limit, rules, number in ((0, None, 50), (1, ["nope"], 26)):
                with self.assertRaises(mlir_work.Refused) as caught:
                    s.fired(rules, limit)
                self.assertEqual(caught.exception.number, number)
        with session(PAIR) as s:
            s.insert(after(2), '"arith.addi"(%v1.0, %v2.0) : (i32, i32) -> i32')
            s.pattern("swap arith.addi(%a, %b) => arith.addi(%b, %a)")
            self.assertEqual(s.fired(["swap"], 300), (300, False, [mlir_work.Firing(None, "swap", 100)]))
            self.assertEqual(s.unproved, (("swap", "unchecked"),))
            with self.assertRaises(mlir_work.Refused) as caught:
                s.fired(["swap"], 300, proved=True)
            self.assertEqual(caught.exception.number, 61)

    def test_conversions_that_are_told(self):
        with session(REMAINDER) as s:
            target = {"illegal": ["arith.remsi", "arith.subi"], "rules": [27, 26]}
            with self.assertRaises(mlir_work.Refused) as caught:
                s.trace_convert(**target, depth=1)
            fault = caught.exception
            self.assertEqual((fault.number, fault.operation), (52, 2))
            self.assertEqual(fault.stays, mlir_work.Stays(2, 26, "expand-difference", "other-operation"))
            for words, stays in (({"illegal": "arith.remsi"}, (2, None, "", "no-rule")),
                                 ({**target, "rules": [27]}, (2, 27, "expand-remainder", "makes-illegal")),
                                 ({"rules": [1]}, None)):
                with self.assertRaises(mlir_work.Refused) as caught:
                    s.trace_convert(**words)
                self.assertEqual(caught.exception.stays, stays)
            with self.assertRaises(mlir_work.Refused) as caught:
                s.convert(**target, depth=1)
            self.assertIsNone(caught.exception.stays)
            self.assertEqual(s.trace_convert(**target), [
                mlir_work.Rewrite(27, "expand-remainder", 2, (4, 5, 6), True),
                mlir_work.Rewrite(26, "expand-difference", 6, (7, 8, 9, 10, 11), True)])
            self.assertEqual(s.trace_convert("full", legal={it.name for it in s}), [])

    def test_patterns_of_files(self):
        with tempfile.TemporaryDirectory() as room:
            files = [pathlib.Path(room, name) for name in ("a", "b")]
            files[0].write_bytes(b"// both\n\n \tone arith.muli(1, %a) => %a // x\r\n")
            files[1].write_bytes(b"two arith.muli(%a, 1) => %a")
            for given, names in ((str(files[0]), ["one"]), (files[1], ["two"]), (files, ["one", "two"]), ((), [])):
                with session(SWAPPED, patterns=given) as s:
                    self.assertEqual([it.name for it in s.patterns()], names)
            with session(SWAPPED, kinds=["dead"], patterns=files[:1]) as s:
                self.assertTrue(s.apply("one", 3))
            files[1].write_bytes(b"one arith.muli(%a, 1) => %a")
            with self.assertRaises(mlir_work.Refused) as caught:
                session(SWAPPED, patterns=files)
            self.assertEqual((caught.exception.number, caught.exception.at), (4, 0))
            with self.assertRaises(FileNotFoundError):
                session(SWAPPED, patterns=pathlib.Path(room, "none"))

    def test_rules_at_an_operation(self):
        with session(SWAPPED) as s:
            told = s.why(3)
            self.assertIn(mlir_work.Reason(3, "swap-constant", "applies"), told)
            self.assertEqual([it.rule for it in told], sorted(it.rule for it in told))
            self.assertEqual(s.why(3, "drop-one"), [(5, "drop-one", "second-not-constant")])
            self.assertEqual(s.why(3, 4), [(4, "drop-zero", "other-operation")])
            s.pattern("nine arith.addi(%a, 9) => %a")
            self.assertEqual([(it.rule, it.word) for it in s.why(3, "nine")], [(None, "nine")])
            self.assertEqual((s.canon_at(3, 1), s.canon_at(3)), ((1, False), (1, True)))
            for asked, number in (((3,), 20), ((2, "nope"), 26)):
                with self.assertRaises(mlir_work.Refused) as caught:
                    s.why(*asked)
                self.assertEqual(caught.exception.number, number)

    def test_the_limit(self):
        with session(example("canon"), limit=2) as s:
            self.assertEqual(s.canon(), (2, False))

    def test_texts_that_are_kept(self):
        text = '%a = "test.a"() {x = 1.0 : f32} : () -> tensor<4xf32>\n'
        self.assertRaises(mlir_work.ModuleRefused, session, text)
        if not knows_opaque():
            self.skipTest("the program has no --opaque")
        with session(text, opaque=True) as s:
            s.set_attr(1, "y", "#d.a<b>")
            self.assertEqual(s.insert(after(1), '"test.b"(%v1.0) : (tensor<4xf32>) -> !d.t'), 2)
            self.assertEqual(lines(s), ['%0 = "test.a"() {x = 1.0 : f32, y = #d.a<b>} : () -> tensor<4xf32>',
                                        '%1 = "test.b"(%0) : (tensor<4xf32>) -> !d.t'])

    def test_the_kinds(self):
        with session(PAIR, kinds=["dead", "uses"]) as s:
            self.assertEqual(len(s.report("uses")), 2)
            self.assertRaises(mlir_work.Refused, s.report, "constants")
        with session(PAIR, kinds="dead") as s:
            self.assertRaises(mlir_work.Refused, s.report, "uses")
        with session(PAIR, kinds=[]) as s:
            self.assertRaises(mlir_work.Refused, s.report, "uses")
        with self.assertRaises(ValueError):
            session(PAIR, kinds=["ded"])

    def test_the_end(self):
        with session(PAIR) as s:
            s.erase(3)
        self.assertEqual((s.status, s.closed, s.close()), (0, True, 0))
        with session(PAIR) as s:
            self.assertRaises(mlir_work.Refused, s.erase, 2)
        self.assertEqual((s.status, s.refused), (1, 1))
        for call in (s.print, s.operations, lambda: s.erase(1), lambda: s.command(""), s.mark().__enter__):
            with self.assertRaises(mlir_work.SessionClosed):
                call()

    def test_another_thread(self):
        found = []

        def call():
            try:
                self.s.print()
            except RuntimeError as fault:
                found.append(fault)
        thread = threading.Thread(target=call)
        thread.start()
        thread.join()
        self.assertEqual(len(found), 1)
        self.assertEqual(len(lines(self.s)), 3)


class Lines(Case):
    def setUp(self):
        super().setUp()
        self.s = session(PAIR.encode())

    def tearDown(self):
        self.s.close()
        super().tearDown()

    def test_replies(self):
        s = self.s
        for line, text, outcome, number in (("set-attr #1 k 1", "ok", "ok", None),
                                            ('insert end #0 0 "a"() : () -> ()', "ok #4", "ok", 4),
                                            ("canon", "converged 0", "converged", 0), ("sweep", "swept 0", "swept", 0),
                                            (b" \tbegin \r", "ok", "ok", None)):
            reply = s.command(line)
            self.assertEqual((reply.text, reply.outcome, reply.number, reply.shown), (text, outcome, number, ""))
        self.assertEqual(s.marks, 1)
        self.assertIn('"test.pair"', s.command("print").shown)

    def test_what_is_expected(self):
        """`expect` says whether a line was refused so; what names no refusal obeys nothing."""
        s = self.s
        for refusal in (22, "22", "HasUses", "0" * 5000 + "22"):
            self.assertIs(s.expect(refusal, "erase #1"), True)
        for refusal in (23, "NotVisible", "0" * 5000 + "23"):
            self.assertIs(s.expect(refusal, "erase #1"), False)
        for refusal in (0, 21, 99, -22, "", "0", "HasUse", "9" * 5000):
            self.assertIs(s.expect(refusal, "erase #9"), False)
        for refusal in (99, "HasUse", "9" * 5000):
            self.assertIs(s.expect(refusal, "erase #3"), False)
        self.assertIs(s.expect("9" * 5000, "nothing that is a command"), False)
        self.assertEqual(len(s.operations()), 4)
        self.assertIs(s.expect("HasUses", "erase #3"), False)
        self.assertEqual((len(s.operations()), s.closed), (3, False))

    @unittest.skipUnless(hasattr(sys, "get_int_max_str_digits"), "this Python has no most digits of a number")
    def test_numbers_of_many_digits(self):
        """A number with more digits than Python parses as an int neither closes the session nor raises after an
        edit."""
        most = sys.get_int_max_str_digits()
        self.addCleanup(sys.set_int_max_str_digits, most)
        sys.set_int_max_str_digits(4300)
        number = "0" * 5000 + "22"
        self.assertEqual(self.s.command(f"expect {number} erase #3").text, "ok")
        with self.assertRaises(mlir_work.Refused):
            self.s.command(f"expect {number}1 print")
        with self.assertRaises(ValueError):
            self.s.expect(10 ** 5000, "erase #1")
        self.assertEqual(([it.number for it in self.s], self.s.closed), ([0, 1, 2], False))

    def test_limits(self):
        """A limit that the program refuses is refused before a session is opened, and isn't cut to 32 bits."""
        for limit in (-1, 0, 1_000_001, 2**32 + 5, 2**64 + 5, 10**30):
            with self.subTest(limit), self.assertRaises(ValueError):
                session(PAIR, limit=limit)
        for limit in (1, 1_000_000):
            with session(PAIR, limit=limit) as s:
                self.assertEqual(s.canon(), (0, True))

    def test_what_says_nothing(self):
        for line in ("", " \t\r", "// a comment", "  // ä"):
            self.assertEqual(self.s.command(line), ("", ""))
        self.assertEqual(self.s.commands(["", "print", "// x"]), [("ok", self.s.print())])

    def test_what_is_no_line(self):
        for line in (b"\xff", b"// \xff", "jump", "erase 3", "print x", "report none", "\0", "erase #3\rx"):
            with self.subTest(line), self.assertRaises(mlir_work.Refused) as caught:
                self.s.command(line)
            self.assertEqual(caught.exception.number, 60)
        with self.assertRaises(ValueError):
            self.s.command("print\nprint")
        self.assertEqual(len(lines(self.s)), 3)

    def test_refusals(self):
        for line, number, word, at, operation in (
                ("erase #2", 22, "HasUses", None, None), ("erase #9", 20, "NoSuchOp", None, None),
                ("set-attr #1 k f", 13, "LeftOut", 0, None), ("set-attr #1 k [1,", 2, "Unexpected", 3, None),
                ("convert full rules 25", 51, "NotLegalised", None, 0)):
            with self.subTest(line), self.assertRaises(mlir_work.Refused) as caught:
                self.s.command(line)
            fault = caught.exception
            self.assertEqual((fault.number, fault.word, fault.at, fault.operation, fault.line),
                             (number, word, at, operation, line))
            self.assertIn(word, str(fault))
        self.assertEqual(self.s.refused, 5)

    def test_many(self):
        replies = self.s.commands(["begin", "erase #2", "erase #3", "commit"])
        self.assertEqual([it.text for it in replies], ["ok", "refused 22 HasUses", "ok", "ok"])
        self.assertEqual((replies[1].refusal().number, replies[0].refusal()), (22, None))
        self.assertEqual((self.s.marks, self.s.refused), (0, 1))
        self.assertEqual(self.s.commands([]), [])

    def test_an_operation_on_several_lines(self):
        s = self.s
        text = '"test.a"() ({ // "a comment"\n  "test.b"() {k = "// no \\" comment"} : () -> () // ä\n}) : () -> ()'
        self.assertEqual(s.insert(end(0), text), 4)
        self.assertEqual(s.operations()[5].attributes, {"k": r'"// no \22 comment"'})
        for wrong in ('"a"() // ä\n : () -> ) ', '"a"()         : () -> ) '):
            with self.assertRaises(mlir_work.Refused) as caught:
                s.insert(end(0), wrong)
            self.assertEqual(caught.exception.at, wrong.encode().index(b"-> )") + 3)

    def test_modules_that_are_refused(self):
        for text, number, word, at in (('"a"(', 2, "Unexpected", 4), ('"a"(\n', 2, "Unexpected", 5),
                                       ("print", 13, "LeftOut", 0), (b"\xff", 14, "NotUtf8", 0)):
            with self.subTest(text), self.assertRaises(mlir_work.ModuleRefused) as caught:
                session(text)
            fault = caught.exception
            self.assertEqual((fault.number, fault.word, fault.at), (number, word, at))
        with self.assertRaises(ValueError):
            session(PAIR + "// -----\nprint\n")
        with session(PAIR + " // -----") as s:
            self.assertEqual(len(lines(s)), 3)


class Marks(Case):
    def setUp(self):
        super().setUp()
        self.s = session(PAIR)

    def tearDown(self):
        self.s.close()
        super().tearDown()

    def test_it_is_committed(self):
        with self.s.mark() as s:
            s.erase(3)
            with s.mark():
                s.erase(2)
            s.begin()
        self.assertEqual((self.s.marks, len(lines(self.s))), (0, 1))

    def test_it_is_rolled_back(self):
        text = self.s.print()
        with self.assertRaises(KeyError), self.s.mark() as s:
            s.erase(3)
            s.begin()
            s.erase(2)
            s.begin()
            raise KeyError
        self.assertEqual((self.s.marks, self.s.print()), (0, text))
        self.assertEqual(self.s.insert(end(0), '"test.a"() : () -> ()'), 4)

    def test_the_inner_one(self):
        with self.s.mark() as s:
            s.erase(3)
            with self.assertRaises(mlir_work.Refused), s.mark():
                s.erase(2)
                s.erase(2)
        self.assertEqual(len(lines(self.s)), 2)

    def test_a_refusal_that_is_caught(self):
        with self.s.mark() as s:
            self.assertRaises(mlir_work.Refused, s.erase, 2)
            s.erase(3)
        self.assertEqual(len(lines(self.s)), 2)

    def test_an_interrupt_in_between(self):
        with self.assertRaises(KeyboardInterrupt), self.s.mark() as s:
            s.erase(3)
            raise KeyboardInterrupt
        self.assertEqual((self.s.closed, self.s.marks, len(lines(self.s))), (False, 0, 3))

    def test_it_is_dropped_within(self):
        with self.assertRaises(mlir_work.Error), self.s.mark() as s:
            s.rollback()
        with self.assertRaises(KeyError), self.s.mark() as s:
            s.commit()
            raise KeyError
        self.assertEqual(self.s.marks, 0)

    def test_the_session_is_closed_within(self):
        with self.assertRaises(mlir_work.SessionClosed), self.s.mark() as s:
            s.close()
            s.erase(3)

    def test_all_that_there_are(self):
        for _ in range(16):
            self.s.begin()
        with self.assertRaises(mlir_work.Refused) as caught, self.s.mark():
            self.fail("there are 16 marks")
        self.assertEqual(caught.exception.number, 34)
        self.assertEqual((len(self.s.operations()), self.s.marks), (4, 16))


class Rows(Case):
    def test_symbols(self):
        name = '@"a b\\0A\\22#3"'
        with session(ODD) as s:
            self.assertEqual(s.report("symbols"), [
                Symbol("def", 1, name, table=0), Symbol("def", 2, "@f", table=0), Symbol("def", 3, "@f", table=0),
                Symbol("duplicate", 3, "@f", table=0), Symbol("use", 4, "@f", target=2),
                Symbol("unresolved", 5, name + '::@"#1 @x"'), Symbol("unresolved", 5, "@none"),
                Symbol("mismatch", 4, target=2)])
            self.assertEqual(s.report("unreached"), [])
            s.drop_attr(5, "k")
            self.assertEqual(s.report("unreached"), [(1, name)])

    def test_symbols_that_may_be_defined(self):
        """A name that an operation beyond the table has is unknown with opaque terms, and unresolved without them."""
        text = '"llvm.func"() <{sym_name = "f"}> ({}) : () -> ()\n"t.a"() {k = @f, l = @g} : () -> ()\n'
        for opaque, group in ((True, "unknown"), (False, "unresolved")):
            with session(text, opaque=opaque) as s:
                self.assertEqual(s.report("symbols"), [Symbol(group, 2, "@f"), Symbol("unresolved", 2, "@g")])

    def test_the_others(self):
        with session(example("branch")) as s:
            self.assertEqual(s.report("uses")[0], (Argument(1, 0, 0), 6, 0))
            self.assertEqual([it for it in s.report("effects") if it.operation > 1],
                             [(5, ("read", "write")), (6, ("read",)), (8, ("write",))])
            self.assertEqual(s.report("constants")[2], (Result(4), "true"))
            s.set_operand(5, 0, Result(2))
            self.assertEqual([(it.operation, it.rule) for it in s.report("diagnostics")], [(5, 2)])

    def test_a_kind_that_is_not_known(self):
        class Other(Referred):
            def line(self, line):
                return mlir_work.Reply("ok", "#1 a b\n#2\n")
        with mlir_work.Session("", way=Other()) as s:
            self.assertEqual(s.report("loops"), [("#1", "a", "b"), ("#2",)])

    def test_other_replies(self):
        """Words that a later program may say, a refusal within `kinds`, and an analysis that wasn't attached."""
        class Other(Referred):
            def open(self, text, limit=None):
                return ["attach dead refused 36 Memory"]

            def line(self, line):
                words = {b"detach uses": "refused 36 Memory", b"erase #1": "refused 70 NewWord at 3 of 5"}
                return mlir_work.Reply(words.get(line, "checked 7"))
        with mlir_work.Session("", way=Other()) as s:
            self.assertEqual(s.unattached, ["attach dead refused 36 Memory"])
            with self.assertRaises(mlir_work.Refused) as caught:
                s.erase(1)
            self.assertEqual((caught.exception.number, caught.exception.word, caught.exception.at), (70, "NewWord", 3))
            self.assertEqual((s.command("check f").outcome, s.command("check f").number), ("checked", 7))
        with mlir_work.Session("", kinds=[it for it in mlir_work.KINDS if it != "dead"], way=Other()) as s:
            self.assertEqual(s.refused, 0)
        with self.assertRaises(mlir_work.Refused):
            mlir_work.Session("", kinds=[], way=Other())

    def test_words(self):
        self.assertEqual((str(Result(3)), str(Argument(1, 0, 2))), ("%v3.0", "%a1.0.2"))
        self.assertEqual([before(3), after(4), start(1), end(0, 2)],
                         ["before #3", "after #4", "start #1 0", "end #0 2"])
        self.assertEqual(quoted("a\"\\\n\x7fä"), r'"a\22\5C\0A\7F\C3\A4"')


def wanted(module):
    """The operations of a module of oracle, as a session has them."""
    places = module.places()

    def depth(op):
        where = places.get(op.id)
        return 0 if where is None else 1 + depth(where.parent)
    for op in walk(module.root):
        where = places.get(op.id)
        entries = [{key.decode(): "unit" if it == ("unit",) else printing.attr_text(it) for key, it in those.items()}
                   for those in (op.props, op.attrs)]
        region = 0 if where is None else next(k for k, it in enumerate(where.parent.regions)
                                              if it and any(one is op for one in it.ops))
        yield (op.id, op.name.decode(), [value_text(it) for it in op.operands],
               [printing.type_text(module.type_of(it, module.ops())) for it in op.operands],
               [printing.type_text(it) for it in op.results], *entries, len(op.regions),
               [printing.type_text(it) for block in op.regions if block for it in block.args],
               None if where is None else where.parent.id, region, depth(op))


def found(s):
    """Those of a session, in the same form."""
    for it in s:
        yield (it.number, it.name, [str(value) for value in it.operands], list(it.operand_types),
               list(it.results.values()), it.properties, it.attributes, it.regions, list(it.arguments.values()),
               it.parent, it.region, it.depth)


class Operations(Case):
    def compare(self, text, more):
        """Compares the operations of a module, before and after some lines."""
        run = script.Run(script.read(text.encode()))
        with session(text) as s:
            self.assertEqual(list(found(s)), list(wanted(run.module)))
            for line in more(run):
                run.reply(script.expected(line)[1])
                s.commands([line])
            self.assertEqual(list(found(s)), list(wanted(run.module)))
            self.assertEqual(s.print(), text_of(run.module))
            for it in s:
                for place, value in enumerate(it.results):
                    self.assertEqual(value, (it.number, place))

    def test_by_chance(self):
        for number in range(8):
            maker = random.Random(f"operations {number}")
            text = text_of(chance.module(maker, 24, 0.2, maker.choice(sorted(chance.TASTES))))

            def lines_by_chance(run, maker=maker):
                scripter = chance.Scripter(maker, run)
                for _ in range(12):
                    yield from (it for it in [script_lines.line_of(maker, scripter)] if it.isascii())
            with self.subTest(number):
                self.compare(text, lines_by_chance)

    def test_by_hand(self):
        texts = {"examples": [path.read_text() for path in sorted((ROOT / "examples").glob("*.mlir"))],
                 "by hand": ["", ODD, '"builtin.module"() ({}, {}) : () -> ()',
                             '"builtin.module"() ({^bb0: }, {"a"() : () -> ()}) {N., N._ = "N.__"} : () -> ()',
                             '%0:2 = "a"() ({^bb0(%x: (i32, i1) -> (i8), %y: memref<2x?xi32>): "b"(%x, %y) {c = {d, '
                             'e = [1, @f::@g]}, "x = y" = array<i32: 1, 2>, h = (i32) -> ()} : ((i32, i1) -> i8, '
                             'memref<2x?xi32>) -> (() -> ())}, {}, {"c"() : () -> ()}) : () -> (i32, (i32) -> i32)'
                             '"d"(%0#1, %0#0) : ((i32) -> i32, i32) -> ()']}
        for text in (it for those in texts.values() for it in those):
            with self.subTest(text):
                self.compare(text, lambda run: ["set-attr #1 N. 5", "erase #2", 'insert end #0 0 "z"() : () -> i1'])

    @unittest.skipUnless(knows_opaque(), "the program has no --opaque")
    def test_opaque_terms_by_chance(self):
        """Attributes and types are listed as they are spelled, whatever brackets, arrows and signs are in them."""
        maker, terms = random.Random(71), []
        while len(terms) < 600:
            body = "<" + "".join(maker.choice(PARTS) for _ in range(maker.randint(1, 5))) + ">"
            terms += ["#foo" + body] if is_body(body) else []
        pairs = list(zip(terms[::2], terms[1::2]))
        texts = [f'"x"() <{{p = {a}, q = 1 : i8}}> ({{^bb0(%0: {type_of(a)}, %1: i8): }}) {{a = {b}, c = [{a}, {b}]}}'
                 f' : () -> ({type_of(b)}, i1, {type_of(a)})' for a, b in pairs]
        with session("\n".join(texts), opaque=True) as s:
            for it, (a, b) in zip(s.operations()[1:], pairs, strict=True):
                with self.subTest(a=a, b=b):
                    self.assertEqual(it.properties, {"p": a, "q": "1 : i8"})
                    self.assertEqual(it.attributes, {"a": b, "c": f"[{a}, {b}]"})
                    self.assertEqual(list(it.arguments.values()), [type_of(a), "i8"])
                    self.assertEqual(list(it.results.values()), [type_of(b), "i1", type_of(a)])

    @unittest.skipUnless(knows_opaque(), "the program has no --opaque")
    def test_opaque_terms_by_hand(self):
        """The forms in which a bracket closes nothing, or a dash belongs to a name."""
        for term in ("#foo<a <= b>>", "#foo<a <= b, c >= d>", "#foo<(a >= b)>", "#foo<[>]>", "#foo<{>}>", "#foo<->>",
                     "#foo<#a.b->", "#foo<#a.b ->>", "#foo<!a.b-> : !a.b-", '#foo<"x,>">', "array<!a.b->",
                     "affine_map<(d0) -> (d0 > 1)>", "affine_set<(d0) : (d0 - 1 >= 0)>", "#a.b-", "[#a.b-, #a.c-]",
                     "-1.0e-5 : f32"):
            text = f'"x"() <{{p = {term}}}> {{a = {term}, c}} : () -> ()'
            with self.subTest(term), session(text, opaque=True) as s:
                it = s.operations()[1]
                self.assertEqual((it.properties, it.attributes), ({"p": term}, {"a": term, "c": "unit"}))

    def test_they_are_asked_for_once(self):
        with session(PAIR) as s:
            first = s.operations()
            self.assertIs(s.operations()[1], first[1])
            s.report("dead")
            with s.mark():
                self.assertIs(s.operations()[1], first[1])
                s.erase(first[3])
            self.assertEqual([str(it) for it in s], ["#0 builtin.module", "#1 arith.constant", "#2 arith.constant"])
            self.assertEqual((s.marks, s.refused), (0, 0))

    def test_a_string_looks_like_a_number(self):
        text = '"test.a"() ({}, {\n^bb0(%x: i8):\n  "test.b"(%x) {k = "}) // #7"} : (i8) -> ()\n}) : () -> ()\n'
        with session(text) as s:
            it = s.operations()
            self.assertEqual([(op.number, op.parent, op.region) for op in it], [(0, None, 0), (1, 0, 0), (2, 1, 1)])
            self.assertEqual((it[2].attributes, it[2].operands), ({"k": '"}) // #7"'}, (Argument(1, 1, 0),)))

    def test_there_is_no_entry_left(self):
        with session(PAIR) as s:
            s.commands(f"set-attr #3 k{number} 1" for number in range(256))
            self.assertEqual(len(s.operations()[3].attributes), 256)


class Package(unittest.TestCase):
    def test_types(self):
        """All that is public has types that are there."""
        for name in mlir_work.__all__:
            it = getattr(mlir_work, name)
            for call in [it, *vars(it).values()] if isinstance(it, type) else [it]:
                if callable(call) and getattr(call, "__module__", "").startswith("mlir_work"):
                    typing.get_type_hints(call)
        self.assertTrue((pathlib.Path(mlir_work.__file__).parent / "py.typed").is_file())

    def test_each_command_has_a_method(self):
        for word in forms.forms():
            self.assertTrue(callable(getattr(mlir_work.Session, word.replace("-", "_").rstrip("!"))), word)
        self.assertEqual(list(mlir_work.KINDS), forms.kinds())


if __name__ == "__main__":
    unittest.main()
