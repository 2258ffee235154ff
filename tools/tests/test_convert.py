"""Lines that canonicalize, convert or sweep: messages for mistakes, and the answers at the prompt."""
import unittest
import unittest.mock

import support
from support import explain, mistakes, program, session, targets

from mlir_work.script import joined

# Lines that aren't commands, with the byte offset of the fault, and a part of the message.
MISSPELT = {
    "convert": (7, "MODE is missing: write `convert MODE CLAUSES` or `convert trace MODE CLAUSES`; a mode is "
                   "`partial` or `full`"),
    "convert illegal a.b": (8, "found `illegal`, expected MODE: write `convert MODE CLAUSES` or "),
    "convert trace": (13, "MODE is missing: write `convert trace MODE CLAUSES`; a mode is `partial` or `full`"),
    "convert trace  illegal a.b": (15, "found `illegal`, expected MODE: write `convert trace MODE CLAUSES`; a mode "),
    "convert trace trace full": (14, "found `trace`, expected MODE: write `convert trace MODE CLAUSES`"),
    "convert partial trace": (16, "`trace` is not a clause: write one of `legal NAMES`, "),
    "convert trace full legal a.b,": (29, "a name is missing here"),
    "convert traces full": (8, "found `traces`, expected MODE: write `convert MODE CLAUSES` or `convert trace MODE "),
    "convert partial a.b": (16, "`a.b` is not a clause: write one of `legal NAMES`, "),
    "convert full legal": (18, "NAMES is missing: write `legal NAMES`"),
    "convert full  legal a.b, a.c": (24, "a name is missing here"),
    "convert full legal ,": (19, "a name is missing here"),
    "convert full legal a.b,,a.c": (23, "a name is missing here"),
    "convert full legal a.b legal a.c": (23, "the clause `legal` is repeated"),
    "convert full rules 2,x": (21, "`x` is not a number"),
    "convert full rules 2;25": (19, "`2;25` is not a number"),
    "convert full rules 2,4294967296": (21, "4294967296 is above 4294967295"),
    "convert full depth 1,2": (20, "`depth` has several numbers"),
    "convert full depth -1": (19, "`-1` is not a number"),
    "legalize": (0, "write `convert MODE CLAUSES`"),
    "converted": (0, "write `convert MODE CLAUSES`"),
}
# Invalid targets, with the byte offset of the fault, and a part of the message.
UNFIT = {
    "convert partial legal a.b illegal a.b": (34, "`a.b` is repeated"),
    "convert  full dynamic a.c,a.c": (26, "`a.c` is repeated"),
    "convert partial illegal a.b,builtin.unrealized_conversion_cast": (28, "casts are always legal"),
    "convert partial rules 2,1": (24, "a `convert` has no rule 1: write rules of 2 and 25 to 30"),
    "convert partial rules 25,31": (25, "a `convert` has no rule 31: write rules of 2 and 25 to 30"),
    "convert partial depth 0": (22, "depth 0 is out of range: write 1 to 16"),
    "convert partial legal a.b depth 17": (32, "depth 17 is out of range: write 1 to 16"),
    "convert trace partial depth 0": (28, "depth 0 is out of range: write 1 to 16"),
    " convert \ttrace  full legal a.c rules 2,1": (40, "a `convert` has no rule 1: write rules of 2 and 25 to 30"),
}
RIGHT = ["convert partial", "convert full", "convert partial depth 1 rules 2,25,25 dynamic a.b legal c,d illegal e",
         "convert trace partial", "convert\ttrace full  rules 27,26", "canon", "canon limit 0", "sweep"]
REMAINDER = b'''%a = "test.a"() : () -> i32
%r = "arith.remsi"(%a, %a) : (i32, i32) -> i32
"test.use"(%r) : (i32) -> ()
'''
PRIVATE = b'''"func.func"() <{function_type = () -> (), sym_name = "f", sym_visibility = "private"}> ({}) : () -> ()
'''


def begun(module):
    """A session over a module."""
    here = session.Session(module)
    here.begin(b"")
    return here


class Misspelt(unittest.TestCase):
    def test_where_and_why(self):
        for line, (column, words) in MISSPELT.items():
            with self.subTest(line):
                fault = mistakes.misspelt(line)
                self.assertEqual(fault.column, column)
                self.assertIn(words, fault.words)

    def test_each_is_refused(self):
        replies = support.replies(program.asked(b"", list(MISSPELT)))
        self.assertEqual({reply for reply, _ in replies}, {"refused 60 BadCommand"})

    def test_right_ones(self):
        for line in RIGHT:
            self.assertIsNone(mistakes.misspelt(line), line)
        replies = support.replies(program.asked(b"", RIGHT))
        self.assertFalse([reply for reply, _ in replies if "60" in reply])


class Targets(unittest.TestCase):
    def test_where_and_why(self):
        for line, (column, words) in UNFIT.items():
            with self.subTest(line):
                self.assertIsNone(mistakes.misspelt(line))
                self.assertEqual((targets.unfit(line)[0], words in targets.unfit(line)[1]), (column, True))

    def test_each_is_refused(self):
        replies = support.replies(program.asked(b"", list(UNFIT)))
        self.assertEqual({reply for reply, _ in replies}, {"refused 54 BadTarget"})

    def test_the_others_are_not(self):
        replies = support.replies(program.asked(b"", RIGHT))
        self.assertEqual([line for line, (reply, _) in zip(RIGHT, replies) if "54" in reply], [])
        self.assertTrue(all(targets.unfit(line) is None for line in RIGHT[:5]))


class Answered(unittest.TestCase):
    def test_with_a_diff(self):
        here = begun(REMAINDER)
        self.assertEqual(here.answer("convert partial illegal arith.remsi rules 27"), [
            "converted 1",
            '-    #2    %v2.0 = "arith.remsi"(%v1.0, %v1.0) : (i32, i32) -> i32',
            '+    #4    %v4.0 = "arith.divsi"(%v1.0, %v1.0) : (i32, i32) -> i32',
            '+    #5    %v5.0 = "arith.muli"(%v4.0, %v1.0) <{overflowFlags = #arith.overflow<none>}> : (i32, i32) -> '
            'i32',
            '+    #6    %v6.0 = "arith.subi"(%v1.0, %v5.0) <{overflowFlags = #arith.overflow<none>}> : (i32, i32) -> '
            'i32',
            '-    #3    "test.use"(%v2.0) : (i32) -> ()',
            '+    #3    "test.use"(%v6.0) : (i32) -> ()'])
        self.assertEqual(here.answer("undo"), ["undone: convert partial illegal arith.remsi rules 27"])
        self.assertEqual(here.answer("at #2 0"), ['    #2    %v2.0 = "arith.remsi"(%v1.0, %v1.0) : (i32, i32) -> i32'])

    def test_what_is_told(self):
        here = begun(REMAINDER)
        line = "convert trace partial illegal arith.remsi,arith.subi rules 27,26"
        self.assertEqual(here.answer(line), [
            "converted 2", "rewrote 27 expand-remainder #2 made #4,#5,#6 erased #2",
            "rewrote 26 expand-difference #6 made #7,#8,#9,#10,#11 erased #6"])
        self.assertEqual(here.kept(), [line])
        self.assertEqual(here.answer("undo"), [f"undone: {line}"])
        refused, *_, shown, stays = here.answer(f"{line} depth 1")
        self.assertTrue(refused.startswith("refused 52 ChainTooDeep #2: "))
        self.assertEqual(shown, '    #2    %v2.0 = "arith.remsi"(%v1.0, %v1.0) : (i32, i32) -> i32')
        self.assertEqual(stays, "stays #2 26 expand-difference other-operation")
        self.assertEqual(here.answer("convert trace full")[-1], "stays #0 no-rule")
        self.assertEqual(here.answer("convert trace partial rules 1")[1:], ["    convert trace partial rules 1",
                                                                           "                                ^"])
        self.assertEqual(here.kept(), [])

    def test_what_is_told_is_explained(self):
        script = b"convert trace partial illegal arith.remsi\nexpect 51 convert trace partial illegal arith.remsi\n"
        replies = list(program.ran(joined(REMAINDER, script)).replies())
        told = explain.commands_refused("a", (REMAINDER, script), 1, replies[:1])
        self.assertTrue(told[0].startswith("a:1:1: 51 NotLegalised #2: "))
        self.assertEqual([line[:8] for line in told[-2:]], ["    #2  ", "stays #2"])
        self.assertEqual(replies[1], ("refused 51 NotLegalised #2", "stays #2 no-rule\n"))

    def test_sweep(self):
        self.assertEqual(begun(PRIVATE).answer("sweep")[0], "swept 1")
        self.assertEqual(begun(REMAINDER).answer("sweep"), ["swept 0", "nothing changed"])

    def test_a_diff_that_is_long(self):
        here = begun(PRIVATE * 3)
        with unittest.mock.patch.object(session, "MOST_DIFF", 2):
            said = here.answer("sweep")
        self.assertEqual((said[0], len(said), said[-1]), ("swept 3", 4, ".. 2 more lines: `diff` shows them"))
        self.assertEqual(len(here.answer("diff")), 4)

    def test_what_it_changed_itself(self):
        here = begun(REMAINDER)
        here.answer("set-attr #3 k unit")
        said = here.answer("convert partial illegal arith.remsi rules 27")
        here.answer("undo")
        self.assertEqual(here.answer("convert partial illegal arith.remsi rules 27"), said)
        self.assertEqual(sum("{k}" in line for line in said), 2)

    def test_the_operation_that_is_named(self):
        here = begun(REMAINDER)
        self.assertEqual(here.answer("convert partial illegal arith.remsi")[-1],
                         '    #2    %v2.0 = "arith.remsi"(%v1.0, %v1.0) : (i32, i32) -> i32')
        full = "convert full legal builtin.module,test.a,test.use,arith.muli,arith.subi rules 27"
        self.assertTrue(here.answer(full)[0].startswith("refused 51 NotLegalised #2: "))

    def test_a_target(self):
        self.assertEqual(begun(b"").answer("convert partial rules 1"), [
            "refused 54 BadTarget: a `convert` has no rule 1: write rules of 2 and 25 to 30",
            "    convert partial rules 1",
            "                          ^"])


if __name__ == "__main__":
    unittest.main()
