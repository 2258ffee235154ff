"""The judge of verdicts by claims about bits (oracle/claims.py): it finds counterexamples with poison, at small widths
and at the edges of wide types, and raises if a program says that such a pattern holds."""
import os
import pathlib
import tempfile
import unittest
import unittest.mock

from support import ROOT  # noqa: F401

from oracle import claims, everywhere, pattern_checks, patterns

# Patterns with a counterexample, and a row of it. The last three hold for all numbers.
REFUTED = {
    "arith.addi(%a, %b) => arith.subi(%a, %b)": "old 1 : i2",
    "arith.subi(%a, 1) => arith.addi(%a, 1)": "old -1 : i2",
    "arith.andi(%a, 255) => %a": "old 255 : index",
    "arith.divui(%a, %b) => arith.divsi(%a, %b)": "new undefined",
    "arith.select(%c, %a : i1, 0) => arith.andi(%c, %a)": "new poison",
    "arith.minui(%b, 1) => arith.divui(%b, arith.maxui(%b, 1))": "new undefined",
    "arith.select(%c, %a, %b) => arith.select(%c, arith.subi(arith.addi(%a, %b), %b), %b)": "new poison",
}
KEPT = ("arith.andi(%c, %a : i1) => arith.select(%c, %a, false)", "arith.select(%c, %a, %a) => %a",
        "arith.select(arith.cmpi<eq>(%a, %b), %a, %b) => %b", "arith.subi(%a, %a) => 0",
        "arith.divui(%a, %b) => arith.divui(%a, %b)", "arith.trunci(arith.extui(%a : S) : T) : S => %a")


def pattern(text):
    return patterns.read(b"p " + text.encode())


class JudgeTest(unittest.TestCase):
    def test_counterexamples_are_found(self):
        for text, row in REFUTED.items():
            self.assertIn(row, claims.counterexample(pattern(text)) or (), text)

    def test_poison_is_tried(self):
        for text in list(REFUTED)[-3:]:
            self.assertTrue(pattern_checks.check(pattern(text), 2)[0].startswith("holds"), text)

    def test_patterns_that_hold_have_none(self):
        for text in KEPT:
            self.assertIsNone(claims.counterexample(pattern(text)), text)

    def test_a_wrong_program_is_noticed(self):
        """A program that says of each pattern that it holds."""
        with tempfile.TemporaryDirectory() as folder:
            program = pathlib.Path(folder, "yes")
            program.write_text("#!/bin/sh\ncat > /dev/null\nprintf '1 ok\\n2 holds\\n'\n")
            program.chmod(0o755)
            claims.ASKED.clear()
            self.addCleanup(claims.ASKED.clear)
            with unittest.mock.patch.dict(os.environ, {claims.VARIABLE: str(program)}):
                for text in list(REFUTED)[-3:]:
                    with self.assertRaises(claims.Refuted, msg=text):
                        everywhere.check(pattern(text))

    def test_without_a_program_what_is_kept_is_decided(self):
        text = "arith.maxui(%a, 0) => %a"
        claims.ASKED.clear()
        with unittest.mock.patch.dict(os.environ):
            os.environ.pop(claims.VARIABLE, None)
            self.assertIn(text, claims.kept())
            self.assertEqual(claims.decision(pattern(text))[0], "holds")


if __name__ == "__main__":
    unittest.main()
