"""The place of the fault in a refused line, and the message."""
import pathlib
import re
import tempfile
import unittest
import unittest.mock

import support
from support import ROOT, check_examples, explain, forms, mistakes, program

from mlir_work.cli import messages
from mlir_work.script import counted

STRENGTH = ROOT / "examples/strength.mlir"
# Lines that aren't commands, with the byte offset of the fault, and a part of the message.
MISSPELT = {
    "erase 8": (6, "found `8`, expected #N: write `erase #N`"),
    "erase": (5, "#N is missing: write `erase #N`"),
    "erase #8 #9": (9, "found `#9` after the end of the command: write `erase #N`"),
    "erase #4294967296": (6, "4294967296 is above 4294967295"),
    "set-operand #8 0 %9": (17, "found `%9`, expected VALUE"),
    "set-operand #8 %v8.0": (15, "found `%v8.0`, expected K"),
    "move #8 #7": (8, "found `#7`, expected PLACE"),
    "move #8 start #6": (8, "found `start`, expected PLACE"),
    "replace %v8.0 with %v7.0": (14, "found `with`, expected VALUE"),
    "set-attr #1 2 3": (12, "found `2`, expected KEY"),
    "set-attr #1 a": (13, "ATTRIBUTE is missing"),
    "insert before #8": (16, "OPERATION is missing"),
    "report use": (7, "the kinds are uses, "),
    "use": (0, "write `report uses`"),
    "delete #8": (0, "write `erase #N`"),
    "inesrt": (0, "write `insert PLACE OPERATION`"),
    "xyzzy": (0, "the commands are print, report, "),
    "canon 5": (6, "found `5`, expected `limit` or `at` or `only` or `trace` or `fired`: write `canon` or "
                "`canon limit N` or "),
    "canon limit": (11, "N is missing: write `canon limit N`"),
    "canon limit #5": (12, "found `#5`, expected N: write `canon limit N`"),
    "canon limit 4294967296": (12, "4294967296 is above 4294967295"),
    "canon limit 5 6": (14, "found `6` after the end of the command: write `canon limit N`"),
    "canon trace 5": (12, "found `5`, expected `limit`: write `canon trace` or `canon trace limit N`"),
    "canon trace limit": (17, "N is missing: write `canon trace limit N`"),
    "rewrite 4,1 traced": (12, "found `traced`, expected `limit` or `proved` or `trace` or `fired`: write "
                           "`rewrite RULES` or "),
    "canon fired 5": (12, "found `5`, expected `limit`: write `canon fired` or `canon fired limit N`"),
    "rewrite 4,1 fired trace": (18, "found `trace`, expected `limit`: write `rewrite RULES fired` or "),
    "rewrite 25 trace": (8, "found `25`, expected RULES: write `rewrite RULES` or "),
    "canon only 4 trace limit #5": (25, "found `#5`, expected N: write `canon only RULES trace limit N`"),
    "canon limit 5 trace": (14, "found `trace` after the end of the command: write `canon limit N`"),
    "trace": (0, "unknown command `trace`: write `canon` or "),
    "fired": (0, "unknown command `fired`: write `canon` or "),
    "sweep #3": (6, "found `#3` after the end of the command: write `sweep`"),
    "canonicalize": (0, "write `canon` or `canon limit N`"),
    "symbol-dce": (0, "write `sweep`"),
    '"scf.yield"() : () -> ()': (0, "write `insert PLACE OPERATION`, with the operation on one line"),
}


def explained(module, script=None):
    """The status and the output for two files with these bytes."""
    with tempfile.TemporaryDirectory() as folder:
        names = []
        for name, text in (("m", module), ("s", script)):
            if text is not None:
                pathlib.Path(folder, name).write_bytes(text)
                names.append(str(pathlib.Path(folder, name)))
        status, lines = explain.explained(names)
        return status, [line.replace(folder + "/", "") for line in lines]


class Misspelt(unittest.TestCase):
    def test_where_and_why(self):
        for line, (column, words) in MISSPELT.items():
            with self.subTest(line):
                fault = mistakes.misspelt(line)
                self.assertEqual(fault.column, column)
                self.assertIn(words, fault.words)

    def test_each_is_refused(self):
        replies = support.replies(program.asked(STRENGTH.read_bytes(), list(MISSPELT)))
        self.assertEqual({reply for reply, _ in replies}, {"refused 60 BadCommand"})

    def test_no_fault_in_what_is_a_command(self):
        for file in (ROOT / "examples").glob("*.script"):
            for _, line in counted(file.read_bytes()):
                self.assertIsNone(mistakes.misspelt(line.decode("latin-1")))


class Words(unittest.TestCase):
    def test_each_refusal_has_a_sentence(self):
        page = (ROOT / "docs/REFUSALS.md").read_text()
        self.assertEqual(set(messages.of_page()), set(map(int, re.findall(r"^### (\d+) ", page, re.M))))
        self.assertTrue(all(sentence for sentence, _ in messages.of_page().values()))

    def test_a_word_of_a_form_that_is_not_known(self):
        known = {"go": ["go #N [limit N]", "go (left|right) OTHER"]}
        with unittest.mock.patch.object(forms, "forms", lambda: known), \
                unittest.mock.patch.object(mistakes, "forms", lambda: known):
            self.assertIsNone(mistakes.misspelt("go #3 limit 8"))
            self.assertIsNone(mistakes.misspelt("go left x"))
            self.assertEqual(mistakes.misspelt("go 3").column, 3)

    def test_commands_and_kinds_of_the_help(self):
        self.assertGreaterEqual(len(mistakes.forms()), 14)
        self.assertLessEqual({"print", "report", "set-operand", "insert", "rollback"}, set(mistakes.forms()))
        self.assertEqual(mistakes.kinds()[:6], ["uses", "symbols", "diagnostics", "effects", "dead", "constants"])


class Explained(unittest.TestCase):
    def test_two_files(self):
        script = '// é\n\n\tset-attr #1 "é" "x" y\nerase #4\nrollback\n'.encode()
        status, lines = explained(STRENGTH.read_bytes(), script)
        self.assertEqual(status, 1)
        self.assertTrue(lines[0].startswith("s:3:23: 2 Unexpected: "))
        self.assertEqual(lines[1:3], ['    \tset-attr #1 "é" "x" y', "    \t" + " " * 20 + "^"])
        self.assertTrue(lines[3].startswith("s:4:1: 22 HasUses: "))
        self.assertEqual(lines[4], "    erase #4")
        self.assertTrue(lines[5].startswith("s:5:1: 35 NoMark: "))

    def test_one_file(self):
        status, lines = explained(b'"a"() : () -> ()\n// -----\nerase 1\n')
        self.assertEqual((status, lines[0].partition(" ")[0], lines[2]), (1, "m:3:7:", "          ^"))

    def test_nothing_is_refused(self):
        self.assertEqual(explained(b'"a"() : () -> ()\n', b"erase #1\n"), (0, []))

    def test_a_module(self):
        status, lines = explained('"a"() : () -> ()\n"ü"(%a) : (i1) -> ()\n'.encode(), b"print\n")
        self.assertEqual((status, lines[0].partition(" ")[0], lines[2]), (3, "m:2:6:", "        ^"))
        self.assertEqual(explained(b'"a"(')[1][0].partition(" ")[0], "m:1:5:")

    def test_what_looks_like_a_divider(self):
        for line in ("// ----- ", "  // -----", "//-----", "// -----\r"):
            _, lines = explained(f'"a"() : () -> ()\n{line}\nprint\n'.encode())
            self.assertTrue(lines[0].startswith("m:3:1: 13 LeftOut"))
            self.assertTrue(lines[-1].startswith("m:2:1: this line looks like the divider"), lines)

    def test_a_bad_byte(self):
        status, lines = explained(b"", b"print\n// \xff\n")
        self.assertEqual((status, lines[0].partition(" ")[0]), (1, "s:2:1:"))

    def test_an_insert_that_is_refused(self):
        _, lines = explained(b"", b'insert end #0 0 "a"(%x) : (i1) -> ()\ninsert end #1 0 "a"() : () -> ()\n')
        self.assertTrue(lines[0].startswith("s:1:21: 3 UnknownValue: "))
        self.assertEqual([line for line in lines if "note:" in line], [explain.BEHIND])

    def test_hints(self):
        for line, words in {"set-attr #1 sym_name f": 'quotes, as "f"', "replace %v8.0 %v10.0": "one by one"}.items():
            self.assertIn(words, explained(STRENGTH.read_bytes(), line.encode())[1][0])

    def test_a_divider_in_the_module(self):
        with self.assertRaises(program.Fault):
            explained(b"// -----\n", b"print\n")


class Examples(unittest.TestCase):
    def test_outputs(self):
        for file in (ROOT / "examples").glob("*.script"):
            self.assertEqual(check_examples.faults(file.stem, None), [])

    def test_each_is_told_of(self):
        told = re.findall(r"^\*\*(\w+)\*\*", (ROOT / "examples/README.md").read_text(), re.M)
        self.assertEqual(sorted(told), sorted(file.stem for file in (ROOT / "examples").glob("*.script")))


if __name__ == "__main__":
    unittest.main()
