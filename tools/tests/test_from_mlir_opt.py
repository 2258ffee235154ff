"""What docs/FROM_MLIR_OPT.md says isn't read is refused so, and its remedies are remedies."""
import re
import shlex
import shutil
import subprocess
import unittest

from support import ROOT, program

PAGE = (ROOT / "docs/FROM_MLIR_OPT.md").read_text()
TOOL = shutil.which("mlir-opt-22")


def rows():
    """The rows of the table of unsupported texts: the text, the answer, and the answer with `--opaque`."""
    for line in PAGE.splitlines():
        cells = re.split(r" \| ", line.strip("| "))
        if len(cells) == 5 and re.fullmatch(r"`\d+ \w+ at \d+`", cells[2]):
            text, says, kept = (cell.strip("`") for cell in cells[1:4])
            yield text, says, says if kept == "the same" else kept


def remedies():
    """The flags of each remedy that is tried, and the module."""
    return re.findall(r"^`(--[^`]*)`\n\n```mlir\n(.*?)^```$", PAGE, re.M | re.S)


def generic(module, flags):
    """What mlir-opt prints of a module in generic form."""
    words = [TOOL, *shlex.split(flags), "--mlir-print-op-generic"]
    return subprocess.run(words, input=module.encode(), stdout=subprocess.PIPE, check=True).stdout


def answer(says):
    """The status and the output of a run over a text with this answer."""
    return (0, "") if says == "read" else (3, f"module refused {says}\n")


class NotRead(unittest.TestCase):
    def test_rows(self):
        found = list(rows())
        self.assertEqual(len(found), 16)
        for text, says, _ in found:
            with self.subTest(text):
                self.assertEqual(program.ran(text.encode()), answer(says))

    def test_rows_with_opaque_terms(self):
        self.addCleanup(program.ask, False)
        try:
            program.ask(True)
        except program.Fault as fault:
            self.skipTest(str(fault))
        for text, _, kept in rows():
            with self.subTest(text):
                self.assertEqual(program.ran(text.encode()), answer(kept))

    @unittest.skipUnless(TOOL, "mlir-opt-22 isn't installed")
    def test_remedies(self):
        found = remedies()
        self.assertEqual(len(found), 5)
        for flags, module in found:
            with self.subTest(flags):
                self.assertEqual(program.ran(generic(module, "")).status, 3)
                self.assertEqual(program.ran(generic(module, flags)), (0, ""))


if __name__ == "__main__":
    unittest.main()
