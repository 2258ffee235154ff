"""The pairs of modules of tests/golden/compare, each with what `mlir-work compare` has to say of it.

A file `NAME.pair` begins with a sentence of intent. The first module follows a line `=== before`, the second one a line
`=== after`, then come a line `=== compare OPTIONS` and a line `=== status N` with what is written. A line that follows
`// the next line for each k from A to B` is there so many times, with `{k}` and `{k-1}` replaced.

    python3 tools/tests/test_compared_pairs.py --update     writes what is answered into the files, to be looked at"""
import contextlib
import io
import pathlib
import re
import sys
import tempfile
import unittest
import unittest.mock

from support import ROOT

from mlir_work.cli import main

PAIRS = ROOT / "tests/golden/compare"
HEADER = re.compile(r"^=== (.*)\n", re.M)
REPEATED = re.compile(r"^// the next line for each k from (\d+) to (\d+)\n(.*\n)", re.M)


def repeated(text):
    """A module with the lines that are there many times."""
    def lines(found):
        first, last, line = int(found[1]), int(found[2]), found[3]
        return "".join(line.replace("{k-1}", str(k - 1)).replace("{k}", str(k)) for k in range(first, last + 1))
    return REPEATED.sub(lines, text)


class Pair:
    """A file with two modules and the answer."""

    def __init__(self, path):
        self.path = path
        self.intent, *parts = HEADER.split(path.read_text())
        self.parts = dict(zip(parts[::2], parts[1::2]))
        self.words = next(it for it in self.parts if it.split()[0] == "compare").split()

    def asked(self):
        """The output for the pair, below a line with the status."""
        no_tool = unittest.mock.patch("mlir_work.cli.generic.tool", return_value=[])
        with tempfile.TemporaryDirectory() as folder, no_tool:
            names = [pathlib.Path(folder, name) for name in ("before", "after")]
            for name in names:
                name.write_text(repeated(self.parts[name.name]))
            with contextlib.redirect_stdout(io.StringIO()) as out, contextlib.redirect_stderr(out):
                out.reconfigure = lambda **_: None
                status = main.main([self.words[0], *map(str, names), *self.words[1:]])
            return f"=== status {status}\n" + out.getvalue().replace(folder + "/", "")

    def expected(self):
        """The same as the file has it."""
        return "".join(f"=== {head}\n{text}" for head, text in self.parts.items() if head.startswith("status "))

    def update(self):
        """Writes the answer into the file."""
        text = self.path.read_text()
        end = text.find("=== status ")
        self.path.write_text((text if end < 0 else text[:end]) + self.asked())


def pairs():
    """All of them."""
    return [Pair(path) for path in sorted(PAIRS.glob("*.pair"))]


class Compared(unittest.TestCase):
    maxDiff = None

    def test_each_pair(self):
        for pair in pairs():
            with self.subTest(pair.path.stem):
                self.assertTrue(pair.intent.strip())
                self.assertEqual(pair.asked(), pair.expected())


if __name__ == "__main__":
    if sys.argv[1:] == ["--update"]:
        for it in pairs():
            it.update()
    else:
        unittest.main()
