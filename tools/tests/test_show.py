"""`mlir-work show`: lines and objects of operations, from what the program prints and through the library."""
import json
import os
import pathlib
import re
import subprocess
import sys
import tempfile
import unittest

import support
from support import ROOT

from mlir_work.cli import show
from tools import library

MODULE = """%0 = "t.a"() {k = 1 : i8} : () -> i32
"t.b"(%0) ({
^bb0(%x: i8):
  "t.c"(%x) : (i8) -> ()
}) : (i32) -> ()
"""
TEXT = """\
#0 builtin.module() regions ()
#1 t.a() -> (i32) {k = 1 : i8} in #0 region 0 place 0
#2 t.b(%v1.0) regions (i8) in #0 region 0 place 1
#3 t.c(%a2.0.0) in #2 region 0 place 0
"""
BLOCKS = '"t.f"() ({\n  "t.go"()[^bb1] : () -> ()\n^bb1:\n  "t.end"() : () -> ()\n}) : () -> ()\n'


class Show(unittest.TestCase):
    def setUp(self):
        room = tempfile.TemporaryDirectory()
        self.addCleanup(room.cleanup)
        self.folder = pathlib.Path(room.name)
        (self.folder / "m.mlir").write_text(MODULE)

    def ran(self, *words, **more):
        """The status of the command, and what it prints to both ends."""
        before, variables = support.words()
        it = subprocess.run([sys.executable, ROOT / "tools/mlir_work.py", "show", *words], cwd=self.folder, text=True,
                            capture_output=True, check=False, stdin=subprocess.DEVNULL,
                            env={**os.environ, **variables, "MLIR_WORK": " ".join(before), "MLIR_OPT": "none", **more})
        return it.returncode, it.stdout, it.stderr

    def test_text(self):
        """A line an operation: all, one, or some of them."""
        lines = TEXT.splitlines(True)
        for words, wanted in {(): TEXT, ("all",): TEXT, ("#2",): lines[2], ("3",): lines[3],
                              ("--skip", "1", "--limit", "2"): "".join(lines[1:3]), ("--limit", "0"): "",
                              ("--skip", "9"): "", ("--limit", "99"): TEXT}.items():
            self.assertEqual(self.ran("m.mlir", *words), (0, wanted, ""), words)

    def test_json(self):
        """An object a line, with the same data and sorted keys."""
        status, said, told = self.ran("m.mlir", "--format", "json", "--positions")
        found = [json.loads(line) for line in said.splitlines()]
        self.assertEqual((status, told, [it["id"] for it in found]), (0, "", ["#0", "#1", "#2", "#3"]))
        self.assertEqual(found[3], {"attributes": {}, "column": 3, "id": "#3", "kind": "operation", "line": 4,
                                    "name": "t.c", "operands": ["%a2.0.0"], "parent": "#2", "place": 0,
                                    "properties": {}, "region": 0, "regions": [], "results": []})
        self.assertEqual(said.splitlines()[3], json.dumps(found[3], sort_keys=True, separators=(",", ":")))
        text = self.ran("m.mlir", "--positions")[1].splitlines()
        self.assertEqual(text[3], TEXT.splitlines()[3] + " at 4:3")

    def test_page(self):
        """docs/JSON.md shows an object as it is printed."""
        shown = re.search(r"```json\n(.*?)```", (ROOT / "docs/JSON.md").read_text(), re.S)[1].replace("\n ", "")
        self.assertEqual(self.ran(str(ROOT / "examples/fold.mlir"), "#3", "--format", "json"), (0, shown, ""))

    def test_many(self):
        """More operations than one page."""
        count = show.PAGE * 2 + 5
        (self.folder / "many.mlir").write_text('"t.a"() : () -> ()\n' * count)
        self.assertEqual(self.ran("many.mlir")[1].count("\n"), count + 1)
        self.assertEqual(self.ran("many.mlir", "--skip", str(show.PAGE), "--limit", str(show.PAGE + 1))[1].count("\n"),
                         show.PAGE + 1)

    def test_refused(self):
        """A missing operation, a module that is refused, and wrong words."""
        self.assertEqual(self.ran("m.mlir", "#9"), (1, "", "m.mlir: 20 NoSuchOp: #9 isn't in the module\n"))
        (self.folder / "wrong.mlir").write_text('"b"(%x) : (i1) -> ()\n')
        status, said, told = self.ran("wrong.mlir")
        self.assertEqual((status, said), (3, ""))
        self.assertIn("wrong.mlir:1:5: 3 UnknownValue: ", told)
        for words in (["m.mlir", "%v1.0"], ["m.mlir", "--skip", "-1"], ["m.mlir", "--format", "xml"], []):
            self.assertEqual(self.ran(*words)[0], 2, words)
        (self.folder / "script.mlir").write_text(MODULE + "// -----\nprint\n")
        self.assertEqual(self.ran("script.mlir")[0], 4)
        self.assertEqual(self.ran("none.mlir")[0], 4)

    def test_several_modules(self):
        """Between the operations of two modules is a divider."""
        (self.folder / "two.mlir").write_text(f"{MODULE}// -----\n{MODULE}")
        self.assertEqual(self.ran("two.mlir", "--split-input-file"), (0, f"{TEXT}// -----\n{TEXT}", ""))
        said = self.ran("two.mlir", "3", "--split-input-file", "--positions", "--format", "json")[1].splitlines()
        self.assertEqual([json.loads(it).get("line") for it in said], [4, None, 10])
        self.assertEqual(said[1], '{"divider":true}')

    def test_blocks(self):
        """With --blocks, the operations are those of the nested form."""
        (self.folder / "b.mlir").write_text(BLOCKS)
        self.assertEqual(self.ran("b.mlir")[0], 3)
        status, said, _ = self.ran("b.mlir", "--blocks", "--positions")
        self.assertEqual((status, [line.split("(")[0] for line in said.splitlines()]),
                         (0, ["#0 builtin.module", "#1 t.f", "#2 t.go", "#3 cf.block", "#4 t.end"]))
        self.assertEqual([line.rpartition(" at ")[2] for line in said.splitlines()[1:]], ["1:1", "2:3", "3:1", "4:3"])

    def test_library(self):
        """The library gives the same lines as what the program prints."""
        archive = library.found(self.folder)
        if not archive:
            self.skipTest("there is no library of these sources")
        shared = str(library.shared(archive, self.folder))
        for name, words in ((str(ROOT / "examples/canon.mlir"), ("--format", "json", "--positions")), ("m.mlir", ()),
                            ("m.mlir", ("2",)), ("m.mlir", ("9",)), ("m.mlir", ("--skip", "1", "--limit", "2"))):
            self.assertEqual(self.ran(name, *words, MLIR_WORK_LIBRARY=shared), self.ran(name, *words))
        (self.folder / "wrong.mlir").write_text('"b"(%x) : (i1) -> ()\n')
        self.assertEqual(self.ran("wrong.mlir", MLIR_WORK_LIBRARY=shared), self.ran("wrong.mlir"))


if __name__ == "__main__":
    unittest.main()
