"""The command line `mlir-work` as a whole: `run`, options before a command, several modules in a file, custom forms."""
import os
import pathlib
import shutil
import subprocess
import sys
import tempfile
import unittest
import unittest.mock

import support
from support import ROOT

from mlir_work.cli import main, run

FLOAT = '"t.a"() : () -> f32\n'
WRONG = '"b"(%x) : (i1) -> ()\n'
PLAIN = '%a = "t.a"() : () -> i8\n"t.b"(%a) : (i8) -> ()\n'
CUSTOM = "func.func @f(%a: i32) -> i32 {\n  %b = arith.addi %a, %a : i32\n  return %b : i32\n}\n"


class CommandLine(unittest.TestCase):
    def setUp(self):
        room = tempfile.TemporaryDirectory()
        self.addCleanup(room.cleanup)
        self.folder = pathlib.Path(room.name)

    def file(self, name, text):
        """Writes a file, and returns its name."""
        (self.folder / name).write_text(text)
        return name

    def ran(self, *words, text="", **more):
        """The status of a command line, and what it prints to both ends."""
        before, variables = support.words()
        it = subprocess.run([sys.executable, ROOT / "tools/mlir_work.py", *words], input=text, cwd=self.folder,
                            text=True, capture_output=True, check=False,
                            env={**os.environ, **variables, "MLIR_WORK": " ".join(before), "MLIR_OPT": "none", **more})
        return it.returncode, it.stdout, it.stderr

    def test_options_before_the_command(self):
        for words, wanted in {
                ("--opaque", "explain", "m"): ["explain", "--opaque", "m"],
                ("--patterns", "p", "--opaque", "m"): ["m", "--patterns", "p", "--opaque"],
                ("--patterns=p", "page", "m", "-o", "x"): ["page", "--patterns=p", "m", "-o", "x"],
                ("explain", "m", "--opaque"): ["explain", "m", "--opaque"], ("--help",): ["--help"], (): []}.items():
            self.assertEqual(main.reordered(list(words)), wanted)
        self.file("f.mlir", FLOAT)
        for words in (("--opaque", "explain", "f.mlir"), ("explain", "--opaque", "f.mlir")):
            self.assertEqual(self.ran(*words), (0, "", ""))
        self.assertEqual(self.ran("--opaque", "f.mlir", text="dead\n")[0], 0)
        self.assertEqual(self.ran("explain", "f.mlir")[0], 3)

    def test_help(self):
        self.assertEqual(self.ran("help"), self.ran("--help"))
        self.assertEqual(self.ran("help", "reduce"), self.ran("reduce", "--help"))
        self.assertIn("run a script over a module", self.ran("help")[1])

    def test_several_modules(self):
        self.file("two.mlir", f"{PLAIN}// -----\n{WRONG}")
        status, said, _ = self.ran("explain", "--split-input-file", "two.mlir")
        self.assertEqual((status, said.splitlines()[:2][0]), (3, "// -----"))
        self.assertTrue(said.splitlines()[1].startswith("two.mlir:4:5: 3 UnknownValue"), said)
        self.file("good.mlir", f"{PLAIN}// -----\n{PLAIN}")
        self.file("one.mlir", PLAIN)
        status, said, told = self.ran("--split-input-file", "compare", "good.mlir", "one.mlir")
        self.assertEqual((status, said), (2, ""))
        self.assertIn("found 2 modules in good.mlir and 1 in one.mlir", told)
        self.assertEqual(self.ran("page", "--split-input-file", "good.mlir", "-o", "x.html"), (0, "// -----\n", ""))
        self.assertEqual(sorted(it.name for it in self.folder.glob("*.html")), ["x-1.html", "x-2.html"])
        status, said, _ = self.ran("open", "--split-input-file", "good.mlir", text="")
        self.assertEqual((status, said), (0, "// -----\n"))

    def test_run(self):
        self.file("m.mlir", PLAIN)
        whole = f"{PLAIN}// -----\nreport dead\n"
        self.assertEqual(self.ran("run", "--brief", text=whole), (0, "1 ok\n", ""))
        self.assertEqual(run.place_of_module(["--brief", "-e", "x", "m", "--limit", "3"]), 3)
        self.assertEqual(run.place_of_module(["--brief", "-e", "x"]), None)
        self.assertEqual(run.place_of_module(["-"]), 0)

    def test_custom_forms(self):
        for text, is_custom in {CUSTOM: True, "module {\n}\n": True, "%c = arith.constant 1 : i8\n": True,
                                "// one\n#map = affine_map<() -> ()>\nmodule {\n}": True, PLAIN: False, "": False,
                                "#a = 1\n" + PLAIN: False, '%0:2 = "a"() : () -> (i8, i8)\n': False}.items():
            self.assertEqual(run.is_custom(text.encode()), is_custom, text)

    @unittest.skipUnless(shutil.which("mlir-opt-22"), "mlir-opt-22 isn't installed")
    def test_custom_forms_are_converted(self):
        self.file("c.mlir", CUSTOM)
        self.file("s.script", "erase #2\n")
        tool = {"MLIR_OPT": "mlir-opt-22"}
        status, said, told = self.ran("explain", "c.mlir", "s.script", **tool)
        self.assertEqual((status, said[:24]), (1, "s.script:1:1: 22 HasUses"))
        self.assertEqual(told, "c.mlir: in generic form, as mlir-opt-22 prints it\n")
        self.file("two.mlir", f"{CUSTOM}// -----\n{CUSTOM}")
        with tempfile.TemporaryDirectory() as folder, unittest.mock.patch.dict(os.environ, tool):
            two = str(self.folder / "two.mlir")
            file = run.in_generic_form(["--split-input-file", two, "-e", "print"], 1, folder)[1]
            text = pathlib.Path(file).read_text()
            self.assertEqual((text.count('"func.func"'), text.count("\n// -----\n")), (2, 1))
            file = run.in_generic_form([str(self.folder / "c.mlir")], 0, folder)[0]
            self.assertEqual(pathlib.Path(file).read_text().count('"func.func"'), 1)
        status, said, told = self.ran("run", "c.mlir", **tool)
        self.assertEqual((status, said, told.count("c.mlir: "), "tmp" in told), (0, "", told.count("\n"), False))
        status, said, told = self.ran("run", "--brief", text=f"{CUSTOM}// -----\nreport dead\n", **tool)
        self.assertEqual((status, said, told), (0, "1 ok\n", "-: in generic form, as mlir-opt-22 prints it\n"))


if __name__ == "__main__":
    unittest.main()
