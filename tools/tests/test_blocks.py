"""Regions with several blocks on the command line: `--blocks`."""
import contextlib
import io
import os
import pathlib
import subprocess
import sys
import tempfile
import unittest

from support import ROOT, explain, program, session

from mlir_work.cli import main, nesting, run_blocks

FOLDER = ROOT / "tests/data/blocks"
LOOP = FOLDER / "loop_text_order.mlir"


def answered(words, given=""):
    """The status of the command line with some words, and what it prints on standard output and standard error."""
    out, err = io.TextIOWrapper(io.BytesIO(), "utf-8"), io.StringIO()
    stdin, sys.stdin = sys.stdin, io.TextIOWrapper(io.BytesIO(given.encode()), "utf-8")
    try:
        with contextlib.redirect_stdout(out), contextlib.redirect_stderr(err):
            try:
                status = main.main(words)
            except SystemExit as ended:
                status = ended.code
        out.flush()
    finally:
        sys.stdin = stdin
        program.ask(False)
    return status, out.buffer.getvalue().decode(), err.getvalue()


class Prompt(unittest.TestCase):
    def setUp(self):
        self.addCleanup(program.ask, False)
        program.ask(False, (), True)
        self.messages = []

    def opened(self, text):
        """A session of the prompt on a module."""
        found = []

        def attempt(module):
            found[:] = [session.Session(module)]
            self.addCleanup(found[0].way.stop)
            found[0].begin(b"")
            return program.ran(module).refused if found[0].seen is None else None

        nesting.read("m", text, attempt, self.messages.extend)
        return found[0]

    def test_print_and_ids(self):
        """`print` shows blocks, and `ids` the scopes with their numbers."""
        it = self.opened(LOOP.read_bytes())
        self.assertEqual(self.messages, ["m: regions with several blocks are read as nested `cf.block` operations"])
        self.assertEqual(it.answer("print"), ["ok", *LOOP.read_text().splitlines()])
        self.assertIn('    #4      "cf.block"() ({', it.answer("ids"))

    def test_write(self):
        """`write` writes blocks, and nothing once the form is broken."""
        it = self.opened(LOOP.read_bytes())
        with tempfile.TemporaryDirectory() as room:
            name = os.path.join(room, "m.mlir")
            it.answer(f"write {name}")
            self.assertEqual(pathlib.Path(name).read_bytes(), LOOP.read_bytes())
            self.assertEqual(it.answer("erase #4"), ["ok"])
            said = " ".join(it.answer(f"write {name}"))
            self.assertIn('#3 "cf.br": it names the block 3, which its region doesn\'t have (F4)', said)
            self.assertEqual(pathlib.Path(name).read_bytes(), LOOP.read_bytes())
            self.assertEqual(it.answer("print")[0], said[:len(it.answer("print")[0])])
            it.answer("undo")
            self.assertEqual(it.answer("print"), ["ok", *LOOP.read_text().splitlines()])

    def test_without_the_option(self):
        """Without `--blocks` the module is refused with 9."""
        program.ask(False)
        self.assertEqual(program.ran(LOOP.read_bytes()).refused.number, 9)

    def test_a_refusal_is_at_its_place(self):
        """A refusal of the nested module is shown at its line and column in the file."""
        text = LOOP.read_bytes().replace(b'"func.return"(%3)', b'"func.return"(%2)')
        it = self.opened(text)
        refused = program.ran(it.module).refused
        self.assertEqual(explain.module_refused("m", it.module, refused)[0].split(": ")[:2],
                         ["m:7:19", "3 UnknownValue"])

    def test_what_cannot_be_nested(self):
        """A label that is there twice is a message, and the module stays refused."""
        it = self.opened(LOOP.read_bytes().replace(b"^bb2:", b"^bb1:"))
        self.assertIsNone(it.seen.keys[0] if it.seen else None)
        self.assertEqual(self.messages, ["m:8:3: --blocks can't nest this module: 4 Redefined"])


class Outputs(unittest.TestCase):
    def test_modules_in_an_output(self):
        """Each module that `print` shows has blocks; replies, rows and the lines of `print ids` are unchanged."""
        lines = ["1 ok", '"builtin.module"() ({', '  "t.a"() : () -> ()', "}) : () -> ()", "2 ok", "#4 V2", "3 ok",
                 '"builtin.module"() ({ // #0', '  "cf.block"() ({ // #1', "  }) {order = 1 : i32} : () -> () // #1",
                 "}) : () -> () // #0"]
        self.assertEqual(nesting.flattened(lines), (lines, []))
        found, faults = nesting.flattened(["1 ok", '"builtin.module"() ({', '  "t.f"() ({',
                                           '    "t.go"() {cf.successors = array<i32: 1>} : () -> ()', "  }) : () -> ()",
                                           "}) : () -> ()", "2 ok"])
        self.assertEqual((found, len(faults)), (["1 ok", nesting.BROKEN, "2 ok"], 1))

    def test_options(self):
        """The output file is taken out of the options, in each spelling."""
        for words in (["-o", "f", "--brief"], ["--brief", "--output", "f"], ["--output=f", "--brief"]):
            self.assertEqual(run_blocks.output_of(words), (["--brief"], "f"))


@unittest.skipIf(program.started().words[0] == sys.executable, "needs a program with all options")
class Runs(unittest.TestCase):
    def ran(self, *words, given=""):
        """The status, the output and the messages of a run."""
        command = [sys.executable, "-m", "mlir_work", "run", *map(str, words)]
        it = subprocess.run(command, input=given, capture_output=True, text=True, check=False, cwd=ROOT,
                            env={**os.environ, "PYTHONPATH": str(ROOT / "bindings/python")})
        return it.returncode, it.stdout, it.stderr

    def test_modules_come_back(self):
        """Each module is printed with the bytes of its file."""
        for file in sorted(FOLDER.glob("*.mlir")):
            with self.subTest(file.name):
                status, out, _ = self.ran("--blocks", "--opaque", "--brief", file, "-e", "print")
                self.assertEqual((status, out), (0, "1 ok\n" + file.read_text()))

    def test_a_script_behind_the_module(self):
        """Listings after edits have blocks; without the option the module is refused."""
        given = LOOP.read_text() + "// -----\ncanon\nreport uses of %v2.0\n"
        status, out, said = self.ran("--blocks", given=given)
        listing, reports = LOOP.read_text().splitlines(), out.splitlines()
        self.assertEqual((status, reports[0], reports[1:1 + len(listing)]), (0, "1 converged 0", listing))
        self.assertEqual(reports[-2:], ["2 ok", "%v2.0 #3 0"])
        self.assertIn("-: regions with several blocks", said)
        self.assertEqual(self.ran(given=given)[:2], (3, f"module refused 9 Successors at {given.find('[')}\n"))

    def test_the_form_is_tested_after_the_run(self):
        """A run that ends with a broken form has status 1 and a message, also if it prints nothing."""
        for more, shown in (([], "1 ok\n"), (["-e", "print"], f"1 ok\n2 ok\n{nesting.BROKEN}\n")):
            status, out, said = self.ran("--blocks", "--brief", LOOP, "-e", "erase #4", *more)
            self.assertEqual((status, out), (1, shown))
            self.assertIn(f'{LOOP}: the blocks can\'t be printed: #3 "cf.br": it names the block 3', said)

    def test_several_modules_and_an_output_file(self):
        """With --split-input-file each module is nested if it needs that, and the output goes to the file."""
        plain = '"t.a"() : () -> ()\n'
        with tempfile.TemporaryDirectory() as room:
            module, output = pathlib.Path(room, "m.mlir"), pathlib.Path(room, "out")
            module.write_text(plain + "// -----\n" + LOOP.read_text() + "// -----\n" + plain)
            status, out, _ = self.ran("--blocks", "--split-input-file", "--brief", module, "-e", "print", "-o", output)
            shown = f'1 ok\n"builtin.module"() ({{\n  {plain}}}) : () -> ()\n'
            self.assertEqual((status, out), (0, ""))
            self.assertEqual(output.read_text(), f"{shown}// -----\n1 ok\n{LOOP.read_text()}// -----\n{shown}")

    def test_refusals(self):
        """A refusal has its place in the file; options that don't go with --blocks are refused."""
        given = LOOP.read_text().replace('"func.return"(%3)', '"func.return"(%2)')
        refused = f"module refused 3 UnknownValue at {given.find('%2)')}\n"
        self.assertEqual(self.ran("--blocks", given=given)[:2], (3, refused))
        for words in (["--interactive"], ["--format", "json"]):
            status, out, said = self.ran("--blocks", *words, given=given)
            self.assertEqual((status, out), (2, ""))
            self.assertIn(f"--blocks and {' '.join(words)} exclude each other", said)


class CommandLine(unittest.TestCase):
    def test_explain(self):
        """`explain --blocks` reads the module and explains commands."""
        with tempfile.TemporaryDirectory() as room:
            script = pathlib.Path(room, "s")
            script.write_text("erase #2\n")
            status, out, _ = answered(["explain", "--blocks", str(LOOP), str(script)])
            self.assertEqual((status, "22 HasUses" in out), (1, True))
            self.assertEqual(answered(["explain", str(LOOP), str(script)])[0], 3)


if __name__ == "__main__":
    unittest.main()
