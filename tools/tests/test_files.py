"""The module, scripts and the output in files: `mlir_work [MODULE] [-s FILE].. [-e COMMAND].. [-o FILE]`, over the
program where its help names `--script`. What is written is what the rules write for the input that they make."""
import os
import pathlib
import subprocess
import tempfile
import unittest

import support
from support import program, referred

MODULE = b'%0 = "arith.constant"() <{value = 1 : i32}> : () -> i32\n%1 = "t.u"(%0) : (i32) -> i32\n'
SCRIPT = b"report uses\nerase #2\n"
DIVIDER = b"// -----\n"


def has_files():
    try:
        return support.words()[0][0] != os.sys.executable and program.has_option("--script")
    except program.Fault:
        return False


@unittest.skipUnless(has_files(), "the program takes no files")
class Files(unittest.TestCase):
    def setUp(self):
        self.room = tempfile.TemporaryDirectory()
        self.addCleanup(self.room.cleanup)
        self.folder = pathlib.Path(self.room.name)

    def named(self, name, text):
        file = self.folder / name
        file.write_bytes(text)
        return str(file)

    def ran(self, *words, given=b""):
        """The status, and what is written to both ends."""
        before, more = support.words()
        it = subprocess.run([*before, "--brief", *words], input=given, capture_output=True, check=False,
                            env={**os.environ, **more})
        return it.returncode, it.stdout.decode(), it.stderr.decode()

    def check_runs(self, text, *words, given=b""):
        """Says the same as a run over the input that is meant."""
        self.assertEqual(self.ran(*words, given=given), (*referred(text), ""))

    def test_module(self):
        module = self.named("m.mlir", MODULE)
        self.assertEqual(self.ran(module), (0, "", f"{module}: read a module of 2 operations: add a command, as -e "
                                            "'print ids', or --help\n"))
        self.check_runs(MODULE + DIVIDER + b"print\n", module, "-e", "print")
        self.check_runs(MODULE + DIVIDER + b"print\n", "-e", "print", given=MODULE)
        self.check_runs(MODULE + DIVIDER + b"print\n", "-", "-e", "print", given=MODULE)

    def test_order(self):
        module, first = self.named("m.mlir", MODULE), self.named("a.script", SCRIPT)
        second = self.named("b.script", b"print")
        wanted = MODULE + DIVIDER + SCRIPT + b"print\nreport dead\nerase #1\n"
        self.check_runs(wanted, module, "-s", first, "-s", second, "-e", "report dead", "-e", "erase #1")
        self.check_runs(wanted, "-e", "report dead", "--script", first, "--command=erase #1", "-s", second, module)
        self.check_runs(MODULE + DIVIDER + SCRIPT, module, "-s", "-", given=SCRIPT)

    def test_script_behind_the_module(self):
        whole = self.named("m.mlir", MODULE + DIVIDER + b"erase #9")
        self.check_runs(MODULE + DIVIDER + b"erase #9\nprint\n", whole, "-e", "print")

    def test_last_lines(self):
        for text in (MODULE[:-1], MODULE + DIVIDER[:-1], b""):
            module = self.named("m.mlir", text)
            ended = text + (b"" if text.endswith(b"\n") or not text else b"\n")
            divided = ended if DIVIDER in ended else ended + DIVIDER
            with self.subTest(text=text):
                self.check_runs(divided + b"print\nprint\n", module, "-e", "print", "-e", "print")

    @unittest.skipUnless(program.has_option("--split-input-file"), "the program splits no files")
    def test_split(self):
        parts = (MODULE, b'"t.a"() : () -> ()\n', b'"a"(\n', b"", MODULE[:-1])
        module = self.named("m.mlir", DIVIDER.join(parts))
        whole = [part if part.endswith(b"\n") or not part else part + b"\n" for part in parts]
        ends = [referred(part + DIVIDER + SCRIPT) for part in whole]
        wanted = DIVIDER.decode().join(out for _, out in ends)
        script = self.named("a.script", SCRIPT)
        status, out, told = self.ran(module, "--split-input-file", "-s", script)
        self.assertEqual((status, out), (max(it for it, _ in ends), wanted))
        self.assertEqual(told.partition(" ")[0], f"{module}:7:1:")
        both = DIVIDER.join(parts[:2])
        status, out, told = self.ran("--split-input-file", "--format", "json", "-e", "erase #1", given=both)
        self.assertEqual((status, told, out.count('{"divider":true}\n')), (1, "", 1))
        self.check_runs(MODULE, "--split-input-file", given=MODULE)

    def test_refused_module(self):
        """The message names the file, the line and the column, in each module of a file and behind a script."""
        module = self.named("m.mlir", b'"a"(')
        status, out, told = self.ran(module, "-e", "print")
        self.assertEqual((status, told), (3, f"{module}:2:1: 2 Unexpected: found the end of the text, expected another "
                                          'token: an operation is %r = "name"(%x) <{..}> ({..}) {..} : (i32) -> i32\n'))
        self.assertTrue(out.startswith("module refused "))
        self.assertEqual(self.ran("-e", "print", given=b'"a"(')[2], "")
        script = self.named("a.script", SCRIPT)
        text = MODULE + b"\n\t\"\xc3\xa9\"(%x#1) : (i1) -> ()\n"
        for parts in ([text], [MODULE, text], [MODULE, b"", MODULE[:-1] + b"\n", text]):
            module = self.named("m.mlir", DIVIDER.join(parts))
            flags = ["--split-input-file"] * (len(parts) > 1)
            status, _, told = self.ran(module, *flags, "-s", script)
            line = DIVIDER.join(parts).count(b"\n")
            self.assertEqual((status, told.partition(" ")[0]), (3, f"{module}:{line}:7:"))
            self.assertIn("found `%x`, expected a value defined above", told)
        for flags in (["--format", "json"], ["-o", str(self.folder / "out")], ["--explain"]):
            self.assertTrue(self.ran(module, "--split-input-file", *flags, "-e", "print")[2].startswith(module))

    def test_output(self):
        module, out = self.named("m.mlir", MODULE), self.folder / "out"
        out.write_bytes(b"x" * 10000)
        self.assertEqual(self.ran(module, "-e", "print", "-o", str(out)), (0, "", ""))
        self.assertEqual(out.read_text(), referred(MODULE + DIVIDER + b"print\n")[1])
        self.check_runs(MODULE + DIVIDER + b"print\n", module, "-e", "print", "-o", "-")
        self.assertEqual(self.ran("-o", str(out), given=MODULE + DIVIDER + b"print"), (0, "", ""))
        self.assertEqual(out.read_text(), referred(MODULE + DIVIDER + b"print")[1])

    def test_what_is_not_there(self):
        module, none = self.named("m.mlir", MODULE), str(self.folder / "none")
        missing = "found no such file: correct the name"
        unreadable = "this file can't be read: name a file that you may read"
        for words, name, why in (((none,), none, missing), ((module, "-s", none), none, missing),
                                 ((str(self.folder),), str(self.folder), unreadable)):
            self.assertEqual(self.ran(*words), (2, "", f"error: {name}: {why}\n"))
        there = f"{none}/out"
        self.assertEqual(self.ran(module, "-o", there),
                         (2, "", f"error: {there}: this file can't be written: name one that you may write\n"))

    def test_too_long(self):
        long = self.folder / "long"
        with open(long, "wb") as file:
            file.truncate(33_554_433)
        self.assertEqual(self.ran(str(long)), (2, "", f"error: {long}: this file is longer than 32 MiB: split it\n"))

    def test_not_with_interactive(self):
        module = self.named("m.mlir", MODULE)
        for words in ((module,), ("-e", "print"), ("-s", module), ("-o", "-")):
            status, out, told = self.ran("--interactive", *words)
            self.assertEqual((status, out), (2, ""))
            self.assertIn("cannot be used with", told)

    @unittest.skipUnless(os.path.exists("/dev/full"), "there is no /dev/full")
    def test_full(self):
        status, out, told = self.ran(self.named("m.mlir", MODULE), "-e", "print", "-o", "/dev/full")
        self.assertEqual((status, out, told), (4, "", ""))


if __name__ == "__main__":
    unittest.main()
