"""What tools/install.sh installs works by itself: the parts of `mlir-work`, the man page, the completions."""
import os
import pathlib
import shlex
import shutil
import subprocess
import sys
import tempfile
import unittest

import support
from support import ROOT

from mlir_work.cli import main, manual, words

HELP = (ROOT / "tools/help.txt").read_text()
COMPLETE = '. "$1"; COMP_WORDS=("${@:2}"); COMP_CWORD=$(($# - 2)); _mlir_work_prompt; printf "%s\\n" "${COMPREPLY[@]}"'


class Manual(unittest.TestCase):
    def test_each_word_is_there(self):
        text = manual.man(HELP, "1").replace("\\-", "-")
        for word in main.COMMANDS:
            self.assertIn(f"\nmlir-work {word} ", text)
        for own in (*words.WORDS.values(), *words.NAMED.values()):
            self.assertIn(f"\n  {own.form} ", text)
        for option in ("--brief", "--keep ROW", "--function NAME", "--color auto|always|never", "--texts"):
            self.assertIn(option, text)

    def completed(self, *typed):
        """What bash completes."""
        with tempfile.NamedTemporaryFile("w", suffix=".sh") as file:
            file.write(manual.bash(HELP, ""))
            file.flush()
            line = ["bash", "-c", COMPLETE, "bash", file.name, "mlir-work", *typed]
            return subprocess.run(line, cwd=ROOT / "examples", stdout=subprocess.PIPE, text=True,
                                  check=True).stdout.split()

    @unittest.skipUnless(shutil.which("bash"), "there is no bash")
    def test_bash(self):
        self.assertEqual(self.completed("re"), ["reduce"])
        self.assertIn("fold.mlir", self.completed("fo"))
        self.assertEqual(self.completed("reduce", "--ke"), ["--keep"])
        self.assertEqual(self.completed("open", "--k"), [])
        self.assertEqual(self.completed("open", "--te"), ["--texts"])

    @unittest.skipUnless(shutil.which("zsh"), "there is no zsh")
    def test_zsh(self):
        it = subprocess.run(["zsh", "-n"], input=manual.zsh(HELP, ""), text=True, capture_output=True, check=False)
        self.assertEqual((it.returncode, it.stderr), (0, ""))


class Installed(unittest.TestCase):
    def setUp(self):
        made = tempfile.TemporaryDirectory()
        self.addCleanup(made.cleanup)
        self.prefix = pathlib.Path(made.name, "there")
        its, more = support.words()
        there = pathlib.Path(made.name, "program")
        variables = " ".join(f"{name}={shlex.quote(text)}" for name, text in more.items())
        there.write_text(f'#!/bin/sh\n[ "$1" != --help ] || exec cat {ROOT}/tools/help.txt\n'
                         f'exec env {variables} {shlex.join(its)} "$@"\n')
        there.chmod(0o755)
        environment = {**os.environ, "MLIR_WORK": str(there)}
        subprocess.run([ROOT / "tools/install.sh", self.prefix], env=environment, stdout=subprocess.DEVNULL, check=True)

    def ran(self, *given, text=""):
        """A run of what is installed."""
        environment = {name: value for name, value in os.environ.items() if not name.startswith("MLIR_WORK")}
        it = subprocess.run([self.prefix / "bin/mlir-work", *given], input=text, stdout=subprocess.PIPE, text=True,
                            env=environment, check=False, cwd=ROOT / "examples")
        return it.returncode, it.stdout

    def test_all_of_it(self):
        status, said = self.ran("fold.mlir", text="help V15\nhelp erase-dead\nhelp 51\nhelp uses\nerase #99\n")
        self.assertEqual(status, 1)
        for title in ("V15: what", "1 `erase-dead`: ", "51 NotLegalised", "refused 20 NoSuchOp: "):
            self.assertIn(f"\n{title}", said)
        self.assertEqual(self.ran("compare", "fold.mlir", "fold.mlir", "--inputs", "9")[0], 0)
        self.assertEqual(self.ran("explain", "fold.mlir", "-", text="erase #2\n")[1][:16], "-:1:1: 22 HasUse")
        self.assertIn("erase-dead", (self.prefix / "share/man/man1/mlir-work.1").read_text().replace("\\", ""))

    def test_the_package(self):
        """It finds the program that is installed."""
        there = {"PYTHONPATH": self.prefix / "share/mlir_work/python", "PATH": self.prefix / "bin"}
        code = "import mlir_work.command as it; print(it.find().words[0], it.__file__)"
        said = subprocess.run([sys.executable, "-c", code], stdout=subprocess.PIPE, text=True, env=there, check=True)
        self.assertEqual(said.stdout.split(), [f"{self.prefix}/bin/mlir_work",
                                               f"{self.prefix}/share/mlir_work/python/mlir_work/command.py"])


if __name__ == "__main__":
    unittest.main()
