"""The messages on bad inputs: each says what was found, what was expected, and what to do.

A file `tests/golden/messages/NAME.message` has a sentence, input files after lines `--- FILE`, and commands after `$`,
each with its status and what it prints to both ends. `tools/tests/test_messages.py --update` writes the answers again.
Without mlir-opt all modules are read as they are."""
import os
import pathlib
import re
import subprocess
import sys
import tempfile
import unittest

import support
from support import ROOT, explain, refusals

from mlir_work.reply import module_refused

FOLDER = ROOT / "tests/golden/messages"
LINE = re.compile(r"^\$ mlir-work (.*)\n", re.M)
FILE = re.compile(r"^--- (\S+)\n", re.M)
# The program has these messages if its help names them.
SAYS = "a line on standard error"
WHOLE = b'''%a, %b:2 = "t.a"() <{k = "x\\22", l = -1 : i8}> ({
^bb0(%c: memref<?x4xi8>, %d: (i1) -> index): "t.b"(%c, %b#1) {m = [@s::@t, array<i8: 1, -2>, unit]} :
    (memref<?x4xi8>, ui8) -> () // one
}) : () -> (i8, i8, ui8)
'''


class Case:
    """The sentence, the files and the commands of a case, with the answers."""

    def __init__(self, file):
        self.name, self.text = file.stem, file.read_text()
        head, *rest = LINE.split(self.text)
        self.head, self.commands = head, list(zip(rest[::2], rest[1::2]))
        self.sentence, *files = FILE.split(head)
        self.files = dict(zip(files[::2], files[1::2]))

    def answers(self):
        """Yields each command with what it prints now."""
        with tempfile.TemporaryDirectory() as folder:
            for name, text in self.files.items():
                pathlib.Path(folder, name).write_text(text)
            for command, _ in self.commands:
                yield command, answer(command.split(), folder)

    def updated(self):
        """Returns the text of the case with new answers."""
        return self.head + "".join(f"$ mlir-work {command}\n{it}" for command, it in self.answers())


def answer(words, folder):
    """Returns the status of a command line, and its lines."""
    before, more = support.words()
    it = subprocess.run([sys.executable, ROOT / "tools/mlir_work.py", *words], cwd=folder, stdin=subprocess.DEVNULL,
                        stdout=subprocess.PIPE, stderr=subprocess.STDOUT, check=False,
                        env={**os.environ, **more, "MLIR_WORK": " ".join(before), "MLIR_OPT": "no-mlir-opt"})
    text = it.stdout.decode().replace(f"Usage: {pathlib.Path(before[0]).name} ", "Usage: mlir_work ")
    lines = [line for line in text.splitlines() if "no-mlir-opt" not in line]
    return "".join(f"{line}\n" for line in [f"status {it.returncode}", *lines])


def cases():
    """Returns all cases."""
    return [Case(file) for file in sorted(FOLDER.glob("*.message"))]


def has_messages():
    """Whether the program writes these messages."""
    before, more = support.words()
    it = subprocess.run([*before, "--help"], stdout=subprocess.PIPE, check=False, env={**os.environ, **more})
    return re.search(SAYS, it.stdout.decode()) is not None


@unittest.skipUnless(has_messages(), "the program has no messages on standard error")
class Messages(unittest.TestCase):
    def test_answers(self):
        self.assertGreaterEqual(len(cases()), 12)
        for case in cases():
            self.assertRegex(case.sentence, r"^# [A-Z].*\.\n")
            for (command, told), (_, now) in zip(case.commands, case.answers()):
                with self.subTest(f"{case.name}: {command}"):
                    self.assertEqual(told, now)

    def test_each_has_a_place(self):
        """Each message on a file has its line and column, what was expected, and a remedy."""
        for case in cases():
            for command, told in case.commands:
                for line in told.splitlines():
                    if re.match(r"[ms]\.\w+:", line) and "read a module" not in line:
                        self.assertRegex(line, r"^[\w.]+:\d+:\d+: \d+ \w+: ", command)

    def test_both_say_the_same(self):
        """The program and the command line say the same of a module."""
        for case in cases():
            said = {command.split()[0]: {line.partition(": ")[2] for line in told.splitlines()
                                         if line.startswith("m.mlir:")}
                    for command, told in case.commands if "m.mlir" in command and "--patterns" not in command}
            if {"run", "explain"} <= set(said) and any("read a module" not in it for it in said["run"]):
                wanted = {it for it in said["run"] if not it.startswith("read a module")}
                self.assertEqual(wanted, said["explain"], case.name)


    def test_inputs_of_the_page(self):
        """The program and the command line say the same of each refused module of docs/REFUSALS.md, and of others that
        are cut off at each byte."""
        page = ROOT / "docs/REFUSALS.md"
        texts = [(text, ()) for text, answer, _ in refusals.rows(page) if answer.startswith("module ")]
        texts += [(text, ("--opaque",)) for text, answer in refusals.opaque_rows(page) if answer.startswith("module ")]
        texts += [(WHOLE[:at], ()) for at in range(1, len(WHOLE))]
        before, more = support.words()
        with tempfile.TemporaryDirectory() as folder:
            file = pathlib.Path(folder, "m.mlir")
            for text, flags in texts:
                file.write_bytes(text)
                it = subprocess.run([*before, "--brief", *flags, str(file)], capture_output=True, check=False,
                                    env={**os.environ, **more})
                refused = module_refused(it.stdout.decode("utf-8", "replace"))
                with self.subTest(text=text, flags=flags):
                    if refused is None:
                        self.assertIn(b": read a module of ", it.stderr)
                        continue
                    wanted = explain.text_refused(str(file), text, refused)[0]
                    self.assertEqual(it.stderr.decode(), f"{wanted}\n")


if __name__ == "__main__":
    if sys.argv[1:] == ["--update"]:
        for it in cases():
            (FOLDER / f"{it.name}.message").write_text(it.updated())
    else:
        unittest.main()
