"""What Ctrl-C leaves: `reduce` writes the smallest module so far, `page` and `explain` write nothing. The status is
130, which says neither that something was refused nor that a module doesn't show what it is to show."""
import os
import pathlib
import signal
import subprocess
import sys
import tempfile
import time
import unittest

from support import ROOT, program

from test_live import LIVE
from test_reduce import MODULE

SECONDS = 60
# Commands of the shell that add a line to the file `calls` and then don't end: the first one from a call on that is
# given, and before it looks for a product; the second one is in place of the program.
SLOW = 'echo >> calls; [ $(wc -l < calls) -lt {last} ] || exec sleep 100; grep -q arith.muli "$1"'
ENDLESS = "sh -c 'echo >> calls; exec sleep 100' sh"


class Folder(unittest.TestCase):
    def setUp(self):
        room = tempfile.TemporaryDirectory()
        self.addCleanup(room.cleanup)
        self.folder = pathlib.Path(room.name)
        (self.folder / "m.mlir").write_bytes(MODULE)

    def interrupted(self, calls, *words, **more):
        """The status of a part of `mlir-work` that is interrupted as by a terminal, in the call of that number, and
        what it wrote to both ends."""
        (self.folder / "calls").write_text("")
        words = [sys.executable, ROOT / "tools/mlir_work.py", *words]
        with subprocess.Popen(words, cwd=self.folder, stdout=subprocess.PIPE, stderr=subprocess.PIPE, text=True,
                              start_new_session=True, env={**os.environ, **more}) as it:
            end = time.monotonic() + SECONDS
            while len((self.folder / "calls").read_text()) < calls and it.poll() is None:
                self.assertLess(time.monotonic(), end, "it was never called")
                time.sleep(0.01)
            os.killpg(it.pid, signal.SIGINT)
            out, said = it.communicate()
        return it.returncode, out, said

    def files(self):
        """The files that are there but for those that were from the start, and what they have."""
        return {file.name: file.read_text() for file in self.folder.iterdir() if file.name not in ("m.mlir", "calls")}


class Reduce(Folder):
    def reduced(self, calls, *given):
        """The same of `reduce`, in the call of that number of what it is to show."""
        more = {"MLIR_WORK": LIVE} if os.environ.get("MLIR_WORK") == "reference" else {}
        return self.interrupted(calls, "reduce", "m.mlir", "--test", SLOW.format(last=calls), *given, **more)

    def test_the_smallest_so_far(self):
        """The smallest module so far is written where the result would go, with the script that makes it."""
        status, out, said = self.reduced(6, "-o", "out.mlir")
        files = self.files()
        self.assertEqual((status, out, sorted(files)), (130, "", ["out.mlir", "out.mlir.script"]), said)
        self.assertIn("interrupted: the smallest module so far is written\n", said)
        self.assertRegex(said, r"(?m)^[0-9]+ of 14 operations are left, by [1-9]")
        left, script = files["out.mlir"], files["out.mlir.script"].splitlines()
        self.assertIn("arith.muli", left)
        self.assertEqual(program.asked(MODULE, [*script, "print"]).lines[len(script) + 1:], left.splitlines())

    def test_on_standard_output(self):
        """Without a file, the module is written to standard output, after its script in comments."""
        status, out, said = self.reduced(6)
        head, *rest = out.splitlines()
        script = [line.removeprefix("//   ") for line in rest if line.startswith("//   ")]
        self.assertEqual((status, head, self.files()), (130, "// m.mlir, reduced by:", {}), said)
        self.assertGreater(len(script), 0)
        self.assertEqual(program.asked(MODULE, [*script, "print"]).lines[len(script) + 1:], rest[len(script):])

    def test_before_anything_was_tried(self):
        """Where it isn't known yet that the module shows it, nothing is written, and a file that is there is kept."""
        (self.folder / "out.mlir").write_text("kept\n")
        status, out, said = self.reduced(1, "-o", "out.mlir")
        self.assertEqual((status, out, self.files()), (130, "", {"out.mlir": "kept\n"}), said)
        self.assertIn("interrupted: nothing is written", said)


class Others(Folder):
    def test_page(self):
        """An interrupted page isn't written, and one that is there is kept."""
        (self.folder / "replay.html").write_text("kept\n")
        status, out, said = self.interrupted(1, "page", "m.mlir", MLIR_WORK=ENDLESS)
        self.assertEqual((status, out, self.files()), (130, "", {"replay.html": "kept\n"}), said)
        self.assertNotIn("Traceback", said)

    def test_explain(self):
        """An interrupted run isn't one in which something was refused."""
        status, out, said = self.interrupted(1, "explain", "m.mlir", MLIR_WORK=ENDLESS)
        self.assertEqual((status, out, said), (130, "", "\nmlir-work: interrupted\n"))


if __name__ == "__main__":
    unittest.main()
