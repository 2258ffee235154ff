"""What the program needs of the stack: the module that is nested deepest, and what is asked and made of it, with as
much stack as the pages say is enough (test_embed.py asks the same of a thread that calls the library). It is left out
over oracle, and where the limit of the stack can't be set."""
import os
import re
import resource
import subprocess
import tempfile
import unittest

import support
from support import ROOT, program

from mlir_work.cli.forms import kinds

# The most operations around one but for the root, and brackets of attributes and types within one another.
REGIONS, BRACKETS = 127, 31
LEAF = f'"t.leaf"() {{a = {"[" * BRACKETS}1{"]" * BRACKETS}, b = {"() -> (" * BRACKETS}i8{")" * BRACKETS}}} : () -> ()'
LINES = ["print", "print ids", *(f"report {kind}" for kind in kinds()), "report uses of #5", f"why #{REGIONS}",
         "show all", "show #5 9", "begin", "erase #1", "rollback", "canon", "canon trace", "canon at #2", "sweep",
         "resync uses", "begin",
         'insert end #0 0 "t.q"() ({}) : () -> ()', f"move #{REGIONS + 1} before #1", "rollback",
         "convert partial illegal arith.addi rules 2,25,26,27,28,29,30"]


def deepest(leaf=LEAF, regions=REGIONS):
    """A module that is nested so deep, on one line."""
    return '"t.n"() ({ ' * regions + leaf + " }) : () -> ()" * regions


def stated():
    """The stack that the pages and the header say is enough, in bytes."""
    found = {number for name in ("docs/TRUST.md", "docs/EMBED.md", "bindings/c/mlir_work.h")
             for number in re.findall(r"([0-9]+) KB\s+of\s+stack\s+are\s+enough", (ROOT / name).read_text())}
    number, = found
    return int(number) * 1024


def is_limited():
    """Whether there is a program, and its stack can be limited so."""
    hard = resource.getrlimit(resource.RLIMIT_STACK)[1]
    return os.environ.get("MLIR_WORK") != "reference" and (hard == resource.RLIM_INFINITY or hard >= stated())


@unittest.skipUnless(is_limited(), "there is no program, or no such limit of the stack")
class Stack(unittest.TestCase):
    def ran(self, text, *options):
        """The status of a run with that stack, and what it writes."""
        words, more = support.words()
        size = stated()

        def few():
            resource.setrlimit(resource.RLIMIT_STACK, (size, size))
        with tempfile.TemporaryFile() as given:
            given.write(text.encode())
            given.seek(0)
            it = subprocess.run([*words, *options], stdin=given, capture_output=True, check=False, preexec_fn=few,
                                env={**os.environ, **more})
        self.assertEqual(it.stderr, b"")
        return it.returncode, it.stdout.decode()

    def test_the_deepest_module(self):
        """The deepest module is read, edited, asked and rewritten, line by line and whole, and as JSON."""
        lines = [*LINES, f"insert end #0 0 {deepest()}"]
        text = "\n".join([deepest(), "// -----", *lines, ""])
        self.assertEqual(program.written(text.encode())[0], 0)
        for options in (["--brief"], ["--brief", "--opaque"], ["--brief", "--explain"], ["--brief", "--interactive"]):
            with self.subTest(options):
                status, out = self.ran(text, *options)
                self.assertEqual((status, len(re.findall(r"(?m)^[0-9]+ (?!refused)", out))), (0, len(lines)))
        self.assertEqual(self.ran(text)[0], 0)
        self.assertEqual(self.ran(text, "--format", "json")[0], 0)

    def test_one_deeper(self):
        """A module that is nested deeper is refused, also one that is much deeper."""
        for regions in (REGIONS + 1, 100_000):
            status, out = self.ran(deepest('"t.leaf"() : () -> ()', regions))
            self.assertEqual((status, out.split(" at ")[0]), (3, "module refused 10 TooDeep"))


if __name__ == "__main__":
    unittest.main()
