"""What the program's time grows with: canonicalization looks again at what a rewrite touched, and an analysis at what
is near an edit, and not at the whole module. Times are of the processor, of the best of three runs."""
import os
import resource
import subprocess
import tempfile
import unittest

from support import program
from tests.generate import rule_cases

DIVIDER = "// -----\n"
OPS = '"test.n"() : () -> ()\n'
KINDS = "uses symbols diagnostics effects dead constants unreached".split()


def ran(text, *words):
    """What is written for an input, and the seconds of user time that this took."""
    command = program.started()
    best = None
    for _ in range(3):
        with tempfile.TemporaryFile() as given:
            given.write(text.encode())
            given.seek(0)
            before = resource.getrusage(resource.RUSAGE_CHILDREN).ru_utime
            out = subprocess.run([*command.words, "--brief", *words], stdin=given, capture_output=True, check=False,
                                 env=command.environment).stdout.decode()
        took = resource.getrusage(resource.RUSAGE_CHILDREN).ru_utime - before
        best = took if best is None else min(best, took)
    return out, best


@unittest.skipIf(os.environ.get("MLIR_WORK") == "reference", "there is no program of these sources")
class Costs(unittest.TestCase):
    def canon(self, count, reply, *words):
        """The seconds of a `canon` of so many sums, each to be rewritten once and used by the next."""
        module = rule_cases.swaps(count) + DIVIDER
        out, whole = ran(module + "canon\n", *words)
        self.assertEqual(out, f"1 {reply}\n")
        return whole - ran(module)[1]

    def test_canon_looks_at_what_a_rewrite_touched(self):
        """20,001 rewrites take about ten times as long as 2,001, where to begin at the root again takes a hundred."""
        few = self.canon(2000, "converged 2000", "--limit", "1000000")
        many = self.canon(20000, "converged 20000", "--limit", "1000000")
        self.assertLess(many, 30 * few + 0.2)

    def test_canon_ends_at_its_limit(self):
        """1,000 rewrites of 20,000 operations take no longer than a look at each, and some at what was touched."""
        whole = self.canon(20000, "converged 20000", "--limit", "1000000")
        self.assertLess(self.canon(20000, "limit 1000"), whole + 0.2)

    def edits(self, kind, count):
        """The seconds of 10,000 changes of entries in a module of so many operations, with one analysis."""
        detached = "".join(f"detach {it}\n" for it in KINDS if it != kind)
        lines = "".join(f"set-attr #{count // 2} k {n % 2} : i32\n" for n in range(10000))
        module = OPS * count + DIVIDER + detached
        out, whole = ran(module + lines + f"report {kind}\n")
        self.assertNotIn(" refused ", out)
        return whole - ran(module)[1]

    def test_analyses_look_near_an_edit(self):
        """An edit in a module of 10,000 operations takes as long as in one of 100, where to look at all takes a second
        for 10,000 edits."""
        for kind in KINDS:
            with self.subTest(kind):
                self.assertLess(self.edits(kind, 10000), 5 * self.edits(kind, 100) + 0.2)

    def reports(self, kind, count):
        """The seconds of 500 reports about one operation of a module of so many operations."""
        module = OPS * count + DIVIDER
        out, whole = ran(module + f"report {kind} of #{count // 2}\n" * 500)
        self.assertNotIn(" refused ", out)
        return whole - ran(module)[1]

    def test_a_report_about_an_operation_reads_its_rows_alone(self):
        """500 reports about one of 10,000 operations take as long as about one of 100, where whole reports take a
        second."""
        for kind in KINDS:
            with self.subTest(kind):
                self.assertLess(self.reports(kind, 10000), 5 * self.reports(kind, 100) + 0.2)


if __name__ == "__main__":
    unittest.main()
