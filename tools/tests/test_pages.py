"""The runs of docs/GUIDE.md, docs/CONVERT.md and docs/REPORTS.md, typed as they are on the page."""
import os
import re
import shlex
import shutil
import subprocess
import unittest

import support
from support import ROOT, program, refusals, session

BLOCK = re.compile(r"(?:^    .*\n)+", re.M)
MODULE = re.compile(r"```mlir\n(.*?)```", re.S)
RUNS = {"Try a rewrite by hand": "strength", "Replay a pass with marks": "hoist", "Watch the verifier": "signature",
        "Canonicalize step by step": "canon", "Why did a rule not apply?": "canon",
        "Define and check a pattern": "strength", "Convert to a target": "index",
        "Remove unused private symbols": "sweep"}


def sections(page):
    """The sections of a page, by their titles."""
    parts = re.split(r"^## (.*)\n", (ROOT / "docs" / page).read_text(), flags=re.M)
    return dict(zip(parts[1::2], parts[2::2]))


def indented(text):
    """The lines of the indented blocks of a text, without their margin."""
    return [line[4:] for block in BLOCK.findall(text) for line in block.splitlines()]


def is_shown(wanted, said):
    """Whether lines are those of a page: a line `..` takes the place of any more, and `: ..` of a sentence."""
    parts = [r"(?:[^\n]*\n)*" if line == ".." else f"{re.escape(line[:-2])}[^\n]*\n(?:    \w[^\n]*\n)*"
             if line.endswith(": ..") else re.escape(line) + "\n" for line in wanted]
    return re.fullmatch("".join(parts), "".join(line + "\n" for line in said)) is not None


def typed(text):
    """What is typed in the runs of a text, and what is answered; `..` stands for more lines."""
    runs = []
    for line in indented(text):
        if line.startswith("> "):
            runs.append((line[2:], []))
        elif runs:
            runs[-1][1].append(line)
    return runs


class Guide(unittest.TestCase):
    def test_runs(self):
        for title, name in RUNS.items():
            text = sections("GUIDE.md")[title]
            self.assertIn(f"examples/{name}.mlir", text)
            here = session.Session((ROOT / f"examples/{name}.mlir").read_bytes())
            here.begin(b"")
            for line, wanted in typed(text):
                with self.subTest(title, line=line):
                    said = here.answer(line)
                    self.assertTrue(is_shown(wanted, said), said)

    @unittest.skipUnless(shutil.which("mlir-opt-22"), "mlir-opt-22 isn't installed")
    def test_back_into_pretty_form(self):
        lines = indented(sections("GUIDE.md")["Run a script"])
        run = next(line for line in lines if line.startswith("(cat module.mlir"))
        back = next(line for line in lines if line.startswith(".. | "))
        words, more = support.words()
        names = {"./run": shlex.join(words), "module.mlir": "examples/fold.mlir",
                 "FILE": "examples/fold.script", "mlir-opt": "mlir-opt-22"}
        command = re.sub("|".join(map(re.escape, names)), lambda found: names[found.group()], run + back[2:])
        environment = {**os.environ, **more}
        it = subprocess.run(["sh", "-c", command], cwd=ROOT, env=environment, capture_output=True, check=False)
        self.assertEqual((it.returncode, it.stderr), (0, b""))
        self.assertIn(b"%0 = arith.muli %arg0, %c42_i32 : i32", it.stdout)

    def test_traps(self):
        module = (ROOT / "examples/strength.mlir").read_bytes()
        rows = re.findall(r"^\| `(.*?)` \| `(.*?)`(?:, and `(.*?)`)? \|", sections("GUIDE.md")["Common mistakes"], re.M)
        self.assertGreater(len(rows), 5)
        for line, reply, row in rows:
            with self.subTest(line):
                (said, _), (_, diagnostics) = support.replies(program.asked(module, [line, "report diagnostics"]))
                self.assertEqual(said, reply if reply == "ok" else f"refused {reply}")
                self.assertEqual(diagnostics, [row] if row else [])


def conversions():
    """The examples of docs/CONVERT.md: a module, the typed lines with their answers, and the module after them if the
    next block of the same section shows it."""
    parts = re.split(r"^```mlir\n(.*?)^```\n", (ROOT / "docs/CONVERT.md").read_text(), flags=re.M | re.S)
    for module, text, after in zip(["", *parts[1::2]], parts[::2], [*parts[1::2], ""]):
        runs = typed(text)
        is_shown = "\n#" not in BLOCK.split(text)[-1] and "refused" not in str(runs)
        if runs:
            yield module.encode(), runs, after.encode() if is_shown else None


class Convert(unittest.TestCase):
    def test_examples(self):
        found = list(conversions())
        self.assertEqual(len(found), 14)
        self.assertEqual(sum(after is not None for _, _, after in found), 9)
        for module, runs, after in found:
            with self.subTest(runs[0][0]):
                script = [line for line, _ in runs] + ["print"]
                *said, (_, printed) = support.replies(program.asked(module, script))
                self.assertEqual([[reply, *below] for reply, below in said], [wanted for _, wanted in runs])
                if after is not None:
                    self.assertEqual(printed, program.asked(after, ["print"]).lines[1:])


class Refused(unittest.TestCase):
    def test_refusals(self):
        for text, answer, _ in refusals.rows(ROOT / "docs/REFUSALS.md"):
            with self.subTest(text):
                self.assertEqual(program.ran(text).lines, [answer])

    def test_verifier(self):
        found = list(refusals.broken(ROOT / "docs/VERIFIER.md"))
        self.assertEqual(len(found), 24)
        for number, (text, row, _) in enumerate(found, 1):
            with self.subTest(number):
                self.assertTrue(row.endswith(f" V{number}"))
                self.assertEqual(program.asked(text, ["report diagnostics"]).lines, ["1 ok", row])


class Reports(unittest.TestCase):
    def test_rows(self):
        page = (ROOT / "docs/REPORTS.md").read_text()
        first = MODULE.search(page).group(1)
        for kind, text in sections("REPORTS.md").items():
            if " " in kind:
                continue
            own, edit = MODULE.search(text), re.search(r"After `(.*?)`", text)
            script = [*([edit.group(1)] if edit else []), f"report {kind}"]
            with self.subTest(kind):
                said = support.replies(program.asked((own.group(1) if own else first).encode(), script))
                self.assertEqual(said[-1], ("ok", indented(text)))

    def test_symbols_with_opaque_terms(self):
        text = sections("REPORTS.md")["Symbols with `--opaque`"]
        program.ask(True)
        self.addCleanup(program.ask, False)
        said = support.replies(program.asked(MODULE.search(text).group(1).encode(), ["report symbols"]))
        self.assertEqual(said, [("ok", indented(text))])

    def test_rows_about_one_thing(self):
        page = (ROOT / "docs/REPORTS.md").read_text()
        module, text = MODULE.search(page).group(1), sections("REPORTS.md")["Of one operation, or one value"]
        found = re.findall(r"^\| `(report .*?)` \| (.*) \|$", text, re.M)
        self.assertGreater(len(found), 5)
        for line, rows in found:
            with self.subTest(line):
                said = support.replies(program.asked(module.encode(), [line]))
                self.assertEqual(said[-1], ("ok", re.findall("`(.*?)`", rows)))


if __name__ == "__main__":
    unittest.main()
