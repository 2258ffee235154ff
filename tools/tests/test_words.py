"""The words of the prompt: their effects, messages for mistakes, and completion. Also the command line, and modules
that mlir-opt converts."""
import contextlib
import io
import os
import pathlib
import re
import subprocess
import sys
import tempfile
import unittest
import unittest.mock

from support import ROOT, mistakes, session

from mlir_work.cli import completion, generic, main, pages, prompt, screen, words

WRONG = {
    "quit now": "`now` can't follow `quit`: write `quit`",
    "ids #3": "`#3` can't follow `ids`: write `ids`",
    "at": "`at` needs more words: write `at #N [K]`",
    "at x": "write `at #N [K]`",
    "undo x": "write `undo [N]`",
    "save": "write `save FILE`",
    "diff nothere": "no open mark is named `nothere`: `begin NAME` makes one",
    "rollback nothere": "no open mark is named `nothere`",
    "begin start": "a mark can't be named `start`",
    "begin 3": "`3` can't follow `begin`: write `begin NAME`",
    "uses a b": "`a b` can't follow `uses`: write `uses [WORD]`",
    "dead #99": "#99 isn't in the module",
    "uses %v99.0": "there is no %v99.0: #99 isn't in the module",
    "uses %v3": "`%v3` is not a value: a value is %vN.K",
    "uses %v8.1": "there is no %v8.1: #8 has 1 results",
    "uses %a1.0.2": "there is no %a1.0.2: #1 has 2 block arguments",
    "redo": "nothing was undone",
    "help xyzzy": "no help on `xyzzy`",
    "xyzzy": "at the prompt also ids, at, find, diff, undo, redo, save, source, write, help, quit",
    "exit": "write `quit`",
    "u": "write `undo [N]`",
    "?": "write `help [WORD]`",
    "verify": "write `report diagnostics`",
    "source /none/s": "No such file",
    "check half": "26 NoSuchKey", "check 4": "found `4`, expected NAME: write `check NAME` or `check NAME width W`",
    "check half sampled": "found `sampled`, expected `width`: write `check NAME`",
    "check half width 8 x": "found `x`, expected `sampled`: write `check NAME width W`",
    "check half width 8 sampled x": "found `x` after the end of the command: write `check NAME width W sampled`",
    "pattern": "the rest of the line is the pattern", "define half": "write `pattern PATTERN`",
    "pattern p arith.muli(%a) => %a": "5 TypeMismatch",
    "patterns x": "found `x` after the end of the command: write `patterns`",
}
HELP = {"22": ["22 HasUses", "22 `open-branch`"], "refusal 22": ["22 HasUses"], "hasuses": ["22 HasUses"],
        "V15": ["V15: what a function returns"], "erase-dead": ["1 `erase-dead`"], "rule 30": ["30 `lower-choice`"],
        "erase": ["erase #N"], "canon": ["canon  "], "uses": ["uses"], "undo": ["undo [N]"],
        "begin": ["begin  ", "begin NAME"], "51": ["51 NotLegalised"]}
BEGUN = {
    "": ["ids", "diagnostics", "set-operand"], "era": ["erase"], "report dia": ["diagnostics"],
    "erase #1": ["#1", "#10"],
    "move #8 ": ["before", "after", "start", "end"], "move #8 before #1": ["#1", "#10"], "replace %v1": ["%v10.0"],
    "set-operand #8 0 %a6": ["%a6.0.0"], "canon ": ["at", "fired", "limit", "only", "trace"],
    "canon trace ": ["limit"], "rewrite 4,1 ": ["fired", "limit", "trace"], "convert ": ["partial", "full", "trace"],
    "convert trace ": ["partial", "full"], "convert trace full ": ["legal", "depth"],
    "convert trace full rules ": ["2", "30"],
    "diff ": ["start", "here"],
    "convert partial ": ["legal", "rules"], "convert partial illegal arith.mu": ["arith.muli"], "help HasU": [],
    "convert partial illegal arith.addi,arith.mu": ["arith.muli"], "convert partial rules 2": ["2", "25"],
    "apply drop-z": ["drop-zero"], "apply 4 #1": ["#1", "#10"], "help v1": ["v15"],
    "at #1": ["#1", "#10"], "find arith.mu": ["arith.muli"], "rollback ": ["here"],
    "check ha": ["half"], "apply ha": ["half"], "check half ": ["width"], "check half width 8 ": ["sampled"],
    'insert before #8 "arith.mu': ['"arith.muli"'], "save /etc/hos": ["/etc/hosts"],
}


def example(name, script=b""):
    """A session over the module of an example."""
    here = session.Session((ROOT / f"examples/{name}.mlir").read_bytes())
    here.begin(script)
    return here


class Wrong(unittest.TestCase):
    def test_each_is_told(self):
        here = example("strength")
        for number, (line, part) in enumerate(WRONG.items(), 1):
            with self.subTest(line):
                said = re.sub(r"\n *", " ", "\n".join(here.answer(line)))
                self.assertIn(part, said)
                self.assertEqual(here.refusals, number)
        self.assertEqual(here.kept(), [])

    def test_other_words_have_rows(self):
        here = example("strength")
        for line in ("symbols nothing", "diagnostics V15", "uses %v10.0", "dead #8"):
            self.assertFalse(here.answer(line)[0].startswith(("there", "#8 isn't")), line)
        self.assertEqual(here.refusals, 0)


class Edited(unittest.TestCase):
    def setUp(self):
        self.here = example("strength")

    def said(self, *lines):
        """The answer to the last of some lines."""
        return [self.here.answer(line) for line in lines][-1]

    def test_undo_and_redo(self):
        self.said("set-attr #1 a 1", "set-attr #1 b 1", "dead", "set-attr #1 c 1")
        self.assertEqual(self.said("undo 2"), ["undone: set-attr #1 c 1", "undone: set-attr #1 b 1"])
        self.assertEqual(self.said("redo"), ["redone: set-attr #1 b 1"])
        self.assertEqual(self.here.script(), b"set-attr #1 a 1\nset-attr #1 b 1\nreport dead\n")
        self.assertEqual(self.said("dead", "redo 5"), ["redone: set-attr #1 c 1"])
        self.assertEqual(self.said("undo 9")[-1], "undone: set-attr #1 a 1")
        self.said("set-attr #1 d 1")
        self.assertIn("nothing was undone", self.said("redo")[0])

    def test_named_marks(self):
        self.said("begin one", "set-attr #1 a 1", "begin", "begin two", "set-attr #1 b 1")
        self.assertIn("is named `three`: the named marks are `one`, `two`", self.said("diff three")[0])
        self.assertIn("an open mark has that name", self.said("begin one")[0])
        self.assertEqual(len(self.said("diff one")), 3)
        self.assertEqual(self.said("diff start"), self.said("diff one"))
        self.assertEqual(self.said("rollback one"), ["ok"])
        self.assertEqual((self.said("diff start"), self.here.marks()), (["nothing changed"], []))
        self.assertEqual(self.said("undo"), ["undone: rollback; rollback; rollback"])
        self.assertEqual([name for name, _ in self.here.marks()], ["one", None, "two"])
        again = example("strength", self.here.script())
        self.assertEqual((again.marks(), again.script()), (self.here.marks(), self.here.script()))
        self.said("redo")
        self.assertEqual(example("strength", self.here.script()).kept()[-3:], ["rollback"] * 3)

    def test_find(self):
        numbers = {name: [line.split()[0] for line in self.said(f"find {name}")] for name in ("muli", "arith.*", "#8")}
        self.assertEqual(numbers["muli"], ["#8"])
        self.assertIn("#8", numbers["arith.*"])
        self.assertEqual(numbers["#8"], ["#8"])
        self.assertEqual(len(self.said("find %v8.0")), 3)
        self.assertEqual(self.said("find mul"), ["no line contains `mul`"])

    def test_function_of_a_change(self):
        self.said('insert end #0 0 "test.c"() : () -> ()', "set-attr #8 k 1", "set-attr #16 k 1", "erase #13")
        around = [line for line in self.said("diff") if line.startswith("@@")]
        self.assertEqual(around[0], "@@ @scale #1")
        self.assertEqual(around[-1], "@@ #0")

    def test_source_and_write(self):
        with tempfile.TemporaryDirectory() as folder:
            script, out = pathlib.Path(folder, "s"), pathlib.Path(folder, "out.mlir")
            script.write_text("// begin here\nbegin\n\nerase #99\nset-attr #1 k 1\nreport dead\n")
            said = self.said("set-attr #1 a 1", f"source {script}")
            self.assertEqual(said[:4], ["1 ok", "2 refused 20 NoSuchOp", "3 ok", "4 ok"])
            self.assertTrue(said[4].startswith(f"{script}:4:7: 20 NoSuchOp"))
            self.assertEqual(self.here.kept(), ["set-attr #1 a 1", "begin", "set-attr #1 k 1"])
            self.assertEqual(self.here.refusals, 1)
            self.assertEqual(self.here.marks(), [("here", 2)])
            self.assertIn(f"lines in {out}", self.said(f"write {out}")[0])
            printed = self.said("print")[1:]
            self.assertEqual(out.read_text().splitlines(), printed)
            out.chmod(0o600)
            self.said(f"write {out}")
            self.assertEqual((out.stat().st_mode & 0o777, sorted(os.listdir(folder))), (0o600, ["out.mlir", "s"]))

    def test_help(self):
        for word, titles in HELP.items():
            with self.subTest(word):
                said = self.said(f"help {word}")
                for title in titles:
                    self.assertTrue(any(line.startswith(title) for line in said), said[:3])
        self.assertEqual(len([line for line in self.said("help 22") if re.match("22 ", line)]), 2)
        self.assertEqual(len([line for line in self.said("help refusal 22") if re.match("22 ", line)]), 1)

    def test_each_has_help(self):
        self.assertEqual(set(words.WORDS), set(self.here.words))
        those = [*words.WORDS, *mistakes.forms(), *mistakes.kinds(), *map(str, range(1, 31)), "60"]
        self.assertEqual([word for word in those if not pages.about(word)], [])
        self.assertEqual([f"v{number}" for number in range(1, 25) if not pages.about(f"V{number}")], [])

    def test_completion(self):
        self.said("begin here", "pattern half arith.divui(%a, 2) => arith.shrui(%a, 1)")
        for line, wanted in BEGUN.items():
            text = re.split(r"[ ,]", line)[-1]
            found = completion.Completion(self.here).completed(text, line, len(line) - len(text))
            with self.subTest(line):
                self.assertLessEqual({f"{word} " for word in wanted}, set(found))
                self.assertTrue(all(word.startswith(text) for word in found))


class Typed(unittest.TestCase):
    def test_brackets(self):
        for line, wanted in {'a ("(" {': ("a (\"(\" {", 2), "([{}])": ("([{}])", 0), "a // (": ("a ", 0),
                             '"//(\\"" (': ('"//(\\"" (', 1), "a / b": ("a / b", 0)}.items():
            self.assertEqual(prompt.bare(line), wanted)

    def test_colours(self):
        for line in ("-    #4      %v4.0 = ", "+          ^bb0", "@@ @f #1", "refused 22 HasUses: "):
            self.assertIn("\033[", screen.colored(line))
        for line in ("- a page has this", "    #4  %v4.0", "-1 : i32", "+ok", "ok"):
            self.assertEqual(screen.colored(line), line)

    def test_no_colours(self):
        for more, color, is_colored in (({}, "always", True), ({}, "auto", False), ({"NO_COLOR": "1"}, "auto", False)):
            with unittest.mock.patch.dict(os.environ, {"TERM": "xterm", **more}):
                self.assertEqual(screen.Screen(color).is_colored, is_colored)


class CommandLine(unittest.TestCase):
    def ran(self, *given, tool="mlir_work.py", text="", **more):
        """A run of a tool."""
        return subprocess.run([sys.executable, ROOT / "tools" / tool, *given], input=text, capture_output=True,
                              text=True, check=False, env={**os.environ, **more})

    def test_help_and_usage(self):
        for tool, given in (("session.py", []), ("explain.py", []), ("mlir_work.py", ["open"]), ("mlir_work.py", [])):
            it = self.ran(*given, "-h", tool=tool)
            self.assertEqual((it.returncode, it.stdout[:6], it.stderr), (0, "usage:", ""))
            it = self.ran(*given, tool=tool)
            self.assertEqual((it.returncode, it.stdout, it.stderr[:6]), (2, "", "usage:"))

    def test_unknown_command(self):
        """A word that is neither a command nor a file gets the list of commands, and the closest one."""
        for word, more in (("frob", "\n"), ("redcue", "; did you mean `reduce`?\n")):
            it = self.ran(word)
            self.assertEqual((it.returncode, it.stdout), (2, ""))
            end = f"found `{word}`, expected a command ({', '.join(main.commands())}) or the file of a module{more}"
            self.assertTrue(it.stderr.endswith(end), it.stderr)
        self.assertIn("write one of open, reduce", self.ran().stderr)
        it = self.ran("none.mlir")
        told = "mlir-work: none.mlir: No such file or directory: correct the name\n"
        self.assertEqual((it.returncode, it.stderr), (4, told))

    def test_status(self):
        name = str(ROOT / "examples/fold.mlir")
        for text, status in (("dead\n", 0), ("erase #99\n", 1), ("dead #99\nquit\n", 1), ("", 0)):
            self.assertEqual(self.ran(name, text=text).returncode, status)
        self.assertEqual(self.ran("open", "/none/m").returncode, 4)
        self.assertEqual(self.ran("explain", name, "-", text="erase #99\n").stdout[:7], "-:1:7: ")

    def test_lines_that_go_on(self):
        it = self.ran(str(ROOT / "examples/fold.mlir"), text='insert end #0 0 "a"() ({ // one\n}) : () -> ()\ndead\n')
        self.assertIn("\n.. }) : () -> ()\nok #12\n> dead\n", it.stdout)
        it = self.ran(str(ROOT / "examples/fold.mlir"), text='insert end #0 0 "a"(\n\ndead\n')
        self.assertTrue(it.stdout.startswith("> insert end #0 0 \"a\"(\n.. \nrefused 2 Unexpected"))
        self.assertIn("\n> dead\n", it.stdout)

    def test_each_is_described(self):
        with contextlib.redirect_stdout(io.StringIO()) as out, self.assertRaises(SystemExit):
            main.main(["-h"])
        for word in main.COMMANDS:
            self.assertIn(f"\n    {word} ", out.getvalue())


class ThroughOpt(unittest.TestCase):
    """An mlir-opt that prints one module, or refuses."""

    def opened(self, text, tool):
        """The output for a file, the status, and the options given to mlir-opt."""
        with tempfile.TemporaryDirectory() as folder:
            name, opt = pathlib.Path(folder, "m.mlir"), pathlib.Path(folder, "opt")
            name.write_text(text)
            opt.write_text(f"#!/bin/sh\necho \"$@\" >{folder}/words\n{tool}\n")
            opt.chmod(0o755)
            with unittest.mock.patch.dict(os.environ, {"MLIR_OPT": f"{opt} --more"}):
                it = subprocess.run([sys.executable, ROOT / "tools/session.py", name], input="ids\n", text=True,
                                    capture_output=True, check=False)
            told = pathlib.Path(folder, "words")
            said = (it.stdout + it.stderr).replace(folder + "/", "")
            return said, it.returncode, told.exists() and told.read_text()

    def test_what_is_not_generic(self):
        said, status, given = self.opened("pretty\n", "echo '\"test.a\"() : () -> ()'")
        self.assertEqual(status, 0)
        self.assertTrue(said.startswith("m.mlir: in generic form, as opt prints it\n"))
        self.assertIn('    #1    "test.a"() : () -> ()', said)
        self.assertEqual(given.split(), ["--more", *generic.GENERIC])

    def test_what_is_refused(self):
        said, status, _ = self.opened("pretty\n", "echo bad >&2; exit 1")
        self.assertEqual(status, 3)
        self.assertTrue(said.startswith("m.mlir: opt: bad\nm.mlir:1:1: 13 LeftOut"), said)

    def test_what_is_generic(self):
        self.assertEqual(self.opened('"test.a"() : () -> ()\n', "exit 1")[1:], (0, False))

    def test_pretty(self):
        here = example("fold")
        with unittest.mock.patch.object(generic, "tool", lambda: []), tempfile.TemporaryDirectory() as folder:
            self.assertIn("there is no mlir-opt", here.answer(f"write {folder}/x --pretty")[0])
            with unittest.mock.patch.object(generic, "tool", lambda: ["sed", "-n", "1p", "--"]), \
                    unittest.mock.patch.object(generic, "UNREGISTERED", "-"):
                self.assertEqual(here.answer(f"write {folder}/x --pretty"), [f"1 lines in {folder}/x"])


if __name__ == "__main__":
    unittest.main()
