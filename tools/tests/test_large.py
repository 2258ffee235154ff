"""What makes a session fast over large modules: how often the program is run, two listings that are made by one run,
and what changed between them."""
import unittest
import unittest.mock

from support import ROOT, changes, listing, program, session

from mlir_work.cli import ways
from mlir_work.reply import Transcript

NAMES = sorted(file.stem for file in (ROOT / "examples").glob("*.mlir"))
# The line that each example is rewritten by, with the one before it.
REWRITES = {"canon": ("set-attr #1 k 1", "canon"), "sweep": ("set-attr #1 k 1", "sweep"),
            "index": ("set-attr #1 k 1", "convert partial dynamic arith.constant,arith.addi,scf.for rules 28,29")}
SUMS = "".join(f'%x{k} = "arith.addi"(%a, %a) : (i32, i32) -> i32\n' for k in range(40))
CHAIN = f'%a = "test.a"() : () -> i32\n{SUMS}"test.use"(%x7, %x8) : (i32, i32) -> ()\n'.encode()


def module(name):
    """The module of an example."""
    return (ROOT / f"examples/{name}.mlir").read_bytes()


def begun(text):
    """A session over a module."""
    here = session.Session(text, ways.Again(text))
    here.begin(b"")
    return here


def told(old, new):
    """What changed between two listings of lines with keys."""
    return changes.Changes(*(Lines(it) for it in (old, new))).lines()


class Lines:
    """Lines that can be compared, each of a key and a text."""

    def __init__(self, lines):
        self.keys, self.texts = [line.split(" ")[0] for line in lines], [line.partition(" ")[2] for line in lines]
        self.names = listing.Names([], {})

    def named(self, places):
        """The lines at some places."""
        return [self.texts[place] for place in places]

    shown = named

    def around(self, _):
        """None of them is in a function."""
        return "#0"


class Runs(unittest.TestCase):
    def runs(self, here, line):
        """How often the program is run for a line."""
        with unittest.mock.patch.object(program, "written", wraps=program.written) as run:
            self.assertFalse(here.answer(line)[0].startswith("refused"))
            return run.call_count

    def test_one_for_a_line(self):
        for name, lines in REWRITES.items():
            here = begun(module(name))
            for line in [*lines, "at #0", "set-attr #1 k 2", "diff", "set-attr #1 k 3", lines[1], "uses"]:
                with self.subTest(name, line=line):
                    self.assertEqual(self.runs(here, line), 0 if line == "at #0" else 1)

    def test_none_for_what_is_known(self):
        here = begun(module("canon"))
        self.assertEqual([self.runs(here, line) for line in ("ids", "at #1", "diff")], [0, 0, 0])
        here.answer("canon limit 1")
        self.assertEqual([self.runs(here, line) for line in ("diff", "undo", "diff", "ids")], [0, 0, 0, 0])

    def test_at_the_beginning(self):
        with unittest.mock.patch.object(program, "written", wraps=program.written) as run:
            begun(module("canon"))
            self.assertEqual(run.call_count, 1)

    def test_script_at_the_beginning(self):
        here = session.Session(CHAIN)
        here.begin(b"erase #2\n" + b'insert end #0 0 "a" () : () -> ()\n' * 80)
        for _ in range(79):
            here.answer("undo")
        self.assertEqual(here.answer("at #43 0"), ['   #43    "a"() : () -> ()'])
        self.assertEqual(here.answer('insert end #0 0 "b"() : () -> ()'), ["ok #44"])


class Both(unittest.TestCase):
    """Both listings of a line that rewrites are made by one run."""

    def setUp(self):
        self.known = {}
        for name, (edit, line) in REWRITES.items():
            alone = listing.listed(module(name), [edit]), listing.listed(module(name), [edit, line])
            self.known[name] = [edit], line, alone

    def check(self, name, found):
        """Whether two listings are those that were made alone."""
        for it, alone in zip(found, self.known[name][2], strict=True):
            self.assertEqual((it.lines(), it.keys), (alone.lines(), alone.keys))

    def test_by_one_run(self):
        for name, (script, line, _) in self.known.items():
            self.check(name, ways.Again(module(name)).rewritten(script, line, None)[1:])

    def test_all_marks_are_open(self):
        for name, (script, line, _) in self.known.items():
            self.check(name, ways.Again(module(name)).rewritten([*script, *["begin"] * 16], line, None)[1:])

    def test_reply(self):
        way = ways.Again(CHAIN)
        self.assertEqual(way.rewritten(["erase #2"], "canon", None)[0].text, "converged 37")
        reply, _, behind = way.rewritten(["begin"], "sweep #1", None)
        self.assertEqual((reply.text, behind), ("refused 60 BadCommand", None))


class Names(unittest.TestCase):
    def test_results_are_printed_in_order(self):
        for name in NAMES:
            here = begun(module(name)).listing()
            firsts = [line.split()[0].partition(":")[0] for line in here.texts if line.lstrip()[0] == "%"]
            self.assertEqual(firsts, [f"%{place}" for place in range(len(here.names.owners))])

    def test_several_and_arguments(self):
        names = listing.Names(["3", "8"], {"arg0": "%a1.0.0"})
        self.assertEqual(names.called(["0", "1#2", "1#0", "1:2", "arg0"]),
                         ["%v3.0", "%v8.2", "%v8.0", "%v8.0, %v8.1", "%a1.0.0"])

    def test_numbers_among_other_attributes(self):
        for text in ("", " {A}", " {z}", " {A, z}", ' {A = {"N" = 1 : i64}, B = "%0, ", z}'):
            line = f'"test.a"(){text} : () -> ()'
            self.assertEqual(begun(line.encode()).answer("at #1 0"), ["    #1    " + line.replace('"N"', "N")])

    def test_the_key_is_typed(self):
        here = begun(CHAIN)
        here.answer("set-attr #42 N. unit")
        here.answer('set-attr #42 "N. " unit')
        self.assertEqual(here.answer("diff"), ['-   #42    "test.use"(%v9.0, %v10.0) : (i32, i32) -> ()',
                                               '+   #42    "test.use"(%v9.0, %v10.0) {N., "N. "} : (i32, i32) -> ()'])


class Changed(unittest.TestCase):
    def test_nothing(self):
        self.assertEqual(told(["1 a", "2 b"], ["1 a", "2 b"]), [])
        self.assertEqual(told([], []), [])

    def test_the_same_from_both_ends(self):
        self.assertEqual(told(["1 a", "2 b", "3 c"], ["1 a", "3 c"]), ["-b"])
        self.assertEqual(told(["1 a"], ["1 a", "2 a", "3 a"]), ["+a", "+a"])
        self.assertEqual(told(["1 a", "2 b", "3 c"], ["1 a", "2 x", "3 c"]), ["-b", "+x"])

    def test_another_key(self):
        self.assertEqual(told(["1 a", "2 b", "3 c"], ["1 a", "4 b", "3 c"]), ["-b", "+b"])

    def test_moved(self):
        self.assertEqual(told(["1 a", "2 b", "3 c", "4 d"], ["2 b", "3 c", "1 a", "4 d"]), ["-a", "+a"])
        self.assertEqual(told(["1 a", "2 b", "3 c"], ["3 c", "2 b", "1 a"]), ["-a", "-b", "+b", "+a"])

    def test_indented(self):
        self.assertEqual(told(["1 a", "2  b", "3 c"], ["1 a", "2 b", "3 c"]), ["- b", "+b"])

    def test_the_first_of_many(self):
        found = changes.Changes(Lines([]), Lines([f"{k} a" for k in range(9)]))
        self.assertEqual((len(found), found.lines(2)), (9, ["+a", "+a"]))


class Replies(unittest.TestCase):
    def test_reply(self):
        written = Transcript(1, "1 ok\n#1 a\n  2 b\n2 refused 20 NoSuchOp\n3 ok\n")
        wanted = [("ok", "#1 a\n  2 b\n"), ("refused 20 NoSuchOp", ""), ("ok", "")]
        self.assertEqual(list(written.replies()), wanted)
        self.assertEqual(list(Transcript(3, "module refused 2 Unexpected at 5\n").replies()), [])


if __name__ == "__main__":
    unittest.main()
