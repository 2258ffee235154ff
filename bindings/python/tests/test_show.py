"""Operations as dictionaries, over the program and over the library, and where they begin in the text."""
import json
import random
import re
import unittest

from support import ROOT, Case, knows_opaque, session, shared_object

import mlir_work
from mlir_work import after, before, blocks
from mlir_work.data import json_line, text_line
from mlir_work.positions import positions_of
from oracle import chance
from oracle.module import text_of

SHARED = shared_object()
MODULE = """%0 = "arith.constant"() <{value = 5 : i32}> {tag = "t", "two words"} : () -> i32
%1:2 = "test.pair"(%0, %0) ({}, {
^bb0(%a: i64, %b: i32):
  "test.inner"(%0, %a) : (i32, i64) -> ()
  "test.next"() : () -> ()
}) : (i32, i32) -> (i1, i64)
"test.last"(%1#1) : (i64) -> ()
"""
PAIR = {"kind": "operation", "id": "#2", "name": "test.pair", "operands": ["%v1.0", "%v1.0"],
        "results": ["i1", "i64"], "properties": {}, "attributes": {}, "regions": [[], ["i64", "i32"]], "parent": "#0",
        "region": 0, "place": 1}
NEXT = {"kind": "operation", "id": "#4", "name": "test.next", "operands": [], "results": [], "properties": {},
        "attributes": {}, "regions": [], "parent": "#2", "region": 1, "place": 1}
# What an operation begins with: its results, and its name.
HEAD = re.compile(rb'(?:%[^"]*= *)?"((?:[^"\\]|\\.)*)"', re.S)


def all_shown(s, page=1000):
    """All operations of a session."""
    return [it for some in s.show_all(page) for it in some]


class Dictionaries(Case):
    def test_keys(self):
        """A dictionary has the name, operands, types, entries, regions and the place of an operation."""
        with session(MODULE) as s:
            self.assertEqual((s.show(2), s.show(4)), (PAIR, NEXT))
            self.assertEqual([s.show(it) for it in s.operations()], [it.to_dict() for it in s.operations()])
            self.assertEqual(s.show(1)["attributes"], {"tag": '"t"', "two words": "unit"})
            self.assertEqual(s.show(1)["properties"], {"value": "5 : i32"})
            root = s.show(0)
            self.assertEqual((root["parent"], root["region"], root["place"], root["regions"]), (None, None, None, [[]]))

    def test_edits(self):
        """A dictionary shows the module after the last edit, and a missing operation is refused."""
        with session(MODULE) as s:
            self.assertEqual(s.show(5)["place"], 2)
            s.move(4, before(2))
            self.assertEqual([(it, s.show(it)["parent"], s.show(it)["place"]) for it in (4, 2, 5)],
                             [(4, "#0", 1), (2, "#0", 2), (5, "#0", 3)])
            made = s.insert(after(5), '"test.new"(%v1.0) : (i32) -> i8')
            self.assertEqual((s.show(made)["operands"], s.show(made)["place"]), (["%v1.0"], 4))
            s.erase(5)
            for call in (lambda: s.show(5), lambda: s.show(99)):
                with self.assertRaises(mlir_work.Refused) as caught:
                    call()
                self.assertEqual((caught.exception.number, caught.exception.word), (20, "NoSuchOp"))
            self.assertEqual(s.show(made)["place"], 3)
        self.assertRaises(mlir_work.SessionClosed, s.show, 1)

    def test_pages(self):
        """Pages have at most so many operations, in pre-order; what is erased between two pages is left out."""
        with session(MODULE) as s:
            whole = [it.to_dict() for it in s]
            for page in (1, 2, 4, 6, 1000):
                some = list(s.show_all(page))
                self.assertEqual([it for those in some for it in those], whole)
                self.assertTrue(all(len(those) == page for those in some[:-1]) and len(some[-1]) <= page)
            self.assertEqual([it["id"] for those in s.show_all(2, skip=3) for it in those], ["#3", "#4", "#5"])
            self.assertEqual(list(s.show_all(skip=6)), [])
            pages = s.show_all(3)
            self.assertEqual(next(pages), whole[:3])
            s.erase(4)
            s.set_attr(5, "k", "1 : i8")
            shown = [(it["id"], it["attributes"]) for it in next(pages)]
            self.assertEqual(shown, [("#3", {}), ("#5", {"k": "1 : i8"})])
            for wrong in ({"page": 0}, {"skip": -1}):
                self.assertRaises(ValueError, s.show_all, **wrong)

    def test_texts(self):
        """The JSON is one line in ASCII with sorted keys; the text has the same data, and quotes odd names."""
        with session('%0 = "t.\\C3\\A9 x"() {"a b" = "\\FF", c} : () -> i8\n"t.u"(%0) : (i8) -> ()\n') as s:
            for it in all_shown(s):
                line = json_line(it)
                self.assertTrue(line.isascii() and "\n" not in line)
                self.assertEqual((json.loads(line), list(json.loads(line))), (it, sorted(it)))
            self.assertEqual(text_line(s.show(1)), '#1 "t.\\C3\\A9 x"() -> (i8) {"a b" = "\\FF", c} in #0 region 0 '
                                                   "place 0")
            self.assertEqual(text_line(s.show(0)), "#0 builtin.module() regions ()")
        with session(MODULE) as s:
            self.assertEqual(text_line(s.show(2)), "#2 test.pair(%v1.0, %v1.0) -> (i1, i64) regions () (i64, i32) "
                                                   "in #0 region 0 place 1")


class OverTheLibrary(Case):
    def setUp(self):
        if not SHARED:
            self.skipTest("there is no library of these sources")
        super().setUp()

    def same(self, s):
        """Compares what is read by numbers with what is read from text."""
        wanted = [it.to_dict() for it in s.operations()]
        self.assertEqual(all_shown(s, 4), wanted)
        self.assertEqual([it.to_dict() for it in s.walk()], wanted)
        self.assertEqual([it.place for it in s.walk()], [it["place"] for it in wanted])
        self.assertEqual([s.show(it) for it in s.operations()], wanted)

    def test_by_hand(self):
        with mlir_work.Session(MODULE, way=mlir_work.Library(SHARED)) as s:
            self.same(s)
            self.assertEqual(s.show(s.operation(2)), PAIR)
            s.numbers.set_attribute(4, "k", "1 : i8")
            self.assertEqual(s.show(4)["attributes"], {"k": "1 : i8"})
            self.assertRaises(LookupError, s.operation(99).to_dict)
            self.assertRaises(mlir_work.Refused, s.show, 99)
            s.move(4, before(1))
            self.same(s)

    def test_random_modules(self):
        for number in range(8):
            maker = random.Random(f"shown {number}")
            text = text_of(chance.module(maker, 24, 0.2, maker.choice(sorted(chance.TASTES))))
            with self.subTest(number), mlir_work.Session(text, way=mlir_work.Library(SHARED)) as s:
                self.same(s)
                for _ in range(6):
                    op, other = (maker.choice(s.operations()) for _ in "ab")
                    try:
                        s.move(op, maker.choice((before, after))(other))
                    except mlir_work.Refused:
                        pass
                    self.same(s)


class Positions(Case):
    def same(self, text, s, names=None):
        """Checks that the name of each operation is at its position, and that no other operation has a position."""
        lines, found = text.split(b"\n"), 0
        for it in names or s.operations():
            shown = s.show(it.number)
            if shown["line"] is None:
                continue
            rest = b"\n".join([lines[shown["line"] - 1][shown["column"] - 1:], *lines[shown["line"]:]])
            self.assertEqual(HEAD.match(rest)[1].decode(), it.name)
            found += 1
        return found

    def test_by_hand(self):
        """Lines and columns count from 1, columns in bytes; an implicit root has none, and neither has a new
        operation."""
        line = '  "t.a"() {k = "\u00e9 \\"t.y\\"()"} : () -> () "t.b"() ({ "t.c"() : () -> () }) : () -> ()'
        text = f'// a comment "t.x"()\n{line}\n%x,\n%y = // "t.z"()\n "t.d"() : () -> (i8, i8)\n'
        columns = [line.encode().index(f'"t.{it}"'.encode()) + 1 for it in "bc"]
        with session(text, positions=True) as s:
            found = [(it["line"], it["column"]) for it in all_shown(s)]
            self.assertEqual(found, [(None, None), (2, 3), *((2, it) for it in columns), (3, 1)])
            self.assertEqual(text_line(s.show(4)), "#4 t.d() -> (i8, i8) in #0 region 0 place 2 at 3:1")
            made = s.insert(before(1), '"t.e"() : () -> ()')
            self.assertEqual((s.show(made)["line"], s.show(1)["line"]), (None, 2))
            s.move(3, before(1))
            self.assertEqual((s.show(3)["line"], s.show(3)["column"]), (2, columns[1]))
        with session(f'\n "builtin.module"() ({{{text}}}) : () -> ()', positions=True) as s:
            self.assertEqual([(it["line"], it["column"]) for it in all_shown(s)][:3],
                             [(2, 2), (3, 3), (3, columns[0])])
        with session(text) as s:
            self.assertNotIn("line", s.show(1))

    def test_roots(self):
        """The root is the text's own `builtin.module` if nothing is next to it."""
        inner = '"builtin.module"() ({"t.a"() : () -> ()}) : () -> ()'
        for text, count in {"": 0, inner: 2, f"{inner} {inner}": 4, f'{inner} "t.b"() : () -> ()': 3,
                            '"t.b"() : () -> ()': 1, '%a = "builtin.module"() ({}) : () -> i1': 1,
                            '"builtin.module"() : () -> (() -> ())': 1, '"builtin.module"() : () -> ()': 1,
                            '%a:0x2 = "t.b"() : () -> (i1, i8)': 1,
                            f'"builtin.module"() ({{{inner}}}) : () -> ()': 3}.items():
            with self.subTest(text), session(text, positions=True) as s:
                self.assertEqual(self.same(text.encode(), s), count)
                self.assertEqual(len(positions_of(text.encode())), count)

    def test_random_modules(self):
        """Each operation of a random module begins at its position, with random blanks and comments."""
        for number in range(12):
            maker = random.Random(f"positions {number}")
            text = text_of(chance.module(maker, 24, 0.2, maker.choice(sorted(chance.TASTES)))).encode()
            breaks = (b"\n", b" ", b' // "a"()\n\t ', b"\n\n")
            text = re.sub(rb"\n *", lambda _, maker=maker, breaks=breaks: maker.choice(breaks), text)
            with self.subTest(number), session(text, positions=True) as s:
                self.assertEqual(self.same(text, s), len(s.operations()))

    @unittest.skipUnless(knows_opaque(), "the program has no --opaque")
    def test_several_blocks(self):
        """With blocks, positions are those in the text before it was nested. A scope begins where its block does."""
        for file in sorted((ROOT / "tests/data/blocks").glob("*.mlir")):
            text = file.read_bytes()
            with self.subTest(file.name), session(text, opaque=True, blocks=True, positions=True) as s:
                scopes = [it for it in s if it.name == blocks.SCOPE]
                others = [it for it in s if it.name != blocks.SCOPE]
                self.assertEqual(self.same(text, s, others), len(others))
                lines = text.split(b"\n")
                for it in scopes:
                    shown = s.show(it)
                    self.assertEqual(lines[shown["line"] - 1][shown["column"] - 1:][:3], b"^bb")

    @unittest.skipUnless(knows_opaque(), "the program has no --opaque")
    def test_opaque_terms(self):
        """Aliases, locations and brackets of opaque terms begin no operation."""
        text = b'#m = affine_map<(d0) -> (d0)>\n!t = i32\n'
        text += b'%a = "t.a"() {m = #m, n = #d.a<"x"(1)>} : () -> !t loc("f":1:2)\n'
        text += b'"t.b"(%a) ({\n^bb0(%x: !t):\n"t.c"(%x) : (!t) -> !d.t<(x)>\n}) : (!t) -> ()\n#loc = loc("g":3:4)\n'
        with session(text, opaque=True, positions=True) as s:
            self.assertEqual(self.same(text, s), 3)
            self.assertEqual([it["line"] for it in all_shown(s)], [None, 3, 4, 6])


if __name__ == "__main__":
    unittest.main()
