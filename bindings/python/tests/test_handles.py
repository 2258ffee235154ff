"""Reads of operations by handles, over the library. They agree with what `print ids` prints, after each of some random
edits. If there is no library of these sources, the tests are skipped."""
import random
import unittest

from support import ROOT, Case, shared_object

import mlir_work
from mlir_work import before

SHARED = shared_object()
MODULE = """%0 = "arith.constant"() <{value = 5 : i32}> {tag = "t", "two words"} : () -> i32
%1:2 = "test.pair"(%0, %0) ({}, {
^bb0(%a: i64, %b: i32):
  "test.inner"(%0, %a) : (i32, i64) -> ()
}) : (i32, i32) -> (i1, i64)
"test.last"(%1#1) : (i64) -> ()
"""


def session(text=MODULE):
    """A session over the library."""
    return mlir_work.Session(text, way=mlir_work.Library(SHARED))


class Handles(Case):
    def setUp(self):
        if not SHARED:
            self.skipTest("there is no library of these sources")
        super().setUp()

    def same(self, s):
        """Compares handles with the operations that are parsed from text."""
        uses = {}
        for op in s.operations():
            for place, value in enumerate(op.operands):
                uses.setdefault(value, set()).add((op.number, place))
        self.same_table(s, uses)
        handles = list(s.walk())
        self.assertEqual([it.number for it in handles], [it.number for it in s.operations()])
        for handle, op in zip(handles, s.operations()):
            self.assertEqual((handle.name, handle.properties, handle.attributes),
                             (op.name, op.properties, op.attributes))
            self.assertEqual(tuple(it.value for it in handle.operands), op.operands)
            self.assertEqual(tuple(it.type for it in handle.operands), op.operand_types)
            self.assertEqual({it.value: it.type for it in handle.results}, op.results)
            blocks = [block for region in handle.regions for block in region.blocks]
            self.assertEqual({it.value: it.type for block in blocks for it in block.arguments}, op.arguments)
            self.assertEqual((len(handle.regions), handle.parent and handle.parent.number),
                             (op.regions, op.parent))
            self.assertEqual(handle.region, None if op.parent is None else op.region)
            for block in blocks:
                for inner in block:
                    self.assertEqual(inner.parent, handle)
            for value in [*handle.results, *(it for block in blocks for it in block.arguments)]:
                self.assertEqual({(it.owner.number, it.operand_number) for it in value.uses},
                                 uses.get(value.value, set()))
                self.assertEqual(value.owner, handle)

    def same_table(self, s, uses):
        """Compares a table with the operations that are parsed from text."""
        rows = list(s.table())
        self.assertEqual([(it.operation, it.name, it.operands) for it in rows],
                         [(it.number, it.name, it.operands) for it in s.operations()])
        for row, op in zip(rows, s.operations()):
            self.assertEqual([it.type for it in row.results], list(op.results.values()))
            for value, result in zip(op.results, row.results):
                self.assertEqual((len(result.uses), set(result.uses)),
                                 (len(uses.get(value, ())), uses.get(value, set())))

    def test_long_records(self):
        """A record that is longer than the first space for items is read, and so are those after it."""
        count = 9000
        uses = "".join('"test.use"(%0) : (i32) -> ()\n' for _ in range(count))
        with session('%0 = "test.one"() : () -> i32\n' + uses) as s:
            rows = list(s.table())
            self.assertEqual(len(rows), count + 2)
            self.assertEqual(sorted(rows[1].results[0].uses), [(it + 2, 0) for it in range(count)])
            self.assertEqual({it.operands for it in rows[2:]}, {(mlir_work.Result(1, 0),)})

    def test_reads(self):
        with session() as s:
            self.same(s)
            pair = s.operation(2)
            self.assertEqual((str(pair), pair.region, pair.next.number, pair.previous.number),
                             ("#2 test.pair", 0, 4, 1))
            self.assertEqual([len(it.blocks) for it in pair.regions], [0, 1])
            self.assertEqual([it.number for it in pair.walk()], [2, 3])
            self.assertEqual(pair.operands[0].owner.attributes, {"tag": '"t"', "two words": "unit"})
            self.assertEqual(str(pair.regions[1].blocks[0].arguments[1]), "%a2.1.1")
            self.assertEqual(s.root.name, "builtin.module")

    def test_what_is_not_there(self):
        with session() as s:
            gone = s.operation(99)
            self.assertEqual((gone.exists, gone.name, gone.operands, gone.results, gone.regions, gone.parent, gone.next,
                              gone.properties, list(gone.walk())), (False, None, (), (), (), None, None, {}, []))
            kept = s.operation(4)
        self.assertEqual((kept.exists, kept.name, kept.operands), (False, None, ()))
        for call in (s.walk, lambda: s.root, lambda: s.operation(1)):
            self.assertRaises(mlir_work.SessionClosed, call)

    def test_edits_during_a_walk(self):
        """Handles are accepted in place of numbers and values; erased operations are left out of a walk."""
        with session() as s:
            seen = []
            for op in s.walk():
                seen.append(op.number)
                if op.name == "test.pair":
                    s.erase(4)
                    s.erase(op)
            self.assertEqual(seen, [0, 1, 2])
            made = s.insert(before(1), '"test.new"() : () -> i32')
            s.replace(s.operation(1).results[0], s.operation(made).results[0])
            self.assertEqual(s.report("uses", of=s.operation(1)), [])
            self.same(s)

    def test_long_texts_and_many_uses(self):
        many, text = 200, "x" * 1000
        uses = "".join('"test.use"(%0, %0) : (i32, i32) -> ()\n' for _ in range(many))
        with session(f'%0 = "test.{text}"() {{k = "{text}"}} : () -> i32\n{uses}') as s:
            op = s.operation(1)
            self.assertEqual((op.name, op.attributes, len(op.results[0].uses)),
                             (f"test.{text}", {"k": f'"{text}"'}, 2 * many))
            self.same(s)

    def test_random_edits(self):
        for module in sorted((ROOT / "examples").glob("*.mlir")):
            chance = random.Random(module.name)
            with self.subTest(module=module.name), session(module.read_text()) as s:
                for _ in range(30):
                    numbers = [it.number for it in s.walk()]
                    op, other = chance.choice(numbers), chance.choice(numbers)
                    values = [it for op in s.walk() for it in op.results]
                    edit = chance.choice(("erase", "move", "begin", "rollback", "replace", "canon"))
                    try:
                        if edit == "erase":
                            s.erase(op)
                        elif edit == "move":
                            s.move(op, before(other))
                        elif edit == "replace" and values:
                            s.replace(chance.choice(values), chance.choice(values))
                        elif edit == "canon":
                            s.canon(1)
                        elif edit in ("begin", "rollback"):
                            s.command(edit)
                    except mlir_work.Refused:
                        pass
                    self.same(s)



class Plain(mlir_work.Way):
    """A connection without calls for reads."""

    def open(self, text, limit, opaque=False):
        return []

    def line(self, line):
        return mlir_work.Reply("ok")

    def close(self):
        return None


class Without(Case):
    def test_handles_need_the_library(self):
        with mlir_work.Session("", way=Plain()) as s:
            for call in (s.walk, lambda: s.root, lambda: s.operation(1)):
                self.assertRaisesRegex(mlir_work.Error, "MLIR_WORK_LIBRARY", call)


if __name__ == "__main__":
    unittest.main()
