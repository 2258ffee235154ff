"""What a session says and does where the library holds the module in this process: all of test_session.py, and what is
the library's own. Where there is no library of these sources it is left out."""
import os
import pathlib
import random
import shlex
import subprocess
import sys
import threading
import unittest
from unittest import mock

import support
from support import PROGRAM, ROOT, Case

import mlir_work
from mlir_work.library import VARIABLE
import test_session

SHARED = support.shared_object()
THREE_WAYS = [sys.executable, str(ROOT / "tests/compare/three_ways.py")]


def session(text, **more):
    """A session over a text, in the library."""
    return mlir_work.Session(text, way=mlir_work.Library(SHARED), **more)


class Held:
    """A test of sessions, over the library."""

    def setUp(self):
        if not SHARED:
            self.skipTest("there is no library of these sources")
        patched = mock.patch.object(test_session, "session", session)
        patched.start()
        self.addCleanup(patched.stop)
        super().setUp()


class Calls(Held, test_session.Calls):
    pass


class Lines(Held, test_session.Lines):
    pass


class Marks(Held, test_session.Marks):
    pass


class Rows(Held, test_session.Rows):
    pass


class Operations(Held, test_session.Operations):
    pass


@unittest.skipUnless(SHARED, "there is no library of these sources")
class Own(Case):
    def test_a_module_that_is_refused(self):
        way = mlir_work.Library(SHARED)
        with self.assertRaises(mlir_work.ModuleRefused) as caught:
            mlir_work.Session("%0 = what", way=way)
        self.assertIn(caught.exception.number, range(1, 15))
        with self.assertRaises(mlir_work.SessionClosed):
            way.line(b"print")

    def test_a_limit_that_is_refused(self):
        """The library takes 32 bits of a limit: what has more isn't handed over."""
        for limit in (-1, 0, 2**32 + 5):
            with self.subTest(limit), self.assertRaises(ValueError):
                mlir_work.Library(SHARED).open(b"", limit)

    def test_64_sessions_in_turn(self):
        for number in range(64):
            with session(f'"test.a"() {{k = {number}}} : () -> ()') as s:
                self.assertIn(f"k = {number} ", s.print())

    def test_several_at_once(self):
        those = [session(test_session.PAIR) for _ in range(16)]
        for s in those[::2]:
            s.erase(3)
        random.Random(5).shuffle(those)
        self.assertEqual(sum(not s.report("uses") for s in those), 8)
        for s in those:
            s.close()
            s.close()

    def test_each_thread_has_its_own(self):
        found = []

        def work(number):
            with session(test_session.PAIR) as s:
                for _ in range(number):
                    with s.mark():
                        s.erase(3)
                        s.insert(mlir_work.end(0), '"test.pair"(%v1.0, %v2.0) : (i32, i32) -> ()')
                        s.erase(s.report("uses")[0].user)
                        s.rollback()
                        s.begin()
                found.append(len(s.report("uses")))
        threads = [threading.Thread(target=work, args=(number,)) for number in range(1, 9)]
        for it in threads:
            it.start()
        for it in threads:
            it.join()
        self.assertEqual(found, [2] * 8)

    def test_a_thread_with_little_stack(self):
        """A thread with as much stack as the pages say is enough holds the module that is nested deepest."""
        found = []

        def work():
            with session('"t.n"() ({ ' * 127 + '"t.leaf"() : () -> ()' + " }) : () -> ()" * 127) as s:
                with s.mark():
                    found.append((len(s.print()) > 127 ** 2, len(s.report("effects")), s.canon()))
        before = threading.stack_size(512 * 1024)
        self.addCleanup(threading.stack_size, before)
        it = threading.Thread(target=work)
        it.start()
        it.join()
        self.assertEqual(found, [(True, 129, (0, True))])

    def test_a_text_with_a_zero(self):
        with session(test_session.PAIR) as s:
            with self.assertRaises(mlir_work.Refused) as caught:
                s.command(b"erase\0 #1")
            self.assertEqual(caught.exception.word, "BadCommand")

    def test_which_way_is_taken(self):
        here = {name: text for name, text in os.environ.items() if not name.startswith("MLIR_WORK")}
        with mock.patch.dict(os.environ, {**here, VARIABLE: str(SHARED)}, clear=True):
            with mlir_work.Session(test_session.PAIR) as s:
                self.assertIsInstance(s._way, mlir_work.Library)
            with mlir_work.Session(test_session.PAIR, PROGRAM) as s:
                self.assertIsInstance(s._way, mlir_work.Process)
        with mock.patch.dict(os.environ, {**here, VARIABLE: str(pathlib.Path(SHARED).parent / "none.so")}, clear=True):
            with self.assertRaises(OSError):
                mlir_work.Session(test_session.PAIR)

    def test_the_example(self):
        there = {**os.environ, VARIABLE: str(SHARED), "PYTHONPATH": str(ROOT / "bindings/python")}
        it = subprocess.run([sys.executable, ROOT / "examples/python/edits.py", "2000"], env=there, check=False,
                            stdout=subprocess.PIPE, stderr=subprocess.PIPE, text=True)
        self.assertEqual((it.returncode, it.stdout), (0, "2000 erased, asked 2001 times, 0 left\n"), it.stderr)

    @unittest.skipUnless(support.IS_FAST, "there is no program of these sources")
    def test_random_scripts(self):
        there = {**os.environ, VARIABLE: str(SHARED), "PYTHONPATH": str(ROOT / "bindings/python"),
                 "PYTHONDONTWRITEBYTECODE": "1"}
        words = [*THREE_WAYS, shlex.join(PROGRAM), "200", "58", "--library", "mlir_work:Library"]
        it = subprocess.run(words, env=there, check=False, stdout=subprocess.PIPE, stderr=subprocess.PIPE, text=True)
        self.assertEqual((it.returncode, it.stderr), (0, ""), it.stdout)
        self.assertRegex(it.stdout, r"[1-9][0-9]* by the library too; no difference\n$")


if __name__ == "__main__":
    unittest.main()
