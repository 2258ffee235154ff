"""Reading and writing golden files, and the choice of the program for the sources."""
import io
import lzma
import pathlib
import shutil
import sys
import tempfile
import unittest
from unittest import mock

import checkout  # noqa: F401
from tests.golden import golden
from tools import dist, sources

TEXTS = [b"", b"\n", b"a", b"a\n", b"a\nb", b"\xff\n", b"=== 1\n", b"a \n", b"\\\t\r\n", b"\x00", b"\xc3\xa4\n",
         b"# a\n", b"#a\n# a\n"]
SENTENCE = "A text is read."


class Golden(unittest.TestCase):
    def test_each_text_is_read_as_it_was_written(self):
        with tempfile.TemporaryDirectory() as name:
            file = pathlib.Path(name) / "x.cases"
            cases = [golden.Case(f"texts/{number}", ["--limit", "5", ""], [(1, text)], sentence=SENTENCE)
                     for number, text in enumerate(TEXTS)]
            front = golden.group_text("texts", SENTENCE)
            cases += [golden.Case(f"text-{number}", [], [(1, text)], sentence=SENTENCE * (number % 2))
                      for number, text in enumerate(TEXTS + TEXTS[-1:])]
            cases.append(golden.Case("many", [], [(3, b"ab\n"), (1, b"\\x00")]))
            file.write_bytes(front + b"".join(map(golden.case_text, cases)))
            answers = [golden.out_text(case.name, 1, case.given()) for case in cases]
            file.with_suffix(".out").write_bytes(b"".join(answers))
            read, others = golden.cases_in(file)
        self.assertEqual([(it.name, it.words, it.given(), it.sentence) for it, _ in read],
                         [(it.name, it.words, it.given(), it.sentence) for it in cases])
        self.assertEqual(([answer for _, answer in read], others), (answers, []))

    def test_the_sentence_of_a_file_is_in_its_answer(self):
        with tempfile.TemporaryDirectory() as name:
            file = pathlib.Path(name) / "some_texts.mlir"
            for text in TEXTS:
                file.write_bytes(text)
                new, _ = golden.cases_in(file)[0][0]
                self.assertEqual((new.name, new.sentence, new.given()), ("some-texts", "", text))
                for sentence in ("", SENTENCE):
                    new.sentence = sentence
                    told = golden.told(new, lambda words, text: (1, text))
                    file.with_suffix(".out").write_bytes(told)
                    (read, answer), = golden.cases_in(file)[0]
                    self.assertEqual((read.name, read.sentence, read.given(), answer),
                                     ("some-texts", sentence, text, told))
                file.with_suffix(".out").unlink()

    def test_beginnings(self):
        case = golden.Case("1", [], [(1, b"ab")], True)
        told = golden.told(case, lambda words, text: (len(text), text + b"\n"))
        self.assertEqual(told, b"=== 1 status 1\n0 0\n1 1 a\n")

    def test_a_large_text_is_told_by_its_digest(self):
        self.assertIn(b"[digest]\n65537 bytes, SHA-256 ", golden.out_text("1", 0, b"a" * 65537))


class Names(unittest.TestCase):
    """The faults in names and sentences of the files of an area."""

    def faults(self, **texts):
        """The faults of files with these texts."""
        with tempfile.TemporaryDirectory() as name:
            folder = pathlib.Path(name) / "area"
            folder.mkdir()
            for stem, text in texts.items():
                (folder / f"{stem}.cases").write_text(text)
            with mock.patch.object(golden, "TESTS", folder.parent):
                return list(golden.faults_in(sorted(folder.glob("*.cases"))))

    def test_right_names(self):
        texts = {"a": "=== one --brief\n# It is.\n=== two [group]\n# It is.\n=== two/1\n=== two/full\n",
                 "b": "=== three\n# It is.\n"}
        self.assertEqual(self.faults(**texts), [])

    def test_wrong_names(self):
        for text, told in (("=== 1 --brief\n", "case 1 has no name"),
                           ("=== One\n# It is.\n", "One: this name isn't kebab-case"),
                           ("=== one_two\n# It is.\n", "one_two: this name isn't kebab-case"),
                           ("=== one\n", "one: no sentence says what the case shows"),
                           ("=== one\n# It is\n", "one: the sentence doesn't end with a full stop"),
                           ("=== one\n# It is.\n=== one\n# It is.\n", "one: two cases have this name"),
                           ("=== a [group]\n# It is.\n=== a/1\n=== a/1\n", "a/1: two cases have this name"),
                           ("=== a [group]\n# It is.\n=== a/A\n", "a/A: this name isn't kebab-case"),
                           ("=== a [group]\n# It is.\n=== b/1\n", "b: no sentence says what the case shows")):
            self.assertIn(f"area/a.cases: {told}", self.faults(a=text))
        one = "=== one\n# It is.\n"
        self.assertEqual(self.faults(a=one, b=one), ["area/b.cases: one: area/a.cases has this name too"])


class Sources(unittest.TestCase):
    """A checkout of one crate, in a temporary folder."""

    def setUp(self):
        made = tempfile.TemporaryDirectory()
        self.addCleanup(made.cleanup)
        folder = pathlib.Path(made.name)
        (folder / "crates/mlir_work/src").mkdir(parents=True)
        (folder / "crates/mlir_work/out").mkdir()
        (folder / "dist").mkdir()
        (folder / "crates/mlir_work_c/out").mkdir(parents=True)
        (folder / "crates.txt").write_text("mlir_work_c staticlib: held\nheld: low\nmlir_work: low clap\nlow:\n"
                                           "other:\n")
        self.file = folder / "crates/mlir_work/src/main.rt"
        self.file.write_text("fn main() {}\n")
        places = {"ROOT": folder, "DIST": folder / "dist", "MANIFEST": folder / "dist/MANIFEST",
                  "PACKED": folder / "dist/mlir_work.xz", "UNPACKED": folder / "dist/out/mlir_work",
                  "BUILT": folder / "crates/mlir_work/out/mlir_work",
                  "RECORD": folder / "crates/mlir_work/out/mlir_work.sources",
                  "PACKED_LIBRARY": folder / "dist/libmlir_work.a.xz", "LIBRARY": folder / "dist/out/libmlir_work.a",
                  "BUILT_LIBRARY": folder / "crates/mlir_work_c/out/libmlir_work_c.a"}
        patched = mock.patch.multiple(sources, **places)
        patched.start()
        self.addCleanup(patched.stop)
        self.folder = folder

    def shipped(self, program):
        sources.PACKED.write_bytes(lzma.compress(program))
        sources.MANIFEST.write_text(f"sources: {sources.digest()}\nprogram: {sources.digest_of(program)}\nkit: one\n")

    def test_a_changed_source_has_no_program(self):
        self.shipped(b"shipped")
        self.assertEqual(sources.program().read_bytes(), b"shipped")
        self.file.write_text("fn main() { }\n")
        self.assertIsNone(sources.program())
        with mock.patch("sys.stderr", io.StringIO()) as noted:
            self.assertEqual(sources.startable().read_bytes(), b"shipped")
        self.assertEqual(noted.getvalue(), f"{sources.OTHER}\n")

    def test_the_program_of_these_sources_is_started_without_a_note(self):
        self.shipped(b"shipped")
        with mock.patch("sys.stderr", io.StringIO()) as noted:
            self.assertEqual(sources.startable().read_bytes(), b"shipped")
        self.assertEqual(noted.getvalue(), "")

    def test_only_crates_below_the_program_count(self):
        before = sources.digest()
        (self.folder / "crates/other/src").mkdir(parents=True)
        (self.folder / "crates/other/src/lib.rt").write_text("fn f() {}\n")
        self.assertEqual(sources.digest(), before)
        (self.folder / "crates.txt").write_text("mlir_work: low\nlow:\nother:\n")
        self.assertNotEqual(sources.digest(), before)

    def test_what_was_built_is_started_while_it_is_what_was_built(self):
        sources.BUILT.write_bytes(b"built")
        self.assertIsNone(sources.program())
        sources.record(sources.digest())
        self.assertEqual(sources.program(), sources.BUILT)
        sources.BUILT.write_bytes(b"other")
        self.assertIsNone(sources.program())

    def test_a_changed_byte_of_dist_is_found(self):
        self.shipped(b"shipped")
        sources.PACKED.write_bytes(lzma.compress(b"another"))
        with self.assertRaises(SystemExit):
            sources.program()

    def made(self, archive):
        """Puts a program that was built here into dist/, and a library where one was; each is what it is of."""
        joined = mock.Mock(read_bytes=lambda: b"joined " + archive)
        with mock.patch.multiple(dist, stripped=lambda program: program, kit=lambda: "one", version=lambda: "1",
                                 agree_on_version=lambda: None, linker=lambda: "ld"), \
                mock.patch.object(dist.library, "joined", lambda *_: joined), mock.patch("builtins.print"):
            sources.BUILT.write_bytes(b"built")
            sources.record(sources.digest())
            if archive:
                sources.BUILT_LIBRARY.write_bytes(archive)
                sources.record_all()
            dist.make()
            yield
            dist.compare()

    def test_the_library_is_shipped_with_the_program(self):
        for _ in self.made(b"archive"):
            self.assertEqual(sources.library().read_bytes(), b"joined archive")
            self.assertEqual(sources.built_library(), sources.BUILT_LIBRARY)
        sources.BUILT_LIBRARY.write_bytes(b"another")
        self.assertIsNone(sources.built_library())
        held = self.folder / "crates/held/src"
        held.mkdir(parents=True)
        (held / "lib.rt").write_text("fn f() {}\n")
        self.assertIsNone(sources.library())
        self.assertEqual(sources.program().read_bytes(), b"built")

    def test_there_is_no_library(self):
        for _ in self.made(b""):
            self.assertIsNone(sources.library())
            self.assertEqual(sources.program().read_bytes(), b"built")
            self.assertFalse(sources.PACKED_LIBRARY.exists())

    def test_another_library_than_the_built_one_is_found(self):
        with self.assertRaises(SystemExit):
            for _ in self.made(b"archive"):
                sources.PACKED_LIBRARY.write_bytes(lzma.compress(b"joined another"))

    def compared(self, shipped, kit):
        """Compares what is shipped with a program that was built here by a kit."""
        with mock.patch.multiple(dist, stripped=lambda program: program, kit=lambda: kit):
            sources.BUILT.write_bytes(b"built")
            sources.record(sources.digest())
            self.shipped(shipped)
            dist.compare()

    def test_another_program_than_the_built_one_is_found(self):
        self.compared(b"built", "one")
        with self.assertRaises(SystemExit):
            self.compared(b"bytes", "one")

    def test_what_another_kit_built_is_asked_all_tests(self):
        file = self.folder / "test"
        file.write_text("#!/bin/sh\ngrep -q bytes $1\n")
        file.chmod(0o755)
        for shipped, status in (b"bytes", 0), (b"other", 1):
            with self.assertRaises(SystemExit) as ended:
                self.compared(shipped, "another")
            self.assertEqual(ended.exception.code, status)


@unittest.skipUnless(sys.platform == "linux", "programs are of Linux")
class Stripped(unittest.TestCase):
    def test_a_program_runs_without_what_is_behind_its_segments(self):
        program = pathlib.Path(shutil.which("true")).read_bytes()
        kept = dist.stripped(program)
        self.assertLess(len(kept), len(program) + 1)
        self.assertEqual(dist.stripped(kept), kept)


if __name__ == "__main__":
    unittest.main()
