"""The library for C, C++ and Rust: the examples are compiled, run under memcheck and gcc's sanitizers, and compared
with the program. Every allocation is refused in turn. Without a library of these sources, or a compiler, the tests are
skipped."""
import os
import pathlib
import re
import shlex
import shutil
import subprocess
import sys
import tempfile
import unittest

from support import ROOT, program, words

from mlir_work.script import joined
from tools import library

C = ["gcc", "-std=c11", "-D_POSIX_C_SOURCE=200809L"]
CPP = ["g++", "-std=c++17", f"-I{ROOT}/bindings/cpp"]
STRICT = ["-Wall", "-Wextra", "-pedantic", "-Werror", f"-I{ROOT}/bindings/c", "-g"]
SANITIZED = ["-fsanitize=address,undefined", "-fno-sanitize-recover=all"]
REFUSING = ["-Wl,--wrap=malloc,--wrap=realloc,--wrap=free"]
MEMCHECK = ["valgrind", "--quiet", "--error-exitcode=99", "--leak-check=full", "--errors-for-leak-kinds=all"]
EXAMPLES = ROOT / "examples"
# Modules before and after `mlir-opt -loop-invariant-code-motion`, in the form in which `print` shows them.
LICM = sorted((ROOT / "tests/golden/embed/licm").glob("*.mlir"))
MLIR_OPT = shutil.which("mlir-opt-22") or shutil.which("mlir-opt")
# The first lines that the first two programs of docs/EMBED.md write of examples/fold.mlir.
IN_PYTHON, IN_CPP = b"arith.constant i32 is used by #4 arith.muli\n", b"arith.constant is used by arith.muli #4\n"
CHAIN = ('%0 = "arith.constant"() <{value = 1 : i32}> : () -> i32\n'
         '%1 = "arith.addi"(%0, %0) <{overflowFlags = #arith.overflow<none>}> : (i32, i32) -> i32\n')


def ran(words, text=b"", status=0):
    """What a program writes, which ends with this status and says nothing else."""
    it = subprocess.run([str(word) for word in words], input=text, capture_output=True, check=False)
    if it.returncode != status or it.stderr:
        raise AssertionError(f"{words}: status {it.returncode}, {it.stderr.decode(errors='replace')}")
    return it.stdout


@unittest.skipUnless(shutil.which("gcc") and shutil.which("g++"), "there is no gcc")
class Library(unittest.TestCase):
    @classmethod
    def setUpClass(cls):
        cls.room = tempfile.TemporaryDirectory()
        cls.addClassCleanup(cls.room.cleanup)
        cls.folder = pathlib.Path(cls.room.name)
        cls.archive = library.found(cls.folder)
        if not cls.archive:
            raise unittest.SkipTest("there is no library of these sources")

    def built(self, source, *more):
        """A program of a source file and the library."""
        made = self.folder / (pathlib.Path(source).name + "-".join(["", *more]).replace("/", "_"))
        compiler = CPP if source.endswith(".cpp") else C
        ran([*compiler, *STRICT, *more, "-o", made, ROOT / source, self.archive])
        return made

    def module(self, text=CHAIN):
        """A file with a module."""
        made = self.folder / "module.mlir"
        made.write_text(text)
        return made

    def test_handles(self):
        for more in ((), SANITIZED):
            self.assertEqual(ran([self.built("tests/golden/embed/handles.c", *more)]), b"")

    def test_marks(self):
        """A `Mark` of C++ goes back to its own mark, whatever is done within it, also on an exception."""
        for more in ((), SANITIZED):
            self.assertEqual(ran([self.built("tests/golden/embed/marks.cpp", *more)]), b"")

    @unittest.skipUnless(shutil.which("valgrind"), "there is no valgrind")
    def test_memcheck(self):
        self.assertEqual(ran([*MEMCHECK, self.built("tests/golden/embed/handles.c")]), b"")
        self.assertEqual(ran([*MEMCHECK, self.built("tests/golden/embed/marks.cpp")]), b"")
        self.assertEqual(ran([*MEMCHECK, self.built("tests/golden/embed/reads.c")]), b"")
        self.assertEqual(ran([*MEMCHECK, self.built("tests/golden/embed/numbers.c")]), b"")
        ran([*MEMCHECK, self.built("examples/hoist.cpp"), LICM[0]])
        ran([*MEMCHECK, self.built("examples/embed/licm.cpp"), LICM[0]])
        script = (EXAMPLES / "fold.script").read_bytes()
        ran([*MEMCHECK, self.built("examples/embed/replies.c"), EXAMPLES / "fold.mlir"], script)
        ran([*MEMCHECK, self.built("examples/embed/dead.cpp"), self.module()])

    def test_every_allocation_is_refused(self):
        built = self.built("tests/golden/embed/memory.c", *REFUSING)
        self.assertRegex(ran([built, "--count"]), rb"^[1-9][0-9]+ sessions\n$")

    def test_replies(self):
        replies = self.built("examples/embed/replies.c", *SANITIZED)
        for module in sorted(EXAMPLES.glob("*.mlir")):
            script = module.with_suffix(".script").read_bytes()
            status, out = program.written(joined(module.read_bytes(), script))
            with self.subTest(module=module.name):
                self.assertEqual(ran([replies, module], script, status).decode(), out)

    def test_dead(self):
        for more in ((), SANITIZED):
            out = ran([self.built("examples/embed/dead.cpp", *more), self.module()]).decode()
            self.assertEqual(out, '"builtin.module"() ({\n^bb0:\n}) : () -> ()\n// 2 erased\n')

    def test_reads(self):
        """Operations, entries, uses and texts are read by numbers; what isn't there is answered as the header says."""
        for more in ((), SANITIZED):
            self.assertEqual(ran([self.built("tests/golden/embed/reads.c", *more)]), b"")

    def test_numbers(self):
        """Operations are inserted by interned numbers, entries are set, and rows are read as cells; what is refused
        changes nothing."""
        for more in ((), SANITIZED):
            self.assertEqual(ran([self.built("tests/golden/embed/numbers.c", *more)]), b"")

    def test_threads(self):
        """Sessions of several threads don't share anything, also under gcc's thread sanitizer."""
        for more in (("-pthread",), ("-pthread", "-fsanitize=thread")):
            self.assertEqual(ran([self.built("tests/golden/embed/threads.c", *more)]), b"")

    def test_stop(self):
        """A run that a signal, another thread or a count stops leaves the module and its marks; a run in parts is the
        run of the command."""
        for more in (("-pthread",), ("-pthread", *SANITIZED), ("-pthread", "-fsanitize=thread")):
            self.assertEqual(ran([self.built("tests/golden/embed/stop.c", *more)]), b"")
        module = (EXAMPLES / "canon.mlir").read_bytes()
        stop = self.built("examples/embed/stop.c")
        for seconds, script, told in (("600", b"canon limit 1000000\nprint\n", ""), ("0", b"print\n", "// stopped\n")):
            _, out = program.written(joined(module, script))
            self.assertEqual(ran([stop, seconds], module).decode(), told + out[out.index('"builtin.module"'):])

    def test_walk(self):
        """A walk by one call or four calls for many operations counts what one by calls for one operation counts."""
        built = self.built("benchmarks/walk.c")
        told = {how: ran([built, "3000", how]).partition(b", ")[2] for how in ("one", "many", "records")}
        self.assertEqual(len(set(told.values())), 1, told)

    def test_numbers_by_chance(self):
        """Random edits by lines, by numbers and over a process give the same modules and rows."""
        started, more = words()
        script = ROOT / "tests/compare/numbers_by_chance.py"
        it = subprocess.run([sys.executable, str(script), shlex.join(started), str(self.shared()), "30"],
                            env={**os.environ, **more}, capture_output=True, text=True, check=False)
        self.assertEqual(it.returncode, 0, it.stdout + it.stderr)

    def test_headers(self):
        """The header compiles without a warning as C99, C11 and C++17, with gcc, and with clang if it is installed."""
        source = self.folder / "header.c"
        source.write_text('#include "mlir_work.h"\nint main(void) { return (int)mlir_work_version() - 1; }\n')
        for compiler, language, standard in (("gcc", "c", "c99"), ("gcc", "c", "c11"), ("g++", "c++", "c++17"),
                                             ("clang", "c", "c99"), ("clang++", "c++", "c++17")):
            if shutil.which(compiler):
                with self.subTest(compiler=compiler, standard=standard):
                    ran([compiler, f"-std={standard}", *STRICT, "-fsyntax-only", "-x", language, source])

    def shared(self):
        """The shared object, for Python."""
        return library.shared(self.archive, self.folder)

    def python(self, *words, text=b""):
        """What a Python program writes that uses the library."""
        there = {**os.environ, "MLIR_WORK_LIBRARY": str(self.shared()), "PYTHONPATH": str(ROOT / "bindings/python")}
        it = subprocess.run([sys.executable, *map(str, words)], input=text, env=there, capture_output=True, check=False)
        self.assertEqual((it.returncode, it.stderr), (0, b""))
        return it.stdout

    def test_licm(self):
        """Loop-invariant code motion over the handles of C, C++ and Python moves what mlir-opt moves."""
        self.assertGreaterEqual(len(LICM), 20)
        in_c, in_cpp = self.built("examples/embed/licm.c"), self.built("examples/embed/licm.cpp")
        without_text = self.built("examples/hoist.cpp")
        for example in ("hoist.cpp", "embed/licm.c", "embed/licm.cpp", "python/licm.py"):
            self.assertLessEqual((EXAMPLES / example).read_text().count("\n"), 60, example)
        for module in LICM:
            wanted, text = module.with_suffix(".after").read_bytes(), module.read_bytes()
            with self.subTest(module=module.stem):
                self.assertEqual(ran([in_c], text), wanted)
                self.assertEqual(ran([in_cpp, module]), wanted)
                self.assertEqual(ran([without_text, module]), wanted)
                self.assertEqual(self.python(EXAMPLES / "python/licm.py", module), wanted)

    @unittest.skipUnless(MLIR_OPT, "mlir-opt isn't installed: the stored results aren't compared with it")
    def test_licm_of_mlir_opt(self):
        """The stored results are those of mlir-opt."""
        for module in LICM:
            words = [MLIR_OPT, "-loop-invariant-code-motion", "--mlir-print-op-generic"]
            made = subprocess.run(words, input=module.read_bytes(), capture_output=True, check=True).stdout
            _, out = program.written(joined(made, b"print\n"))
            with self.subTest(module=module.stem):
                self.assertEqual(out[out.index('"builtin.module"'):], module.with_suffix(".after").read_text())

    def test_first_programs_of_the_page(self):
        """The first two programs of docs/EMBED.md run."""
        page = (ROOT / "docs/EMBED.md").read_text()
        blocks = dict(reversed(re.findall(r"^```(python|cpp)\n(.*?)^```$", page, re.M | re.S)))
        (self.folder / "uses.py").write_text(blocks["python"])
        out = self.python(self.folder / "uses.py", EXAMPLES / "fold.mlir")
        self.assertTrue(out.startswith(IN_PYTHON), out)
        (self.folder / "uses.cpp").write_text(blocks["cpp"])
        built = self.folder / "uses"
        ran([*CPP, *STRICT, "-o", built, self.folder / "uses.cpp", self.archive])
        out = ran([built], (EXAMPLES / "fold.mlir").read_bytes())
        self.assertTrue(out.startswith(IN_CPP), out)
        for block in blocks.values():
            self.assertLessEqual(block.count("\n"), 13)

    def test_hoist(self):
        """Operations that don't depend on a loop move out of it by handles, as LICM moves them, and others are refused;
        the uses of the first one are those inside and outside of the loop."""
        for more in ((), SANITIZED):
            out = ran([self.built("tests/golden/embed/hoist.cpp", *more), ROOT / "tests/golden/embed/hoist.before"])
            self.assertEqual(out, (ROOT / "tests/golden/embed/hoist.after").read_bytes())

    def test_stack(self):
        """A thread with as much stack as the header says is enough works on what is nested deepest."""
        size, = re.findall(r"([0-9]+) KB of stack are enough", (ROOT / "bindings/c/mlir_work.h").read_text())
        built = self.built("tests/golden/embed/stack.c", "-pthread")
        it = subprocess.run([built, size], capture_output=True, text=True, check=False)
        if it.returncode == 77:
            self.skipTest(f"there is no thread with {size} KB of stack")
        self.assertEqual((it.returncode, it.stdout, it.stderr), (0, "", ""))

    def test_edits(self):
        out = ran([self.built("examples/embed/edits.c"), "200", "1000"]).decode()
        told = "200 edits of 1000 operations, by "
        self.assertRegex(out, rf"^{told}lines: .*\n{told}numbers: ")

    def test_what_is_handed_out(self):
        """Only the calls of the header, and all of them."""
        names = subprocess.run(["nm", "--defined-only", "--extern-only", self.archive], stdout=subprocess.PIPE,
                               text=True, check=True).stdout.splitlines()
        found = {line.split()[2] for line in names if len(line.split()) == 3}
        header = (ROOT / "bindings/c/mlir_work.h").read_text()
        self.assertEqual({name for name in found if name + "(" in header}, found)
        self.assertGreater(len(found), 10)

    def installed(self):
        """The folder into which the program and the library are installed."""
        prefix = self.folder / "prefix"
        if not prefix.exists():
            there = {**os.environ, "MLIR_WORK_ARCHIVE": str(self.archive)}
            ran_there = subprocess.run([ROOT / "tools/install.sh", prefix], env=there, capture_output=True, check=False)
            self.assertEqual(ran_there.returncode, 0, ran_there.stderr)
        return prefix

    @unittest.skipUnless(shutil.which("pkg-config"), "there is no pkg-config")
    def test_pkg_config(self):
        """A program is built with the flags that pkg-config prints for the installed library."""
        prefix = self.installed()
        there = {**os.environ, "PKG_CONFIG_PATH": str(prefix / "lib/pkgconfig")}
        flags = subprocess.run(["pkg-config", "--cflags", "--libs", "mlir_work"], env=there, capture_output=True,
                               text=True, check=True).stdout.split()
        made = self.folder / "by_pkg_config"
        ran(["g++", "-std=c++17", "-o", made, EXAMPLES / "embed/dead.cpp", *flags, f"-Wl,-rpath,{prefix}/lib"])
        self.assertTrue(ran([made, self.module()]).endswith(b"// 2 erased\n"))

    @unittest.skipUnless(shutil.which("cmake"), "there is no cmake")
    def test_cmake(self):
        """A program is built with each target of the CMake package."""
        project = self.folder / "project"
        project.mkdir()
        (project / "CMakeLists.txt").write_text(
            "cmake_minimum_required(VERSION 3.10)\nproject(p CXX)\nset(CMAKE_CXX_STANDARD 17)\n"
            "find_package(mlir_work 1.0 REQUIRED)\n"
            + "".join(f"add_executable({name} {EXAMPLES}/embed/dead.cpp)\n"
                      f"target_link_libraries({name} PRIVATE mlir_work::{target})\n"
                      for name, target in (("one", "mlir_work"), ("two", "shared"))))
        for words in (["cmake", "-S", project, "-B", project / "out", f"-DCMAKE_PREFIX_PATH={self.installed()}"],
                      ["cmake", "--build", project / "out"]):
            it = subprocess.run(list(map(str, words)), capture_output=True, text=True, check=False)
            self.assertEqual(it.returncode, 0, it.stdout + it.stderr)
        for name in ("one", "two"):
            self.assertTrue(ran([project / "out" / name, self.module()]).endswith(b"// 2 erased\n"))

    @unittest.skipUnless(shutil.which("cargo"), "there is no cargo")
    def test_rust(self):
        room = self.folder / "rust"
        shutil.copytree(ROOT / "bindings/rust", room, ignore=shutil.ignore_patterns("target"))
        held = self.folder / "held"
        held.mkdir()
        shutil.copy(self.archive, held / "libmlir_work.a")
        there = {**os.environ, "MLIR_WORK_LIB": str(held), "CARGO_TARGET_DIR": str(self.folder / "target")}
        for words in (["test", "--offline", "--quiet"],
                      ["run", "--offline", "--quiet", "--example", "licm", "--", LICM[0]],
                      ["run", "--offline", "--quiet", "--example", "dead", "--", self.module()]):
            it = subprocess.run(["cargo", *map(str, words)], cwd=room, env=there, capture_output=True, text=True,
                                check=False)
            self.assertEqual(it.returncode, 0, it.stdout + it.stderr)
        for module in LICM:
            with self.subTest(module=module.stem):
                self.assertEqual(ran([self.folder / "target/debug/examples/licm", module]),
                                 module.with_suffix(".after").read_bytes())
        self.assertEqual(it.stdout, '"builtin.module"() ({\n^bb0:\n}) : () -> ()\n// 2 erased\n')


if __name__ == "__main__":
    unittest.main()
