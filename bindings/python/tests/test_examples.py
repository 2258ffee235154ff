"""The examples, and the comparison of ways, with few cases."""
import os
import pathlib
import shlex
import subprocess
import sys
import tarfile
import tempfile
import unittest
import zipfile

from support import IS_FAST, LIVE, PROGRAM, ROOT

import backend
from mlir_work.cli import data

THREE_WAYS = [sys.executable, str(ROOT / "tests/compare/three_ways.py")]


def ran(words, program=None):
    """How a program ended, and what it wrote."""
    path = os.pathsep.join(str(ROOT / it) for it in ("bindings/python/tests", "bindings/python"))
    environment = {**os.environ, "PYTHONPATH": path, "PYTHONDONTWRITEBYTECODE": "1"}
    environment.update({"MLIR_WORK": shlex.join(program)} if program else {})
    it = subprocess.run(words, stdout=subprocess.PIPE, stderr=subprocess.PIPE, text=True, env=environment, check=False)
    return it.returncode, it.stdout, it.stderr


class Examples(unittest.TestCase):
    def test_edits(self):
        many = 2000 if IS_FAST else 25
        status, out, fault = ran([sys.executable, str(ROOT / "examples/python/edits.py"), str(many)], PROGRAM)
        self.assertEqual((status, out), (0, f"{many} erased, asked {many + 1} times, 0 left\n"), fault)


class Packed(unittest.TestCase):
    def test_a_wheel(self):
        code = "import mlir_work; print(mlir_work.__file__, mlir_work.Result(1))"
        with tempfile.TemporaryDirectory() as folder:
            build = "from backend import *; import sys; print(build_wheel(sys.argv[1]), build_sdist(sys.argv[1]))"
            names = subprocess.run([sys.executable, "-B", "-c", build, folder], cwd=ROOT / "bindings/python",
                                   stdout=subprocess.PIPE, text=True, check=True).stdout.split()
            self.assertRegex(names[0], r"^mlir_work-1\.0\.0-py3-none-(any|[a-z0-9_]+)\.whl$")
            self.assertEqual(names[1:], ["mlir_work-1.0.0.tar.gz"])
            wheel, sources = (pathlib.Path(folder, name) for name in names)
            ran_there = subprocess.run([sys.executable, "-c", code], stdout=subprocess.PIPE, text=True, check=True,
                                       cwd=folder, env={**os.environ, "PYTHONPATH": str(wheel)}).stdout
            self.assertEqual(ran_there, f"{wheel}/mlir_work/__init__.py %v1.0\n")
            package = ROOT / "bindings/python/mlir_work"
            inside = {it.relative_to(package).as_posix() for it in package.rglob("*") if it.suffix in backend.KEPT}
            inside |= {"py.typed", *(f"cli/docs/{it}" for it in data.PAGES)}
            with zipfile.ZipFile(wheel) as archive:
                self.assertEqual(archive.testzip(), None)
                found = {it.partition("/")[2] for it in archive.namelist() if it.startswith("mlir_work/")}
                self.assertEqual(found - {backend.SHARED}, inside)
                self.assertEqual(backend.SHARED in found, not names[0].endswith("-any.whl"))
            with tarfile.open(sources) as archive:
                self.assertIn("mlir_work-1.0.0/pyproject.toml", archive.getnames())


class CommandLine(unittest.TestCase):
    def test_it_is_started_as_a_module(self):
        with tempfile.TemporaryDirectory() as folder:
            script = pathlib.Path(folder, "s")
            script.write_text("erase #2\n")
            words = [sys.executable, "-m", "mlir_work", "explain", str(ROOT / "examples/fold.mlir"), str(script)]
            status, out, fault = ran(words, PROGRAM)
        self.assertEqual((status, fault), (1, ""))
        self.assertTrue(out.startswith(f"{script}:1:1: 22 HasUses: "), out)


class Ways(unittest.TestCase):
    def test_they_are_the_same(self):
        cases = 100 if IS_FAST else 4
        status, out, fault = ran([*THREE_WAYS, shlex.join(PROGRAM), str(cases), "5", "--library", "support:Referred"])
        self.assertEqual((status, fault), (0, ""), out)
        self.assertRegex(out, r"^seed 5: [1-9][0-9]* cases, .* [1-9][0-9]* by the library too;")
        self.assertTrue(out.endswith("; no difference\n"), out)

    def test_a_difference_is_told(self):
        with tempfile.NamedTemporaryFile("w", suffix=".sh") as file:
            live = shlex.join(LIVE)
            file.write(f'case "$*" in *--interactive*) exec {live} "$@" | sed -u "s/ok/OK/";; *) exec {live} "$@";; '
                       "esac\n")
            file.flush()
            status, out, _ = ran([*THREE_WAYS, f"sh {file.name}", "3", "5", "--only", "script"])
        self.assertEqual(status, 1)
        self.assertIn("\n--- a whole run: status ", out)
        self.assertIn(" ok", out)
        self.assertIn("OK", out)


if __name__ == "__main__":
    unittest.main()
