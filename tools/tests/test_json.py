"""docs/JSON.md: oracle turns each line of its tables into the object next to it, and its run gives the output shown.
The JSON of the program agrees with its text with `--explain`: with files, to a file, with wrong options and on a full
disk, if it knows `--format`."""
import json
import os
import pathlib
import re
import subprocess
import tempfile
import unittest

import support
from support import ROOT, program

from oracle import json_lines

PAGE = (ROOT / "docs/JSON.md").read_text()
ROW = re.compile(r"^\| `([^`]*)`[^|]* \| `(\{[^`]*\})` \|$", re.M)
RUN = re.compile(r"    \$ mlir_work (.*) <<'END'\n((?:    .*\n)*?)    END\n((?:    .*\n)*)")
MODULE = b'%0 = "t.a"() {n = "\\22 \\\\ \\FF"} : () -> i32\n"t.b"(%0) : (i32) -> ()\n// -----\n'
SCRIPT = MODULE + b"report uses\nerase #1\n"


def has_json():
    try:
        return support.words()[0][0] != os.sys.executable and program.has_option("--format")
    except program.Fault:
        return False


class Page(unittest.TestCase):
    def test_tables(self):
        rows = ROW.findall(PAGE)
        self.assertGreater(len(rows), 24)
        for line, shown in rows:
            self.assertEqual(json_lines.json_of(line.encode()).decode(), shown + "\n")
            self.assertEqual(list(json.loads(shown)), sorted(json.loads(shown)))


@unittest.skipUnless(has_json(), "the program writes no JSON")
class Program(unittest.TestCase):
    def ran(self, *words, given=SCRIPT, to=subprocess.PIPE):
        """The status, and what is written to both ends."""
        before, more = support.words()
        it = subprocess.run([*before, "--brief", *words], input=given, stdout=to, stderr=subprocess.PIPE, check=False,
                            env={**os.environ, **more})
        return it.returncode, it.stdout, it.stderr

    def used(self, *words, given):
        """The status of a run, and the most memory that it had at once, in KiB."""
        before, more = support.words()
        with tempfile.TemporaryFile() as file:
            file.write(given)
            file.seek(0)
            it = subprocess.Popen([*before, "--brief", *words], stdin=file, stdout=subprocess.DEVNULL,
                                  env={**os.environ, **more})
            _, status, usage = os.wait4(it.pid, 0)
            it.returncode = os.waitstatus_to_exitcode(status)
        return it.returncode, usage.ru_maxrss

    def test_a_large_module_takes_no_more_memory_as_json(self):
        """The objects of a module of 16 MiB are written line by line: a run takes at most 1 MiB more than with text."""
        line = b'"t.a"() {n = "' + b"x" * 200 + b'"} : () -> ()\n'
        given = line * (2**24 // len(line)) + b"// -----\nprint\nreport uses\nerase #1\n"
        (status, text), (same, objects) = (self.used(*words, given=given) for words in ([], ["--format", "json"]))
        self.assertEqual((status, same), (0, 0))
        self.assertLess(objects - text, 1024)

    def test_runs(self):
        runs = RUN.findall(PAGE)
        self.assertEqual([words for words, _, _ in runs],
                         ["--brief --format json", "--brief --format json --interactive"])
        for status, run in zip((1, 0), runs):
            words, given, wanted = (re.sub("(?m)^    ", "", it) for it in run)
            self.assertEqual(self.ran(*words.split()[1:], given=given.encode()), (status, wanted.encode(), b""))

    def test_formats(self):
        status, text, _ = self.ran()
        self.assertEqual(self.ran("--format", "text"), (status, text, b""))
        status, text, _ = self.ran("--explain")
        self.assertEqual(self.ran("--format=json"), (status, json_lines.json_of(text), b""))
        self.assertEqual(self.ran("--format=json", "--explain"), (status, json_lines.json_of(text), b""))

    def test_answers(self):
        for words in ([], ["--opaque"]):
            status, text, _ = self.ran("--interactive", "--explain", *words)
            told = self.ran("--interactive", "--format", "json", *words)
            self.assertEqual(told, (status, json_lines.json_of(text), b""))
            self.assertEqual(told[1].count(b'{"end":true}\n'), 3)

    def test_files(self):
        _, text, _ = self.ran("--explain")
        with tempfile.TemporaryDirectory() as folder:
            there, out = pathlib.Path(folder) / "m.mlir", pathlib.Path(folder) / "out.json"
            there.write_bytes(MODULE)
            commands = ("-e", "report uses", "-e", "erase #1")
            self.assertEqual(self.ran("--format", "json", str(there), *commands), (1, json_lines.json_of(text), b""))
            self.assertEqual(self.ran("--format", "json", str(there), *commands, "-o", str(out)), (1, b"", b""))
            self.assertEqual(out.read_bytes(), json_lines.json_of(text))

    def test_wrong_words(self):
        for words in (["--format"], ["--format", "xml"], ["--format", "JSON"], ["--format=text", "--format=json"],
                      ["--format=json", "--interactive", "-e", "print"]):
            status, out, told = self.ran(*words)
            self.assertEqual((status, out), (2, b""), words)
            self.assertIn(b"error:", told)

    def test_ends(self):
        for words in ([], ["--interactive"]):
            with open("/dev/full", "wb") as full:
                self.assertEqual(self.ran("--format", "json", *words, to=full)[0], 4)
        self.assertEqual(self.ran("--format", "json", given=b"(")[:2],
                         (3, b'{"offset":0,"refused":2,"word":"Unexpected"}\n'))


if __name__ == "__main__":
    unittest.main()
