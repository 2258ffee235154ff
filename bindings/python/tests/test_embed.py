"""Runs the Python session in docs/EMBED.md."""
import re
import unittest

from support import PROGRAM, ROOT, Case

from mlir_work.pipe import Pipe

PAGE = (ROOT / "docs/EMBED.md").read_text()


class Page(Case):
    def test_what_is_said(self):
        module, = re.findall(r"^```mlir\n(.*?)^```$", PAGE, re.M | re.S)
        text, = re.findall(r"^```text\n(.*?)^```$", PAGE, re.M | re.S)
        parts = re.findall(r"^> (.*)\n((?:[^>\n].*\n)*)\n", text, re.M)
        self.assertEqual("".join(f"> {line}\n{answer}\n" for line, answer in parts), text)
        pipe = Pipe([*PROGRAM, "--brief", "--interactive"])
        self.addCleanup(pipe.stop)
        self.assertEqual(pipe.ask(module.encode() + b"// -----\n", [b"\n"]), [b""])
        for number, (line, answer) in enumerate(parts, 1):
            with self.subTest(line):
                self.assertEqual(pipe.ask(f"{line}\n".encode(), [b"%d " % number]), [answer.encode()])
        self.assertEqual(pipe.finish(b"report dead", [b"8 "]), ([b"8 ok\n"], 1))


if __name__ == "__main__":
    unittest.main()
