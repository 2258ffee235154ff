"""The seconds that the prompt shows on a terminal while a command has no answer."""
import os
import re
import select
import shlex
import subprocess
import unittest
import unittest.mock

import support
from test_live import LIVE
from test_terminal import MOST_SECONDS, WORK, Terminals

from mlir_work.cli import progress

CODES = re.compile(rb"\x1b\[[\d;?]*[a-zA-Z]|\r")
STOPS = "s, Ctrl-C stops it"
# What a terminal gets for a slow command: each line of seconds erases the one before it, and the answer the last one.
ERASE = re.escape(progress.ERASE)
SHOWN = re.compile(rf"(?:{ERASE}report dead: \d+ {STOPS}){{2,}}{ERASE}ok\r\n")
# Programs that wait in place of a command `report dead` while a file is there: one that reads a line at a time, and one
# that is run for each line, since its help names no option.
EACH_LINE = """#!/bin/sh
[ "$1" != --help ] || exec {live} --help
while IFS= read -r line; do
    case "$line" in "report dead") [ ! -e {there} ] || sleep {seconds};; esac
    printf '%s\\n' "$line"
done | {live} "$@"
"""
WHOLE = """#!/bin/sh
[ "$1" != --help ] || exit 0
[ ! -e {there} ] || sleep {seconds}
exec {words} "$@"
"""


def bytes_until(here, text):
    """Returns what a terminal gets up to a text, with the codes that move the cursor."""
    shown = b""
    while text not in CODES.sub(b"", shown) and select.select([here.here], [], [], MOST_SECONDS)[0]:
        shown += os.read(here.here, 65536)
    return shown


class Progress(Terminals):
    def slow(self, text, seconds):
        """Has sessions ask a program that waits some seconds while a file is there; gives that file."""
        words, more = support.words()
        file, there = self.folder / "program", self.folder / "there"
        file.write_text(text.format(live=LIVE, words=shlex.join(words), there=there, seconds=seconds))
        file.chmod(0o755)
        self.environment.update(more, MLIR_WORK=str(file))
        return there

    def test_seconds_are_shown_and_erased(self):
        """After 2 seconds a terminal shows the command and the seconds, and the answer replaces them."""
        for text in (EACH_LINE, WHOLE):
            with self.subTest(text):
                there = self.slow(text, 4)
                here = self.open()
                self.assertNotIn(STOPS, here.type("report dead\n"))
                there.touch()
                os.write(here.here, b"report dead\n")
                shown = bytes_until(here, b"\n> ").decode()
                self.assertRegex(shown, SHOWN)
                seconds = [int(it) for it in re.findall(rf"(\d+) {STOPS}", shown)]
                self.assertEqual(seconds, sorted({*seconds} - {0, 1}))
                there.unlink()

    def test_an_interrupt_keeps_the_session(self):
        """Ctrl-C while the seconds are shown stops the command, and the session keeps its edits."""
        for text in (EACH_LINE, WHOLE):
            with self.subTest(text):
                there = self.slow(text, 20)
                here = self.open()
                here.type("erase #1\n")
                there.touch()
                self.assertIn(STOPS, here.type("report dead\n", STOPS))
                self.assertIn("interrupted", here.interrupt())
                there.unlink()
                self.assertIn("ok", here.type("report dead\n"))
                self.assertNotIn("test.a", here.type("ids\n"))

    def test_a_file_gets_no_seconds(self):
        """If standard error isn't a terminal, a slow command writes the same bytes as a fast one."""
        for text in (EACH_LINE, WHOLE):
            with self.subTest(text):
                there = self.slow(text, 2.5)
                fast = self.piped()
                there.touch()
                self.assertEqual(self.piped(), fast)
                self.assertEqual(fast[2], b"")
                there.unlink()

    def piped(self):
        """Returns the status of a session without a terminal, and what it writes to both ends."""
        ran = subprocess.run([*WORK, "open", str(self.file)], input=b"report dead\n", env=self.environment,
                             capture_output=True, check=False)
        return ran.returncode, ran.stdout, ran.stderr


class Text(unittest.TestCase):
    def test_a_long_line_is_cut(self):
        """What is shown fits on a line of the terminal, and has no control characters."""
        here = progress.Progress()
        for columns, line, shown in ((80, "check\tmine \x1b\udc80", "check mine ??: 0 s, Ctrl-C stops it"),
                                     (40, "check mine width 8", "check mine wid...: 0 s, Ctrl-C stops it"),
                                     (8, "check mine", "...: 0 ")):
            size = os.terminal_size((columns, 24))
            with unittest.mock.patch.object(progress.shutil, "get_terminal_size", return_value=size), here.of(line):
                self.assertEqual(here.text(), shown)


if __name__ == "__main__":
    unittest.main()
