"""The prompt at a pseudo-terminal: Ctrl-C, a program or a session that is killed, a pipe that is broken, a disk that is
full. Nothing that was typed is lost."""
import fcntl
import os
import pathlib
import pty
import re
import select
import shlex
import signal
import subprocess
import sys
import tempfile
import termios
import time
import unittest

import support
from support import ROOT

WORK = [sys.executable, str(ROOT / "tools/mlir_work.py")]
MODULE = '"test.a"() : () -> ()\n"test.b"() {k = 1 : i32} : () -> ()\n'
CODES = re.compile(r"\x1b\[[\d;?]*[a-zA-Z]|\x1b[=>]|\r")
MOST_SECONDS = 60
# Runs words where a folder, the first of them, is a disk of a few kilobytes.
SMALL = ["unshare", "-rm", "sh", "-c", 'mount -t tmpfs -o size=16k none "$1" && shift && exec "$@"', "sh"]


def is_small():
    """Whether such a disk can be made."""
    try:
        it = subprocess.run([*SMALL, tempfile.gettempdir(), "true"], check=False, capture_output=True)
    except OSError:
        return False
    return not it.returncode


def on_terminal():
    """Makes the terminal control this process, so that Ctrl-C reaches it."""
    fcntl.ioctl(0, termios.TIOCSCTTY, 0)


class Terminal:
    """A session at a pseudo-terminal."""

    def __init__(self, words, environment, out=None):
        self.here, there = pty.openpty()
        self.run = subprocess.Popen(words, stdin=there, stdout=there if out is None else out, stderr=there,
                                    env=environment, start_new_session=True, preexec_fn=on_terminal)
        os.close(there)

    def until(self, text, seconds=MOST_SECONDS):
        """What is shown up to a text, or to the end."""
        shown, ends = "", time.monotonic() + seconds
        while text not in shown and time.monotonic() < ends:
            if select.select([self.here], [], [], 0.2)[0]:
                try:
                    shown += CODES.sub("", os.read(self.here, 65536).decode("utf-8", "replace"))
                except OSError:
                    break
        return shown

    def type(self, text, until="\n> "):
        """Types a text, and gives what is shown up to another one."""
        os.write(self.here, text.encode())
        return self.until(until)

    def interrupt(self):
        """Types Ctrl-C, and gives what is shown up to the next prompt. (Where it comes while a letter is taken it is
        only seen at the next one, so it is typed again then.)"""
        shown = ""
        for _ in range(10):
            time.sleep(0.1)
            os.write(self.here, b"\x03")
            shown += self.until("\n> ", 3)
            if shown.endswith("\n> "):
                break
        return shown

    def end(self):
        """The status, once it ended."""
        self.until("\0")
        return self.run.wait()

    def kill(self):
        """Kills the session."""
        self.run.kill()
        self.run.wait()

    def close(self):
        """Ends the process and closes the terminal."""
        self.kill()
        os.close(self.here)


class Terminals(unittest.TestCase):
    def setUp(self):
        made = tempfile.TemporaryDirectory()
        self.addCleanup(made.cleanup)
        self.folder = pathlib.Path(made.name)
        self.file = self.folder / "m.mlir"
        self.file.write_text(MODULE)
        self.environment = {**os.environ, "XDG_STATE_HOME": made.name, "TERM": "xterm", "PAGER": "cat",
                            "NO_COLOR": "1", "COLUMNS": "120", "INPUTRC": "/dev/null"}
        self.environment.pop("LINES", None)

    def open(self, *words, until="\n> ", out=None):
        """Opens a session, and waits until it shows something. `words` come before its command."""
        here = Terminal([*words, *WORK, "open", str(self.file)], self.environment, out)
        self.addCleanup(here.close)
        self.shown = here.until(until)
        return here

    def scripts(self, top=""):
        """What is kept."""
        files = pathlib.Path(f"{top}{self.folder}/mlir_work").glob("*.script")
        return {file.name: file.read_text().split("\n", 2)[2] for file in files}


class Typed(Terminals):
    def test_interrupts(self):
        here = self.open()
        here.type("set-attr #1 k 1\n")
        here.type("erase #2", "erase #2")
        self.assertIn("^C", here.interrupt())
        self.assertIn("erase #2", here.type("\x1b[A", "erase #2"))
        self.assertIn("^C", here.interrupt())
        here.type('insert end #0 0 "test.c"() ({\n', ".. ")
        here.type("half", "half")
        self.assertIn("^C", here.interrupt())
        self.assertIn('+    #1    "test.a"() {k = 1 : i64}', here.type("diff\n"))
        here.type(f"save {self.folder}/s\n")
        self.assertIn("refused 20", here.type("erase #99\n"))
        here.type("quit\n", "")
        self.assertEqual(here.end(), 1)
        self.assertEqual((self.folder / "s").read_text(), "set-attr #1 k 1\n")
        self.assertEqual(self.scripts(), {"last.script": "set-attr #1 k 1\n"})
        self.assertIn("erase #2\n", (self.folder / "mlir_work/history").read_text())

    def test_completion_and_lines(self):
        here = self.open()
        self.assertIn("diagnostics", here.type("diag\t\n"))
        here.type('insert end #0 0 "test.c"() ({ // one\n', ".. ")
        self.assertIn("ok #3", here.type('"test.d"() : () -> ()\n', ".. ") + here.type("}) : () -> ()\n"))
        self.assertIn("#4", here.type("at #\t\t", "#4"))
        here.type("\x15\x04", "")
        self.assertEqual(here.end(), 0)
        self.assertEqual(self.scripts()["last.script"],
                         'report diagnostics\n'
                         'insert end #0 0 "test.c"() ({ "test.d"() : () -> () }) : () -> ()\n')

    def test_a_killed_session_is_offered(self):
        here = self.open()
        here.type("begin here\n")
        here.type("erase #1\n")
        other = self.open()
        self.assertNotIn("[y/n/d]", self.shown)
        other.type("\x04", "")
        here.kill()
        here = self.open(until="[y/n/d] ")
        self.assertIn("3 lines", self.shown)
        self.assertIn("1 ok", here.type("y\n"))
        self.assertIn('-    #1    "test.a"', here.type("diff here\n"))
        here.run.send_signal(signal.SIGHUP)
        here.end()
        self.file.write_text(MODULE + '"test.c"() : () -> ()\n')
        here = self.open(until="[y/n/d] ")
        self.assertIn("as it was then", self.shown)
        here.type("n\n")
        here.type("\x04", "")
        here.end()
        self.assertEqual([*self.scripts().values()], ["// begin here\nbegin\nerase #1\n"])
        self.open(until="[y/n/d] ").type("d\n")
        self.assertEqual(self.scripts(), {"last.script": "// begin here\nbegin\nerase #1\n"})

    def test_a_pager(self):
        self.environment["PAGER"] = "sed 's/^/|/'"
        here = self.open()
        self.assertIn("\n|  erase #N\n", here.type("help\n"))
        self.assertIn("\nok\n", here.type("erase #1\n"))
        self.environment["PAGER"] = "/none/pager"
        self.assertIn("\n  erase #N\n", self.open().type("help\n"))

    def test_nothing_is_typed(self):
        here = self.open()
        here.type("\x04", "")
        self.assertEqual((here.end(), self.scripts()), (0, {}))


class Fails(Terminals):
    def mortal(self, does):
        """Has sessions ask a program that does something else while a file is there; gives that file. (Its help names
        no option, so that it is run for each line; test_live.py has those that live.)"""
        words, more = support.words()
        mortal, there = self.folder / "program", self.folder / "there"
        mortal.write_text(f'#!/bin/sh\n[ "$1" != --help ] || exit 0\n[ ! -e {there} ] || {does}\n'
                          f'exec {shlex.join(words)} "$@"\n')
        mortal.chmod(0o755)
        self.environment.update(more, MLIR_WORK=str(mortal))
        return there

    def test_a_program_that_takes_long(self):
        slow = self.mortal("exec sleep 600")
        here = self.open()
        here.type("erase #1\n")
        slow.touch()
        here.type("canon\n", "\n")
        time.sleep(1)
        self.assertIn("interrupted", here.interrupt())
        slow.unlink()
        self.assertIn("converged 0", here.type("canon\n"))
        here.type("\x04", "")
        here.end()
        self.assertEqual(self.scripts()["last.script"], "erase #1\ncanon\n")

    def test_a_killed_program(self):
        killed = self.mortal("kill -9 $$")
        here = self.open()
        here.type("erase #1\n")
        killed.touch()
        self.assertIn("never typed", here.type("erase #2\n"))
        killed.unlink()
        self.assertIn("ok", here.type("erase #2\n"))
        here.type("\x04", "")
        here.end()
        self.assertEqual(self.scripts()["last.script"], "erase #1\nerase #2\n")

    def test_a_broken_pipe(self):
        read, write = os.pipe()
        here = self.open(until="", out=write)
        os.close(write)
        shown = b""
        while not shown.endswith(b"\n> "):
            shown += os.read(read, 1000)
        os.close(read)
        here.type("erase #1\n", "")
        self.assertEqual(here.end(), 4)
        self.assertEqual([*self.scripts().values()], ["erase #1\n"])

    @unittest.skipUnless(is_small(), "no disk can be made that is small")
    def test_a_full_disk(self):
        state, saved = self.folder / "mlir_work", self.folder / "saved"
        state.mkdir()
        long = self.folder / "long"
        long.write_text("// a long line\n" * 2000)
        here = self.open(*SMALL, str(state))
        top = f"/proc/{here.run.pid}/root"
        here.type("erase #1\n")
        self.assertIn("isn't kept: [Errno 28]", here.type(f"source {long}\n"))
        self.assertEqual([*self.scripts(top).values()], ["erase #1\n"])
        self.assertIn("No space left", here.type(f"save {state}/saved\n"))
        self.assertFalse(pathlib.Path(f"{top}{state}/saved").exists())
        self.assertIn("No space left", here.type("save /dev/full\n"))
        self.assertIn("2001 lines", here.type(f"save {saved}\n"))
        self.assertEqual(saved.read_text(), "erase #1\n" + long.read_text())
        self.assertIn("undone", here.type("undo\n"))
        self.assertIn("ok", here.type("erase #2\n"))
        self.assertEqual([*self.scripts(top).values()], ["erase #2\n"])

    def test_a_file_stays_where_a_new_one_has_no_room(self):
        """(No file may be longer than some bytes, which fails as a full disk does.)"""
        child = ("import resource, sys; from mlir_work.cli import kept; "
                 "resource.setrlimit(resource.RLIMIT_FSIZE, (400, 400)); it = kept.Kept('m.mlir', b''); "
                 "it.save(b'one\\n'); kept.put(sys.argv[1], b'one\\n'); more = b'two\\n' * 200\n"
                 "for call in (lambda: it.save(more), lambda: kept.put(sys.argv[1], more)):\n"
                 "    try:\n        call()\n    except OSError as fault:\n        print(fault.errno)")
        words = [sys.executable, "-c", child, str(self.folder / "saved")]
        environment = {**self.environment, "PYTHONPATH": str(ROOT / "bindings/python")}
        ran = subprocess.run(words, env=environment, stdout=subprocess.PIPE, text=True, check=True)
        self.assertEqual(ran.stdout, "27\n27\n")
        self.assertEqual((self.folder / "saved").read_text(), "one\n")
        self.assertEqual([*self.scripts().values()], ["one\n"])
        self.assertEqual(len(os.listdir(self.folder / "mlir_work")), 1)


if __name__ == "__main__":
    unittest.main()
