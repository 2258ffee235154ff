"""Each line of `--interactive` is answered before the next one is written: over the program where it has that option,
and else over oracle. A pipe goes each way."""
import os
import re
import select
import shlex
import signal
import socket
import struct
import subprocess
import sys
import unittest

import support
from support import ROOT, program

from mlir_work.script import is_counted
from oracle import json_lines, live

SECONDS = 60
MODULE = b'%a = "t.a"() : () -> i32\n"t.b"(%a) : (i32) -> ()\n'
SCRIPT = (b"report uses\n", b"erase #1\n", b"  // no command\n", b"\n", b"jump\n", b"erase #2\n", b"report dead\n",
          b"begin\n", b"set-attr #1 k 1\n", b"\xff\n", b"rollback\n", b"print\n")
DIVIDER = b"// -----\n"
MOST_LINE = 16 * 1024 * 1024


def words():
    """The program's words, and what its environment has besides."""
    if program.has_option("--interactive"):
        return support.words()
    return [sys.executable, "-m", "oracle"], {"PYTHONPATH": str(ROOT), "PYTHONDONTWRITEBYTECODE": "1"}


class Running:
    """A process that reads lines. Calls wait for its answers."""

    def __init__(self, *options, given=subprocess.PIPE):
        named, more = words()
        self.kept = b""
        self.run = subprocess.Popen([*named, "--interactive", *options], stdin=given, stdout=subprocess.PIPE,
                                    env={**os.environ, **more}, bufsize=0)

    def tell(self, text):
        while text:
            text = text[self.run.stdin.write(text):]

    def read(self, seconds=SECONDS):
        """What it writes next; nothing at its end, and None where it writes nothing for so long."""
        if not select.select([self.run.stdout], [], [], seconds)[0]:
            return None
        return os.read(self.run.stdout.fileno(), 65536)

    def answer(self):
        """Its next answer, with the empty line at its end, or what it writes up to its end."""
        while not (found := re.match(rb"\n|.*?\n\n", self.kept, re.S)):
            more = self.read()
            assert more is not None, (self.kept, "nothing more came")
            if not more:
                found = re.match(b".*", self.kept, re.S)
                break
            self.kept += more
        self.kept = self.kept[found.end():]
        return found[0]

    def objects(self):
        """The objects of its next answer, up to the one that ends it."""
        while not (found := re.match(rb'(?:(?!\{"end":true\}).*\n)*\{"end":true\}\n', self.kept)):
            more = self.read()
            assert more, (self.kept, "nothing more came")
            self.kept += more
        self.kept = self.kept[found.end():]
        return found[0]

    def is_silent(self):
        """Whether it writes nothing for a fifth of a second."""
        return not self.kept and self.read(0.2) is None

    def end(self):
        """Ends the input, and returns the rest of the output and the status."""
        if self.run.stdin:
            self.run.stdin.close()
        rest = self.kept
        for more in iter(self.read, b""):
            assert more is not None, (rest, "it doesn't end")
            rest += more
        return rest, self.run.wait(SECONDS)

    def stop(self):
        self.run.kill()
        self.run.wait()
        for pipe in (self.run.stdin, self.run.stdout):
            if pipe and not pipe.closed:
                pipe.close()


def said(line):
    """Whether a line has an answer."""
    return is_counted(line.removesuffix(b"\n"))


class Interactive(unittest.TestCase):
    def begun(self, *options, **more):
        """A process."""
        running = Running(*options, **more)
        self.addCleanup(running.stop)
        return running

    def opened(self, *options, module=MODULE):
        """A process that has answered a module."""
        running = self.begun(*options)
        running.tell(module + DIVIDER)
        self.assertEqual(running.answer(), b"\n")
        return running

    def wanted(self, text, *options):
        """The answers to an input, and its status."""
        answers = list(live.answers(text.splitlines(keepends=True), "--brief" in options))
        return [told for _, told in answers], answers[-1][0]

    def test_an_answer_comes_before_the_next_line(self):
        for options in (["--brief"], []):
            with self.subTest(options):
                told, status = self.wanted(MODULE + DIVIDER + b"".join(SCRIPT), *options)
                running = self.opened(*options)
                found = [b"\n"]
                for line in SCRIPT:
                    running.tell(line)
                    if said(line):
                        found.append(running.answer())
                self.assertEqual(found, told)
                self.assertEqual(running.end(), (b"", status))

    def test_an_answer_of_objects_comes_before_the_next_line(self):
        for options in (["--brief"], []):
            with self.subTest(options):
                answers = list(live.answers((MODULE + DIVIDER + b"".join(SCRIPT)).splitlines(keepends=True),
                                            "--brief" in options, explained=True))
                running = self.begun(*options, "--format", "json")
                running.tell(MODULE + DIVIDER)
                found = [running.objects()]
                for line in SCRIPT:
                    running.tell(line)
                    if said(line):
                        found.append(running.objects())
                self.assertEqual(found, [json_lines.json_of(told) for _, told in answers])
                self.assertEqual(running.end(), (b"", answers[-1][0]))

    def test_what_was_written_is_what_a_whole_run_writes(self):
        running, text = self.opened("--brief"), MODULE + DIVIDER
        for line in SCRIPT:
            text += line
            running.tell(line)
            if said(line):
                last = program.written(text)[1].encode("utf-8", "surrogateescape")
                answer = running.answer().removesuffix(b"\n")
                self.assertTrue(last.endswith(answer), (last, answer))

    def test_lines_of_one_write(self):
        told, status = self.wanted(MODULE + DIVIDER + b"".join(SCRIPT), "--brief")
        running = self.begun("--brief")
        running.tell(MODULE + DIVIDER + b"".join(SCRIPT))
        self.assertEqual([running.answer() for _ in told], told)
        self.assertEqual(running.end(), (b"", status))

    def test_bytes_one_by_one(self):
        told, status = self.wanted(MODULE + DIVIDER + b"".join(SCRIPT[:4]), "--brief")
        running = self.begun("--brief")
        for byte in MODULE + DIVIDER + b"".join(SCRIPT[:4]):
            running.tell(bytes([byte]))
        self.assertEqual(running.end(), (b"".join(told), status))

    def test_half_a_line_waits(self):
        running = self.opened("--brief")
        running.tell(b"report ")
        self.assertTrue(running.is_silent())
        running.tell(b"uses\nera")
        self.assertEqual(running.answer(), b"1 ok\n%v1.0 #2 0\n\n")
        self.assertTrue(running.is_silent())
        running.tell(b"se #2\n")
        self.assertEqual(running.answer(), b"2 ok\n\n")

    def test_lines_that_say_nothing(self):
        running = self.opened("--brief")
        running.tell(b"// no command\n\n  \t\n")
        self.assertTrue(running.is_silent())
        running.tell(b"report dead\n")
        self.assertEqual(running.answer(), b"1 ok\n\n")

    def test_a_last_line_without_a_line_feed(self):
        for last, told, status in ((b"report dead", b"1 ok\n\n", 0), (b"jump", b"1 refused 60 BadCommand\n\n", 1),
                                   (b"// none", b"", 0)):
            with self.subTest(last):
                running = self.opened("--brief")
                running.tell(last)
                self.assertTrue(running.is_silent())
                self.assertEqual(running.end(), (told, status))

    def test_inputs_without_lines(self):
        for text, told, status in ((b"", b"\n", 0), (MODULE, b"\n", 0), (MODULE + DIVIDER, b"\n", 0),
                                   (MODULE + b"// -----", b"\n", 0), (b"// -----\nprint", None, 0),
                                   (b'"a"(', b"module refused 2 Unexpected at 4\n", 3),
                                   (b'"a"(\n// -----\nprint\n', b"module refused 2 Unexpected at 5\n", 3)):
            with self.subTest(text):
                running = self.begun("--brief")
                running.tell(text)
                if told is None:
                    status, told = live.run(text)
                self.assertEqual(running.end(), (told, status))

    def test_a_module_that_is_refused_is_answered_at_the_divider(self):
        running = self.begun()
        running.tell(b'"a"(\n// -----\n')
        self.assertEqual(running.answer(), b"module refused 2 Unexpected at 5\n")
        self.assertEqual(running.run.wait(SECONDS), 3)

    def test_many_lines(self):
        running = self.opened("--brief")
        for number in range(1, 201):
            running.tell(b'set-attr #1 k %d\n' % number)
            self.assertEqual(running.answer(), b"%d ok\n\n" % number)
        self.assertEqual(running.end(), (b"", 0))

    def test_a_long_line(self):
        running = self.opened("--brief")
        running.tell(b"report dead\n")
        self.assertEqual(running.answer(), b"1 ok\n\n")
        comment = b"//" + b" " * (MOST_LINE - 3) + b"\n"
        running.tell(comment + b"report dead\n")
        self.assertEqual(running.answer(), b"2 ok\n\n")
        with self.assertRaises(BrokenPipeError):
            for _ in range(100):
                running.tell(comment.removesuffix(b"\n"))
        self.assertEqual(running.end(), (b"", 4))

    def test_a_failed_read(self):
        if not self.is_program():
            self.skipTest("there is no program that has --interactive")
        folder = os.open(ROOT, os.O_RDONLY)
        self.addCleanup(os.close, folder)
        running = self.begun(given=folder)
        self.assertEqual(running.end(), (b"", 4))

    def test_a_read_that_fails_behind_lines(self):
        if not self.is_program():
            self.skipTest("there is no program that has --interactive")
        with socket.create_server(("127.0.0.1", 0)) as server:
            ours = socket.create_connection(server.getsockname())
            theirs, _ = server.accept()
        running = self.begun("--brief", given=theirs)
        theirs.close()
        with ours:
            ours.sendall(MODULE + DIVIDER + b"report dead\n")
            self.assertEqual([running.answer(), running.answer()], [b"\n", b"1 ok\n\n"])
            # (closed so, the connection is reset: a read of it fails)
            ours.setsockopt(socket.SOL_SOCKET, socket.SO_LINGER, struct.pack("ii", 1, 0))
        self.assertEqual(running.end(), (b"", 4))

    def is_program(self):
        return program.has_option("--interactive")

    def test_nobody_reads(self):
        running = self.opened("--brief")
        running.tell(b"report dead\n")
        self.assertEqual(running.answer(), b"1 ok\n\n")
        running.run.stdout.close()
        running.tell(b"report dead\n")
        self.assertIn(running.run.wait(SECONDS), (4, -signal.SIGPIPE) if self.is_program() else (1, 2, 120))
        with self.assertRaises(BrokenPipeError):
            running.tell(b"report dead\n")

    def test_the_reader_is_killed(self):
        named, more = words()
        line = f"{shlex.join(named)} --interactive --brief | head -n 1"
        it = subprocess.Popen(["sh", "-c", line], stdin=subprocess.PIPE, stdout=subprocess.PIPE,
                              stderr=subprocess.DEVNULL, env={**os.environ, **more}, bufsize=0)
        self.addCleanup(it.stdout.close)
        it.stdin.write(MODULE + DIVIDER)
        self.assertEqual(os.read(it.stdout.fileno(), 10), b"\n")
        try:
            for _ in range(1000):
                it.stdin.write(b"report dead\n")
        except BrokenPipeError:
            pass
        it.stdin.close()
        self.assertEqual(it.wait(SECONDS), 0)


if __name__ == "__main__":
    unittest.main()
