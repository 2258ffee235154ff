"""The process of a session: how it ends, its faults, and that it leaves nothing open."""
import gc
import os
import pathlib
import signal
import subprocess
import sys
import tempfile
import unittest
import unittest.mock

from support import IS_FAST, LIVE, PROGRAM, ROOT, Case, example

import mlir_work
from mlir_work import command, pipe, process

TEXT = '"test.a"() : () -> ()\n"test.b"() : () -> ()\n'
# A program that reads a module like the real one. The test defines what it does afterwards.
READS = """import os, sys, time
def module():
    for line in iter(sys.stdin.buffer.readline, b""):
        if line == b"// -----\\n":
            break
def line():
    return sys.stdin.buffer.readline()
def say(text):
    sys.stdout.write(text)
    sys.stdout.flush()
"""
ANSWERS = "module(); say('\\n')\n"
SILENT = "time.sleep(60)"


def fake(code):
    """The words of a program that does what some code says."""
    return [sys.executable, "-I", "-S", "-c", READS + code]


def is_gone(number):
    """Whether a process is gone, also from the table."""
    return not pathlib.Path(f"/proc/{number}").exists()


def number_of(session):
    """The process id of a session."""
    return session._way._pipe.run.pid


class Whole(Case):
    def test_a_session(self):
        with mlir_work.Session(example("branch"), PROGRAM, limit=1, kinds=["dead"]) as s:
            number = number_of(s)
            with s.mark():
                s.erase(s.insert("before #2", '"test.a"() ({"test.b"() : () -> ()}) : () -> ()'))
            self.assertEqual(len(s.operations()), 13)
            self.assertEqual(s.report("dead"), [])
            self.assertTrue(s.print().startswith('"builtin.module"() ({\n  "func.func"'))
        self.assertEqual((s.status, is_gone(number)), (0, True))

    def test_kinds(self):
        """The program attaches only the kinds of a session. An older program has no such option, and detaches the
        others."""
        for kinds in ([], ["uses"], ["dead", "symbols"]):
            with self.subTest(kinds), mlir_work.Session(TEXT, PROGRAM, kinds=kinds) as s:
                self.assertEqual(s.command("print").outcome, "ok")
                self.assertEqual(s._way._count, 1)
                for kind in mlir_work.KINDS:
                    self.assertEqual(s.expect(42, f"attach {kind}"), kind in kinds, kind)
        counts = "count = 0\nwhile line():\n    count += 1\n    say(f'{count} ok\\n\\n')\n"
        with mlir_work.Session(TEXT, fake(ANSWERS + counts), kinds=["dead"]) as s:
            self.assertEqual(s._way._count, len(mlir_work.KINDS) - 1)

    def test_a_refusal_and_no_line_feed(self):
        with mlir_work.Session(TEXT[:-1], PROGRAM) as s:
            self.assertRaises(mlir_work.Refused, s.command, b"\xff")
        self.assertEqual(s.status, 1)

    def test_a_module_that_is_refused(self):
        for text, at in (('"a"(', 4), ('"a"(\n', 5), ("print" * 20000, 0)):
            with self.assertRaises(mlir_work.ModuleRefused) as caught:
                mlir_work.Session(text, PROGRAM)
            self.assertEqual(caught.exception.at, at)

    def test_sessions_in_turn(self):
        for _ in range(64 if IS_FAST else 2):
            with mlir_work.Session(TEXT, PROGRAM) as s:
                s.erase(1)
                self.assertEqual(len(s.operations()), 2)
            self.assertEqual(descriptors_now(), self.before)

    def test_64_sessions_in_turn(self):
        for number in range(64):
            program = ["sh", "-c", "while read l && [ \"$l\" != '// -----' ]; do :; done; echo; "
                                   "while read l; do echo '1 ok'; echo; done", str(number)]
            with mlir_work.Session(TEXT, program) as s:
                s.erase(1)
            self.assertEqual((s.status, descriptors_now()), (0, self.before))

    def test_several_at_once(self):
        sessions = [mlir_work.Session(TEXT, PROGRAM) for _ in range(16 if IS_FAST else 2)]
        for place, s in enumerate(sessions):
            s.set_attr(1, "k", str(place))
        for place, s in enumerate(sessions):
            self.assertEqual(s.operations()[1].attributes, {"k": f"{place} : i64"})
        for s in sessions:
            self.assertEqual(s.close(), 1 if s.refused else 0)

    def test_it_is_never_closed(self):
        s = mlir_work.Session("", fake(ANSWERS + SILENT))
        number = number_of(s)
        with self.assertWarns(ResourceWarning):
            del s
            gc.collect()
        self.assertTrue(is_gone(number))


def descriptors_now():
    """How many files are open, once nothing is left to collect."""
    return len(os.listdir("/proc/self/fd"))


class Large(Case):
    def test_both_pipes_are_full(self):
        """Lines and answers of some megabytes: each side writes before it reads."""
        code = ANSWERS + "for n in range(1, 3001): l = line(); say('%d ok\\n%s\\n' % (n, l.decode() * 2))"
        with mlir_work.Session(TEXT * 20000, fake(code)) as s:
            lines = [f"set-attr #1 k {'x' * 1000}{number}" for number in range(3000)]
            replies = s.commands(lines)
        self.assertEqual([it.shown for it in replies], [f"{it}\n" * 2 for it in lines])
        self.assertEqual(s.status, 0)

    def test_an_answer_in_pieces(self):
        code = ANSWERS + ("line(); text = '1 ok\\n#1\\n#12\\n\\n'\n"
                          "for it in text: say(it); time.sleep(0.002)\nline()")
        for timeout in (None, 5):
            with mlir_work.Session(TEXT, fake(code), timeout=timeout) as s:
                self.assertEqual(s.report("dead"), [(1,), (12,)])

    def test_many_more_than_are_under_way(self):
        with unittest.mock.patch.object(process, "MOST_BYTES", 50):
            with mlir_work.Session(TEXT, PROGRAM) as s:
                replies = s.commands(f"set-attr #1 k {number}" for number in range(40))
                self.assertEqual((len(replies), s.operations()[1].attributes), (40, {"k": "39 : i64"}))


class Lost(Case):
    """What a wrong program does."""

    def fails(self, code, words, status, call=None, timeout=None):
        """Opens a session and asks; it is lost, in words and with a status."""
        before = descriptors_now()
        session = None
        with self.assertRaises(mlir_work.ProcessLost) as caught:
            session = mlir_work.Session(TEXT, code if isinstance(code, list) else fake(code), timeout=timeout)
            (call or mlir_work.Session.print)(session)
        self.assertIn(words, str(caught.exception))
        self.assertEqual(caught.exception.status, status)
        self.assertEqual(descriptors_now(), before)
        if session:
            self.assertTrue(session.closed)
            self.assertRaises(mlir_work.SessionClosed, session.print)
            self.assertRaises(mlir_work.SessionClosed, session.command, "// said before")
            self.assertEqual(session.close(), None)

    def test_it_ends_before_a_word(self):
        self.fails("", "ended with status 0", 0)
        self.fails("sys.stderr.write('no such option'); sys.exit(2)", "ended with status 2: no such option", 2)
        self.fails("os.kill(os.getpid(), 9)", "ended with status -9", -9)

    def test_it_is_another_program(self):
        self.fails(["echo"], "wrote what is no answer: b'--brief --interactive\\n'", None)
        self.fails(["sh", "-c", "exec cat"], "wrote what is no answer: b'\"test.a\"()", None)
        self.fails("say('x' * 100 + '\\n'); " + SILENT, "wrote what is no answer: b'xxx", None)
        with self.assertRaises(FileNotFoundError):
            mlir_work.Session(TEXT, "/none/such")

    def test_it_ends_in_between(self):
        self.fails(ANSWERS + "line()", "ended with status 0", 0)
        self.fails(ANSWERS + "line(); say('1 ok\\nhalf'); sys.exit(4)", "ended with status 4", 4)
        self.fails(ANSWERS + "line(); say('1 ok\\n'); sys.exit(4)", "ended with status 4", 4)
        self.fails(ANSWERS + "line(); os.kill(os.getpid(), 15)", "ended with status -15", -15)

    def test_it_ends_behind_each_byte(self):
        """Of what it is to write it writes the first bytes, and ends, whatever is asked: each answer that is whole is
        had, and the next call says that it is lost."""
        answers = ["", "1 ok\n", "2 ok\n#1\n#2\n", "3 refused 20 NoSuchOp\n", "4 ok #3\n"]
        text = "".join(it + "\n" for it in answers)
        calls = [lambda s: s.erase(1), lambda s: s.report("dead"),
                 lambda s: self.assertRaises(mlir_work.Refused, s.erase, 9), lambda s: s.insert("end #0 0", "x")]
        with tempfile.NamedTemporaryFile("w") as file:
            file.write(text)
            file.flush()
            for count in range(len(text) + 1):
                had = 0
                try:
                    with mlir_work.Session(TEXT, ["sh", "-c", 'exec head -c "$0" "$1"', str(count), file.name]) as s:
                        for call in calls:
                            had += 1
                            call(s)
                        had += 1
                except mlir_work.ProcessLost as fault:
                    self.assertEqual(fault.status, 0)
                whole = sum(len("".join(it + "\n" for it in answers[:place])) <= count for place in range(1, 6))
                self.assertEqual(had, whole, count)

    def test_it_counts_otherwise(self):
        self.fails(ANSWERS + "line(); say('2 ok\\n\\n'); line()", "wrote what is no answer: b'2 ok", None)
        self.fails(ANSWERS + "line(); say('\\n'); line()", "wrote what is no answer: b'\\n'", None)

    def test_it_says_nothing(self):
        self.fails(SILENT, "wrote no answer within 0.1 s", None, timeout=0.1)
        self.fails(ANSWERS + SILENT, "wrote no answer within 0.1 s", None, timeout=0.1)
        self.fails(ANSWERS + "line(); say('1 ok\\n#1\\n'); " + SILENT, "wrote no answer within 0.1 s", None,
                   timeout=0.1)

    def test_it_closes_its_ends(self):
        with unittest.mock.patch.object(pipe, "PATIENCE", 0.1):
            self.fails(ANSWERS + "os.close(1); " + SILENT, "closed its output", None)
            self.fails("os.close(0); say('\\n'); " + SILENT, "reads no more", None)

    def test_it_is_killed(self):
        with mlir_work.Session(TEXT, PROGRAM) as s:
            s.erase(1)
            os.kill(number_of(s), signal.SIGKILL)
            with self.assertRaises(mlir_work.ProcessLost) as caught:
                s.erase(2)
            self.assertEqual(caught.exception.status, -signal.SIGKILL)
        with mlir_work.Session(TEXT, PROGRAM) as s:
            os.kill(number_of(s), signal.SIGKILL)
        self.assertEqual(s.status, -signal.SIGKILL)

    def test_it_is_lost_within_a_mark(self):
        with mlir_work.Session(TEXT, fake(ANSWERS + "line(); say('1 ok\\n\\n'); line()")) as s:
            with self.assertRaises(mlir_work.ProcessLost), s.mark():
                s.erase(1)

    def test_it_does_not_end(self):
        s = mlir_work.Session(TEXT, fake(ANSWERS + "line(); " + SILENT), timeout=20)
        number, s._way._pipe.timeout = number_of(s), 0.1
        with self.assertRaises(mlir_work.ProcessLost) as caught:
            s.close()
        self.assertIn("didn't end within 0.1 s", str(caught.exception))
        self.assertEqual((is_gone(number), s.close()), (True, None))

        with self.assertRaises(KeyError), mlir_work.Session(TEXT, fake(ANSWERS + "line(); " + SILENT), timeout=20) as s:
            s._way._pipe.timeout = 0.1
            raise KeyError

    def test_what_it_still_does_is_waited_for(self):
        """It is at work when its input ends, and isn't ended."""
        with mlir_work.Session(TEXT, fake(ANSWERS + "line(); time.sleep(0.2); say('x' * 100000); sys.exit(7)")) as s:
            pass
        self.assertEqual(s.status, 7)


class Interrupted(Case):
    def interrupt(self, seconds=0.4):
        """Interrupts what is done then, as Ctrl-C does: late enough that it has begun on a busy machine too."""
        def raise_it(*_):
            raise KeyboardInterrupt
        old = signal.signal(signal.SIGALRM, raise_it)
        self.addCleanup(signal.signal, signal.SIGALRM, old)
        signal.setitimer(signal.ITIMER_REAL, seconds)

    def test_while_it_waits(self):
        s = mlir_work.Session(TEXT, fake(ANSWERS + SILENT))
        number = number_of(s)
        self.interrupt()
        with self.assertRaises(KeyboardInterrupt):
            s.erase(1)
        self.assertEqual((s.closed, is_gone(number), s.close()), (True, True, None))
        self.assertRaises(mlir_work.SessionClosed, s.erase, 1)

    def test_while_it_opens(self):
        self.interrupt()
        with self.assertRaises(KeyboardInterrupt):
            mlir_work.Session(TEXT * 10000, fake(SILENT))

    def test_while_it_closes(self):
        s = mlir_work.Session(TEXT, fake(ANSWERS + SILENT))
        self.interrupt()
        with self.assertRaises(KeyboardInterrupt):
            s.close()
        self.assertTrue(s.closed)

    def test_within_a_mark(self):
        s = mlir_work.Session(TEXT, fake(ANSWERS + "line(); say('1 ok\\n\\n'); " + SILENT))
        self.interrupt()
        with self.assertRaises(KeyboardInterrupt), s.mark():
            s.erase(1)
        self.assertTrue(s.closed)

    def test_it_comes_to_the_caller_alone(self):
        """Ctrl-C at a terminal reaches all of its processes; the program isn't one of them."""
        code = f"""import os, signal
import mlir_work
with mlir_work.Session({TEXT!r}, {PROGRAM!r}) as s:
    try:
        os.killpg(0, signal.SIGINT)
    except KeyboardInterrupt:
        pass
    s.erase(1)
    print(len(s.operations()))
"""
        there = {**os.environ, "PYTHONPATH": str(ROOT / "bindings/python")}
        ran = subprocess.run([sys.executable, "-c", code], stdout=subprocess.PIPE, start_new_session=True, check=False,
                             env=there)
        self.assertEqual((ran.returncode, ran.stdout), (0, b"2\n"))

    def test_a_call_within_a_call(self):
        s = mlir_work.Session(TEXT, fake(ANSWERS + "line(); time.sleep(1.2); say('1 ok\\n\\n'); line()"))
        said = []

        def call(*_):
            try:
                s._way._pipe.ask(b"", [])
            except RuntimeError as fault:
                said.append(fault)
        old = signal.signal(signal.SIGALRM, call)
        self.addCleanup(signal.signal, signal.SIGALRM, old)
        signal.setitimer(signal.ITIMER_REAL, 0.4)
        s.erase(1)
        self.assertEqual((len(said), s.close()), (1, 0))


class Apart(Case):
    def test_a_fork_keeps_no_end(self):
        """A forked process has no session, and continues when the program ends."""
        s = mlir_work.Session(TEXT, fake(ANSWERS + "line()"), timeout=20)
        waits, ends = os.pipe()
        number = os.fork()
        if not number:
            os.close(ends)
            try:
                s.print()
            except mlir_work.SessionClosed:
                os.read(waits, 1)
                os._exit(3)
            finally:
                os._exit(4)
        self.assertEqual(s.close(), 0)
        os.close(ends)
        self.assertEqual(os.waitstatus_to_exitcode(os.waitpid(number, 0)[1]), 3)
        os.close(waits)

    def test_where_the_program_is_looked_for(self):
        with tempfile.TemporaryDirectory() as folder, unittest.mock.patch.dict(os.environ):
            for name in (command.VARIABLE, command.INSTALLED):
                os.environ.pop(name, None)
            os.environ["PATH"] = folder
            with self.assertRaises(FileNotFoundError):
                mlir_work.Session(TEXT)
            there = pathlib.Path(folder, "mlir_work")
            there.write_text("#!/bin/sh\n")
            there.chmod(0o755)
            self.assertEqual(command.find().words, [str(there)])
            os.environ[command.INSTALLED] = "installed"
            self.assertEqual(command.find().words, ["installed"])
            os.environ[command.VARIABLE] = command.REFERENCE
            self.assertEqual(command.find().words, [sys.executable, "-m", "oracle"])
            os.environ["MLIR_WORK"] = "python3 'a b'"
            self.assertEqual(command.find().words, ["python3", "a b"])
            self.assertEqual(command.find(there).words, [str(there)])
            self.assertEqual(command.find(("x", "y")).words, ["x", "y"])

    def test_the_stand_in(self):
        """The stand-in for a program with `--interactive`: tools/tests/live.py."""
        with mlir_work.Session(TEXT, LIVE, limit=3) as s:
            self.assertRaises(mlir_work.Refused, s.command, b"\xff")
            self.assertEqual(s.canon(), (0, True))
        self.assertEqual(s.status, 1)


if __name__ == "__main__":
    unittest.main()
