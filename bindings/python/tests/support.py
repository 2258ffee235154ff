"""Shared code of the tests of the package. The tests use the program of MLIR_WORK, or the program of these sources, if
its help names `--interactive`. Otherwise sessions use oracle in this process, and tests that need a process start
tools/tests/live.py, which answers with oracle."""
import atexit
import functools
import gc
import os
import shutil
import subprocess
import sys
import tempfile
import unittest
import warnings

from checkout import ROOT

import mlir_work
from mlir_work import command
from oracle import aliases, rules, script
from tools import launch, library

LIVE = [sys.executable, "-S", "-E", str(ROOT / "tools/tests/live.py")]


def of_sources():
    """The words of a program that has `--interactive`, or None."""
    try:
        found = command.find()
        return found.words if found.has_option("--interactive") else None
    except OSError:
        return None


launch.provide()
REAL = of_sources()
# Tests with many sessions start many processes, and live.py starts slowly.
PROGRAM, IS_FAST = REAL or LIVE, REAL is not None


@functools.lru_cache(maxsize=None)
def shared_object():
    """The shared object of the library of these sources, in a temporary folder; None if there is no library, or no
    linker."""
    if not shutil.which("gcc"):
        return None
    room = tempfile.mkdtemp()
    atexit.register(shutil.rmtree, room, ignore_errors=True)
    try:
        archive = library.found(room)
        return archive and library.shared(archive, room)
    except subprocess.CalledProcessError as fault:
        raise AssertionError(f"the library can't be linked: {fault}") from fault


class Referred(mlir_work.Way):
    """A way over oracle, in this process."""

    def __init__(self):
        self.run, self.status, self.count = None, 0, 0

    def open(self, text, limit=None, opaque=False):
        reader = aliases.Reader if opaque else rules.Reader
        try:
            self.run = script.Run(script.read(text, reader), limit=script.LIMIT if limit is None else limit)
        except rules.Refused as fault:
            raise mlir_work.ModuleRefused(fault.number, rules.WORDS[fault.number], fault.at) from None
        self.run.reader = reader
        return []

    def line(self, line):
        said, = script.lines_of(line)
        self.count += 1
        is_right, answer = script.answer(self.run, self.count, said, True)
        text, _, shown = answer.partition(" ")[2].partition("\n")
        self.status |= not is_right
        return mlir_work.Reply(text, shown)

    def close(self):
        return self.status


def knows_opaque():
    """Whether sessions go over what keeps types and attributes that aren't known."""
    return REAL is None or command.find().has_option("--opaque")


def session(text, **more):
    """A session over a text."""
    return mlir_work.Session(text, REAL, **more) if REAL else mlir_work.Session(text, way=Referred(), **more)


def example(name):
    """The text of an example."""
    return (ROOT / f"examples/{name}.mlir").read_text()


def descriptors():
    """How many files this process has open."""
    return len(os.listdir("/proc/self/fd"))


class Case(unittest.TestCase):
    """A test that fails where a process or the end of a pipe is left."""

    def setUp(self):
        gc.collect()
        self.unraisable = []
        hook, sys.unraisablehook = sys.unraisablehook, self.unraisable.append
        self.addCleanup(setattr, sys, "unraisablehook", hook)
        caught = warnings.catch_warnings()
        caught.__enter__()
        self.addCleanup(caught.__exit__, None, None, None)
        warnings.simplefilter("error", ResourceWarning)
        self.before = descriptors()

    def tearDown(self):
        gc.collect()
        self.assertEqual([str(it.exc_value) for it in self.unraisable], [])
        self.assertEqual(descriptors(), self.before)
        with self.assertRaises(ChildProcessError):
            os.waitpid(-1, os.WNOHANG)
