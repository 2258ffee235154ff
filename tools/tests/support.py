"""Shared code of the tests of the tools. The tools run the program if it is built, or else oracle, which is called in
this process, since a process for each run would be slow."""
import os

from checkout import ROOT  # noqa: F401
from gate import check_examples  # noqa: F401
from mlir_work.cli import changes, explain, forms, listing, mistakes, program, session, targets  # noqa: F401
from mlir_work.command import INSTALLED, REFERENCE, VARIABLE
from tests.compare import refusals  # noqa: F401
from tools import launch


def referred(text, *more):
    """The status of a run by oracle with more options, and the text that it writes."""
    from oracle import aliases, own, rules
    reader = aliases.Reader if program.OPAQUE in program.ASKED else rules.Reader
    files = [file for option, file in zip(program.ASKED, program.ASKED[1:]) if option == program.PATTERNS]
    status, out = own.run(text, book=own.book_of(files), reader=reader, explained=program.EXPLAIN in more)
    return status, out.decode()


def replies(run):
    """Returns the replies of a run, each with the lines below it."""
    return [(it.text, it.lines) for it in run.replies()]


def words():
    """Returns the words that start the program, and what its environment has besides."""
    found = program.asked_for()
    return found.words, found.more


launch.provide()
if not os.environ.get(VARIABLE) and not os.environ.get(INSTALLED):
    os.environ[VARIABLE] = REFERENCE
    program.written = referred
