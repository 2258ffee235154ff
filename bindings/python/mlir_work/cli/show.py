"""Prints the operations of a module, one a line: as text, or as JSON objects.

An object has the keys of docs/JSON.md, and a line of text has the same data. The operations are read through the
library if the Python package would use it, or from what the program prints for `show`. Both give the same lines.
"""
import argparse
import re
import sys

from .. import operations
from ..data import json_line, text_line
from ..errors import Error, ModuleRefused, Refused
from ..library import is_preferred
from ..positions import positions_of
from ..session import Session
from ..shown import OfLines, OfText
from ..values import op_text
from . import explain, nesting, program
from .listing import COMMAND

EPILOG = """#N has to be in quotes in a shell; N alone is the same. With --positions a line ends with the line and the
column at which the operation begins in the text that was read. The status is 1 if the module has no operation #N."""
# How many operations are read at once from the library.
PAGE = 1000
# The refusal of a line that is no command.
BAD_COMMAND = 60


def operation(text):
    """Returns the number of an operation, or None for `all`."""
    found = re.fullmatch(r"#?([0-9]{1,10})", text)
    if text != "all" and not found:
        raise argparse.ArgumentTypeError(f"found `{text}`, expected an operation, as '#3', or `all`")
    return found and int(found[1])


def count(text):
    """Returns a number of operations."""
    if not re.fullmatch("[0-9]{1,10}", text):
        raise argparse.ArgumentTypeError(f"found `{text}`, expected a number of operations")
    return int(text)


class Printed:
    """The operations that the program printed, in place of a session."""

    def __init__(self, shown):
        self.shown = shown

    def show(self, number):
        """Returns an operation. Raises Refused if the module doesn't have it."""
        found = self.shown.data(number)
        if found is None:
            raise Refused(20, "NoSuchOp")
        return found

    def show_all(self, page, skip):
        """Yields the operations in lists, without the first `skip` ones."""
        numbers = self.shown.numbers()[skip:]
        for begin in range(0, len(numbers), page):
            yield [self.shown.data(number) for number in numbers[begin:begin + page]]

    def close(self):
        """Does nothing, since nothing is open."""


def opened(text, given):
    """Returns a session on a module, or its printed form. Raises ModuleRefused."""
    if is_preferred():
        try:
            return Session(text, opaque=given.opaque, positions=given.has_positions)
        except ModuleRefused:
            raise
        except Error as fault:
            raise program.Fault(str(fault)) from None
    positions = positions_of(text) if given.has_positions else None
    wanted = "all" if given.operation is None else op_text(given.operation)
    reply = asked(text, f"show {wanted}")
    if reply.refusal() is not None and reply.refusal().number == BAD_COMMAND:  # (an older program)
        return Printed(OfText(operations.read(asked(text, COMMAND).shown), positions))
    return Printed(OfLines(reply.lines, positions))


def asked(text, line):
    """Returns the reply to a line over a module. Raises ModuleRefused."""
    ran = program.asked(text, [line])
    if ran.refused:
        raise ran.refused
    return next(ran.replies())


def read(given):
    """Returns the module of the file, or None and the lines that say why it is refused. A refused module is first
    converted to generic form, if mlir-opt reads it, or nested."""
    text, script, _ = program.inputs([given.module])
    if script:
        raise program.Fault(f"{given.module}: a script follows the module, but `show` takes only a module: remove the "
                            "script")
    found = []

    def attempt(text):
        try:
            found.append(opened(text, given))
        except ModuleRefused as fault:
            found.append(fault)
            return fault
        return None

    text = nesting.read(given.module, text, attempt, explain.said_on_the_side)
    if isinstance(found[-1], ModuleRefused):
        return None, explain.module_refused(given.module, text, found[-1])
    return found[-1], []


def pages(module, skip, limit):
    """Yields the operations in lists, without the first `skip` ones, and at most `limit` of them."""
    for page in module.show_all(PAGE, skip):
        yield page if limit is None else page[:limit]
        limit = None if limit is None else max(limit - len(page), 0)
        if limit == 0:
            return


def arguments(parser):
    """Adds the arguments of the command."""
    parser.add_argument("module", metavar="MODULE",
                        help="a file with a module; if it isn't in generic form, mlir-opt converts it")
    parser.add_argument("operation", metavar="OPERATION", nargs="?", type=operation, default=None,
                        help="an operation, as '#3', or `all` [default: all]")
    parser.add_argument("--format", choices=["text", "json"], default="text",
                        help="a line of text, or a JSON object a line [default: text]")
    parser.add_argument("--skip", metavar="N", type=count, default=0, help="leave out the first N operations")
    parser.add_argument("--limit", metavar="N", type=count, help="show at most N operations")
    parser.add_argument("--positions", dest="has_positions", action="store_true",
                        help="show the line and the column at which each operation begins")
    parser.add_argument(program.OPAQUE, action="store_true",
                        help="keep unknown types and attributes as their texts, like `mlir_work --opaque`")
    program.split_argument(parser)
    program.blocks_argument(parser)


def run(given):
    """Prints the operations, or why the module is refused, and returns the status."""
    sys.stdout.reconfigure(errors="backslashreplace")
    module, lines = read(given)
    if module is None:
        print(*lines, sep="\n", file=sys.stderr)
        return 3
    line = json_line if given.format == "json" else text_line
    try:
        if given.operation is not None:
            print(line(module.show(given.operation)))
            return 0
        for page in pages(module, given.skip, given.limit):
            print(*map(line, page), sep="\n", end="\n" * bool(page))
    except Refused as fault:
        print(f"{given.module}: {fault.number} {fault.word}: #{given.operation} isn't in the module", file=sys.stderr)
        return 1
    finally:
        module.close()
    return 0
