#!/usr/bin/env python3
"""Times the commands of a script through a built program, listings off: microseconds of processor time for one command,
what reading and replying to it takes included, at modules of 1,000 to 1,000,000 operations, with no listener, two (uses
and diagnostics) and all seven, and how often the last size's time is the first's.

Replies are written part by part. The program's processor time is taken before each part (by benchmarks/marks.c, which
is loaded before the C library), and a figure is the time between the first part after the module's own lines and the
last full one, for each reply between them: so reading the module, which takes seconds at a million operations, isn't in
it. The least of some rounds of scripts of 10,000 commands. The program has pages of two megabytes, as ./run gives them,
unless GLIBC_TUNABLES says otherwise. For comparison it times one run of mlir-opt, which is what an edit by a pass costs
a user who runs the tool.

usage: benchmarks/commands.py [--shape block|functions] [--undone | --alone] PROGRAM
                               [MLIR_OPT [SIZES [ROUNDS [COMMANDS]]]]

The module is one block, or functions of 20 operations. With --undone each edit is rolled back by itself, and a figure
is that of one of three commands. With --alone there is one listener at a time, and only the edits of an operand, a
place and an operation."""
import argparse
import sys

import checkout  # noqa: F401

from benchmarks import marks
from benchmarks.edit_scripts import SHAPES, scripts, undone_scripts

KEPT = {"0": (), "2": ("uses", "diagnostics"), "7": marks.BOXES}
ALONE = {kind: (kind,) for kind in marks.BOXES}
ONE_EVENT = ("set-operand", "move", "insert, erase")
SIZES = "1000,10000,100000,1000000"


class Table:
    """Rows of figures, a column for each size."""
    def __init__(self, heads, sizes):
        self.heads, self.sizes, self.rows = heads, sizes, {}

    def add(self, row, figure, digits, more=""):
        self.rows.setdefault(row, []).append((figure, f"{figure:,.{digits}f}{more}"))

    def show(self):
        print("| " + " | ".join([*self.heads, *(f"{size:,}" for size in self.sizes), "Growth"]) + " |")
        print("|---" * (len(self.heads) + len(self.sizes) + 1) + "|")
        for row, cells in self.rows.items():
            growth = f"{cells[-1][0] / cells[0][0]:.1f}" if cells[0][0] > 0 else "-"
            print("| " + " | ".join([*row, *(cell for _, cell in cells), growth]) + " |", flush=True)


def tool_cost(tool, text):
    """The microseconds of one run of mlir-opt over a module, its start taken off."""
    words = [tool, "--allow-unregistered-dialect", "--mlir-print-op-generic"]
    start = min(marks.run(words, b"", {})[0] for _ in range(3))
    return (marks.run(words, text, {})[0] - start) * 1e6


def asked():
    """What the command line asks for."""
    reader = argparse.ArgumentParser(description=__doc__, usage=argparse.SUPPRESS,
                                     formatter_class=argparse.RawDescriptionHelpFormatter)
    reader.add_argument("--shape", choices=SHAPES, default="block")
    what = reader.add_mutually_exclusive_group()
    what.add_argument("--undone", action="store_true")
    what.add_argument("--alone", action="store_true")
    reader.add_argument("program")
    reader.add_argument("tool", nargs="?", default="-")
    reader.add_argument("sizes", nargs="?", default=SIZES)
    reader.add_argument("rounds", nargs="?", default=5, type=int)
    reader.add_argument("commands", nargs="?", default=10_000, type=int)
    return reader.parse_args()


def wanted(asked, shape):
    """The scripts that are asked for, and the listeners that are kept."""
    every = undone_scripts if asked.undone else scripts
    found = [(title, lines) for title, lines in every(shape, asked.commands) if not asked.alone or title in ONE_EVENT]
    return found, ALONE if asked.alone else KEPT


def time_size(asked, count, library, table):
    """Times each script that is asked for over a module."""
    shape = SHAPES[asked.shape](count)
    text = shape.text().encode()
    found, kept = wanted(asked, shape)
    for label, kinds in kept.items():
        for title, lines in found:
            script, skipped = marks.edited(text, kinds, lines)
            cost, refusals = marks.command_cost(asked.program, script, skipped, asked.rounds, library)
            more = f" ({refusals} refused)" if refusals else ""
            table.add((title, label), cost, 2, more)
            print(f"{count:9,} {label} {title}: {cost:.2f}{more}", file=sys.stderr, flush=True)
    if asked.tool != "-":
        table.add(("mlir-opt, one run, its start taken off", ""), tool_cost(asked.tool, text), 0)


def main():
    words = asked()
    sizes = [int(size) for size in words.sizes.split(",")]
    table = Table(["A command", "Listeners"], sizes)
    with marks.library() as library:
        for count in sizes:
            time_size(words, count, library, table)
    table.show()


if __name__ == "__main__":
    main()
