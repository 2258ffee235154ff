#!/usr/bin/env python3
"""Prints how many bytes of memory a built program holds for an operation: its tree once it is read, the store without
listeners, and each listener, in modules of one block and of functions of 20 operations, those that
benchmarks/commands.py edits, and one with two operands and a result for each operation, as in real programs. Then it
prints how many bytes are resident at most while a module is read, and while the store is made and all seven listeners
begin (which the system knows to about half a megabyte).

The C library reports the bytes that are allocated, spare capacity included (benchmarks/marks.c asks it). Freed memory
that is still resident doesn't count. A script that only prints makes neither a store nor a listener, and what is in use
once the text is given up is the tree. Any other script begins all seven before its first command: they are detached one
by one, and each gives up what it holds. Each figure is held against the same run over an empty module. The program asks
for no large pages here.

usage: benchmarks/held.py PROGRAM [SIZES]"""
import sys

import checkout  # noqa: F401

from benchmarks import marks
from benchmarks.edit_scripts import HELD, MOST_BYTES

SIZES = "10000,100000,1000000"
MEMORY = {"GLIBC_TUNABLES": "glibc.malloc.hugetlb=0", "MARKS_MEMORY": "1"}
# Commands that change nothing, whose replies fill some parts of the output.
WAIT = ["begin", "commit"] * 3000


class Meter:
    """Runs of a program, with the bytes that they reported."""
    def __init__(self, program, library):
        self.words = [program, "--brief"]
        self.more = {**MEMORY, "LD_PRELOAD": library}

    def run(self, text, lines):
        """For each part that a run over a module wrote: the lines before it, and the bytes in use then and resident at
        most."""
        script = text.encode() + marks.DIVIDER + "".join(line + "\n" for line in lines).encode()
        _, wrote, told = marks.run(self.words, script, self.more)
        if b" refused " in wrote:
            sys.exit(f"it answers {wrote[:80]}")
        return told

    def reading(self, text):
        """The most bytes while a module is read."""
        return self.run(text, [])[-1][2]

    def tree(self, text):
        """The bytes of a tree: those in use before the last part."""
        return self.run(text, ["print"])[-2][1]

    def editing(self, text):
        """The bytes of the store, of each listener, and the most bytes of a run with all of them."""
        gone = marks.BOXES[::-1]
        told = self.run(text, WAIT + [line for kind in gone for line in (f"detach {kind}", *WAIT)])
        every = len(WAIT) + 1
        held = [within(told, n * every, (n + 1) * every - 1) for n in range(len(gone) + 1)]
        alone = {kind: before - after for kind, before, after in zip(gone, held, held[1:])}
        return held[-1], alone, told[-1][2]

    def all(self, text):
        """Every figure of a module, in the order of the table's columns."""
        store, alone, most = self.editing(text)
        return [self.tree(text), store, *(alone[kind] for kind in marks.BOXES), self.reading(text), most]


def within(told, first, last):
    """The bytes in use where a part was written between two lines."""
    return min(held for (begun, held, _), (ended, _, _) in zip(told, told[1:]) if first <= begun and ended < last)


def row(meter, none, shape, count):
    """The figures for one operation of a module, or none if its text is too long."""
    module = HELD[shape](count)
    text = module.text()
    if len(text) > MOST_BYTES:
        return None
    return [(it - base) / module.count for it, base in zip(meter.all(text), none)]


def main():
    sizes = [int(size) for size in (sys.argv[2] if len(sys.argv) > 2 else SIZES).split(",")]
    heads = ["Bytes for an operation", "Tree", "Store", *marks.BOXES, "Reading, at most", "Editing, at most"]
    print("| " + " | ".join(heads) + " |")
    print("|---" * len(heads) + "|")
    with marks.library() as library:
        meter = Meter(sys.argv[1], library)
        none = meter.all("")
        for shape in HELD:
            for count in sizes:
                figures = row(meter, none, shape, count)
                if figures:
                    print(f"| {shape}, {count:,} | " + " | ".join(f"{it:.0f}" for it in figures) + " |", flush=True)


if __name__ == "__main__":
    main()
