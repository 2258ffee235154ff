#!/usr/bin/env python3
"""Refuses each third allocation of short scripts in turn, over all seven analyses, so that each of them turns stale at
some event, can't begin, or has no memory for its rows. Each case has a name and a sentence of intent. What is written
has to be explained by one refused allocation (oracle/refused.py), and each analysis has to have been stale in
a run of each case that says so. tests/faults/fail_listeners.py does the same of each event in modules of many sizes, on
demand. It needs a C compiler.

usage: tests/faults/stale.py [PROGRAM] [NAME..]      PROGRAM is that of MLIR_WORK if it isn't given"""
import collections
import os
import pathlib
import shutil
import sys
import tempfile

import checkout  # noqa: F401

from oracle import refused, script  # noqa: E402
from refusing import Program  # noqa: E402

MODULE = """"func.func"() <{function_type = (i32) -> i32, sym_name = "f", sym_visibility = "private"}> ({
^bb0(%a: i32):
  %c = "arith.constant"() <{value = 2 : i32}> : () -> i32
  %s = "arith.addi"(%a, %c) <{overflowFlags = #arith.overflow<none>}> : (i32, i32) -> i32
  "func.return"(%s) : (i32) -> ()
}) : () -> ()
// -----
"""
# An operation with others inside, so many that the tables of effects and of unused operations grow.
INSERT = ('insert before #4 %0 = "arith.addi"(%v2.0, %v2.0) ({ ^b: "test.a"() {k = [@f, @g]} : () -> () '
          + "".join(f'%1{n} = "memref.alloc"() : () -> memref<i32> '
                    f'%2{n} = "arith.addi"(%v2.0, %v2.0) : (i32, i32) -> i32 ' for n in range(8))
          + '}) : (i32, i32) -> i32\n')
# One of so many allocations is refused.
STEP = 3
ASKED = "".join(f"report {kind}\n" for kind in script.BOXES)
ABOUT = "".join(f"report {kind} of {thing}\n" for kind in script.BOXES for thing in ("#3", "%v2.0", "#5", "#9"))
MENDED = "".join(f"resync {kind}\n" for kind in script.BOXES) + ASKED
# By its name: whether the module and the rows follow each command, whether each analysis is stale in some run, and the
# script.
CASES = {
    # An analysis that turned stale at an event says so until it begins again; the others are notified of it, and of
    # what follows.
    "stale-then-mended": (True, True, INSERT + ASKED + "set-operand #3 0 %v2.0\n" + ASKED + MENDED),
    # In listings it has no rows.
    "stale-in-listings": (False, True, INSERT + "set-operand #3 0 %v2.0\nresync uses\n"),
    # It has no rows of one operation or one value; what isn't in the module is refused by 20 or 21 before that.
    "stale-about": (True, True, INSERT + ABOUT),
    # A rollback notifies of inverse edits, at which an analysis turns stale too; it doesn't mend one.
    "stale-by-rollback": (True, False, "begin\n" + INSERT + "erase #5\nset-attr #3 k [@f]\nrollback\n" + ASKED
                          + MENDED),
    # An analysis that can't begin is stale, whether it is attached or begun again; the others are as they were.
    "cannot-begin": (True, True, MENDED + "detach dead\nattach dead\n" + ASKED + MENDED),
}


class Look:
    def __init__(self, program):
        self.program, self.counts, self.bad = program, collections.Counter(), 0

    def wrong(self, *words):
        self.bad += 1
        print(*words, flush=True)

    def refuse(self, name, text, known, number):
        """Refuses each third allocation of a case's script from one on. Returns which analyses were stale."""
        brief, _, lines = CASES[name]
        stale = set()
        while True:
            was_refused, answer = self.program.run(text, number, brief)
            if answer not in known:
                self.wrong(f"{name}: allocation {number}: status {answer[0]}\n{answer[1].decode()}")
            if not was_refused:
                break
            self.counts[known.get(answer)] += 1
            stale |= {kind for kind in script.BOXES if is_stale(kind, lines, answer[1].decode())}
            number += STEP
        if known.get(answer) != "whole":
            self.wrong(f"{name}: where nothing is refused: status {answer[0]}\n{answer[1].decode()}")
        return stale

    def case(self, name):
        """Refuses allocations of a case's script: each third one, and the others where an analysis that has to be stale
        was stale at none of these."""
        brief, are_all, lines = CASES[name]
        text, stale = (MODULE + lines).encode(), set()
        # (of an input of as many bytes in which the script is comments)
        hidden = "".join("//" + "-" * (len(line) - 2) + "\n" for line in lines.splitlines())
        first = self.program.count((MODULE + hidden).encode(), brief)[0] + 1
        known = refused.explained(text, brief)
        for number in range(first, first + STEP):
            stale |= self.refuse(name, text, known, number)
            if not are_all or stale == set(script.BOXES):
                break
        if are_all and stale != set(script.BOXES):
            self.wrong(f"{name}: never stale: {', '.join(sorted(set(script.BOXES) - stale))}")


def is_stale(kind, lines, out):
    """Whether an analysis was stale somewhere in an output of a script."""
    asked = [number for number, line in enumerate(lines.splitlines(), 1) if line.split()[:2] == ["report", kind]]
    return f"-- {kind} stale\n" in out or any(f"\n{number} refused 40 " in f"\n{out}" for number in asked)


def main(argv):
    programs = [it for it in argv if os.path.isfile(it)] or [os.environ.get("MLIR_WORK")]
    names = [it for it in argv if it not in programs] or list(CASES)
    if len(programs) != 1 or not programs[0] or not set(names) <= set(CASES):
        sys.exit(__doc__)
    if not shutil.which(os.environ.get("CC", "cc")):
        print("left out: refused allocations, for want of a C compiler")
        return 0
    with tempfile.TemporaryDirectory() as work:
        look = Look(Program(os.path.abspath(programs[0]), work))
        for name in names:
            look.case(name)
    said = ", ".join(f"{count} {word}" for word, count in sorted(look.counts.items(), key=str))
    print(f"{sum(look.counts.values())} allocations refused ({said}), {look.bad} not as due")
    return 1 if look.bad else 0


if __name__ == "__main__":
    sys.exit(main(sys.argv[1:]))
