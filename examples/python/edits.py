#!/usr/bin/env python3
"""Edits that depend on one another, each with a query: of a chain of operations that nothing uses in the end, the one
that `report dead` names is erased, again and again, until there is none.

usage: MLIR_WORK=PROGRAM PYTHONPATH=bindings/python examples/python/edits.py [EDITS]     (10,000 without a number; the
path isn't needed if the package is installed)"""
import sys
import time

import mlir_work


def chain(count):
    """A module in which each operation but the first uses the one before it."""
    lines = ['%0 = "arith.constant"() <{value = 1 : i32}> : () -> i32']
    for number in range(1, count):
        before = f"%{number - 1}"
        lines.append(f'%{number} = "arith.addi"({before}, {before}) : (i32, i32) -> i32')
    return "\n".join(lines) + "\n"


def erase_dead(session):
    """Erases what is dead until nothing is, and gives how many operations that were, and how often it asked."""
    erased = asked = 0
    while True:
        asked += 1
        dead = session.report("dead")
        if not dead:
            return erased, asked
        for row in reversed(dead):
            session.erase(row.operation)
            erased += 1


def main():
    count = int(sys.argv[1]) if sys.argv[1:] else 10000
    with mlir_work.Session(chain(count)) as session:
        began = time.perf_counter()
        with session.mark():
            erased, asked = erase_dead(session)
        seconds = time.perf_counter() - began
        left = len(session.operations()) - 1
    print(f"{erased} erased, asked {asked} times, {left} left", file=sys.stdout)
    print(f"{seconds:.2f} s", file=sys.stderr)


if __name__ == "__main__":
    main()
