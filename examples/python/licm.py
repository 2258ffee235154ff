#!/usr/bin/env python3
"""Moves invariant operations out of the loops of a module, as `mlir-opt -loop-invariant-code-motion` does.

usage: licm.py MODULE     over the library that MLIR_WORK_LIBRARY names"""
import pathlib
import sys

import mlir_work
from mlir_work import Result, before


def constant(op, operand):
    """Returns the number of an operand that is a constant, or None."""
    value = op.operands[operand]
    if not isinstance(value.value, Result) or value.owner.name != "arith.constant":
        return None
    return value.owner.properties["value"].split()[0]  # 3 : i32


def is_movable(op):
    """Returns whether an operation has no effects and no undefined behavior, so it may run if the loop doesn't."""
    name = op.name
    if name in ("arith.divui", "arith.ceildivui"):
        return constant(op, 1) not in (None, "0")
    if name in ("arith.divsi", "arith.ceildivsi", "arith.floordivsi"):
        return constant(op, 1) not in (None, "0", "-1")
    if name == "scf.for" and constant(op, 2) != "1":
        return False
    if not name.startswith("arith.") and name not in ("scf.if", "scf.for", "scf.yield"):
        return False
    return all(is_movable(inner) for inner in op.walk() if inner != op)


def is_inside(value, around):
    """Returns whether a value is made inside an operation."""
    at = value.owner.parent if isinstance(value.value, Result) else value.owner
    while at and at != around:
        at = at.parent
    return at is not None


def is_invariant(op, loop):
    """Returns whether an operation uses only values that are made inside it or outside of the loop."""
    return all(is_inside(it, op) or not is_inside(it, loop) for inner in op.walk() for it in inner.operands)


with mlir_work.Session(pathlib.Path(sys.argv[1]).read_text(), way=mlir_work.Library()) as s:
    for loop in reversed([op for op in s.walk() if op.name in ("scf.for", "scf.while")]):  # inner loops first
        for region in loop.regions:
            for op in region.blocks[0].operations:
                # The terminator has no next operation.
                if op.next and is_movable(op) and is_invariant(op, loop):
                    s.move(op, before(loop))
    print(s.print(), end="")
