#!/usr/bin/env python3
"""How many modules are ready for the laws of crates/patterns_refinement (`IsReady`): each arithmetic operation on
integers or index takes its operands.

usage: tests/compare/ready_modules.py [FILE..]

The modules are FILE.., or those of tests/golden/opaque; each is read with opaque terms, by the rules in Python. It
prints how many have no diagnostics, and how many of those aren't ready, by cause. It ends with status 1 if a module
without diagnostics isn't ready."""
import collections
import pathlib
import sys

import checkout  # noqa: F401

from oracle import aliases, rules
from oracle.folds import width
from oracle.module import I1, read, walk
from oracle.operations import BINARY, EXTENSIONS, INDEX_CASTS, is_beyond, is_T
from oracle.verifier import diagnostics
from tests.generate import opaque_cases

CONSTANT, COMPARE, SELECT, CUT = b"arith.constant", b"arith.cmpi", b"arith.select", b"arith.trunci"
ARITHMETIC = BINARY | EXTENSIONS | INDEX_CASTS | {CONSTANT, COMPARE, SELECT, CUT}


def takes(name, types, result):
    """Whether an operation that isn't a constant takes operands of some types for a result of another."""
    if name in BINARY:
        return types == [result, result]
    if name == COMPARE:
        return len(types) == 2 and is_T(types[0]) and types[1] == types[0] and result == I1
    if name == SELECT:
        return types == [I1, result, result]
    if len(types) != 1 or not is_T(types[0]):
        return False
    return name != CUT or width(result) < width(types[0])


def is_kinded(op, types):
    """Whether an operation takes its operands, if it is arithmetic. It isn't if its result isn't a number."""
    if op.name not in ARITHMETIC or op.name == CONSTANT or not op.results or not is_T(op.results[0]):
        return True
    return takes(op.name, types, op.results[0])


def cause(op, types):
    """Why an operation that doesn't take its operands may be in a module without diagnostics."""
    return "beyond the table" if is_beyond(op, types) else "not listed"


def causes(module):
    """The causes for which a module isn't ready, each with the name of the operation."""
    ops = module.ops()
    for op in walk(module.root):
        types = [module.type_of(value, ops) for value in op.operands]
        if not is_kinded(op, types):
            yield cause(op, types), op.name.decode()


def has_arithmetic(module):
    """Whether a module has arithmetic on numbers."""
    return any(op.name in ARITHMETIC and op.results and is_T(op.results[0]) for op in walk(module.root))


def modules(names):
    """The modules that are read, by their names."""
    texts = [(name, pathlib.Path(name).read_bytes()) for name in names]
    for name, text in texts or [(it.name, it.text) for it in opaque_cases.modules()]:
        try:
            yield name, read(text, aliases.Reader)
        except rules.Refused:
            continue


def main():
    words = sys.argv[1:]
    if words and words[0].startswith("-"):
        print(__doc__)
        return 0
    counts, why = collections.Counter(), collections.Counter()
    for name, module in modules(words):
        found, clean = set(causes(module)), not diagnostics(module)
        counts["read"] += 1
        counts["without diagnostics"] += clean
        counts["with arithmetic"] += clean and has_arithmetic(module)
        counts["ready"] += clean and not found
        counts["ready with arithmetic"] += clean and not found and has_arithmetic(module)
        for it in found if clean else ():
            why[it] += 1
            print(f"{name}: {it[1]}, {it[0]}")
    print(", ".join(f"{word} {count}" for word, count in counts.items()))
    print("not ready without diagnostics: " + ", ".join(f"{name} {told} {count}" for (told, name), count in
                                                       sorted(why.items())))
    return 1 if why else 0


if __name__ == "__main__":
    sys.exit(main())
