#!/usr/bin/env python3
"""Rewrites random functions with several blocks, and runs them before and after with MLIR's own tools: the results must
be the same.

The functions have branches and loops (tests/compare/compare_programs.py), which mlir-opt-22 turns into blocks.

usage: tests/compare/blocks_values.py PROGRAM [COUNT [SEED]]

COUNT is the number of functions (100 if it isn't given). Prints how many rewrites and runs there were; ends with status
1 if results differ, and prints the functions."""
import random
import subprocess
import sys

import checkout
from tests.compare import compare_pairs as pairs
from tests.compare import compare_programs as programs

import mlir_work

BOOK = checkout.ROOT / "patterns/arith.patterns"
FLAGS = ["--convert-scf-to-cf", "--mlir-print-op-generic", "--mlir-print-local-scope"]
AT_ONCE, MOST = 10, 1000000
EXPANDED = ("arith.maxsi", "arith.maxui", "arith.minsi", "arith.minui", "arith.subi", "arith.remsi", "arith.remui")


class Made:
    """A random function, as both sides of a pair, and the inputs on which it is run."""

    def __init__(self, number, chance):
        self.number, self.before = number, pairs.function_of(chance)
        self.after = self.before
        rows = pairs.inputs_of(self.before, chance)
        self.executed = [row for row in rows if pairs.Case.is_plain(self, row)][:pairs.EXECUTED]


def expand(session):
    """Expands operations, and canonicalizes the result."""
    return session.convert(illegal=EXPANDED, rules=[25, 26, 27]) + session.canon(MOST).rewrites


SCRIPTS = {
    "canon": lambda it: it.canon(MOST).rewrites,
    "canon limit 10": lambda it: it.canon(10).rewrites,
    "rewrite": lambda it: it.rewrite(["canon", *(pattern.name for pattern in it.patterns())], MOST).rewrites,
    "convert": expand,
}


def blocks_of(made):
    """Returns a module of the functions, with blocks."""
    it = subprocess.run([pairs.OPT, *FLAGS], input=pairs.whole(made), text=True, stdout=subprocess.PIPE, check=True)
    return it.stdout


def main():
    words = sys.argv[1:]
    if not words or words[0].startswith("-"):
        print(__doc__)
        return 0
    if not pairs.is_executable():
        print("mlir-opt-22 or mlir-runner-22 isn't installed")
        return 0
    count, seed = (int(words[place]) if len(words) > place else value for place, value in ((1, 100), (2, 3)))
    chance, rewrites, runs = random.Random(seed), dict.fromkeys(SCRIPTS, 0), 0
    for begin in range(0, count, AT_ONCE):
        made = [Made(number, chance) for number in range(begin, min(begin + AT_ONCE, count))]
        text = blocks_of(made)
        wanted = pairs.executed(text)
        for name, script in SCRIPTS.items():
            with mlir_work.Session(text, words[0], opaque=True, blocks=True, patterns=BOOK) as it:
                rewrites[name] += script(it)
                found = pairs.executed(it.print())
            runs += sum(len(it.executed) for it in made)
            if found != wanted:
                print(f"{name} changes results:", *(programs.text_of(it.before) for it in made), sep="\n")
                return 1
    print(f"{count} functions, seed {seed}, {runs} runs: no result differs")
    for name, number in rewrites.items():
        print(f"{name}: {number} rewrites")
    return 0


if __name__ == "__main__":
    sys.exit(main())
