#!/usr/bin/env python3
"""Compares the program with `--blocks` and mlir-opt-22 on random functions with several blocks.

A value may be used where it doesn't dominate: the module must be refused exactly if mlir-opt refuses it. Unreachable
blocks are the exception: mlir-opt looks at no operand in them, and the program refuses some. What mlir-opt prints of a
module must come back byte for byte. Then random edits are made. If the result is in the form of nested blocks, mlir-opt
must not find a value that doesn't dominate its use.

usage: tests/compare/blocks_by_chance.py PROGRAM [COUNT [SEED]]

COUNT is the number of functions (300 if it isn't given). Prints what was found; ends with status 1 at the first
difference, which is printed."""
import collections
import random
import re
import shutil
import subprocess
import sys

import checkout  # noqa: F401

import mlir_work
from mlir_work.blocks import dominators

TOOL = "mlir-opt-22"
FLAGS = ["--allow-unregistered-dialect", "--mlir-print-op-generic", "--mlir-print-local-scope"]
MOST_BLOCKS, MOST_OPERATIONS, EDITS = 9, 3, 6
# How often a use is of any value, so that few modules have more than one wrong use.
ANY = 0.04


class Function:
    """A random function: its blocks, each with the names of its arguments, the operations and the successors."""

    def __init__(self, chance):
        self.chance, self.count = chance, 0
        size = chance.randint(2, MOST_BLOCKS)
        self.successors = [[chance.randrange(1, size) for _ in range(chance.choice([0, 1, 1, 2, 2, 3]))]
                           for _ in range(size)]
        if not self.successors[0]:
            self.successors[0] = [1]
        self.arguments = [self.names(2 if place == 0 else chance.choice([0, 0, 1, 2])) for place in range(size)]
        self.results = [self.names(chance.randint(0, MOST_OPERATIONS)) for _ in range(size)]
        self.parents, self.is_reached = dominators.tree(self.successors)

    def names(self, count):
        """Returns new names of values."""
        self.count += count
        return [f"%v{self.count - it}" for it in range(count)]

    def visible(self, place, count):
        """Returns the values that dominate an operation of a block, before which `count` others have results."""
        above = dominators.path(self.parents, place)[1:]
        return [*self.arguments[place], *self.results[place][:count],
                *(name for it in above for name in self.arguments[it] + self.results[it])]

    def used(self, place, count):
        """Returns values that an operation of a block uses."""
        every = [name for names in (*self.arguments, *self.results) for name in names]
        return [self.chance.choice(every if self.chance.random() < ANY else self.visible(place, count))
                for _ in range(self.chance.randint(0, 2))]

    def operation(self, place, count, name, result="", successors=""):
        """Returns the line of an operation, sometimes with a region that uses values."""
        used = self.used(place, count)
        inside = ", ".join(self.used(place, count)) if self.chance.random() < 0.2 else None
        types = ", ".join(["i32"] * len(used))
        region = "" if inside is None else (f' ({{\n"t.in"({inside}) : '
                                            f'({", ".join(["i32"] * len(inside.split()))}) -> ()\n}})')
        head = f"{result} = " if result else ""
        return f'{head}"{name}"({", ".join(used)}){successors}{region} : ({types}) -> {"i32" if result else "()"}'

    def text(self):
        """Returns the module."""
        order = list(range(1, len(self.successors)))
        self.chance.shuffle(order)
        lines = ['"func.func"() <{function_type = (i32, i32) -> (), sym_name = "f"}> ({']
        for place in [0, *order]:
            arguments = ", ".join(f"{name}: i32" for name in self.arguments[place])
            lines.append(f"^b{place}" + f"({arguments})" * bool(arguments) + ":")
            for count, name in enumerate(self.results[place]):
                lines.append(self.operation(place, count, "t.a", name))
            labels = ", ".join(f"^b{it}" for it in self.successors[place])
            lines.append(self.operation(place, len(self.results[place]), "t.go" if labels else "t.end", "",
                                        f"[{labels}]" * bool(labels)))
        return "\n".join([*lines, "}) : () -> ()", ""])


def judged(text):
    """Returns what mlir-opt prints of a module, or None, and its complaint."""
    it = subprocess.run([TOOL, *FLAGS], input=text, capture_output=True, text=True, check=False)
    return (it.stdout if it.returncode == 0 else None), it.stderr


class Comparison:
    """Compares one function at a time, and counts."""

    def __init__(self, program, chance):
        self.program, self.chance, self.counts = program, chance, collections.Counter()

    def function(self):
        """Compares a random function. Returns what differs, or None."""
        made = Function(self.chance)
        text = made.text()
        printed, complaint = judged(text)
        self.counts["mlir-opt accepts" if printed else "mlir-opt refuses"] += 1
        try:
            with mlir_work.Session(printed or text, self.program, blocks=True) as it:
                if not printed:
                    return f"{complaint}\n{text}"
                if it.print().strip("\n") != printed.strip("\n"):
                    return f"printed differently:\n{printed}\n{it.print()}"
                return self.edits(it)
        except mlir_work.ModuleRefused as fault:
            if printed and all(made.is_reached):
                return f"{fault}\n{printed}"
            self.counts["refused for unreachable blocks alone"] += printed is not None
            return None

    def edits(self, it):
        """Makes random edits. Returns the module after them if mlir-opt finds that a value doesn't dominate a use."""
        for reply in it.commands([self.edit(it.operations()) for _ in range(EDITS)]):
            self.counts["edits"] += not reply.is_refused
        try:
            after = it.print()
        except mlir_work.FormBroken:
            self.counts["broken forms"] += 1
            return None
        printed, complaint = judged(after)
        reason = re.sub(r"'[^']*'|\d+", "_", complaint.partition("error: ")[2].partition("\n")[0])
        self.counts["edited, and accepted" if printed else f"edited, and refused: {reason}"] += 1
        return f"{complaint}\n{after}" if "does not dominate" in complaint else None

    def edit(self, operations):
        """Returns a random edit."""
        chance = self.chance
        one, other = (chance.choice(operations).number for _ in range(2))
        users = [op for op in operations if op.operands] or operations
        user = chance.choice(users)
        value = f"%v{other}.0" if chance.random() < 0.7 else f"%a{other}.0.0"
        return chance.choice([f"set-operand #{user.number} 0 {value}", f"set-operand #{user.number} 0 {value}",
                              f"move #{one} before #{other}", f"move #{one} after #{other}",
                              f"replace %v{one}.0 {value}", f"erase #{one}"])


def main():
    words = sys.argv[1:]
    if not words or words[0].startswith("-"):
        print(__doc__)
        return 0
    if not shutil.which(TOOL):
        print(f"{TOOL} isn't installed")
        return 0
    count, seed = (int(words[place]) if len(words) > place else value for place, value in ((1, 300), (2, 21)))
    comparison = Comparison(words[0], random.Random(seed))
    for number in range(count):
        wrong = comparison.function()
        if wrong:
            print(f"function {number} of seed {seed}:\n{wrong}")
            return 1
    print(f"{count} functions, seed {seed}: no difference")
    for what, those in sorted(comparison.counts.items()):
        print(f"{what}: {those}")
    return 0


if __name__ == "__main__":
    sys.exit(main())
