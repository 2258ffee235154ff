#!/usr/bin/env python3
"""How many patterns have a form that the laws of crates/patterns_refinement ask for (`is_sound_form`): a pattern
creates no signed division, its new operations have operands of the required types, and each type variable in its
conditions is the type of a term. The last two are proved of each pattern that is read.

usage: tests/compare/sound_forms.py [FILE..]

Without FILE.., it looks at the patterns that ship with the program and at those of oracle/decided.txt. It prints how
many have such a form, and those that don't. It ends with status 1 if there is one that doesn't."""
import pathlib
import sys

import checkout  # noqa: F401

from oracle import passing, patterns

HERE = pathlib.Path(__file__).resolve().parent.parent.parent
KNOWN = [HERE / "patterns/arith.patterns", HERE / "oracle/decided.txt"]


def named(line):
    """A pattern's text with a name, if it has one, or else with a name of its own."""
    return line if line.split("(")[0].count(" ") else f"p {line}"


def has_types(pattern):
    """Whether each type variable of a condition is the type of a term."""
    terms = [it for side in (pattern.old, pattern.new) for it in patterns.walk(side)]
    had = {pattern.typed(it) for it in terms}
    pairs = [pattern.types.found(it) for pair in pattern.narrower for it in pair]
    spoken = set(pairs) | {pattern.typed(it) for it in pattern.conditions if it in pattern.type_of}
    return {it for it in spoken if it in pattern.types.stands} <= had


def is_sound_form(pattern):
    makes = {it.name for it in passing.operations(pattern.new)}
    return b"arith.divsi" not in makes and passing.is_kinded(pattern) and has_types(pattern)


def main():
    """Prints the counts, and returns whether each pattern has such a form."""
    is_so = True
    for file in map(pathlib.Path, sys.argv[1:] or KNOWN):
        lines = [line.split("//")[0].strip() for line in file.read_text().splitlines()]
        found = [patterns.read(named(line).encode()) for line in lines if line]
        wrong = [patterns.text_of(it) for it in found if not is_sound_form(it)]
        print(f"{file.name}: {len(found) - len(wrong)} of {len(found)}", *wrong, sep="\n  ")
        is_so = is_so and not wrong
    return is_so


if __name__ == "__main__":
    sys.exit(not main())
