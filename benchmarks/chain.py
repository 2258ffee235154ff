#!/usr/bin/env python3
"""Times a `set-operand` of a script that makes a chain of 1,000 known values known again, through a built program,
listings off: the first operand of the first sum is set, and each value is known by the one before it. Microseconds of
processor time for a command and for a link of the chain, with no listener, with that of constants alone and with all
seven, as benchmarks/commands.py takes them.

usage: benchmarks/chain.py PROGRAM [ROUNDS [COMMANDS]]"""
import sys

import checkout  # noqa: F401

from benchmarks import marks
from benchmarks.edit_scripts import Chain

KEPT = {"0": (), "constants": ("constants",), "7": marks.BOXES}


def main():
    program, *numbers = sys.argv[1:]
    rounds, edits = [*map(int, numbers), *(5, 4000)[len(numbers):]]
    chain = Chain(1000)
    print("| Listeners | A command | A link |")
    print("|---|---|---|")
    with marks.library() as library:
        for label, kinds in KEPT.items():
            script, skipped = marks.edited(chain.text().encode(), kinds, chain.script(edits))
            cost, refusals = marks.command_cost(program, script, skipped, rounds, library)
            more = f" ({refusals} refused)" if refusals else ""
            print(f"| {label} | {cost:.2f}{more} | {cost / chain.links:.3f} |", flush=True)


if __name__ == "__main__":
    main()
