#!/usr/bin/env python3
"""Counts what a report costs: instructions of the built program for one, as the difference of a run of 20 and one of 10
of them, by kind and number of operations, and how many that is a row. callgrind counts, so that the figures don't
depend on what else the machine does; reading the line of the report is among them.

usage: benchmarks/report_costs.py [--of THING] PROGRAM [SIZES [SHAPES]]

SIZES are numbers of operations with commas (1000,10000), SHAPES names of shapes (all): functions of 20 sums each, of
which each calls the one before it (`calls`); the same, private (`private`); and one function of sums that refers to no
symbol (`sums`). With `--of` the reports are those of an operation or a value, as `#3` or `%v3.0`."""
import argparse
import re

import checkout  # noqa: F401

from benchmarks import shapes
from benchmarks.rewrites import counted
from oracle.script import BOXES

PRIVATE = ', sym_visibility = "private"'
SUMS, TIMES = 20, 10


def function(number, more):
    """A function of sums, which calls the one before it, or none if it is the first."""
    called = f'  "func.call"() <{{callee = @f{number - 1}}}> : () -> ()\n' if number else ""
    sums = "".join("  " + shapes.added(f"%x{k}", f"%x{k - 1}" if k else "%a", "%a") for k in range(SUMS))
    return (f'"func.func"() <{{function_type = (i32) -> (), sym_name = "f{number}"{more}}}> ({{\n^bb0(%a: i32):\n'
            f'{called}{sums}  "func.return"() : () -> ()\n}}) : () -> ()\n')


def calls(n, more=""):
    return "".join(function(number, more) for number in range(n // (SUMS + 3)))


def private(n):
    """All private but the last, from which each is reached."""
    count = n // (SUMS + 3)
    return "".join(function(number, PRIVATE if number + 1 < count else "") for number in range(count))


SHAPES = {"calls": calls, "private": private, "sums": shapes.flat}


def cost(program, module, line):
    """Instructions of one report, and its rows."""
    few, out = counted([program, "--brief"], f"{module}// -----\n" + f"{line}\n" * TIMES)
    many = counted([program, "--brief"], f"{module}// -----\n" + f"{line}\n" * (2 * TIMES))[0]
    rows = [row for row in out.decode().splitlines() if not re.match(r"\d+ ", row)]
    return (many - few) / TIMES, len(rows) // TIMES


def main():
    parser = argparse.ArgumentParser(description=__doc__, formatter_class=argparse.RawDescriptionHelpFormatter)
    parser.add_argument("--of", metavar="THING")
    parser.add_argument("program")
    parser.add_argument("sizes", nargs="?", default="1000,10000", type=lambda it: [int(one) for one in it.split(",")])
    parser.add_argument("shapes", nargs="?", default=list(SHAPES), type=lambda it: it.split(","))
    words = parser.parse_args()
    print("| Shape | Report | " + " | ".join(f"{size:,}" for size in words.sizes) + " |")
    print("|---|---|" + "---|" * len(words.sizes))
    for shape in words.shapes:
        for kind in BOXES:
            line, cells = f"report {kind}" + (f" of {words.of}" if words.of else ""), []
            for size in words.sizes:
                taken, rows = cost(words.program, SHAPES[shape](size), line)
                cells.append(f"{taken:,.0f}" + (f", {rows:,} rows, {taken / rows:,.0f} a row" if rows else ", no row"))
            print(f"| {shape} | {kind} | " + " | ".join(cells) + " |", flush=True)


if __name__ == "__main__":
    main()
