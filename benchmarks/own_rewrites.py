#!/usr/bin/env python3
"""Counts the instructions of a rewrite by user patterns and of one by `canon`, with callgrind: `rewrite` by ten
patterns, and `canon`, each beyond the same run without it, for each rewrite, without listeners.

usage: benchmarks/own_rewrites.py PROGRAM [SIZE..]

SIZE is how many operations the module has (10000 100000): sums with 0, which are all erased."""
import re
import sys

import checkout  # noqa: F401

from benchmarks.canon import DETACHED, module
from benchmarks.rewrites import counted

TEN = ["addi_zero arith.addi(%a, 0) => %a", "addi_of_subi arith.addi(arith.subi(%a, %b), %b) => %a",
       "addi_constants arith.addi(arith.addi(%a, c), d) => arith.addi(%a, add(c, d))",
       "subi_itself arith.subi(%a, %a) => 0", "subi_zero arith.subi(%a, 0) => %a",
       "subi_of_addi arith.subi(arith.addi(%a, %b), %b) => %a", "muli_zero arith.muli(%a, 0) => 0",
       "muli_one arith.muli(%a, 1) => %a", "andi_zero arith.andi(%a, 0) => 0", "ori_zero arith.ori(%a, 0) => %a"]
PATTERNS = "".join(f"pattern {one}\n" for one in TEN)
NAMES = ",".join(one.split()[0] for one in TEN)
MOST = 1_000_000


def cost(program, text, start, command):
    """Instructions for a rewrite of a command, and how many it made."""
    script = f"{text}// -----\n{start}"
    before, after = counted([program, "--brief"], script), counted([program, "--brief"], script + command + "\n")
    made = int(re.findall(rb"converged (\d+)", after[1])[-1])
    return (after[0] - before[0]) / made, made


def main():
    words = sys.argv[1:]
    if not words or words[0].startswith("-"):
        print(__doc__)
        return
    print("| Operations | `canon`, for a rewrite | `rewrite` by ten patterns, for a rewrite | Of `canon`'s |")
    print("|---|---|---|---|")
    for size in map(int, words[1:] or ["10000", "100000"]):
        text = module("addzero", size)
        canon, _ = cost(words[0], text, DETACHED, f"canon limit {MOST}")
        own, _ = cost(words[0], text, DETACHED + PATTERNS, f"rewrite {NAMES} limit {MOST}")
        print(f"| {size:,} | {canon:,.0f} | {own:,.0f} | {own / canon:.2f} |", flush=True)


if __name__ == "__main__":
    main()
