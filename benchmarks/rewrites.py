#!/usr/bin/env python3
"""Counts what canonicalizing, converting or sweeping modules costs: instructions of the built program for the command,
beyond the same run without it, by shape of the module (shapes.py) and number of operations, and how much more it is for
ten times the operations. callgrind counts, so that the figures don't depend on what else the machine does; with
`--time` the program's processor time is taken in its place, the least of five runs.

usage: benchmarks/rewrites.py canon|convert|sweep [--time] [--listeners] PROGRAM [SIZES [SHAPES]]
       benchmarks/rewrites.py sweep --beside MLIR_OPT PROGRAM [SIZES [SHAPES]]

SIZES are numbers of operations with commas (1000,10000), SHAPES names of shapes (all). Listeners are detached first but
with `--listeners`. With `--beside` it counts reading, `sweep` and printing with all seven listeners, and that tool's
`-symbol-dce`, each less the same program's run on an empty module."""
import argparse
import re
import resource
import subprocess

import checkout  # noqa: F401

from benchmarks import shapes
from oracle.script import BOXES

SHAPES = {"canon": shapes.CANON, "convert": shapes.CONVERT, "sweep": shapes.SWEEP}
COMMANDS = {"canon": "canon limit 1000000", "sweep": "sweep"}
ANSWER = re.compile(r"^\d+ ((?:converged|limit|converted|swept|refused).*)$", re.M)
SYMBOL_DCE = ["-symbol-dce", "-allow-unregistered-dialect", "-mlir-print-op-generic", "-mlir-disable-threading"]


def counted(words, text):
    """The instructions of a run, and what it wrote."""
    words = ["valgrind", "--tool=callgrind", "--callgrind-out-file=/dev/null", *words]
    ran = subprocess.run(words, input=text.encode(), capture_output=True)
    return int(re.search(rb"Collected : (\d+)", ran.stderr)[1]), ran.stdout


def timed(words, text):
    """The least nanoseconds of some runs, and what one wrote."""
    least, out = None, b""
    for _ in range(5):
        before = resource.getrusage(resource.RUSAGE_CHILDREN)
        out = subprocess.run(words, input=text.encode(), capture_output=True).stdout
        after = resource.getrusage(resource.RUSAGE_CHILDREN)
        taken = after.ru_utime + after.ru_stime - before.ru_utime - before.ru_stime
        least = taken if least is None else min(least, taken)
    return least * 1e9, out


def asked(command, shape, size):
    """A module of a shape, and the line of the command for it."""
    made = SHAPES[command][shape](size)
    return made if command == "convert" else (made, COMMANDS[command])


def alone(words, how):
    """Prints the command's cost by shape and size."""
    kept = BOXES if words.listeners else ()
    detached = "".join(f"detach {kind}\n" for kind in BOXES if kind not in kept)
    unit = "nanoseconds" if words.time else "instructions"
    print(f"{unit} an operation for `{words.command}`, with {len(kept)} listeners")
    print("| Shape | Answer | " + " | ".join(f"{size:,}" for size in words.sizes) + " | Growth |")
    print("|---|---|" + "---|" * (len(words.sizes) + 1))
    for shape in words.shapes:
        costs, reply = [], ""
        for size in words.sizes:
            module, line = asked(words.command, shape, size)
            text, run = f"{module}// -----\n{detached}", [words.program, "--brief"]
            with_it, out = how(run, f"{text}{line}\nbegin\n")
            costs.append((with_it - how(run, f"{text}begin\n")[0]) / size)
            reply = ANSWER.search(out.decode())[1]
        growth = costs[-1] * words.sizes[-1] / (costs[0] * words.sizes[0])
        print(f"| {shape} | {reply} | " + " | ".join(f"{it:,.0f}" for it in costs) + f" | {growth:.1f} |", flush=True)


def beside(words):
    """Prints what sweeping costs here and in another tool, by shape and size."""
    ours, theirs = [words.program, "--brief"], [words.beside, *SYMBOL_DCE]
    script = "// -----\nsweep\nprint\n"
    begun = counted(ours, shapes.EMPTY + script)[0], counted(theirs, shapes.EMPTY)[0]
    print("| Shape | Operations | Here | `mlir-opt` |\n|---|---|---|---|")
    for shape in words.shapes:
        for size in words.sizes:
            text = shapes.SWEEP[shape](size)
            here, there = counted(ours, text + script)[0] - begun[0], counted(theirs, text)[0] - begun[1]
            print(f"| {shape} | {size:,} | {here / size:,.0f} | {there / size:,.0f} |", flush=True)


def main():
    as_it_stands = argparse.RawDescriptionHelpFormatter
    reader = argparse.ArgumentParser(description=__doc__, usage=argparse.SUPPRESS, formatter_class=as_it_stands)
    reader.add_argument("command", choices=SHAPES)
    reader.add_argument("--time", action="store_true")
    reader.add_argument("--listeners", action="store_true")
    reader.add_argument("--beside")
    reader.add_argument("program")
    reader.add_argument("sizes", nargs="?", default="1000,10000")
    reader.add_argument("shapes", nargs="?")
    words = reader.parse_args()
    if words.beside and words.command != "sweep":
        reader.error("--beside is for sweep alone")
    words.sizes = [int(size) for size in words.sizes.split(",")]
    words.shapes = words.shapes.split(",") if words.shapes else list(SHAPES[words.command])
    if words.beside:
        beside(words)
    else:
        alone(words, timed if words.time else counted)


if __name__ == "__main__":
    main()
