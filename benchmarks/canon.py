#!/usr/bin/env python3
"""Counts what canonicalization alone costs, in instructions an operation by callgrind: of `canon` beyond the same run
without it, without listeners and with all seven, and of another tool's `-canonicalize` beyond the same run without it,
on the same modules. Everything is in a private function, which `-symbol-dce` removes, so nothing is printed.

usage: benchmarks/canon.py [--beside MLIR_OPT] [--dearest COUNT] PROGRAM [SIZE [SHAPES]]

SIZE is how many operations a module has (3000), SHAPES are names with commas (addzero,foldchain,deadchain,flat). With
`--dearest`, of a program that has the names of its functions, those that take most for an operation are listed
for each shape, without listeners and with all: by themselves, and with all that they call."""
import argparse
import re
import subprocess
import tempfile

import checkout  # noqa: F401

from benchmarks import shapes
from benchmarks.rewrites import COMMANDS, counted
from oracle.script import BOXES

DETACHED = "".join(f"detach {kind}\n" for kind in BOXES)
THERE = ["-symbol-dce", "--mlir-disable-threading", "-"]
LINE = re.compile(r"^\s*([\d,]+) \([^)]*\)\s+\S+?:(.+?)(?: \[[^\]]*\])?$", re.M)


def module(shape, size):
    return shapes.CANON[shape](size).replace('sym_name = "f"', 'sym_name = "f", sym_visibility = "private"')


def here(program, text, start, size):
    """Instructions an operation of `canon` after some lines of a script."""
    script = f"{text}// -----\n{start}"
    runs = [counted([program, "--brief"], script + more)[0] for more in ("", COMMANDS["canon"] + "\n")]
    return (runs[1] - runs[0]) / size


def there(tool, text, size):
    """Those of another tool's pass."""
    runs = [counted([tool, *more, *THERE], text)[0] for more in ([], ["-canonicalize=region-simplify=disabled"])]
    return (runs[1] - runs[0]) / size


def profile(program, script):
    """What each function takes in a run: by itself, and with all that it calls."""
    with tempfile.TemporaryDirectory() as room:
        kept = f"{room}/out"
        words = ["valgrind", "--tool=callgrind", f"--callgrind-out-file={kept}", program, "--brief"]
        subprocess.run(words, input=script.encode(), capture_output=True, check=True)
        told = []
        for inclusive in ("no", "yes"):
            words = ["callgrind_annotate", f"--inclusive={inclusive}", "--threshold=100", kept]
            said = subprocess.run(words, capture_output=True, text=True, check=True).stdout
            told.append({name: int(count.replace(",", "")) for count, name in LINE.findall(said)})
        return told


def dearest(program, text, start, size, most):
    """Prints the functions that take most for an operation, beyond the same run without `canon`. Functions that call
    nearly all of it aren't printed."""
    script = f"{text}// -----\n{start}"
    without, with_it = profile(program, script), profile(program, script + COMMANDS["canon"] + "\n")
    whole = sum(with_it[0].values()) - sum(without[0].values())
    for how, before, after in zip(("by themselves", "with all that they call"), without, with_it):
        taken = sorted((after[name] - before.get(name, 0), name) for name in after)[::-1]
        told = [(count / size, name) for count, name in taken if count < 0.9 * whole]
        print(f"  {how}: " + ", ".join(f"`{name}` {count:,.0f}" for count, name in told[:most]), flush=True)


def main():
    as_it_stands = argparse.RawDescriptionHelpFormatter
    reader = argparse.ArgumentParser(description=__doc__, usage=argparse.SUPPRESS, formatter_class=as_it_stands)
    reader.add_argument("--beside")
    reader.add_argument("--dearest", type=int, default=0)
    reader.add_argument("program")
    reader.add_argument("size", nargs="?", type=int, default=3000)
    reader.add_argument("shapes", nargs="?", default="addzero,foldchain,deadchain,flat")
    words = reader.parse_args()
    print("| Shape | Here | With seven listeners |" + (" Beside |" if words.beside else ""))
    print("|---|---|---|" + ("---|" if words.beside else ""))
    for shape in words.shapes.split(","):
        text = module(shape, words.size)
        costs = [here(words.program, text, start, words.size) for start in (DETACHED, "begin\ncommit\n")]
        if words.beside:
            costs.append(there(words.beside, text, words.size))
        print(f"| {shape} | " + " | ".join(f"{cost:,.0f}" for cost in costs) + " |", flush=True)
        for start in (DETACHED, "begin\ncommit\n") if words.dearest else ():
            dearest(words.program, text, start, words.size, words.dearest)


if __name__ == "__main__":
    main()
