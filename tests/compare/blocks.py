#!/usr/bin/env python3
"""Reads modules whose regions have several blocks, as `mlir-opt-22 --mlir-print-op-generic --mlir-print-local-scope`
printed them, and prints them again: the bytes must be the same. Then `canon` rewrites each module, and mlir-opt-22, if
it is installed, must accept the result.

usage: tests/compare/blocks.py PROGRAM FOLDER [PERCENT]

FOLDER has the modules (`*.mlir`). Prints each module that differs, is refused, or isn't accepted, and the counts; ends
with status 1 if fewer than PERCENT of the modules (98 if it isn't given) come back, or one isn't accepted. Modules of
dialects that mlir-opt doesn't have, such as FIR, are accepted as unregistered ones."""
import collections
import pathlib
import shutil
import subprocess
import sys

import checkout  # noqa: F401

from mlir_work import FormBroken, ModuleRefused, blocks
from mlir_work.reply import decoded, module_refused
from mlir_work.script import joined

TOOL = "mlir-opt-22"
FLAGS = ["--allow-unregistered-dialect", "--mlir-print-op-generic", "--mlir-print-local-scope", "-o", "/dev/null"]
SCRIPT = b"print\ncanon limit 1000000\nprint ids\nreport diagnostics\n"


def ran(program, module):
    """The replies of a run, as text, or the refusal of the module."""
    words = [program, "--brief", "--opaque"]
    it = subprocess.run(words, input=joined(module, SCRIPT), stdout=subprocess.PIPE, check=False)
    out = decoded(it.stdout)
    return out, module_refused(out)


def parts(out):
    """The module before, the reply to `canon`, the module after with its numbers, and the diagnostics."""
    before, _, rest = out.removeprefix("1 ok\n").partition("\n2 ")
    reply, _, rest = rest.partition("\n3 ok\n")
    after, _, rows = rest.partition("\n4 ok\n")
    return before + "\n", reply, after + "\n", rows


def complaint(text):
    """What mlir-opt says about a module, or nothing if it accepts it."""
    data = text.encode("utf-8", "surrogateescape")
    it = subprocess.run([TOOL, *FLAGS], input=data, stderr=subprocess.PIPE, check=False)
    return it.stderr.decode("utf-8", "replace").split("\n")[0] if it.returncode else ""


class Measure:
    """Counts what becomes of modules."""

    def __init__(self, program):
        self.program, self.counts, self.has_tool = program, collections.Counter(), shutil.which(TOOL)

    def say(self, file, words):
        """Counts and prints what is wrong with a module."""
        print(f"{file.name}: {words}")

    def module(self, file):
        """Reads, prints and rewrites a module."""
        text, counts = file.read_bytes(), self.counts
        counts["modules"] += 1
        counts["refused without --blocks"] += ran(self.program, text)[1] is not None
        try:
            nested = blocks.nest(text)
            out, refused = ran(self.program, nested)
            if refused:
                raise nested.refusal(refused)
            before, reply, after, rows = parts(out)
            flat = blocks.flatten(before) if blocks.is_nested(before) else before
            after = blocks.flatten(after, True)
        except (ModuleRefused, FormBroken) as fault:
            self.say(file, fault)
            return
        is_same = flat.strip("\n") == decoded(text).strip("\n")
        counts["printed byte for byte"] += is_same
        if not is_same:
            self.say(file, "differs")
        counts["with rows of diagnostics"] += bool(rows)
        self.rewritten(file, text, reply, after)

    def rewritten(self, file, text, reply, after):
        """Has mlir-opt read a module after `canon`, if it accepts it before."""
        rewrites = int(reply.split()[1])
        self.counts["rewrites"] += rewrites
        self.counts["rewritten"] += rewrites > 0
        if not rewrites or not self.has_tool:
            return
        if complaint(decoded(text)):
            self.counts["rewritten, and not accepted before"] += 1
            return
        said = complaint(after)
        self.counts["rewritten, and accepted after"] += not said
        self.counts["wrong"] += bool(said)
        if said:
            self.say(file, said)


def main():
    words = sys.argv[1:]
    if len(words) < 2:
        print(__doc__)
        return 0
    measure, least = Measure(words[0]), float(words[2]) if len(words) > 2 else 98
    for file in sorted(pathlib.Path(words[1]).glob("*.mlir")):
        measure.module(file)
    counts = measure.counts
    for what in counts:
        print(f"{what}: {counts[what]}")
    return int(counts["printed byte for byte"] * 100 < least * counts["modules"] or counts["wrong"] > 0)


if __name__ == "__main__":
    sys.exit(main())
