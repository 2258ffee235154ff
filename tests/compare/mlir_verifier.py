#!/usr/bin/env python3
"""Compares the verifier's rules with MLIR's verifier: prints each module of the table of
tests/generate/verifier_cases.py, written by hand or one change away from a right one, that one of the two finds fault
with and the other doesn't.

usage: tests/compare/mlir_verifier.py MLIR_OPT"""
import subprocess
import sys

import checkout  # noqa: F401

from oracle import examples, module, variations, verifier


def texts():
    for broken, _, mended in examples.RULES.values():
        yield broken.encode()
        yield mended.encode()
    for _, _, text, _ in examples.SILENCED + examples.UNLISTED + examples.EDGES:
        yield text.encode()
    yield from variations.texts()


if len(sys.argv) != 2:
    sys.exit(__doc__)
seen, differ = 0, {True: 0, False: 0}
for text in texts():
    rows = verifier.diagnostics(module.read(text))
    it = subprocess.run([sys.argv[1], "--allow-unregistered-dialect", "--mlir-print-op-generic"], input=text,
                        capture_output=True)
    seen += 1
    if bool(rows) != bool(it.returncode):
        differ[bool(rows)] += 1
        error = [line for line in it.stderr.decode().splitlines() if "error:" in line]
        print(" ".join(rows) or "no row", "|", (error or ["no error"])[0])
print(f"{seen} modules; {differ[True]} have rows and are accepted, {differ[False]} have none and are refused")
