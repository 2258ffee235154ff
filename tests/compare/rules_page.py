#!/usr/bin/env python3
"""Checks the examples of docs/CANONICALIZE.md with the oracle: at the operation that an example names, its rule turns
the first block into the second. With MLIR_OPT, `-canonicalize` has to turn both blocks into the same module, unless the
page says that it leaves the first one. Prints the number of examples; the status is 1 if one is wrong.

usage: tests/compare/rules_page.py [MLIR_OPT]"""
import pathlib
import re
import subprocess
import sys

import checkout  # noqa: F401

from oracle import rewrites
from oracle.module import read, text_of

PAGE = pathlib.Path(__file__).resolve().parents[2] / "docs" / "CANONICALIZE.md"
EXAMPLE = re.compile(r"^## (\d+) `[a-z-]+`: (.*?)^```mlir\n(.*?)^```\n\nat #(\d+):\n\n```mlir\n(.*?)^```$", re.M | re.S)
LEFT = "`-canonicalize` leaves it"


def printed(text):
    """Returns the text of a module as printed."""
    return text_of(read(text.encode()))


def canonical(tool, text):
    """Returns what `mlir-opt -canonicalize` turns a module into."""
    words = [tool, "--allow-unregistered-dialect", "--mlir-print-op-generic", "-canonicalize"]
    return subprocess.run(words, input=text, capture_output=True, text=True, check=True).stdout


def faults(rule, words, before, op, after, tool):
    """Yields what is wrong with an example."""
    found = rewrites.apply(read(before.encode()), int(rule), int(op))
    if found is None or text_of(found) != printed(after):
        yield f"rule {rule}: turns the first block into something else"
    if tool and (canonical(tool, before) == canonical(tool, after)) == (LEFT in " ".join(words.split())):
        yield f"rule {rule}: the page says otherwise of -canonicalize"


def main():
    if len(sys.argv) > 2 or sys.argv[1:2] in (["-h"], ["--help"]):
        print(__doc__)
        return 0 if sys.argv[1:] in (["-h"], ["--help"]) else 2
    examples = EXAMPLE.findall(PAGE.read_text())
    tool = sys.argv[1] if sys.argv[1:] else None
    wrong = [fault for example in examples for fault in faults(*example, tool)]
    print(*wrong, f"{len(examples)} examples, {len(wrong)} faults", sep="\n")
    return 1 if wrong or len(examples) != 24 else 0


if __name__ == "__main__":
    sys.exit(main())
