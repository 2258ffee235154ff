#!/usr/bin/env python3
"""Compares `report symbols` and `sweep` with `mlir-opt-22` on the modules of tests/golden/opaque that the program reads
with `--opaque`: where mlir-opt finds the symbol of a reference, the row of the reference isn't `unresolved`; and what
its pass `-symbol-dce` leaves, `sweep` leaves too.

usage: tests/compare/opaque_symbols.py PROGRAM

Prints how many references mlir-opt resolves, how many of them have a row of `use` and how many one of `unknown`, how
many symbols both leave, and what is wrong; ends with status 1 if something is."""
import collections
import pathlib
import re
import shutil
import subprocess
import sys

import checkout  # noqa: F401

from tests.generate import opaque_cases

TOOL = "mlir-opt-22"
DIVIDER = b"\n// -----\n"
# What its pass says of each use of a symbol that it finds, with the line of the operation that refers.
FOUND = re.compile(r"^<stdin>:(\d+):\d+: remark: found use of symbol : (@.*?) : \".*\"$", re.M)
ROW = re.compile(r"^(use|unresolved|unknown) #(\d+) (@.*?)(?: #\d+)?$", re.M)
NUMBER = re.compile(r" // #(\d+)$")
NAMES = re.compile(r"\bsym_name = (\"(?:[^\"\\]|\\.)*\")")


def asked(program, text, *lines):
    """What the program writes for lines over a module; none if it doesn't read it."""
    given = text + DIVIDER + "".join(f"{line}\n" for line in lines).encode()
    ran = subprocess.run([program, "--brief", "--opaque"], input=given, capture_output=True, check=False)
    if ran.returncode == 3:
        return None
    if ran.returncode > 1:
        raise ValueError(f"{program}: status {ran.returncode}, {ran.stdout[:200]!r}")
    return ran.stdout.decode()


def tool(text, *flags):
    """What mlir-opt prints and says of a module; none if it refuses it."""
    words = [TOOL, "--allow-unregistered-dialect", "--mlir-print-op-generic", "--mlir-print-local-scope", *flags]
    ran = subprocess.run(words, input=text.encode(), capture_output=True, check=False)
    return None if ran.returncode else (ran.stdout.decode(), ran.stderr.decode("utf-8", "replace"))


def resolved(text):
    """The references that mlir-opt resolves in a text with numbers: the number of the operation, and the reference."""
    found = tool(text, "--test-symbol-uses")
    if found is None:
        return None
    numbers = [NUMBER.search(line) for line in text.splitlines()]
    return {(int(numbers[int(line) - 1][1]), path) for line, path in FOUND.findall(found[1])}


def references_told(program, module, counts):
    """What is wrong with the rows of a module's references."""
    out = asked(program, module.text, "report symbols", "print ids")
    if out is None:
        return []
    rows, _, text = out.partition("2 ok\n")
    known = resolved(text)
    if known is None:
        counts["modules that it refuses"] += 1
        return []
    words = {(int(op), path): word for word, op, path in ROW.findall(rows)}
    counts["modules"] += 1
    for one in known:
        counts[words.get(one, "none")] += 1
    # (for `@a::@b` mlir-opt reports both parts by the whole path)
    return [f"{module.name}: #{op} {path} is {words.get((op, path))}, and {TOOL} resolves it"
            for op, path in sorted(known) if words.get((op, path)) not in ("use", "unknown")]


def sweep_told(program, module, counts):
    """What is wrong with what `sweep` leaves of a module with private symbols."""
    if b'"private"' not in module.text:
        return []
    before, swept = asked(program, module.text, "print"), asked(program, module.text, "sweep", "print")
    left = None if before is None else tool(before.removeprefix("1 ok\n"), "--symbol-dce")
    if left is None:
        return []
    wanted, found = (collections.Counter(NAMES.findall(it)) for it in (left[0], swept))
    counts["symbols left"] += sum(wanted.values())
    return [f"{module.name}: sweep takes {name}, and -symbol-dce doesn't" for name in sorted((wanted - found).keys())]


def main():
    words = sys.argv[1:]
    if len(words) != 1 or words[0].startswith("-"):
        print(__doc__)
        return 0
    if not shutil.which(TOOL):
        print(f"skipped: {TOOL} isn't installed")
        return 0
    program, counts, wrong = str(pathlib.Path(words[0]).resolve()), collections.Counter(), []
    for module in opaque_cases.modules():
        wrong += references_told(program, module, counts) + sweep_told(program, module, counts)
    print(*wrong, sep="\n", end="\n" if wrong else "")
    found = sum(counts[word] for word in ("use", "unknown", "unresolved", "none"))
    print(f"{counts['modules']} modules are read by both, {counts['modules that it refuses']} are refused by {TOOL}")
    print(f"of {found} references that it resolves {counts['use']} have a row of use, {counts['unknown']} of unknown")
    print(f"of {counts['symbols left']} symbols that -symbol-dce leaves sweep takes "
          f"{sum('sweep takes' in it for it in wrong)}")
    return 1 if wrong else 0


if __name__ == "__main__":
    sys.exit(main())
