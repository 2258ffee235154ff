#!/usr/bin/env python3
"""Has `mlir-opt-22` read each module of tests/golden/opaque that the program reads with `--opaque`, as written and as
the program prints it canonicalized: it must accept the second if it accepts the first.

usage: tests/compare/opaque_accepts.py PROGRAM

Prints how many modules were accepted before and after, and each that is refused after and not before, with what
mlir-opt says of it and whether it accepts what the program prints without `canon`; ends with status 1 if there is
one."""
import pathlib
import re
import shutil
import subprocess
import sys

import checkout  # noqa: F401

from tests.generate import opaque_cases

TOOL = "mlir-opt-22"
FLAGS = ["--allow-unregistered-dialect", "--mlir-print-op-generic", "-o", "/dev/null"]
DIVIDER = b"\n// -----\n"
REPLIES = re.compile(rb"1 converged ([0-9]+)\n2 ok\n|1 ok\n")


def said(text):
    """What mlir-opt says of a module, where it refuses it, and else nothing."""
    ran = subprocess.run([TOOL, *FLAGS], input=text, capture_output=True, check=False)
    return (ran.stderr.decode("utf-8", "replace") or f"status {ran.returncode}") if ran.returncode else ""


def printed(program, text, *lines):
    """How often the program rewrote a module by some lines, and what it prints of it then; none if it doesn't read
    it."""
    script = "".join(f"{line}\n" for line in (*lines, "print")).encode()
    ran = subprocess.run([program, "--brief", "--opaque"], input=text + DIVIDER + script, capture_output=True,
                         check=False)
    if ran.returncode == 3:
        return None
    replies = REPLIES.match(ran.stdout)
    if ran.returncode or not replies:
        raise ValueError(f"{program}: status {ran.returncode}, {ran.stdout[:200]!r}")
    return int(replies[1] or 0), ran.stdout[replies.end():]


def refused_after(program, name, text, after):
    """The report about a module that is refused after and not before."""
    told = said(after)
    _, before = printed(program, text)
    alike = "refused" if said(before) else "accepted"
    return f"{name}: printed without canon it is {alike}; canonicalized it is refused:\n{told}" if told else None


def main():
    words = sys.argv[1:]
    if len(words) != 1 or words[0].startswith("-"):
        print(__doc__)
        return 0
    if not shutil.which(TOOL):
        print(f"{TOOL} isn't installed")
        return 0
    program, read, rewritten, before, wrong = str(pathlib.Path(words[0]).resolve()), 0, 0, 0, []
    for module in opaque_cases.modules():
        found = printed(program, module.text, "canon limit 100000")
        if found is None:
            continue
        read, rewritten = read + 1, rewritten + (found[0] > 0)
        if said(module.text):
            continue
        before += 1
        told = refused_after(program, module.name, module.text, found[1])
        wrong += [told] if told else []
    print(*wrong, sep="\n", end="\n" if wrong else "")
    print(f"{read} modules are read, {rewritten} of them rewritten: of {before} that {TOOL} accepts before it accepts "
          f"{before - len(wrong)} after")
    return 1 if wrong else 0


if __name__ == "__main__":
    sys.exit(main())
