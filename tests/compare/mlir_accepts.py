#!/usr/bin/env python3
"""Has `mlir-opt-22` read each module that the program canonicalized or converted: it must accept it, as it accepted the
module before.

usage: tests/compare/mlir_accepts.py PROGRAM [COUNT [SEED]]

COUNT random functions (300 if it isn't given) with branches and loops, as tests/compare/rule_values.py makes them, are
each canonicalized and converted in every way that it knows. Prints how many modules were read; ends with status 1 if
one is refused, which is printed with what mlir-opt said."""
import random
import shutil
import subprocess
import sys

import checkout  # noqa: F401

from oracle.module import text_of
from tests.compare.rule_values import CONVERSIONS, Maker, by_program, renamed

TOOL = "mlir-opt-22"
FLAGS = ["--allow-unregistered-dialect", "--split-input-file", "--mlir-print-op-generic", "-o", "/dev/null"]
AT_ONCE = 200


def said(texts):
    """What mlir-opt says of modules: nothing if it accepts them all."""
    ran = subprocess.run([TOOL, *FLAGS], input="// -----\n".join(texts), text=True, capture_output=True, check=False)
    return ran.stderr if ran.returncode else ""


def refused(texts):
    """The first module that isn't accepted, with the message."""
    for start in range(0, len(texts), AT_ONCE):
        if said(texts[start : start + AT_ONCE]):
            return next((text, said([text])) for text in texts[start : start + AT_ONCE] if said([text]))
    return None


def made(program, module):
    """The texts of a module, canonicalized and converted."""
    for script in ["canon limit 100000", *CONVERSIONS]:
        found = by_program(program, module, script)
        if found is not None:
            yield text_of(found)


def main():
    words = sys.argv[1:]
    if not words or words[0].startswith("-"):
        print(__doc__)
        return 0
    if not shutil.which(TOOL):
        print(f"{TOOL} isn't installed")
        return 0
    program, count = words[0], int(words[1]) if len(words) > 1 else 300
    seed = int(words[2]) if len(words) > 2 else 13
    chance = random.Random(seed)
    before = [renamed(Maker(chance).module()) for _ in range(count)]
    wrong = refused([text_of(it) for it in before])
    after = [text for it in before for text in made(program, it)]
    wrong = wrong or refused(after)
    if wrong:
        print(*wrong, sep="\n")
        return 1
    print(f"{count} modules before and {len(after)} after, seed {seed}: {TOOL} accepts each")
    return 0


if __name__ == "__main__":
    sys.exit(main())
