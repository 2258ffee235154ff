#!/usr/bin/env python3
"""Runs each script of examples/ over its module, compares the output with the expected one, and has mlir-opt accept
each module and its result.

usage: gate/check_examples.py [MLIR_OPT]     (mlir-opt-22; if it isn't installed, it isn't asked)

After an edit of an example, `--write` in place of MLIR_OPT writes its output again."""
import shutil
import subprocess
import sys

from checkout import ROOT
from mlir_work.cli import program
from mlir_work.script import joined
from tools import launch

EXAMPLES = ROOT / "examples"


def output(name):
    """What the program writes of an example."""
    files = [EXAMPLES / f"{name}.mlir", EXAMPLES / f"{name}.script"]
    return program.ran(joined(*(file.read_bytes() for file in files))).text


def last_module(written):
    """The text of the last module that an output has."""
    lines = written.splitlines()
    begin = max(place for place, line in enumerate(lines) if line.startswith('"builtin.module"'))
    end = next(place for place in range(begin, len(lines)) if lines[place].startswith("})"))
    return "".join(line + "\n" for line in lines[begin:end + 1])


def refused_by(tool, text):
    """The error of mlir-opt about a module, or nothing if it accepts the module."""
    it = subprocess.run([tool, "-o", "/dev/null"], input=text.encode(), capture_output=True, check=False)
    return it.stderr.decode().splitlines()[:1] or ["it is refused"] if it.returncode else []


def faults(name, tool):
    """What is wrong with an example."""
    written, wanted = output(name), (EXAMPLES / f"{name}.out").read_text()
    found = [] if written == wanted else [f"{name}: the output isn't that of {name}.out"]
    if tool:
        texts = {"module": (EXAMPLES / f"{name}.mlir").read_text(), "final module": last_module(wanted)}
        found += [f"{name}: the {which}: {line}" for which, text in texts.items() for line in refused_by(tool, text)]
    return found


def main():
    names = sorted(file.stem for file in EXAMPLES.glob("*.script"))
    if sys.argv[1:] == ["--write"]:
        for name in names:
            (EXAMPLES / f"{name}.out").write_text(output(name))
        return
    if len(sys.argv) > 2 or sys.argv[1:2] == ["--help"]:
        sys.exit(__doc__)
    launch.provide()
    tool = shutil.which(sys.argv[1] if len(sys.argv) == 2 else "mlir-opt-22")
    try:
        found = [fault for name in names for fault in faults(name, tool)]
    except program.Fault as fault:
        sys.exit(str(fault))
    print(*found, sep="\n", end="\n" if found else "")
    print(f"{len(names)} examples, {len(found)} faults; mlir-opt {'accepted the rest' if tool else 'was not asked'}")
    sys.exit(bool(found))


if __name__ == "__main__":
    main()
