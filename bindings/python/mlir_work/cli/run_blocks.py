"""Runs the program for scripts over modules whose regions have several blocks: `mlir-work run --blocks`.

A module that the program refuses with 8 or 9 is nested. The modules that the run prints have blocks again. A last
`print ids`, which isn't shown, tests that the commands kept the nested form."""
import re
import subprocess
import sys

from .. import blocks
from ..errors import FormBroken, ModuleRefused
from ..reply import decoded, lines_of
from ..script import DIVIDER, joined
from . import nesting, program
from .listing import COMMAND

# Options that don't go with --blocks.
EXCLUDED = {"--interactive": "--interactive", "json": "--format json", "--format=json": "--format json"}
OUTPUTS = ("-o", "--output")
LAST = re.compile(r"\d+ (ok|refused .*)")
REFUSED = re.compile(r"module refused (\d+) (\w+) at (\d+)(.*)")


def nested(name, module, words):
    """Returns a module, nested if the program refuses it with 8 or 9."""
    refused = program.ran(joined(module), *[program.OPAQUE] * (program.OPAQUE in words)).refused
    if not refused or refused.number not in blocks.NESTABLE:
        return module
    made, said = nesting.nested(name, module)
    print(*said, sep="\n", file=sys.stderr)
    return module if made is None else made


def parted(text, is_split):
    """Returns the modules of a text, and what is after them: a divider and a script, unless there are several
    modules."""
    modules = re.split(rb"(?m)^// -----\n", text)
    if is_split:
        return modules, b""
    return modules[:1], b"".join(DIVIDER + b"\n" + it for it in modules[1:])


def output_of(words):
    """Returns the words without the output file, and its name, or None for standard output."""
    kept, name = [], None
    coming = iter(words)
    for word in coming:
        option, _, value = word.partition("=")
        if option in OUTPUTS:
            name = value or next(coming, None)
        else:
            kept.append(word)
    return kept, name


def moved(line, module):
    """Returns a line of the output, with the place of a refusal of the module in its source."""
    found = REFUSED.fullmatch(line)
    if not found or not isinstance(module, blocks.Nested):
        return line
    there = module.refusal(ModuleRefused(int(found[1]), found[2], int(found[3])))
    return f"module refused {there.number} {there.word} at {there.at}{found[4]}"


def shown(lines, module):
    """Returns the lines of the output on a module, with blocks and without the last `print ids`, and what is wrong with
    its form."""
    ends = [place for place, line in enumerate(lines) if LAST.fullmatch(line)]
    faults = []
    if ends and lines[ends[-1]].endswith(" ok"):
        text = "".join(line + "\n" for line in lines[ends[-1] + 1:])
        try:
            blocks.check(text, True)
        except FormBroken as fault:
            faults.append(fault)
    elif ends:
        faults.append(f"the form of the blocks wasn't tested: {lines[ends[-1]]}")
    found, broken = nesting.flattened([moved(line, module) for line in (lines[:ends[-1]] if ends else lines)])
    return found, faults or broken


def parts_of(lines, count):
    """Returns the lines of an output by modules. Dividers are between them, if there are several."""
    found = [[]]
    for line in lines:
        if count > 1 and line == DIVIDER.decode():
            found.append([])
        else:
            found[-1].append(line)
    return found


def ran(text, words):
    """Returns the status and the output of the program on a text, with a last `print ids`."""
    command = program.started()
    it = subprocess.run([*command.words, *words, "-e", COMMAND], input=text, stdout=subprocess.PIPE,
                        env=command.environment, check=False)
    return it.returncode, decoded(it.stdout)


def main(name, text, words):
    """Runs the program on the text of a file with modules, and returns the status: at least 1 if a module isn't in the
    form after the run. Raises `Wrong` if an option doesn't go with `--blocks`."""
    wrong = next((EXCLUDED[it] for it in words if it in EXCLUDED), None)
    if wrong:
        raise program.Wrong(f"{program.BLOCKS} and {wrong} exclude each other: leave one of them out")
    words, output = output_of(words)
    modules, script = parted(text, program.SPLIT in words)
    made = [nested(name, module, words) for module in modules]
    status, said = ran((DIVIDER + b"\n").join(made) + script, words)
    parts, faults = [], []
    for lines, module in zip(parts_of(lines_of(said), len(made)), made):
        found, wrong = shown(lines, module)
        parts.append("".join(line + "\n" for line in found))
        faults += wrong
    data = f"{DIVIDER.decode()}\n".join(parts).encode("utf-8", "surrogateescape")
    if output is None:
        sys.stdout.buffer.write(data)
        sys.stdout.buffer.flush()
    else:
        with open(output, "wb") as file:
            file.write(data)
    print(*(f"{name}: {fault}" for fault in faults), sep="\n", end="\n" * bool(faults), file=sys.stderr)
    return max(status, int(bool(faults)))
