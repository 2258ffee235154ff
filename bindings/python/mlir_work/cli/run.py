"""Runs the program for scripts, `mlir_work`, with its own options: `mlir-work run --help` lists them. If the module
isn't in generic form, mlir-opt converts it first. With `--blocks`, modules whose regions have several blocks are nested
first, and printed with blocks (run_blocks.py)."""
import os
import re
import subprocess
import sys
import tempfile

from ..script import DIVIDER
from . import generic, program, run_blocks, table

# Options with which the program doesn't read standard input as a whole.
NO_INPUT = {"-h", "--help", "-V", "--version", "--interactive"}
# What begins an operation in custom form: a bare word, perhaps after results. Comments and aliases may be before it.
CUSTOM = re.compile(rb"(?:\s+|//[^\n]*\n|[#!][^\n]*=[^\n]*\n)*(?:%[\w:, %]*=\s*)?[A-Za-z_]")


def is_custom(text):
    """Whether a module begins with an operation in custom form."""
    return CUSTOM.match(text) is not None


def place_of_module(words):
    """Returns the place of the module's file in the arguments of the program, or None if they name none."""
    takes = {name for row in table.rows("options") if row["takes"] for name in (row["word"], row["letter"]) if name}
    place = 0
    while place < len(words):
        word = words[place]
        if word in takes:
            place += 2
        elif word.startswith("-") and word != "-":
            place += 1
        else:
            return place
    return None


def converted(name, text, is_split):
    """Returns the text of a file with its module, or all its modules, in generic form; or None if that isn't needed or
    can't be done."""
    lines = text.split(DIVIDER + b"\n")
    count = len(lines) if is_split else 1
    if not any(is_custom(module) for module in lines[:count]):
        return None
    made, told = [], []
    for module in lines[:count]:
        text, told = generic.tried(name, module) if is_custom(module) else (module, told)
        if text is None:
            break
        made.append(text)
    print(*told, sep="\n", end="\n" * bool(told), file=sys.stderr)
    return (DIVIDER + b"\n").join([*made, *lines[count:]]) if len(made) == count else None


def in_generic_form(words, place, folder):
    """Returns the arguments of the program, with a file in generic form in place of the module's file, which may be in
    another form."""
    try:
        text = program.read(words[place])
    except OSError:
        return words
    made = converted(words[place], text, program.SPLIT in words)
    if made is None:
        return words
    file = os.path.join(folder, os.path.basename(words[place]))
    with open(file, "wb") as out:
        out.write(made)
    return [*words[:place], file, *words[place + 1:]]


def standard_input(words):
    """Returns standard input, with its module in generic form; or None if the program is to read it."""
    if NO_INPUT & set(words) or sys.stdin.isatty():
        return None
    text = sys.stdin.buffer.read()
    made = converted("-", text, program.SPLIT in words)
    return text if made is None else made


def with_blocks(words):
    """Runs the program with `--blocks`, and returns the status."""
    words = [word for word in words if word != program.BLOCKS]
    place = place_of_module(words)
    name = "-" if place is None else words[place]
    text = program.read(name)
    made = converted(name, text, program.SPLIT in words)
    rest = words if place is None else [*words[:place], *words[place + 1:]]
    return run_blocks.main(name, text if made is None else made, rest)


def main(words):
    """Runs the program with some arguments, and returns its status. Its messages name the module's own file."""
    if program.BLOCKS in words:
        if not NO_INPUT & set(words) - {"--interactive"}:
            return with_blocks(words)
        words = [word for word in words if word != program.BLOCKS]
    command, place = program.started(), place_of_module(words)
    if place is None or words[place] == "-":
        it = subprocess.run([*command.words, *words], env=command.environment, check=False,
                            input=standard_input(words))
        return it.returncode
    with tempfile.TemporaryDirectory() as folder:
        changed = in_generic_form(words, place, folder)
        it = subprocess.run([*command.words, *changed], env=command.environment, check=False,
                            stderr=None if changed == words else subprocess.PIPE)
        if it.stderr:
            sys.stderr.buffer.write(it.stderr.replace(os.fsencode(changed[place]), os.fsencode(words[place])))
            sys.stderr.flush()
        return it.returncode
