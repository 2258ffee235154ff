"""Reads modules whose regions have several blocks, with `--blocks`, and prints them with blocks.

The program gets such a module in nested form (`mlir_work.blocks`). Nesting and flattening are tested, not proved."""
import re

from .. import blocks
from ..errors import FormBroken, ModuleRefused
from ..reply import lines_of
from . import generic, program

# The first line of a module that `print` shows, and how a line of `print ids` ends.
ROOT, NUMBERED = '"builtin.module"(', re.compile(r" // #\d+$")
# In place of a module that isn't in the form, as `-- module memory` is without memory.
BROKEN = "-- module blocks"


def nested(name, module):
    """Returns a module in nested form, or None if it can't be nested; and messages."""
    try:
        found = blocks.nest(module)
    except ModuleRefused as fault:
        before = module[:min(fault.at, len(module))]
        place = f"{before.count(10) + 1}:{len(before) - before.rfind(10)}"
        return None, [f"{name}:{place}: --blocks can't nest this module: {fault.number} {fault.word}"]
    return found, [f"{name}: regions with several blocks are read as nested `{blocks.SCOPE}` operations"]


def read(name, module, attempt, say, is_converted=lambda refused: True):
    """Calls `attempt` with a module, and again with other texts of it while it returns a refusal: in generic form, if
    the refusal is one that `is_converted` accepts, and nested, if `--blocks` asks for that. `say` gets messages.
    Returns the last text."""
    refused, is_generic = attempt(module), False
    while refused and not isinstance(module, blocks.Nested):
        if program.READS_BLOCKS and refused.number in blocks.NESTABLE:
            made, said = nested(name, module)
        elif not is_generic and is_converted(refused):
            is_generic = True
            made, said = generic.tried(name, module)
        else:
            break
        say(said)
        if made is None:
            break
        module = made
        refused = attempt(module)
    return module


def in_source(module, refused):
    """Returns the text of a module before it was nested, and a refusal with its place there."""
    return (module.source, module.refusal(refused)) if isinstance(module, blocks.Nested) else (module, refused)


def module_lines(lines):
    """Yields the lines of an output in parts: the lines of a module that `print` shows, or other lines; and whether it
    is a module."""
    begin, place = 0, 0
    while place < len(lines):
        if not lines[place].startswith(ROOT) or NUMBERED.search(lines[place]):
            place += 1
            continue
        yield lines[begin:place], False
        begin = place
        if lines[place].endswith("{"):
            place = next((it for it in range(place + 1, len(lines)) if lines[it].startswith("}")), len(lines) - 1)
        place += 1
        yield lines[begin:place], True
        begin = place
    yield lines[begin:], False


def flattened(lines):
    """Returns the lines of an output with the blocks of each module that `print` shows, and what is wrong with modules
    that aren't in the form. These are replaced by a line that says so."""
    found, faults = [], []
    for part, is_module in module_lines(lines):
        text = "".join(line + "\n" for line in part) if is_module else ""
        if text and blocks.is_nested(text):
            try:
                part = lines_of(blocks.flatten(text))
            except FormBroken as fault:
                part = [BROKEN]
                faults.append(fault)
        found += part
    return found, faults
