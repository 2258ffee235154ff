"""The lines below a reply that name the patterns by which a command rewrites, and that no check proves for its module:
a check has to say that the pattern holds at every width, or up to the widest integer type of a value of the module, in
which no value has type index; or that it holds at all, of a pattern whose types are all written."""
import re

from . import passing
from .module import INDEX, walk

# A reply to a command that rewrites, below which the first line names such a pattern.
NAMED = re.compile(r" (?:applied|converged|limit) [0-9]+\nunproved ")


def said(pattern, verdict):
    """The verdict on a pattern. A check tries no poison, so the verdict on a pattern that matches a choice, or makes a
    quotient or a remainder, is only that no known value refutes it."""
    word, _, width = verdict.partition(" ")
    return f"unrefuted {width}" if word == "holds" and width and not passing.is_passing(pattern) else verdict


def types_of(module):
    """The types of all values of a module."""
    for op in walk(module.root):
        yield from op.results
        for block in op.blocks():
            yield from block.args


def is_within(ty, most):
    """Whether a type isn't index, nor an integer type of more bits."""
    return ty != INDEX and not (ty[0] in ("i", "si", "ui") and ty[1] > most)


def is_proved(pattern, verdict, module):
    """Whether what a check says proves a pattern for a module."""
    word, _, width = verdict.partition(" ")
    if word != "holds":
        return False
    return not width or not pattern.all_types() or all(is_within(ty, int(width)) for ty in types_of(module))


def lines(patterns, verdicts, module):
    """A line for each pattern that isn't proved, in their order and each once."""
    said_of = {it.name: (it, verdicts.get(it.name, "unchecked")) for it in patterns}
    return "".join(f"unproved {name} {verdict}\n" for name, (it, verdict) in said_of.items()
                   if not is_proved(it, verdict, module))


def is_named(reply):
    """Whether a reply names a pattern that no check proves."""
    return NAMED.match(reply) is not None
