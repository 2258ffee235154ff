"""Rewriting by lists of user patterns and rules."""
from . import pattern_uses, rewrites
from .module import walk


def after(module, it, number):
    """The module after a rule or a pattern at an operation, or none if it doesn't apply."""
    if isinstance(it, int):
        return rewrites.apply(module, it, number)
    tried = module.copy()
    return tried if pattern_uses.apply(it, tried, number) else None


def fired(module, asked):
    """The module after the first of a list, in its order, that applies at the first operation in pre-order at which one
    does, that rule or pattern, and the operation; or none."""
    for op in walk(module.root):
        for it in asked:
            found = after(module, it, op.id)
            if found is not None:
                return found, it, op.id
    return None


def told(module, found, it, op):
    """The trace line of a rewrite: that of a rule, with a pattern's name in place of the rule's number and word."""
    if isinstance(it, int):
        return rewrites.told(module, found, it, op)
    return f"rewrote {it.name} {rewrites.made_and_gone(module, found, op)}"


def traced(module, asked, limit):
    """The module after at most so many rewrites by a list, their trace lines, and whether nothing applies."""
    lines = []
    while len(lines) < limit:
        found = fired(module, asked)
        if found is None:
            return module, lines, True
        lines.append(told(module, *found))
        module = found[0]
    return module, lines, fired(module, asked) is None
