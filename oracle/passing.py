"""Says whether a pattern has a form for which a check at these widths is enough, whatever is poison: it matches no
`select`, its new side has no division or remainder, new operations have operands of the required types, and each type
variable is the type of a matched value, named constant or operation."""
from .module import I1, INDEX
from .patterns import CHOICE, COMPARISON, TRUNCATION, Constant, Operation, walk

DIVISIONS = {b"arith.divsi", b"arith.divui", b"arith.remsi", b"arith.remui"}


def operations(side):
    return [term for term in walk(side) if isinstance(term, Operation)]


def is_passing(pattern):
    """Whether it matches no choices, and makes no quotients and remainders."""
    return (all(it.name != CHOICE for it in operations(pattern.old))
            and all(it.name not in DIVISIONS for it in operations(pattern.new)))


def takes_operands(pattern, it):
    """Whether an operation has operands of the types that it asks for."""
    found, operands = pattern.typed(it), [pattern.typed(operand) for operand in it.operands]
    if it.name == COMPARISON:
        return operands[0] == operands[1] and found == I1
    if it.name == CHOICE:
        return operands[0] == I1 and operands[1] == operands[2] == found
    if it.name == TRUNCATION:
        asked = [tuple(map(pattern.types.found, pair)) for pair in pattern.narrower]
        return (found, operands[0]) in asked
    return len(operands) == 1 or operands[0] == operands[1] == found


def is_kinded(pattern):
    """Whether what it makes takes its operands, and numbers of its constants' types."""
    constants = [it for it in walk(pattern.new) if isinstance(it, Constant)]
    named = [(pattern.variables[name.word], it) for it in constants for name in it.number.names()]
    return (all(takes_operands(pattern, it) for it in operations(pattern.new))
            and all(pattern.types.found(ty) == pattern.typed(it) for ty, it in named))


def types_of(pattern):
    """The types in a pattern, and the types that its old side determines."""
    terms = [it for side in (pattern.old, pattern.new) for it in walk(side)]
    told = [it for it in walk(pattern.old) if not (isinstance(it, Constant) and it.number.is_literal())]
    spoken = {pattern.typed(it) for it in terms} | {pattern.types.found(it) for _, it in pattern.asked}
    return spoken, {pattern.typed(it) for it in told}


def is_settled(pattern):
    """Whether the old side determines each type variable."""
    spoken, told = types_of(pattern)
    return {it for it in spoken if it in pattern.types.stands} <= told


def speaks_of_index(pattern):
    return INDEX in types_of(pattern)[0]


def is_enough(pattern):
    return is_passing(pattern) and is_kinded(pattern) and is_settled(pattern)
