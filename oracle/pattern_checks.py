"""Checks a user pattern for all values at all widths up to a limit: the new side must refine the old side. Poison may
become anything, but a defined value must stay the same and defined."""
import itertools

from . import edits
from .folds import arithmetic, holds, signed, width
from .module import I1
from .pattern_uses import Instance
from .patterns import CHOICE, COMPARISON, PREDICATES, CASTS, Operation, Value, type_text, variable, walk

MOST_BITS, MOST_WIDTH, DEFAULT_BITS, DEFAULT_WIDTH = 24, 64, 16, 8
POISON = None
DIVISIONS = ("divsi", "divui", "remsi", "remui")


class Undefined(Exception):
    """The behaviour of an executed operation is undefined: it gives neither a value nor poison."""


def divided(word, ty, a, b):
    """A quotient or a remainder: undefined by 0 and by poison, and where a quotient overflows; the remainder of the
    least value by -1 is 0."""
    if b in (POISON, 0):
        raise Undefined
    if a is POISON:
        return POISON
    found = arithmetic(word, ty, a, b)
    if found is None and word == "divsi":
        raise Undefined
    return (found or 0) % 2 ** width(ty)


def outcome(term, ty, operand_ty, operands):
    """What an operation gives of values and poison."""
    word = term.word()
    if term.name == CHOICE:
        return POISON if operands[0] is POISON else operands[1] if operands[0] else operands[2]
    if word in DIVISIONS:
        return divided(word, ty, *operands)
    if POISON in operands:
        return POISON
    if term.name == COMPARISON:
        return int(holds(PREDICATES.index(term.asks), operand_ty, *operands))
    if term.name in CASTS:
        is_signed = word in ("extsi", "index_cast")
        return (signed(operand_ty, operands[0]) if is_signed else operands[0]) % 2 ** width(ty)
    found = arithmetic(word, ty, *operands)
    return POISON if found is None else found % 2 ** width(ty)


class Case:
    """A pattern at types and at values of its variables."""

    def __init__(self, instance, values):
        self.instance, self.values = instance, values
        self.numbers = {name: value for name, value in values.items() if not name.startswith("%")}

    def value(self, term):
        """The outcome of a side; all its operations are executed."""
        if isinstance(term, Operation):
            operands = [self.value(operand) for operand in term.operands]
            return outcome(term, self.instance.type(term), self.instance.type(term.operands[0]), operands)
        name = variable(term)
        return self.values[name] if name else self.instance.number(term, self.numbers)

    def both(self):
        """What both sides give, or none where the pattern doesn't apply or the old one is undefined."""
        if not self.instance.applies(self.numbers):
            return None
        try:
            old = self.value(self.instance.pattern.old)
        except Undefined:
            return None
        try:
            return old, self.value(self.instance.pattern.new)
        except Undefined:
            return old, "undefined"


def is_kept(old, new):
    return new == old or old is POISON and new != "undefined"


def type_variables(pattern):
    """The type variables, in the order of the text."""
    return pattern.all_types()


def widest_type(pattern):
    """The width of the widest type of a pattern without type variables."""
    types = [pattern.typed(term) for side in (pattern.old, pattern.new) for term in walk(side)]
    types += [pattern.typed(it) for it in pattern.conditions if it.word != "narrower"]
    return max(map(width, types + [pattern.types.found(ty) for _, ty in pattern.asked]))


def told_width(pattern, most):
    """The number of a check: the width up to which type variables were tried, or that of the widest type where there is
    no type variable."""
    return most if type_variables(pattern) else widest_type(pattern)


def bits_of(pattern, types):
    """How many bits the variables have together."""
    instance = Instance(pattern, types)
    return sum(width(instance.real(ty)) for ty in pattern.variables.values())


def default_width(pattern, most=DEFAULT_WIDTH, most_bits=DEFAULT_BITS):
    """The greatest width up to one at which the variables have so few bits together; 1 where there is none."""
    types = type_variables(pattern)
    fits = [w for w in range(1, most + 1) if bits_of(pattern, {ty: ("i", w) for ty in types}) <= most_bits]
    return max(fits, default=1)


def shown(value, ty):
    if value == "undefined":
        return value
    if value is POISON:
        return "poison"
    return ("false", "true")[value] if ty == I1 else f"{signed(ty, value)} : {type_text(ty)}"


def input_shown(value, ty):
    """The outcome of a variable: poison has its type."""
    return f"poison : {type_text(ty)}" if value is POISON else shown(value, ty)


def rows_of(instance, values, old, new):
    """A row for each variable, in the order of the left side, and one for each result."""
    pattern = instance.pattern
    rows = [f"{name} {input_shown(value, instance.real(pattern.variables[name]))}" for name, value in values.items()]
    return rows + [f"{word} {shown(value, instance.type(pattern.old))}" for word, value in (("old", old), ("new", new))]


def check(pattern, most):
    """The verdict on a pattern at all widths up to one, and the rows of the first counterexample; raises
    `edits.Refused` where there are too many cases."""
    types, is_heard = type_variables(pattern), False
    edits.refuse(50, not 1 <= most <= MOST_WIDTH or most ** len(types) > 2 ** MOST_BITS)
    edits.refuse(50, bits_of(pattern, {ty: ("i", most) for ty in types}) > MOST_BITS)
    for widths in itertools.product(range(1, most + 1), repeat=len(types)):
        instance = Instance(pattern, {ty: ("i", w) for ty, w in zip(types, widths)})
        ranges = [range(2 ** width(instance.real(ty))) for ty in pattern.variables.values()]
        for numbers in itertools.product(*ranges) if instance.is_possible else ():
            values = dict(zip(pattern.variables, numbers))
            both = Case(instance, values).both()
            is_heard |= both is not None
            if both is not None and not is_kept(*both):
                return f"fails {max(widths) if widths else widest_type(pattern)}", rows_of(instance, values, *both)
    return f"{'holds' if is_heard else 'empty'} {told_width(pattern, most)}", []
