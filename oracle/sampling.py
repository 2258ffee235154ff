"""Samples a user pattern at wide types: edge values of the types, pseudo-random values that are always the same, then
values near the literals of the pattern. If none is a counterexample, that says nothing about other values."""
import functools
import itertools

from . import edits
from .folds import width
from .pattern_checks import Case, is_kept, rows_of, told_width, type_variables, widest_type
from .pattern_uses import Instance
from .patterns import Constant, walk

MOST_WIDTH, MOST_TYPES, LEVELS, CASES, EDGES = 128, 4, 3, 4096, 1000
# So many literals have values near them, and a variable has so many values in the cases near literals.
MOST_LITERALS, CHOICES = 8, 41
ONE = 2 ** 128


def level_width(most, level):
    """The width of a type variable at a level: the whole, a half, a quarter."""
    return max(1, most // 2 ** level)


@functools.lru_cache(maxsize=None)
def edges(w):
    """Ten values at the edges of a type."""
    return (0, 1, 2 ** w - 1, 2 ** (w - 1), 2 ** (w - 1) - 1, 2 % 2 ** w, 2 ** w - 2, 2 ** (w // 2), 2 ** (w // 2) - 1,
            (2 ** (w - 1) + 1) % 2 ** w)


def chance(w, n):
    """The pseudo-random value with number n, of w bits."""
    x = ((n + 1) * 0x9E3779B97F4A7C15F39CC0605CEDC835) % ONE
    y = x ^ (x >> 64)
    return ((y * 0xD6E8FEB86659FD93A5A3F1C2B4E7695B) % ONE) >> (128 - w)


def value(w, i, j):
    """The value of variable j in case i: first each of ten edges for it and the two variables after it, then a
    pseudo-random value."""
    return edges(w)[i // 10 ** (j % 3) % 10] if i < EDGES else chance(w, 16 * i + j)


def literals_of(number):
    """The literals in a number, operands first; `neg` takes from 0, and `not` compares with -1."""
    if number.is_literal():
        return [number.word]
    own = {"neg": [0], "not": [-1]}.get(number.word, []) if number.parts else []
    return [it for part in number.parts or () for it in literals_of(part)] + own


def near_literals(pattern):
    """The first literals in the order of the text, each with the numbers before and after it."""
    numbers = [term.number for side in (pattern.old, pattern.new) for term in walk(side) if isinstance(term, Constant)]
    numbers += [part for condition in pattern.conditions for part in condition.numbers()]
    found = [it for number in numbers for it in literals_of(number)][:MOST_LITERALS]
    return [(it + offset) % ONE for it in found for offset in (0, -1, 1)]


def near_value(near, w, i, j):
    """The value of variable j in case i near literals. Any two variables have each pair of their values in some case:
    the numbers near literals, the edges, and pseudo-random values."""
    number = (i % CHOICES + j % CHOICES * (i // CHOICES % CHOICES)) % CHOICES
    here = [it % 2 ** w for it in near] + list(edges(w))
    return here[number] if number < len(here) else chance(w, 16 * i + j)


def counterexample(instance, near):
    """The values of the first counterexample at types, and the results of both sides; or None. The cases are the usual
    ones, or those near some numbers."""
    pattern, tried = instance.pattern, set()
    widths = [width(instance.real(ty)) for ty in pattern.variables.values()]
    for i in range(CHOICES ** 2 if near else CASES):
        numbers = tuple(near_value(near, w, i, j) if near else value(w, i, j) for j, w in enumerate(widths))
        # (of narrow types the same values come again)
        if numbers in tried:
            continue
        tried.add(numbers)
        values = dict(zip(pattern.variables, numbers))
        both = Case(instance, values).both()
        if both is not None and not is_kept(*both):
            return values, both
    return None


def sample(pattern, most):
    """The verdict on a pattern at a width, its half and its quarter, and the rows of the first counterexample; raises
    `edits.Refused` if the width is none, or there are too many type variables."""
    types = type_variables(pattern)
    edits.refuse(50, not 1 <= most <= MOST_WIDTH or len(types) > MOST_TYPES)
    widths_of = [[level_width(most, level) for level in range(LEVELS)]] * len(types)
    near = near_literals(pattern)
    for numbers in [[], near] if near else [[]]:
        # (two levels of one width repeat the same test, with the same result)
        for widths in dict.fromkeys(itertools.product(*widths_of)):
            instance = Instance(pattern, {ty: ("i", w) for ty, w in zip(types, widths)})
            found = counterexample(instance, numbers) if instance.is_possible else None
            if found:
                return (f"fails {max(widths) if widths else widest_type(pattern)}",
                        rows_of(instance, found[0], *found[1]))
    return f"unrefuted {told_width(pattern, most)}", []
