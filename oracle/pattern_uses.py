"""User patterns at operations of a module: matching and rewriting."""
import functools

from . import edits, rewrites
from .folds import holds, width
from .module import I64
from .operations import is_T
from .patterns import PREDICATES, Constant, Operation, Value, variable, walk
from .rewrites import FLAGGED, No, need
from .rules import span


class NoNumber(Exception):
    """A number that isn't there: a literal that is none of its type, as of one that has no numbers, a logarithm of what
    is no power of two."""


def number_of(number, ty, numbers):
    """What a number is at a type, where the numbers of names are known."""
    if not is_T(ty):
        raise NoNumber
    modulus = 2 ** width(ty)
    if number.is_literal():
        least, most, _ = span(ty)
        if not least <= number.word <= most:
            raise NoNumber
        return number.word % modulus
    if number.is_name():
        return numbers[number.word]
    parts = [number_of(part, ty, numbers) for part in number.parts]
    if number.word == "log2":
        if parts[0] == 0 or parts[0] & (parts[0] - 1):
            raise NoNumber
        return parts[0].bit_length() - 1
    if number.word in ("neg", "not", "width"):
        return {"neg": -parts[0], "not": ~parts[0], "width": width(ty)}[number.word] % modulus
    a, b = parts
    return {"add": a + b, "sub": a - b, "mul": a * b, "and": a & b, "or": a | b, "xor": a ^ b}[number.word] % modulus


class Instance:
    """A pattern at types: `types` has the type of each type variable."""

    def __init__(self, pattern, types):
        self.pattern, self.types, self.known = pattern, types, {}

    def real(self, it):
        it = self.pattern.types.found(it)
        return self.types.get(it, it)

    def type(self, it):
        """The type of a term, which is looked up once."""
        if it not in self.known:
            self.known[it] = self.real(self.pattern.type_of[it])
        return self.known[it]

    def number(self, term, numbers):
        """The number of a constant that is asked or made."""
        return number_of(term.number, self.type(term), numbers)

    def fits(self):
        """Whether the widths are as they are asked."""
        wide = [tuple(map(self.real, pair)) for pair in self.pattern.narrower]
        return all(a[0] == b[0] == "i" and a[1] < b[1] for a, b in wide) and all(
            self.real(it)[0] == "i" for it in self.pattern.integers)

    def is_met(self, condition, numbers):
        if condition.word == "narrower":
            return True
        ty = self.type(condition)
        parts = [number_of(part, ty, numbers) for part in condition.parts]
        if condition.word == "power_of_two":
            return parts[0] != 0 and parts[0] & (parts[0] - 1) == 0
        return holds(PREDICATES.index(condition.word), ty, *parts)

    @functools.cached_property
    def made(self):
        """The constants that are made, in the order of the text."""
        return [term for term in walk(self.pattern.new)
                if isinstance(term, Constant) and not term.number.is_name()]

    @functools.cached_property
    def is_possible(self):
        """Whether the widths are as they are asked, and each literal on the left is one of its type."""
        try:
            self.literals()
        except NoNumber:
            return False
        return self.fits()

    def applies(self, numbers):
        """Whether the pattern may be applied where the constants are these numbers, by name."""
        if not self.is_possible:
            return False
        try:
            for term in self.made:
                self.number(term, numbers)
            return all(self.is_met(condition, numbers) for condition in self.pattern.conditions)
        except NoNumber:
            return False

    def literals(self):
        return {term: self.number(term, {}) for term in walk(self.pattern.old)
                if isinstance(term, Constant) and term.number.is_literal()}


class Match:
    """A pattern's left side at an operation: values by their variables, and types. Raises `No` if it isn't there."""

    def __init__(self, pattern, site):
        self.pattern, self.site, self.values, self.types = pattern, site, {}, {}
        need(site.x is not site.module.root and len(site.x.results) == 1)
        site.clean(site.x)
        self.constants = []
        self.match(pattern.old, ("v", site.x.id, 0))
        need(all(map(is_T, self.types.values())))
        self.instance = Instance(pattern, self.types)
        need(all(site.type(value) == self.instance.type(term) for term, value in self.constants))
        self.numbers = {name: site.K(value) for name, value in self.values.items() if not name.startswith("%")}
        need(self.instance.applies(self.numbers))
        literals = self.instance.literals()
        need(all(site.K(value) == literals[term] for term, value in self.constants))

    def match(self, term, value):
        if isinstance(term, Constant) and term.number.is_literal():
            # It determines no type variable.
            self.constants.append((term, value))
            return
        wanted = self.pattern.typed(term)
        need(self.types.setdefault(wanted, self.site.type(value)) == self.site.type(value)
             if wanted in self.pattern.types.stands else wanted == self.site.type(value))
        if isinstance(term, Operation):
            self.match_operation(term, value)
        elif isinstance(term, Value):
            need(self.values.setdefault(variable(term), value) == value)
        else:
            need(self.site.K(value) == self.site.K(self.values.setdefault(variable(term), value)))

    def match_operation(self, term, value):
        op = self.site.owner(value, term.name)
        need(value[2] == 0 and len(op.operands) == len(term.operands))
        if term.asks == "none":
            need(op.props.get(b"overflowFlags", ("overflow", False, False)) == ("overflow", False, False))
        elif term.asks:
            need(op.props[b"predicate"][2] == PREDICATES.index(term.asks))
        for operand, found in zip(term.operands, op.operands):
            self.match(operand, found)

    def build(self, term):
        """The value of a new term, whose operations are put before the root, operands first."""
        if isinstance(term, Value) or isinstance(term, Constant) and term.number.is_name():
            return self.values[variable(term)]
        ty = self.instance.type(term)
        if isinstance(term, Constant):
            return self.site.constant(ty, self.instance.number(term, self.numbers))
        operands = [self.build(operand) for operand in term.operands]
        props = {b"predicate": ("int", I64, PREDICATES.index(term.asks))} if term.asks else (
            {b"overflowFlags": ("overflow", False, False)} if term.name in FLAGGED else {})
        return self.site.made(term.name, operands, ty, props)


def made_by(pattern):
    """How many operations a pattern makes."""
    return sum(isinstance(term, Operation) or isinstance(term, Constant) and not term.number.is_name()
               for term in walk(pattern.new))


def apply(pattern, module, number):
    """Applies a pattern at an operation of a module, and says whether it did; raises `edits.Refused`."""
    try:
        match = Match(pattern, rewrites.Site(module, number))
    except No:
        return False
    edits.refuse(31, len(module.ops()) + made_by(pattern) > edits.MOST_OPS)
    edits.refuse(32, module.next + made_by(pattern) > edits.MOST_IDS)
    match.site.results_are([match.build(pattern.new)])
    return True
