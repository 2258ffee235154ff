"""Decides whether the form of a user pattern makes it right at every width. Either both sides are the same polynomial
modulo 2^128, and so modulo each 2^w; or each bit of both sides is the same function of the same bit of the values,
which a check at one bit decides."""
from . import claims, pattern_checks
from .patterns import Constant, MinusZero, Operation, variable, walk

MODULUS = 2 ** 128
# A polynomial has so many terms at most, counted before any are collected, and each of them so many factors.
MOST_TERMS, MOST_FACTORS = 256, 64
OF_TERMS, OF_NUMBERS = {"addi": "add", "subi": "sub", "muli": "mul"}, ("add", "sub", "mul")
BITWISE_TERMS, BITWISE_NUMBERS = ("andi", "ori", "xori"), ("and", "or", "xor", "not")


class NoPolynomial(Exception):
    """What is computed is none, or has too many terms or factors."""


class Polynomial:
    """A sum: a coefficient modulo 2^128 for each list of factors, in order. `count` is how many terms it has as it was
    made, and `degree` how many factors one of them has at most."""

    def __init__(self, terms, count=1, degree=0):
        self.terms, self.count, self.degree = terms, count, degree

    def plus(self, other, sign):
        terms = dict(self.terms)
        for factors, coefficient in other.terms.items():
            terms[factors] = (terms.get(factors, 0) + sign * coefficient) % MODULUS
        return Polynomial(terms, self.count + other.count, max(self.degree, other.degree))

    def times(self, other):
        terms = {}
        for factors, a in self.terms.items():
            for more, b in other.terms.items():
                whole = tuple(sorted(factors + more))
                terms[whole] = (terms.get(whole, 0) + a * b) % MODULUS
        return Polynomial(terms, self.count * other.count, self.degree + other.degree)

    def is_zero(self):
        return not any(self.terms.values())


def number(value):
    return Polynomial({(): value % MODULUS})


def unknown(key):
    """An unknown value."""
    return Polynomial({(key,): 1}, degree=1)


def computed(word, a, b):
    """A sum, a difference or a product."""
    found = a.times(b) if word == "mul" else a.plus(b, 1 if word == "add" else -1)
    if found.count > MOST_TERMS or found.degree > MOST_FACTORS:
        raise NoPolynomial
    return found


def of_number(it):
    """A number as a polynomial. Each occurrence of a function of bits, a logarithm or a width is a separate unknown
    value."""
    if it.is_literal():
        return number(it.word)
    if it.is_name():
        return unknown(it.word)
    if it.word == "width":
        return unknown(f"width at {it.at}")
    parts = [of_number(part) for part in it.parts]
    if it.word == "neg":
        return computed("sub", number(0), parts[0])
    return computed(it.word, *parts) if it.word in OF_NUMBERS else unknown(f"{it.word} at {it.at}")


def of_term(term):
    """A side as a polynomial in the variables."""
    if isinstance(term, Operation):
        operands = [of_term(operand) for operand in term.operands]
        if term.word() not in OF_TERMS:
            raise NoPolynomial
        return computed(OF_TERMS[term.word()], *operands)
    name = variable(term)
    return unknown(name) if name else of_number(term.number)


def has_one_type(pattern):
    """Whether all that a pattern speaks of has one type, which is a type variable."""
    types = {pattern.typed(term) for side in (pattern.old, pattern.new) for term in walk(side)}
    types |= {pattern.typed(it) for it in pattern.conditions if it.word != "narrower"}
    return len(types) == 1 and types <= set(pattern.types.stands)


def is_one_polynomial(pattern):
    """Whether both sides are sums, differences and products of values and numbers, and one polynomial."""
    if not has_one_type(pattern):
        return False
    try:
        return of_term(pattern.old).plus(of_term(pattern.new), -1).is_zero()
    except NoPolynomial:
        return False


def is_uniform(word):
    """Whether a literal has one bit everywhere: it is 0 or -1. (`-0` isn't looked at as 0.)"""
    return word in (0, -1) and not isinstance(word, MinusZero)


def has_bits_alone(it):
    """Whether each bit of a number is computed of the same bit of the constants."""
    return all(is_uniform(part.word) if part.is_literal() else part.is_name() or part.word in BITWISE_NUMBERS
               for part in it.walk())


def is_bit_by_bit(pattern):
    """Whether each bit of what both sides give is computed of the same bit of the values alone; nothing else is
    asked."""
    those = [term for side in (pattern.old, pattern.new) for term in walk(side)]
    return has_one_type(pattern) and not pattern.conditions and all(
        term.word() in BITWISE_TERMS if isinstance(term, Operation) else
        not isinstance(term, Constant) or has_bits_alone(term.number) for term in those)


def is_everywhere(pattern):
    return is_one_polynomial(pattern) or is_bit_by_bit(pattern)


def check(pattern, most=None):
    """The verdict on a pattern at all widths up to one, and the rows of the first counterexample. If no width is asked,
    it is that up to the default one; and if no value refutes the pattern there, that of its form, of claims about bits,
    or of samples of wide types."""
    if most is not None:
        return pattern_checks.check(pattern, most)
    verdict, rows = pattern_checks.check(pattern, pattern_checks.default_width(pattern))
    if verdict.startswith("fails "):
        return verdict, rows
    if verdict.startswith("holds ") and is_everywhere(pattern):
        return "holds", rows
    return claims.decision(pattern, verdict) or (verdict, rows)
