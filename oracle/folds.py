"""Known values and folds."""
import operator

from .module import INDEX, I1
from .operations import BINARY, EXTENSIONS, INDEX_CASTS, ROWS, has_kind, is_signless, is_T

# A known value is its type and its bits.

# What is computed of two numbers, whatever their type.
PLAIN = {"addi": operator.add, "subi": operator.sub, "muli": operator.mul, "andi": operator.and_, "ori": operator.or_,
         "xori": operator.xor, "maxui": max, "minui": min}


def width(ty):
    return 64 if ty == INDEX else ty[1]


def signed(ty, bits):
    return bits - 2 ** width(ty) if bits >= 2 ** (width(ty) - 1) else bits


def known(ty, number):
    return ty, number % 2 ** width(ty)


def attribute_of(value):
    """The integer attribute of a known value."""
    return ("int", value[0], signed(*value))


def rounded(one, two):
    """A quotient, rounded towards zero."""
    return abs(one) // abs(two) * (1 if (one < 0) == (two < 0) else -1)


def arithmetic(word, ty, a, b):
    """A number that the result is taken from modulo 2^w, or none."""
    if word in PLAIN:
        return PLAIN[word](a, b)
    w, x, y = width(ty), signed(ty, a), signed(ty, b)
    if word in ("divsi", "remsi", "divui", "remui"):
        if b == 0 or word in ("divsi", "remsi") and x == -2 ** (w - 1) and y == -1:
            return None
        return {"divsi": lambda: rounded(x, y), "remsi": lambda: x - rounded(x, y) * y, "divui": lambda: a // b,
                "remui": lambda: a % b}[word]()
    if word in ("shli", "shrsi", "shrui"):
        if b >= w:
            return None
        return {"shli": lambda: a << b, "shrsi": lambda: x >> b, "shrui": lambda: a >> b}[word]()
    return {"maxsi": max, "minsi": min}[word](x, y)


def holds(predicate, ty, a, b):
    x, y = signed(ty, a), signed(ty, b)
    return [a == b, a != b, x < y, x <= y, x > y, x >= y, a < b, a <= b, a > b, a >= b][predicate]


def binary(word, operands, result):
    if not is_T(result):
        return None
    absorbs = {"muli": 0, "andi": 0, "ori": 2 ** width(result) - 1}.get(word)
    if absorbs is not None and (result, absorbs) in operands:
        return result, absorbs
    if None in operands or any(it[0] != result for it in operands):
        return None
    found = arithmetic(word, result, operands[0][1], operands[1][1])
    return None if found is None else known(result, found)


def cast(word, operands, result):
    if operands[0] is None:
        return None
    (ty, bits), fits = operands[0], is_T if word.startswith("index") else is_signless
    if not (fits(ty) and fits(result)) or word == "trunci" and width(result) >= width(ty):
        return None
    return known(result, signed(ty, bits) if word in ("extsi", "index_cast") else bits)


def fold(op, operands):
    """The known value of an operation's result, or none; an unknown operand is None."""
    row = ROWS.get(op.name)
    if row is None or not op.name.startswith(b"arith.") or len(op.results) != 1 or len(operands) != row.operands[0]:
        return None
    if any(key not in row.props or not has_kind(key, attr) for key, attr in op.props.items()):
        return None
    word, result = op.name[6:].decode(), op.results[0]
    if word == "constant":
        value = op.props.get(b"value")
        return known(result, value[2]) if value and is_T(result) and value[1] == result else None
    if op.name in BINARY:
        return binary(word, operands, result)
    if word == "cmpi":
        predicate = op.props.get(b"predicate")
        if predicate is None or result != I1 or None in operands or operands[0][0] != operands[1][0]:
            return None
        return known(I1, holds(predicate[2], operands[0][0], operands[0][1], operands[1][1]))
    if word == "select":
        if operands[0] is None or operands[0][0] != I1:
            return None
        chosen = operands[1] if operands[0][1] else operands[2]
        return chosen if chosen and chosen[0] == result else None
    if op.name in EXTENSIONS | INDEX_CASTS or word == "trunci":
        return cast(word, operands, result)
    return None
