"""Why a rule doesn't apply at an operation: the first of its conditions that doesn't hold, by its word."""
from .folds import signed, width
from .module import I1, INDEX, walk
from .operations import BINARY, FOR, IF, INDEX_CASTS, WHILE
from .rewrites import CAST, CONSTANT, No, Site, apply, is_clean

ADDING = "addi muli andi ori xori"
GREATER = "maxsi maxui minsi minui"
COMMUTATIVE = f"{ADDING} {GREATER}"
CMPI, SELECT, XORI, TRUNCI = b"arith.cmpi", b"arith.select", b"arith.xori", b"arith.trunci"
EXTENSIONS = {b"arith.extsi", b"arith.extui"}


def arith(words):
    return {b"arith." + word.encode() for word in words.split()}


FOLDING = BINARY | INDEX_CASTS | EXTENSIONS | {CMPI, SELECT, TRUNCI}
# The operations at which each rule may apply.
NAMES = {1: FOLDING | {CAST, CONSTANT, FOR, IF, WHILE, b"memref.alloc", b"memref.load"}, 2: FOLDING,
         3: arith(COMMUTATIVE), 4: arith("addi subi ori xori shli shrsi shrui"), 5: arith("muli divsi divui"),
         6: arith("andi"), 7: arith("subi xori"), 8: arith(f"andi ori {GREATER}"), 9: arith("remsi remui"),
         10: arith(ADDING), 11: arith("subi"), 12: {CMPI}, 13: {CMPI}, 14: {CMPI}, 15: {SELECT}, 16: {SELECT},
         17: {SELECT}, 18: {SELECT}, 19: EXTENSIONS, 20: {TRUNCI}, 21: INDEX_CASTS | {CAST}, 22: {IF}, 23: {FOR},
         24: {WHILE}, 25: arith(GREATER), 26: arith("subi"), 27: arith("remsi remui"),
         28: BINARY | {CONSTANT, CMPI, SELECT}, 29: {FOR}, 30: {IF}}


def listed(op):
    """The rules that there may be at an operation's name, rising."""
    return [rule for rule, names in NAMES.items() if op.name in names]


class Look(Site):
    """The operation at which a rule doesn't apply."""

    def passes(self, test, *values):
        """Whether a test passes that a rule makes by asking."""
        try:
            return bool(test(*values))
        except No:
            return False

    def known(self, value):
        """Whether a value is the result of a constant without diagnostics."""
        return self.passes(lambda: self.K(value) is not None)

    def is_number(self, value, number, ty):
        return self.passes(lambda: self.K(value) == number % 2 ** width(ty))

    def inner(self, *names):
        """The defining op of the first operand, if it has one of some names and no diagnostics."""
        try:
            return self.owner(self.x.operands[0], *names)
        except No:
            return None

    def ends(self, block):
        """Whether the last operation of a block has no diagnostics."""
        return self.passes(lambda: self.clean(block.ops[-1]))


def second(look, number=None, word=None):
    """That the second operand is a constant, and a number."""
    value = look.x.operands[1]
    yield "second-not-constant", look.known(value)
    if word is not None:
        yield word, look.is_number(value, number, look.type(value))


def swapped(look):
    yield "first-not-constant", look.known(look.x.operands[0])
    yield "second-constant", not look.is_K(look.x.operands[1])


def dead(look, applies):
    used = {value[1] for op in walk(look.module.root) for value in op.operands if value[0] == "v"}
    yield "used", look.x.id not in used
    yield "has-effects", applies


def folded(look, applies):
    operands = look.x.operands
    yield "constant-not-clean", all(not look.is_K(value) or look.known(value) for value in operands)
    yield "operand-not-constant", applies or all(map(look.known, operands))
    yield "does-not-fold", applies


def regrouped(look, applies):
    yield from second(look)
    inner = look.inner(look.x.name)
    yield "no-inner-operation", inner is not None
    yield "inner-not-constant", look.known(inner.operands[1])
    yield "does-not-fold", applies


def truth(look):
    yield "other-type", look.x.results[0] == I1
    yield from second(look, 1, "second-not-one")
    yield "third-not-zero", look.is_number(look.x.operands[2], 0, I1)


def opposite(look):
    inner = look.inner(XORI)
    yield "no-inner-operation", inner is not None
    yield "inner-not-one", look.is_number(inner.operands[1], 1, I1)


def extended(look):
    inner = look.inner(*EXTENSIONS)
    yield "no-inner-operation", inner is not None and look.x.name in (inner.name, b"arith.extsi")


def cut_again(look):
    inner = look.inner(TRUNCI, *EXTENSIONS)
    yield "no-inner-operation", inner is not None
    yield "other-type", inner.name == TRUNCI or look.type(inner.operands[0]) == look.x.results[0]


def cast_back(look):
    x = look.x
    yield "other-operation", len(x.operands) == len(x.results) == 1
    if x.name == CAST and look.type(x.operands[0]) == x.results[0]:
        return
    inner = look.inner(x.name)
    yield "no-inner-operation", inner is not None and len(inner.operands) == len(inner.results) == 1
    if x.name != CAST:
        yield "fewer-bits", width(x.results[0]) <= width(inner.results[0])
    yield "other-type", look.type(inner.operands[0]) == x.results[0]


def opened(look, applies):
    yield "first-not-constant", look.known(look.x.operands[0])
    yield "block-not-clean", applies


def gone_through(look, applies):
    lower, upper, step = look.x.operands[:3]
    yield "bound-not-constant", look.known(lower) and look.known(upper)
    ty = look.type(lower)
    if signed(ty, look.K(lower)) < signed(ty, look.K(upper)):
        yield "bound-not-constant", look.known(step)
        yield "block-not-clean", look.ends(look.x.regions[0])
    yield "goes-on", applies


def stopped(look, applies):
    yield "block-not-clean", look.ends(look.x.regions[0])
    yield "condition-not-false", applies


def lowered(look, types, applies):
    yield "no-index", INDEX in types
    yield "block-not-clean", applies


def conditions(look, rule, applies):
    """The conditions of a rule for an eligible operation of one of its names, in order: the word that is reported if
    the condition fails, and whether it holds."""
    x = look.x
    same = [("operands-differ", len(x.operands) > 1 and x.operands[0] == x.operands[1])]
    none = []
    return {1: lambda: dead(look, applies), 2: lambda: folded(look, applies), 3: lambda: swapped(look),
            4: lambda: second(look, 0, "second-not-zero"), 5: lambda: second(look, 1, "second-not-one"),
            6: lambda: second(look, -1, "second-not-all-ones"), 7: lambda: same, 8: lambda: same,
            9: lambda: second(look, 1, "second-not-one"), 10: lambda: regrouped(look, applies),
            11: lambda: second(look), 12: lambda: same, 13: lambda: swapped(look),
            14: lambda: [*second(look, 0, "second-not-zero"), ("other-predicate", x.props[b"predicate"][2] in (6, 9))],
            15: lambda: [("operands-differ", x.operands[1] == x.operands[2])],
            16: lambda: [("first-not-constant", look.known(x.operands[0]))], 17: lambda: truth(look),
            18: lambda: opposite(look), 19: lambda: extended(look), 20: lambda: cut_again(look),
            21: lambda: cast_back(look), 22: lambda: opened(look, applies), 23: lambda: gone_through(look, applies),
            24: lambda: stopped(look, applies), 25: lambda: none, 26: lambda: none, 27: lambda: none,
            28: lambda: [("no-index", applies)],
            29: lambda: lowered(look, list(map(look.type, x.operands)), applies),
            30: lambda: lowered(look, x.results, applies)}[rule]()


def reason(module, rule, number):
    """The word of the first condition of a rule that doesn't hold at an operation of a module, or none if the rule
    applies."""
    look = Look(module, number)
    if look.x is module.root:
        return "root"
    if not (is_clean(module, number) and (rule == 1 or look.passes(lambda: look.within(look.x)))):
        return "not-clean"
    if look.x.name not in NAMES[rule]:
        return "other-operation"
    applies = apply(module, rule, number) is not None
    failing = next((word for word, holds in conditions(look, rule, applies) if not holds), None)
    # (no condition fails exactly if the rule applies)
    assert (failing is None) == applies, (rule, number, failing)
    return failing
