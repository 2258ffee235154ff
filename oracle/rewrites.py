"""The rewrite rules 1 to 30, and the repeated first rule."""
import re

from .analyses import effects_of
from .folds import attribute_of, fold, known, signed, width
from .module import I1, I64, INDEX, Block, Op, walk
from .operations import (BINARY, FOR, FUNC, IF, INDEX_CASTS, MODULE, ROWS, WHILE, is_beyond, is_listed, is_signless,
                         is_terminator)
from .verifier import Here, broken

CAST, CONSTANT = b"builtin.unrealized_conversion_cast", b"arith.constant"
FLAGGED = {b"arith.addi", b"arith.subi", b"arith.muli"}
# How many of the last rewrites are counted by rule.
MOST_COUNTED = 100
MIRRORED = {2: 4, 4: 2, 3: 5, 5: 3, 6: 8, 8: 6, 7: 9, 9: 7}


class No(Exception):
    """A rule doesn't apply."""


def need(is_so):
    if not is_so:
        raise No


class Site:
    """An operation x of a module, which a rule looks at and changes."""

    def __init__(self, module, number):
        self.module, self.ops, self.places = module, module.ops(), module.places()
        self.x = self.ops[number]

    # What is asked.

    def type(self, value):
        return self.module.type_of(value)

    def right(self, op):
        """Asks that an operation has no diagnostic, and that each of its properties is one of its row: without a row
        none is."""
        need(all(key in ROWS[op.name].props for key in op.props) if op.name in ROWS else not op.props)
        need(not broken(Here(self.module, op, self.ops, self.places)))
        return op

    def within(self, op):
        """Asks that an operation is not beyond the table."""
        need(not is_beyond(op, [self.module.type_of(value, self.ops) for value in op.operands]))
        return op

    def clean(self, op):
        """Asks both of an operation that the rule names."""
        return self.within(self.right(op))

    def owner(self, value, *names):
        """The operation whose result a value is, which is one of some names; it is named."""
        op = self.ops[value[1]]
        need(value[0] == "v" and op.name in names)
        return self.clean(op)

    def is_K(self, value):
        return value[0] == "v" and self.ops[value[1]].name == CONSTANT

    def K(self, value):
        """The bits of a constant."""
        attr = self.owner(value, CONSTANT).props[b"value"]
        return known(attr[1], attr[2])[1]

    def word(self):
        need(self.x.name.startswith(b"arith."))
        return self.x.name[6:].decode()

    def is_word(self, words):
        need(self.word() in words.split())

    # What is changed.

    def put(self, op, place=None):
        """Puts a new operation before x, or at a place of a block."""
        op.id, self.module.next = self.module.next, self.module.next + 1
        if place is None:
            where = self.module.places()[self.x.id]
            where.ops().insert(where.index, op)
        else:
            place[0].insert(place[1], op)
        return op

    def made(self, name, operands, ty, props=None):
        """The result of a new operation."""
        if props is None:
            props = {b"overflowFlags": ("overflow", False, False)} if name in FLAGGED else {}
        return ("v", self.put(Op(name, operands, [ty], props)).id, 0)

    def constant(self, ty, number):
        return self.made(CONSTANT, [], ty, {b"value": attribute_of(known(ty, number))})

    def replaced(self, old, new):
        for op in walk(self.module.root):
            op.operands = [new if value == old else value for value in op.operands]

    def results_are(self, values):
        """Replaces the results of x, and erases it."""
        for place, value in enumerate(values):
            self.replaced(("v", self.x.id, place), value)
        self.erase(self.x)

    def erase(self, op):
        where = self.module.places()[op.id]
        where.ops().pop(where.index)

    def open(self, ops, values):
        """Shifts the operations of a block but its last before x, and makes x's results these values, read once
        the operations are there."""
        last = ops.pop()
        where = self.module.places()[self.x.id]
        where.ops()[where.index:where.index] = ops
        ops[:] = []
        self.results_are(values(last))


def swap(site):
    site.x.operands[:2] = site.x.operands[1::-1]


def neutral(site, words, number):
    site.is_word(words)
    b = site.K(site.x.operands[1])
    ty = site.x.results[0]
    need(b == number % 2 ** width(ty))


def twice(site, words):
    site.is_word(words)
    need(site.x.operands[0] == site.x.operands[1])


def one(site):
    need(not is_terminator(site.x) and site.x.name not in (FUNC, MODULE))
    used = {value[1] for op in walk(site.module.root) for value in op.operands if value[0] == "v"}
    need(site.x.id not in used and effects_of(site.x) <= {"allocate", "read"})
    site.erase(site.x)


def two(site):
    need(site.x.name != CONSTANT)
    operands = [(site.type(value), site.K(value)) if site.is_K(value) else None for value in site.x.operands]
    found = fold(site.x, operands)
    need(found is not None)
    site.results_are([site.constant(*found)])


def three(site):
    site.is_word("addi muli andi ori xori maxsi maxui minsi minui")
    a, b = site.x.operands
    need(site.is_K(a) and not site.is_K(b))
    site.K(a)
    swap(site)


def four(site):
    neutral(site, "addi subi ori xori shli shrsi shrui", 0)
    site.results_are(site.x.operands[:1])


def five(site):
    neutral(site, "muli divsi divui", 1)
    site.results_are(site.x.operands[:1])


def six(site):
    neutral(site, "andi", -1)
    site.results_are(site.x.operands[:1])


def seven(site):
    twice(site, "subi xori")
    site.results_are([site.constant(site.x.results[0], 0)])


def eight(site):
    twice(site, "andi ori maxsi maxui minsi minui")
    site.results_are(site.x.operands[:1])


def nine(site):
    neutral(site, "remsi remui", 1)
    site.results_are([site.constant(site.x.results[0], 0)])


def ten(site):
    site.is_word("addi muli andi ori xori")
    inner, ty = site.owner(site.x.operands[0], site.x.name), site.x.results[0]
    numbers = [(ty, site.K(inner.operands[1])), (ty, site.K(site.x.operands[1]))]
    it = site.constant(*fold(Op(site.x.name, [], [ty]), numbers))
    site.results_are([site.made(site.x.name, [inner.operands[0], it], ty)])


def eleven(site):
    site.is_word("subi")
    ty = site.x.results[0]
    it = site.constant(ty, -site.K(site.x.operands[1]))
    site.results_are([site.made(b"arith.addi", [site.x.operands[0], it], ty)])


def predicate(site):
    site.is_word("cmpi")
    return site.x.props[b"predicate"][2]


def twelve(site):
    number = predicate(site)
    need(site.x.operands[0] == site.x.operands[1])
    site.results_are([site.constant(I1, number in (0, 3, 5, 7, 9))])


def thirteen(site):
    number, (a, b) = predicate(site), site.x.operands
    need(site.is_K(a) and not site.is_K(b))
    site.K(a)
    swap(site)
    site.x.props[b"predicate"] = ("int", I64, MIRRORED.get(number, number))


def fourteen(site):
    number = predicate(site)
    need(number in (6, 9) and site.K(site.x.operands[1]) == 0)
    site.results_are([site.constant(I1, number == 9)])


def fifteen(site):
    site.is_word("select")
    need(site.x.operands[1] == site.x.operands[2])
    site.results_are(site.x.operands[1:2])


def sixteen(site):
    site.is_word("select")
    number = site.K(site.x.operands[0])
    site.results_are([site.x.operands[1 if number else 2]])


def seventeen(site):
    site.is_word("select")
    need(site.x.results[0] == I1 and site.K(site.x.operands[1]) == 1 and site.K(site.x.operands[2]) == 0)
    site.results_are(site.x.operands[:1])


def eighteen(site):
    site.is_word("select")
    inner = site.owner(site.x.operands[0], b"arith.xori")
    need(site.K(inner.operands[1]) == 1)
    site.x.operands = [inner.operands[0], site.x.operands[2], site.x.operands[1]]


def nineteen(site):
    site.is_word("extsi extui")
    inner = site.owner(site.x.operands[0], b"arith.extsi", b"arith.extui")
    need(site.x.name == b"arith.extsi" or inner.name == b"arith.extui")
    name = b"arith.extsi" if inner.name == b"arith.extsi" else b"arith.extui"
    site.results_are([site.made(name, inner.operands, site.x.results[0])])


def twenty(site):
    site.is_word("trunci")
    inner = site.owner(site.x.operands[0], b"arith.trunci", b"arith.extsi", b"arith.extui")
    if inner.name == b"arith.trunci":
        site.results_are([site.made(b"arith.trunci", inner.operands, site.x.results[0])])
        return
    need(site.type(inner.operands[0]) == site.x.results[0])
    site.results_are(inner.operands)


def twenty_one(site):
    x = site.x
    need(x.name in INDEX_CASTS | {CAST} and len(x.operands) == len(x.results) == 1)
    if x.name == CAST and site.type(x.operands[0]) == x.results[0]:
        site.results_are(x.operands)
        return
    inner = site.owner(x.operands[0], x.name)
    need(len(inner.operands) == len(inner.results) == 1)
    ty = site.type(inner.operands[0])
    need(ty == x.results[0])
    if x.name != CAST:
        need(is_signless(ty) and ty[1] <= 64 or ty == INDEX and width(inner.results[0]) >= 64)
    site.results_are(inner.operands)


def twenty_two(site):
    need(site.x.name == IF)
    block = site.x.regions[0 if site.K(site.x.operands[0]) else 1]
    if block is None:
        site.erase(site.x)
        return
    site.clean(block.ops[-1])
    site.open(block.ops, lambda last: last.operands)


def arguments_are(site, region, values):
    for place, value in enumerate(values):
        site.replaced(("a", site.x.id, region, place), value)


def twenty_three(site):
    x = site.x
    need(x.name == FOR)
    ty = site.type(x.operands[0])
    lower, upper = (signed(ty, site.K(value)) for value in x.operands[:2])
    if lower >= upper:
        site.results_are(x.operands[3:])
        return
    step = signed(ty, site.K(x.operands[2]))
    need(step > 0 and lower + step >= upper)
    site.clean(x.regions[0].ops[-1])
    arguments_are(site, 0, x.operands[:1] + x.operands[3:])
    site.open(x.regions[0].ops, lambda last: last.operands)


def twenty_four(site):
    need(site.x.name == WHILE)
    block = site.x.regions[0]
    last = site.clean(block.ops[-1])
    need(site.K(last.operands[0]) == 0)
    arguments_are(site, 0, site.x.operands)
    site.open(block.ops, lambda last: last.operands[1:])


# For conversion.

def twenty_five(site):
    site.is_word("maxsi maxui minsi minui")
    ty, operands = site.x.results[0], list(site.x.operands)
    number = {"maxsi": 4, "maxui": 8, "minsi": 2, "minui": 6}[site.word()]
    it = site.made(b"arith.cmpi", operands, I1, {b"predicate": ("int", I64, number)})
    site.results_are([site.made(b"arith.select", [it] + operands, ty)])


def twenty_six(site):
    site.is_word("subi")
    ty, (a, b) = site.x.results[0], site.x.operands
    turned = site.made(b"arith.xori", [b, site.constant(ty, -1)], ty)
    negative = site.made(b"arith.addi", [turned, site.constant(ty, 1)], ty)
    site.results_are([site.made(b"arith.addi", [a, negative], ty)])


def twenty_seven(site):
    site.is_word("remsi remui")
    ty, (a, b) = site.x.results[0], site.x.operands
    quotient = site.made(b"arith.divsi" if site.word() == "remsi" else b"arith.divui", [a, b], ty)
    product = site.made(b"arith.muli", [quotient, b], ty)
    site.results_are([site.made(b"arith.subi", [a, product], ty)])


def narrow(ty):
    return I64 if ty == INDEX else ty


def cast_in(site, value, place=None):
    """A value, or its cast to i64 where it is an index; before x or at the end of a list before its last."""
    if site.type(value) != INDEX:
        return value
    it = site.put(Op(CAST, [value], [I64]), place)
    return ("v", it.id, 0)


def cast_out(site, value, ty):
    return ("v", site.put(Op(CAST, [value], [INDEX])).id, 0) if ty == INDEX else value


def twenty_eight(site):
    x = site.x
    need(x.name.startswith(b"arith.") and x.name not in INDEX_CASTS)
    need(INDEX in [site.type(value) for value in x.operands] + x.results)
    operands = [cast_in(site, value) for value in x.operands]
    props = dict(x.props)
    if x.name == CONSTANT:
        props[b"value"] = ("int", I64, props[b"value"][2])
    it = site.put(Op(x.name, operands, map(narrow, x.results), props, x.attrs))
    site.results_are([cast_out(site, ("v", it.id, 0), x.results[0])])


def yield_narrow(site, block):
    """Casts before a yield for its index operands."""
    last = block.ops[-1]
    for place, value in enumerate(last.operands):
        if site.type(value) == INDEX:
            it = site.put(Op(CAST, [value], [I64]), (block.ops, len(block.ops) - 1))
            last.operands[place] = ("v", it.id, 0)


def twenty_nine(site):
    x = site.x
    need(x.name == FOR and INDEX in [site.type(value) for value in x.operands])
    old = x.regions[0]
    site.clean(old.ops[-1])
    operands = [cast_in(site, value) for value in x.operands]
    placeholders = [site.put(Op(CAST, [], [ty])) for ty in old.args]
    arguments_are(site, 0, [("v", op.id, 0) for op in placeholders])
    block = Block(map(narrow, old.args))
    loop = site.put(Op(FOR, operands, map(narrow, x.results), x.props, x.attrs, [block]))
    values = []
    for place, ty in enumerate(old.args):
        value = ("a", loop.id, 0, place)
        if ty == INDEX:
            value = ("v", site.put(Op(CAST, [value], [INDEX]), (block.ops, len(block.ops))).id, 0)
        values.append(value)
    block.ops += old.ops
    old.ops = []
    for op, value in zip(placeholders, values):
        site.replaced(("v", op.id, 0), value)
        site.erase(op)
    yield_narrow(site, block)
    site.results_are([cast_out(site, ("v", loop.id, place), ty) for place, ty in enumerate(x.results)])


def thirty(site):
    x = site.x
    need(x.name == IF and INDEX in x.results)
    for block in x.blocks():
        site.clean(block.ops[-1])
    blocks = [block and Block() for block in x.regions]
    branch = site.put(Op(IF, x.operands, map(narrow, x.results), x.props, x.attrs, blocks))
    for old, block in zip(x.regions, blocks):
        if block is not None:
            block.ops, old.ops = old.ops, []
            yield_narrow(site, block)
    site.results_are([cast_out(site, ("v", branch.id, place), ty) for place, ty in enumerate(x.results)])


RULES = [one, two, three, four, five, six, seven, eight, nine, ten, eleven, twelve, thirteen, fourteen, fifteen,
         sixteen, seventeen, eighteen,
         nineteen, twenty, twenty_one, twenty_two, twenty_three, twenty_four, twenty_five, twenty_six, twenty_seven,
         twenty_eight, twenty_nine, thirty]
# The words of the rules, in the order of their numbers.
WORDS = """erase-dead fold-to-constant swap-constant drop-zero drop-one drop-all-ones cancel-itself keep-itself
zero-remainder regroup-constants add-negative compare-itself mirror-comparison compare-zero choose-same choose-known
choose-truth choose-opposite extend-extension cut-cast cast-back open-branch open-loop stop-loop expand-min-max
expand-difference expand-remainder lower-index lower-loop lower-choice""".split()


def is_clean(module, number):
    """Whether an operation isn't the root, has no diagnostic, and no property outside its row."""
    site = Site(module, number)
    try:
        site.right(site.x)
    except No:
        return False
    return site.x is not module.root


def after(module, rule, number):
    """The module after a rule at an operation without diagnostics, or none if it doesn't apply. Beyond the table only
    the first does, and at an operation that isn't listed none."""
    tried = module.copy()
    site = Site(tried, number)
    try:
        need(is_listed(site.x))
        if rule != 1:
            site.within(site.x)
        RULES[rule - 1](site)
    except No:
        return None
    return tried


def apply(module, rule, number):
    """The module after a rule at an operation, or none if it doesn't apply."""
    return after(module, rule, number) if is_clean(module, number) else None


def rules_of(op):
    """The rules of 1 to 24 that an operation's name doesn't exclude."""
    if not is_listed(op):
        return []
    return [1] + list(range(2, 22) if op.name.startswith(b"arith.") else range(21, 25))


CANONICAL = tuple(range(1, 25))


def fired(module, rules):
    """The module after the first of some rules of 1 to 24, in their order, that applies at the first operation at which
    one does, that rule, and the operation, or none."""
    for op in walk(module.root):
        named = [rule for rule in rules if rule in rules_of(op)]
        for rule in named if named and is_clean(module, op.id) else []:
            found = after(module, rule, op.id)
            if found is not None:
                return found, rule, op.id
    return None


def first(module, rules=CANONICAL):
    """The module after it, or none."""
    found = fired(module, rules)
    return found and found[0]


def made_and_gone(module, found, op):
    """An operation at which something was applied, which operations that made, and whether the operation went."""
    made = ",".join(f"#{number}" for number in range(module.next, found.next))
    gone = "" if op in found.ops() else f" erased #{op}"
    return f"#{op}{made and ' made '}{made}{gone}"


def told(module, found, rule, op):
    """The trace line of a rewrite: the rule, the operation, the new operations, and whether the operation was
    erased."""
    return f"rewrote {rule} {WORDS[rule - 1]} {made_and_gone(module, found, op)}"


def traced(module, rules, limit):
    """The module after at most so many rewrites by some rules, their trace lines, and whether no rule applies."""
    lines = []
    while len(lines) < limit:
        found = fired(module, rules)
        if found is None:
            return module, lines, True
        lines.append(told(module, *found))
        module = found[0]
    return module, lines, first(module, rules) is None


def fired_lines(lines):
    """How many of the last hundred trace lines each rule or pattern has, in the order of their first lines there."""
    counts = {}
    for line in lines[-MOST_COUNTED:]:
        by = re.match("rewrote (.*?) #", line)[1]
        counts[by] = counts.get(by, 0) + 1
    return [f"fired {by} {count}" for by, count in counts.items()]


def rewritten(module, rules, limit):
    """The same, with the number of rewrites in place of their trace lines."""
    module, lines, is_done = traced(module, rules, limit)
    return module, len(lines), is_done


def canonical(module, limit):
    """The same by the rules of canonicalization, in the order of their numbers."""
    return rewritten(module, CANONICAL, limit)


def canonical_at(module, number, limit):
    """The module after at most so many rewrites at one operation, each by the lowest rule of 1 to 24 that applies
    there, how many there were, and whether none applies any more or the operation is gone."""
    count = 0
    while True:
        found = first_at(module, number)
        if found is None or count == limit:
            return module, count, found is None
        module, count = found, count + 1


def first_at(module, number):
    """The module after the lowest rule of 1 to 24 that applies at an operation, or none."""
    if number not in module.ops():
        return None
    return next((found for rule in CANONICAL if (found := apply(module, rule, number)) is not None), None)
