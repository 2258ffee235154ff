"""Dialect conversion."""
from . import reasons
from .module import I64, INDEX, Op, walk
from .rewrites import CAST, WORDS, No, Site, apply, told, twenty_one

MOST_DEPTH = 16
RULES = {2} | set(range(25, 31))


class Refused(Exception):
    """The number of a refusal, the operation that it names, and why that stays, where it couldn't be legalised."""

    def __init__(self, number, op=None, stays=""):
        super().__init__(number, op, stays)
        self.number, self.op, self.stays = number, op, stays


class Target:
    def __init__(self, is_full, legal=(), illegal=(), dynamic=(), rules=(), depth=MOST_DEPTH):
        self.is_full, self.legal, self.illegal, self.dynamic, self.rules, self.depth = (
            is_full, legal, illegal, dynamic, rules, depth)
        names = [*legal, *illegal, *dynamic]
        if (len(set(names)) < len(names) or CAST in names or any(rule not in RULES for rule in rules)
                or not 1 <= depth <= MOST_DEPTH):
            raise Refused(54)

    def is_legal(self, module, op):
        if op.name == CAST or op.name in self.legal:
            return True
        if op.name in self.dynamic:
            types = [module.type_of(value)
                     for value in op.operands] + op.results + [ty for block in op.blocks() for ty in block.args]
            return INDEX not in types
        return not self.is_full and op.name not in self.illegal


class Try:
    """Legalises one operation of the module."""

    def __init__(self, target):
        self.target, self.met = target, False

    def legal(self, module, number, depth):
        """The module in which an operation is legal, and a trace line for each rule that wasn't undone, in order of
        application; None if it fails."""
        if self.target.is_legal(module, module.ops()[number]):
            return module, []
        if depth >= self.target.depth:
            self.met = True
            return None
        for rule in self.target.rules:
            found = self.after(module, rule, number, depth)
            if found is not None:
                return found
        return None

    def after(self, module, rule, number, depth):
        tried = apply(module, rule, number)
        if tried is None:
            return None
        made, lines = sorted(it for it in tried.ops() if it >= module.next), [told(module, tried, rule, number)]
        for it in made:
            if it in tried.ops():
                found = self.legal(tried, it, depth + 1)
                if found is None:
                    return None
                tried, lines = found[0], lines + found[1]
        return tried, lines

    def stays(self, module, number):
        """Why an operation that can't be legalised stays: the rule that was tried last, and what it needs."""
        if not self.target.rules:
            return f"stays #{number} no-rule"
        last = self.target.rules[-1]
        return f"stays #{number} {last} {WORDS[last - 1]} {reasons.reason(module, last, number) or 'makes-illegal'}"


def unused(module):
    used = {value[1] for op in walk(module.root) for value in op.operands if value[0] == "v"}
    return lambda op: op.id not in used


def reconciled_once(module):
    """The module without the first cast that is erased, or none if no cast is."""
    is_unused = unused(module)
    for op in walk(module.root):
        if op.name != CAST or op is module.root:
            continue
        tried = module.copy()
        site = Site(tried, op.id)
        if is_unused(op):
            site.erase(site.x)
            return tried
        try:
            site.clean(site.x)
            twenty_one(site)
            return tried
        except No:
            continue
    return None


def reconciled(module):
    while True:
        found = reconciled_once(module)
        if found is None:
            break
        module = found
    module = module.copy()
    for number in [op.id for op in walk(module.root) if op.name == CAST]:
        if number not in module.ops():
            continue
        site = Site(module, number)
        types = [site.type(value) for value in site.x.operands]
        if sorted(map(str, types + site.x.results)) != sorted(map(str, [INDEX, I64])) or len(types) != 1:
            raise Refused(53, number)
        site.results_are([site.made(b"arith.index_cast", site.x.operands, site.x.results[0])])
    return module


def converted(module, target):
    """The module after a conversion, and a trace line for each rule that wasn't undone."""
    lines = []
    for number in [op.id for op in walk(module.root)]:
        if number not in module.ops():
            continue
        attempt = Try(target)
        found = attempt.legal(module, number, 0)
        if found is None:
            raise Refused(52 if attempt.met else 51, number, attempt.stays(module, number))
        module, lines = found[0], lines + found[1]
    module = reconciled(module)
    for op in walk(module.root):
        if target.is_full and not target.is_legal(module, op):
            raise Refused(51, op.id)
    return module, lines
