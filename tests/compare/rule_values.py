#!/usr/bin/env python3
"""Tries rewrite rules against values: modules are run before and after a rule by an evaluator of their own
(oracle/evaluator.py), and what was defined before has to come out the same. Inputs on which poison or the
least value is divided by -1 are left out.

usage: tests/compare/rule_values.py [PROGRAM [COUNT [SEED]]]

First each rule of the rules in Python: 2 to 21 and 25 to 28 on small functions, of every width of 1 to 4, every
constant and every value of the arguments. Then COUNT random functions (2000 if it isn't given) with branches and
loops, at each operation each rule of 1 to 30 that applies. With a PROGRAM the random functions are also canonicalized
and converted by it, and what it prints is run. It prints how often each rule was tried, and ends with status 1 at the
first difference, which is printed whole."""
import collections
import itertools
import random
import subprocess
import sys

import checkout  # noqa: F401

from oracle import evaluator, rewrites
from oracle.module import I1, I64, INDEX, Block, Module, Op, number_from, read, text_of, walk
from oracle.operations import (
    BINARY, FOR, FUNC, IF, INDEX_CASTS, MODULE, RETURN, WHILE, YIELD, CONDITION)

ON_VALUES = [*range(2, 22), *range(25, 29)]
INDEX_USERS = """constant addi subi muli shli divsi divui remsi remui andi ori xori shrsi shrui maxsi maxui minsi minui
cmpi select""".split()
CONVERSIONS = ["convert partial illegal arith.maxsi,arith.maxui,arith.minsi,arith.minui rules 25",
               "convert partial illegal arith.subi rules 26",
               "convert partial illegal arith.remsi,arith.remui rules 27,26",
               f"convert partial dynamic {','.join('arith.' + it for it in INDEX_USERS)},scf.for,scf.if rules 28,29,30"]


def bits_of(ty, number):
    return number % 2 ** evaluator.bits(ty)


def stored(ty, number):
    """A number as the attribute of a constant of its type has it."""
    width, number = evaluator.bits(ty), bits_of(ty, number)
    return evaluator.by_sign(number, width)


class Function:
    """A function `f` under construction: its operations, and the values that its last block sees."""

    def __init__(self, inputs):
        self.inputs, self.op = list(inputs), Op(FUNC, regions=[Block(inputs)])
        self.ops = self.op.regions[0].ops

    def arguments(self):
        return [(self.op, place) for place in range(len(self.inputs))]

    def put(self, ops, name, operands, results, props=None, regions=()):
        """A new operation; its results are pairs of it and a place."""
        made = Op(name, operands, results, props, regions=list(regions))
        ops.append(made)
        return [(made, place) for place in range(len(made.results))]

    def constant(self, ops, ty, number):
        return self.put(ops, b"arith.constant", [], [ty], {b"value": ("int", ty, stored(ty, number))})[0]

    def module(self, handed, types):
        self.put(self.ops, RETURN, handed, [])
        self.op.props = {b"function_type": ("ty", ("func", tuple(self.inputs), tuple(types))),
                         b"sym_name": ("str", b"f")}
        root = Op(MODULE, regions=[Block(ops=[self.op])])
        count = number_from(root, 0)
        for op in walk(root):
            op.operands = [value_of(it) for it in op.operands]
        return Module(root, count)


def value_of(it):
    """A value by its owner's id: an operation's result, or an argument of one of its blocks."""
    owner, *place = it
    if owner.name == FUNC:
        return ("a", owner.id, 0, place[0])
    return ("v", owner.id, place[0]) if len(place) == 1 else ("a", owner.id, place[0], place[1])


# Small functions, all of them.

def names():
    """Operations of two operands: a word, what the result's type is, and properties."""
    for name in sorted(BINARY):
        yield name, None, {}
    for predicate in range(10):
        yield b"arith.cmpi", I1, {b"predicate": ("int", I64, predicate)}


def pairs():
    """An operation on an argument and each constant, both ways, on two constants, and on an argument twice."""
    for width, (name, result, props) in itertools.product(range(1, 5), names()):
        ty = ("i", width)
        for left, right in itertools.product(["a", "b", *range(2 ** width)], repeat=2):
            made = Function([ty, ty])
            operands = [made.arguments()["ab".index(it)] if it in ("a", "b") else made.constant(made.ops, ty, it)
                        for it in (left, right)]
            yield made.module(made.put(made.ops, name, operands, [result or ty], props), [result or ty])


def nests():
    """(a op c) op d."""
    for width, name in itertools.product(range(1, 4), sorted(BINARY)):
        ty = ("i", width)
        for c, d in itertools.product(range(2 ** width), repeat=2):
            made = Function([ty])
            inner = made.put(made.ops, name, [*made.arguments(), made.constant(made.ops, ty, c)], [ty])
            yield made.module(made.put(made.ops, name, [*inner, made.constant(made.ops, ty, d)], [ty]), [ty])


def choices():
    for ty in (I1, ("i", 2)):
        items = ["a", "b", *range(2 ** ty[1])]
        for condition, left, right in itertools.product(["c", "turned", 0, 1], items, items):
            made = Function([I1, ty, ty])
            given = made.arguments()
            first = given[0] if condition == "c" else made.constant(
                made.ops, I1, condition if condition != "turned" else 1)
            if condition == "turned":
                first = made.put(made.ops, b"arith.xori", [given[0], first], [I1])[0]
            operands = [given[1 + "ab".index(it)] if it in ("a", "b") else made.constant(made.ops, ty, it)
                        for it in (left, right)]
            yield made.module(made.put(made.ops, b"arith.select", [first, *operands], [ty]), [ty])


def casts():
    """A cast of a cast of an argument, and of a constant."""
    words = [b"arith.extsi", b"arith.extui", b"arith.trunci", *sorted(INDEX_CASTS), rewrites.CAST]
    types = [("i", width) for width in (1, 2, 3, 4, 64, 65)] + [INDEX]
    for one, two in itertools.product(words, repeat=2):
        for start, middle, end in itertools.product(types, repeat=3):
            made = Function([start])
            inner = made.put(made.ops, one, made.arguments(), [middle])
            yield made.module(made.put(made.ops, two, inner, [end]), [end])
    for word, start, end in itertools.product(words, types, types):
        for number in (0, 1, -1, 5):
            made = Function([])
            yield made.module(made.put(made.ops, word, [made.constant(made.ops, start, number)], [end]), [end])


def inputs(ty):
    """The values that are tried of a type: all of up to four bits."""
    width = evaluator.bits(ty)
    return range(2 ** width) if width <= 4 else [bits_of(ty, it)
                                                 for it in (0, 1, 2, 7, -1, -2, 2 ** (width - 1), 12345678901234567890)]


def fail(rule, module, found, arguments, old, new):
    print(f"rule {rule}, arguments {arguments}: {old} before, {new} after\n{text_of(module)}\n{text_of(found)}")
    sys.exit(1)


def compared(rule, module, found, tried):
    for arguments in tried:
        old = evaluator.outcome(module, b"f", arguments)
        if old.end is not evaluator.End.DEFINED or old.is_unsure:
            continue
        new = evaluator.outcome(found, b"f", arguments, evaluator.MORE_FUEL)
        if not evaluator.agrees(old, new):
            fail(rule, module, found, arguments, old, new)


def each_rule(module, rules, tried, count):
    for number in list(module.ops()):
        if not rewrites.is_clean(module, number):
            continue
        for rule in rules:
            found = rewrites.after(module, rule, number)
            if found is not None:
                compared(rule, module, found, tried)
                count[rule] += 1


def small():
    count = collections.Counter()
    for module in itertools.chain(pairs(), nests(), choices(), casts()):
        function = module.root.regions[0].ops[0]
        tried = [list(it) for it in itertools.product(*map(inputs, function.regions[0].args))]
        each_rule(module, ON_VALUES, tried, count)
    return count


# Random functions.

class Maker:
    def __init__(self, chance):
        self.chance, self.left = chance, chance.randrange(4, 26)

    def type(self):
        return self.chance.choice([I1, ("i", 2), ("i", 4), ("i", 8), INDEX, INDEX, I64])

    def module(self):
        made = self.made = Function([self.type() for _ in range(self.chance.randrange(1, 4))])
        seen = list(zip(made.arguments(), made.inputs))
        self.fill(made.ops, seen)
        types = [self.type() for _ in range(self.chance.randrange(3))]
        return made.module([self.value(made.ops, seen, ty) for ty in types], types)

    def value(self, ops, seen, ty):
        found = [value for value, it in seen if it == ty]
        if found and self.chance.random() < 0.7:
            return self.chance.choice(found)
        number = self.chance.choice([0, 0, 1, 1, 2, 3, 4, -1, self.chance.randrange(2 ** 64)])
        return self.made.constant(ops, ty, number)

    def put(self, ops, seen, name, types, results, props=None, regions=()):
        operands = [self.value(ops, seen, ty) for ty in types]
        seen.extend(zip(self.made.put(ops, name, operands, results, props, regions), results))

    def fill(self, ops, seen):
        for _ in range(self.chance.randrange(1, 7)):
            if self.left > 0:
                self.left -= 1
                getattr(self, self.chance.choice(["binary", "binary", "binary", "compare", "choice", "cast", "branch",
                                                  "branch", "loop", "repeat", "opaque"]))(ops, seen)

    def binary(self, ops, seen):
        ty = self.type()
        self.put(ops, seen, self.chance.choice(sorted(BINARY)), [ty, ty], [ty])

    def compare(self, ops, seen):
        ty = self.type()
        self.put(ops, seen, b"arith.cmpi", [ty, ty], [I1], {b"predicate": ("int", I64, self.chance.randrange(10))})

    def choice(self, ops, seen):
        ty = self.type()
        self.put(ops, seen, b"arith.select", [I1, ty, ty], [ty])

    def cast(self, ops, seen):
        one, two = sorted([("i", 2), self.chance.choice([("i", 4), ("i", 8), I64])], key=lambda ty: ty[1])
        name = self.chance.choice([b"arith.extsi", b"arith.extui", b"arith.trunci", *sorted(INDEX_CASTS)])
        if name in INDEX_CASTS:
            one, two = self.chance.choice([(INDEX, two), (two, INDEX)])
        self.put(ops, seen, name, [two if name == b"arith.trunci" else one], [one if name == b"arith.trunci" else two])

    def opaque(self, ops, seen):
        types = [self.type() for _ in range(self.chance.randrange(3))]
        self.put(ops, seen, b"test.a", types, [self.type() for _ in range(self.chance.randrange(2))])

    def inner(self, seen, arguments, last, types):
        """A block, whose last operation yields values of some types; its arguments have no owner yet."""
        block, owner = Block([ty for _, ty in arguments]), list(seen) + list(arguments)
        self.fill(block.ops, owner)
        operands = [self.value(block.ops, owner, ty) for ty in types]
        self.made.put(block.ops, last, operands, [])
        return block

    def around(self, ops, seen, name, types, results, blocks):
        """An operation with blocks: it is made first, as its blocks' arguments are its values."""
        operands = [self.value(ops, seen, ty) for ty in types]
        values = self.made.put(ops, name, operands, results)
        op = ops[-1]
        for region, (arguments, last, handed) in enumerate(blocks):
            given = [((op, region, place), ty) for place, ty in enumerate(arguments)]
            op.regions.append(self.inner(seen, given, last, handed))
        seen.extend(zip(values, results))

    def branch(self, ops, seen):
        results = [self.type() for _ in range(self.chance.randrange(3))]
        self.around(ops, seen, IF, [I1], results, [([], YIELD, results)] * 2)

    def loop(self, ops, seen):
        ty, inits = self.chance.choice([INDEX, INDEX, ("i", 4)]), [self.type() for _ in range(self.chance.randrange(3))]
        self.around(ops, seen, FOR, [ty] * 3 + inits, inits, [([ty] + inits, YIELD, inits)])

    def repeat(self, ops, seen):
        inits, results = ([self.type() for _ in range(self.chance.randrange(3))] for _ in range(2))
        self.around(ops, seen, WHILE, inits, results, [(inits, CONDITION, [I1] + results), (results, YIELD, inits)])


def by_program(program, module, script):
    """The module that the program prints after a script, or None if it refuses."""
    text = text_of(module).encode() + b"// -----\n" + script.encode() + b"\nprint\n"
    out = subprocess.run([program, "--brief"], input=text, stdout=subprocess.PIPE, check=False).stdout
    first, _, rest = out.partition(b"\n")
    return None if b"refused" in first else read(rest.partition(b"\n")[2])


def renamed(module):
    """Operations without a meaning are identified by their ids, which a printed module doesn't keep, so they get an
    attribute."""
    for op in walk(module.root):
        if op.name == b"test.a":
            op.attrs[b"id"] = ("int", I64, op.id)
    return module


def told_by_names(module):
    """Identifies operations without a meaning by this attribute."""
    for op in walk(module.root):
        if op.name == b"test.a":
            op.told = op.attrs[b"id"][2]
    return module


def at_random(program, count, seed):
    chance, tried_rules = random.Random(seed), collections.Counter()
    for _ in range(count):
        module = renamed(Maker(chance).module())
        function = module.root.regions[0].ops[0]
        tried = [[chance.choice(list(inputs(ty))) for ty in function.regions[0].args] for _ in range(6)]
        each_rule(module, range(1, 31), tried, tried_rules)
        for script in ["canon limit 100000", chance.choice(CONVERSIONS)] if program else []:
            found = by_program(program, module, script)
            if found is not None:
                compared(script, told_by_names(module), told_by_names(found), tried)
                tried_rules[script.split()[0]] += 1
    return tried_rules


def shown(count):
    return ", ".join(f"{rule}: {count[rule]}" for rule in sorted(count, key=str))


def main():
    words = sys.argv[1:]
    if any(it.startswith("-") for it in words):
        print(__doc__)
        return 0
    program, count, seed = (words + [None, None, None])[:3]
    count, seed = int(count or 2000), int(seed or 7)
    if program in (None, "-"):
        print("small functions, how often each rule applied:", shown(small()))
    print(f"{count} random functions, seed {seed}:", shown(at_random(program, count, seed)))
    return 0


if __name__ == "__main__":
    sys.exit(main())
