"""Modules that are edited, and scripts over them. A module of a million operations must fit in 16 MiB: so an operation
has 16 bytes here, one operand at most, and no result. Used by benchmarks/commands.py, benchmarks/chain.py and
benchmarks/held.py."""
import string
import typing

MOST_BYTES = 16_777_216
INSIDE = 20
STRIDE = 7919
DIGITS = string.digits + string.ascii_letters


class Target(typing.NamedTuple):
    """The target of a command: an operation that uses the first of two values that dominate it, another operation in
    its block, before which it may be moved, a value with no users but those that a script adds, and the value that
    replaces it."""
    op: int
    values: tuple
    beside: int
    spare: int
    kept: int


class Block:
    """Two constants, and operations that use the first of them."""
    def __init__(self, count):
        self.count = count
        # (what a script begins with that needs the spare value)
        self.spare = ['insert start #0 0 "t"():()->i8']

    def text(self):
        constants = '%a="arith.constant"()<{value=1:i8}>:()->i8 %b="arith.constant"()<{value=2:i8}>:()->i8'
        return constants + '"t"(%a):(i8)->()' * (self.count - 2) + "\n"

    def targets(self, edits):
        ops = [3 + n * STRIDE % (self.count - 2) for n in range(edits)]
        return [Target(x, (1, 2), y, self.count + 1, 2) for x, y in zip(ops, ops[1:] + ops[:1])]


class Functions:
    """Functions of 20 operations each, as many as fit: two unregistered operations, eight users of the first one
    alternating with other operations, and the terminator."""
    USERS = 8

    def __init__(self, count):
        self.functions = count // (INSIDE + 1)
        self.count = self.functions * (INSIDE + 1)
        self.spare = []

    def text(self):
        values = '%a="s"():()->i8%b="s"():()->i8'
        others = '"t"(%a):(i8)->()"t"():()->()' * self.USERS + '"t"():()->()"func.return"():()->()'
        return "".join(function(n, values + others) for n in range(self.functions)) + "\n"

    def targets(self, edits):
        return [self.target(*divmod(n, self.functions * self.USERS)) for n in range(edits)]

    def target(self, turn, number):
        """A target of a turn over all users. In each turn a user moves before another operation."""
        place, user = divmod(number * STRIDE % (self.functions * self.USERS), self.USERS)
        base = place * (INSIDE + 1) + 1
        beside = base + 4 + 2 * ((user + 1 + turn) % self.USERS)
        return Target(base + 3 + 2 * user, (base + 1, base + 2), beside, base + 2, base + 1)


class Sums:
    """One block of operations with two operands and a result, as in real programs: an unregistered operation, two
    constants, and sums of a constant and an earlier value. Every fourth value has four users. A million don't fit in 16
    MiB."""
    def __init__(self, count):
        self.count = count

    def text(self):
        return sums(self.count)


class SumFunctions:
    """Functions of 20 such operations each, the end among them."""
    def __init__(self, count):
        self.functions = count // (INSIDE + 1)
        self.count = self.functions * (INSIDE + 1)

    def text(self):
        inside = sums(INSIDE - 1) + '"func.return"():()->()'
        return "".join(function(n, inside) for n in range(self.functions)) + "\n"


class Chain:
    """Two constants and sums, each of the value before it and a constant: all is known."""
    def __init__(self, count):
        self.count = count
        self.links = count - 2

    def text(self):
        adds = "".join(add(n, n - 1 if n > 3 else 1, 2) for n in range(3, self.count + 1))
        return constant(1, 1) + constant(2, 2) + adds

    def script(self, edits):
        """Sets the first operand of the first sum to one constant and the other, alternately."""
        return [f"set-operand #3 0 %v{1 + k % 2}.0" for k in range(1, edits + 1)]


def function(number, inside):
    """A function, by its number."""
    name, rest = "", number
    while rest or not name:
        rest, digit = divmod(rest, len(DIGITS))
        name += DIGITS[digit]
    return f'"func.func"()<{{function_type=()->(),sym_name="{name}"}}>({{{inside}}}):()->()'


def constant(number, value):
    return f'%{number}="arith.constant"()<{{value={value}:i32}}>:()->i32\n'


def add(number, one, two):
    return f'%{number}="arith.addi"(%{one},%{two}):(i32,i32)->i32\n'


def sums(count):
    """So many operations of a block, as `Sums` has them."""
    adds = "".join(add(n, max(n - 8, 0) // 4 * 4 + 1, 2) for n in range(4, count + 1))
    return '%1="builtin.unrealized_conversion_cast"():()->i32\n' + constant(2, 1) + constant(3, 2) + adds


SHAPES = {"block": Block, "functions": Functions}
HELD = {**SHAPES, "sums": Sums, "sums in functions": SumFunctions}


def set_operand(target, which):
    return f"set-operand #{target.op} 0 %v{target.values[which]}.0"


def inserted(target):
    return f'insert after #{target.op} "t"(%v{target.values[0]}.0):(i8)->()'


def moved(target):
    return f"move #{target.op} before #{target.beside}"


def replaced(shape, targets):
    """A value gets a user, and is replaced by another value."""
    lines = list(shape.spare)
    for it in targets:
        lines += [f"set-operand #{it.op} 0 %v{it.spare}.0", f"replace %v{it.spare}.0 %v{it.kept}.0"]
    return lines


def rolled_back(targets, many):
    """Edits that are rolled back, so many at a time."""
    lines = []
    for k in range(0, len(targets) - many, many + 2):
        lines += ["begin"] + [set_operand(it, k % 2) for it in targets[k:k + many]] + ["rollback"]
    return lines


def scripts(shape, edits):
    """Each kind of script, of so many commands."""
    targets = shape.targets(edits)
    half = targets[:edits // 2]
    yield "set-operand", [set_operand(it, k // 7 % 2) for k, it in enumerate(targets)]
    yield "set-attr", [f"set-attr #{it.op} k {k % 100}:i8" for k, it in enumerate(targets)]
    yield "set-attr, drop-attr", [line for it in half
                                  for line in (f"set-attr #{it.op} k 1:i8", f"drop-attr #{it.op} k")]
    yield "move", [moved(it) for it in targets]
    yield "set-operand, replace of that use", replaced(shape, half)
    yield "insert, erase", [line for k, it in enumerate(half)
                            for line in (inserted(it), f"erase #{shape.count + 1 + k}")]
    yield "begin, commit", ["begin", "commit"] * (edits // 2)
    for many in (1, 100):
        yield f"begin, {many} edits, rollback", rolled_back(targets, many)


def undone_scripts(shape, edits):
    """Scripts of so many commands in which each edit is undone by itself."""
    third = shape.targets(edits // 3)
    for title, edit in {"move": moved, "insert": inserted, "erase": lambda it: f"erase #{it.op}"}.items():
        yield f"begin, {title}, rollback", [line for it in third for line in ("begin", edit(it), "rollback")]
