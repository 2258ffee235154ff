"""Runs functions of arith and scf on values, and notes what operations without a meaning see on the way.

The evaluator shares nothing with the folds and the rules: arithmetic is written here a second time, from the documents
of the dialects. A value is a number below 2^w, or None for poison. Poison is the result of a shift by the width or
more, of an operation that breaks one of its flags, and of nearly every operation on poison. Undefined behaviour stops
a run: a division by 0, by poison, or of the least value by -1, and a branch or a loop bound that is poison. The
remainder of the least value by -1 is 0.

A function is compiled to closures once, and then run on a list of values: an operation takes less than a
microsecond."""
import enum
import operator
import zlib

from .module import INDEX, walk

FUEL, MORE_FUEL = 400, 20000


class Undefined(Exception):
    """The run has undefined behaviour; says why."""


class Endless(Exception):
    """The run takes more steps than it may; says which limit it reached."""


class Unmodelled(Exception):
    """The run executes an operation that the evaluator doesn't know; says which."""


class End(enum.Enum):
    """How a run ends."""
    DEFINED, UNDEFINED, ENDLESS, UNMODELLED = range(4)


class Outcome:
    """How a run ended, its results and what it noted, or why it stopped. `is_unsure` says that the run divided poison
    or the least value by -1 without undefined behaviour."""

    def __init__(self, end, results=(), trace=(), reason="", is_unsure=False):
        self.end, self.results, self.trace, self.reason = end, list(results), list(trace), reason
        self.is_unsure = is_unsure

    def __repr__(self):
        return f"{self.results}, {self.trace}" if self.end is End.DEFINED else f"{self.end.name} {self.reason}".strip()


def is_number(ty):
    """Whether values of a type are numbers."""
    return ty == INDEX or ty[0] == "i"


def bits(ty):
    """The width of an integer; an index has 64 bits."""
    return ty[1] if ty[0] == "i" else 64


def by_sign(number, width):
    """The signed reading of a number."""
    return number - (1 << width) if number >> (width - 1) else number


def towards_zero(a, b):
    """The quotient of two signed numbers, rounded towards zero."""
    quotient = abs(a) // abs(b)
    return quotient if (a < 0) == (b < 0) else -quotient


# Division. Each function takes signed readings for the signed operations, and numbers for the others.

DIVISIONS = {
    "divsi": towards_zero,
    "divui": operator.floordiv,
    "floordivsi": operator.floordiv,
    "ceildivsi": lambda a, b: -(-a // b),
    "ceildivui": lambda a, b: -(-a // b),
    "remsi": lambda a, b: a - towards_zero(a, b) * b,
    "remui": operator.mod,
}


def divided(word, width, a, b):
    """A quotient or remainder of two numbers; raises `Undefined` if there is none."""
    if b == 0:
        raise Undefined(f"arith.{word} by 0")
    if word.endswith("ui"):
        return DIVISIONS[word](a, b)
    x, y = by_sign(a, width), by_sign(b, width)
    if y == -1 and x == -(1 << (width - 1)) and word != "remsi":
        raise Undefined(f"arith.{word} of the least value by -1")
    return DIVISIONS[word](x, y)


def exactly_divided(word, width, a, b):
    """A quotient that is poison unless the remainder is 0."""
    found = divided(word, width, a, b)
    return found if divided("rem" + word[-2:], width, a, b) == 0 else None


# Arithmetic on two numbers, whose result is taken modulo 2^w by the caller.

def signed(width, choose):
    """The number that `choose` prefers by the signed readings."""
    return lambda a, b: choose(a, b, key=lambda it: by_sign(it, width))


TOTAL = {"addi": operator.add, "subi": operator.sub, "muli": operator.mul, "andi": operator.and_, "ori": operator.or_,
         "xori": operator.xor, "maxui": max, "minui": min}
COMPARISONS = [operator.eq, operator.ne, operator.lt, operator.le, operator.gt, operator.ge] + [
    operator.lt, operator.le, operator.gt, operator.ge]


def compared(predicate, width, a, b):
    """Whether a predicate of `arith.cmpi` holds, as 0 or 1."""
    if 2 <= predicate <= 5:
        a, b = by_sign(a, width), by_sign(b, width)
    return int(COMPARISONS[predicate](a, b))


def without_overflow(word, width, flags):
    """A sum, difference or product that is poison if it breaks a flag."""
    compute, half, whole = TOTAL[word], 1 << (width - 1), 1 << width

    def found(a, b):
        if "nsw" in flags and not -half <= compute(by_sign(a, width), by_sign(b, width)) < half:
            return None
        number = compute(a, b)
        return None if "nuw" in flags and not 0 <= number < whole else number
    return found


def shift_left(width, flags):
    """`shli`: poison by the width or more, or if bits that its flags keep get lost."""
    def found(a, b):
        if b >= width:
            return None
        number = (a << b) % (1 << width)
        if "nuw" in flags and number >> b != a:
            return None
        return None if "nsw" in flags and by_sign(number, width) >> b != by_sign(a, width) else number
    return found


def shift_right(word, width, flags):
    """`shrsi` or `shrui`: poison by the width or more, or if `exact` and bits get lost."""
    def found(a, b):
        if b >= width or "exact" in flags and a % (1 << b):
            return None
        return (by_sign(a, width) if word == "shrsi" else a) >> b
    return found


def partial(word, width, flags):
    """An operation on two numbers that may be poison; none if it never is."""
    if word in ("shrsi", "shrui"):
        return shift_right(word, width, flags)
    if word == "shli":
        return shift_left(width, flags)
    return without_overflow(word, width, flags) if flags and word in TOTAL else None


def binary(word, width):
    """An operation on two numbers that has a result for all of them."""
    if word in ("maxsi", "minsi"):
        return signed(width, max if word == "maxsi" else min)
    return TOTAL[word]


PARTIAL = {"shli", "shrsi", "shrui"}
PAIRS = {*TOTAL, *PARTIAL, "maxsi", "minsi"}
CASTS = {"extsi", "extui", "trunci", "index_cast", "index_castui"}


def truncated(width, to, flags):
    """`trunci` of a number: poison if it breaks a flag."""
    def found(a):
        number = a % (1 << to)
        if "nuw" in flags and number != a or "nsw" in flags and by_sign(number, to) != by_sign(a, width):
            return None
        return number
    return found


def flags_of(op):
    """The flags of an operation: nsw, nuw, exact."""
    both = {**op.attrs, **op.props}
    overflow = both.get(b"overflowFlags", ("overflow", False, False))
    if overflow[0] != "overflow":
        raise Unmodelled(f"{op.name.decode()} with other flags")
    words = (("nsw", overflow[1]), ("nuw", overflow[2]), ("exact", b"isExact" in both))
    return {word for word, is_set in words if is_set}


KNOWN_PROPERTIES = {b"overflowFlags", b"isExact", b"value", b"predicate", b"unsignedCmp"}
TERMINATORS = {b"func.return", b"scf.yield", b"scf.condition"}


class Machine:
    """Runs the operations of a module. `trace` has what each operation without a meaning was given, in order."""

    def __init__(self, module, fuel=FUEL):
        self.module, self.ops, self.fuel = module, module.ops(), fuel
        self.trace, self.seen, self.is_unsure = [], {}, False
        self.codes, self.slots = {}, {}

    # Functions and blocks.

    def call(self, function, arguments):
        """The results of a function on some values."""
        if function.id not in self.codes:
            self.codes[function.id] = self.compiled(function)
        count, run = self.codes[function.id]
        return run([*arguments, *[None] * (count - len(arguments))])

    def compiled(self, function):
        """How many values a function has, its arguments first, and what runs it on a list of them."""
        count = 0
        for op in walk(function):
            own = [("v", op.id, place) for place in range(len(op.results))]
            own += [("a", op.id, region, place) for region, block in enumerate(op.regions) if block
                    for place in range(len(block.args))]
            for value in own:
                self.slots[value], count = count, count + 1
        return count, self.block(function, 0)

    def block(self, op, region):
        """What runs a block, and gives the operands of its terminator."""
        ops = op.regions[region].ops
        if not ops or ops[-1].name not in TERMINATORS:
            return self.stopped(f"a block of {op.name.decode()} without a known terminator")
        steps = [self.step(it) for it in ops[:-1]]
        handed, count = [self.slots[it] for it in ops[-1].operands], len(ops)

        def run(values):
            self.fuel -= count
            if self.fuel < 0:
                raise Endless
            for step in steps:
                step(values)
            return [values[it] for it in handed]
        return run

    def stopped(self, reason):
        """What stops a run."""
        def step(_):
            raise Unmodelled(reason)
        return step

    # Operations.

    def step(self, op):
        """What runs an operation."""
        word = op.name.decode("utf-8", "replace")
        try:
            if set(op.props) <= KNOWN_PROPERTIES:
                if word.startswith("arith."):
                    return self.arith(op, word[6:]) or self.foreign(op)
                if word in ("scf.if", "scf.for", "scf.while"):
                    return getattr(self, word[4:] + "_step")(op)
            return self.cast(op) if word == "builtin.unrealized_conversion_cast" else self.foreign(op)
        except Unmodelled as fault:
            return self.stopped(str(fault))

    def places(self, op):
        """Where an operation's operands and results are among the values of its function."""
        return [self.slots[it] for it in op.operands], [self.slots["v", op.id, it] for it in range(len(op.results))]

    def types(self, op):
        """The types of an operation's operands."""
        return [self.module.type_of(it, self.ops) for it in op.operands]

    def arith(self, op, word):
        """What runs an operation of arith; none if the operation isn't known, or isn't one on numbers."""
        types = self.types(op)
        if word == "select" and len(types) == 3 and types[0] == ("i", 1):
            return self.select(op)
        if len(op.results) != 1 or not all(map(is_number, [*types, *op.results])):
            return None
        if word == "constant" and op.props.get(b"value", " ")[0] == "int":
            return self.constant(op)
        if word == "cmpi" and len(types) == 2:
            predicate, width = op.props[b"predicate"][2], bits(types[0])
            return self.pair(op, lambda a, b: compared(predicate, width, a, b))
        if word in CASTS and len(types) == 1:
            return self.resize(op, word, bits(types[0]))
        if word in DIVISIONS and len(types) == 2:
            return self.division(op, word, bits(types[0]))
        if word in PAIRS and len(types) == 2:
            found = partial(word, bits(types[0]), flags_of(op))
            return self.maybe_pair(op, found) if found else self.pair(op, binary(word, bits(types[0])))
        return None

    def constant(self, op):
        result, number = self.slots["v", op.id, 0], op.props[b"value"][2] % (1 << bits(op.results[0]))

        def step(values):
            values[result] = number
        return step

    def select(self, op):
        (c, x, y), (result,) = self.places(op)

        def step(values):
            chosen = values[c]
            values[result] = None if chosen is None else values[x if chosen else y]
        return step

    def pair(self, op, compute):
        """What runs an operation on two numbers that always gives one."""
        ((x, y), (result,)), mask = self.places(op), (1 << bits(op.results[0])) - 1

        def step(values):
            a, b = values[x], values[y]
            values[result] = None if a is None or b is None else compute(a, b) & mask
        return step

    def maybe_pair(self, op, compute):
        """What runs an operation on two numbers that may be poison."""
        ((x, y), (result,)), mask = self.places(op), (1 << bits(op.results[0])) - 1

        def step(values):
            a, b = values[x], values[y]
            found = None if a is None or b is None else compute(a, b)
            values[result] = None if found is None else found & mask
        return step

    def division(self, op, word, width):
        """What runs a quotient or a remainder."""
        ((x, y), (result,)), mask = self.places(op), (1 << bits(op.results[0])) - 1
        compute = exactly_divided if "exact" in flags_of(op) else divided
        least, is_signed = 1 << (width - 1), word.endswith("si")

        def step(values):
            a, b = values[x], values[y]
            if b is None:
                raise Undefined(f"arith.{word} by poison")
            if is_signed and b == mask and (a is None or a == least):
                self.is_unsure = True
            if a is None and b == 0:
                raise Undefined(f"arith.{word} by 0")
            found = None if a is None else compute(word, width, a, b)
            values[result] = None if found is None else found & mask
        return step

    def resize(self, op, word, width):
        """What runs a cast from a width to that of its result."""
        ((x,), (result,)), to = self.places(op), bits(op.results[0])
        mask, flags = (1 << to) - 1, flags_of(op)
        is_signed, checked = word in ("extsi", "index_cast"), truncated(width, to, flags) if flags else None

        def step(values):
            a = values[x]
            if a is not None and checked:
                a = checked(a)
            values[result] = None if a is None else (by_sign(a, width) if is_signed else a) & mask
        return step

    def cast(self, op):
        """A cast between index and i64 keeps the number. Between other types it has no meaning."""
        operands, results = self.places(op)
        types = self.types(op)
        is_kept = len(operands) == len(results) == 1 and is_number(types[0]) and is_number(op.results[0]) and (
            bits(types[0]) == bits(op.results[0]))

        def step(values):
            for place in results:
                values[place] = values[operands[0]] if is_kept else None
        return step

    def foreign(self, op):
        """What runs an operation without a meaning: its numbers are noted, and its results follow from its id and how
        often it ran."""
        operands, results = self.places(op)
        name, masks = getattr(op, "told", op.id), [(1 << bits(ty)) - 1 for ty in op.results]

        def step(values):
            turn = self.seen[name] = self.seen.get(name, 0) + 1
            self.trace.append((name, tuple(values[it] for it in operands)))
            for place, (result, mask) in enumerate(zip(results, masks)):
                values[result] = zlib.crc32(f"{name} {turn} {place}".encode()) & mask
        return step

    # Branches and loops.

    def bodies(self, op):
        """What runs each region of an operation, and where the region's arguments are."""
        return [(self.block(op, place), [self.slots["a", op.id, place, it] for it in range(len(block.args))])
                if block else (lambda _: [], []) for place, block in enumerate(op.regions)]

    def if_step(self, op):
        (condition,), results = self.places(op)
        (then, _), (other, _) = self.bodies(op)

        def step(values):
            chosen = values[condition]
            if chosen is None:
                raise Undefined("scf.if on poison")
            put(values, results, (then if chosen else other)(values))
        return step

    def for_step(self, op):
        (lower, upper, by, *inits), results = self.places(op)
        (body, (induction, *carried)), = self.bodies(op)
        width, is_unsigned = bits(self.types(op)[0]), b"unsignedCmp" in {**op.attrs, **op.props}
        whole, end = 1 << width, 1 << (width - (not is_unsigned))

        def reading(number):
            return number if is_unsigned or number is None else by_sign(number, width)

        def step(values):
            at, last, stride = reading(values[lower]), reading(values[upper]), reading(values[by])
            if at is None or last is None:
                raise Undefined("scf.for with a bound that is poison")
            handed = [values[it] for it in inits]
            if at < last and (stride is None or stride <= 0):
                raise Undefined("scf.for with a step that isn't positive")
            while at < last:
                values[induction] = at % whole
                put(values, carried, handed)
                handed = body(values)
                at += stride
            if at >= end:
                raise Unmodelled("scf.for whose induction variable overflows")
            put(values, results, handed)
        return step

    def while_step(self, op):
        inits, results = self.places(op)
        (before, taken), (after, passed) = self.bodies(op)

        def step(values):
            handed = [values[it] for it in inits]
            while True:
                put(values, taken, handed)
                condition, *handed = before(values)
                if condition is None:
                    raise Undefined("scf.condition on poison")
                if not condition:
                    break
                put(values, passed, handed)
                handed = after(values)
            put(values, results, handed)
        return step


def put(values, places, handed):
    """Writes values to places."""
    for place, value in zip(places, handed):
        values[place] = value


def outcome(module, symbol, arguments, fuel=FUEL):
    """The outcome of a function of a module on some numbers."""
    machine = Machine(module, fuel)
    function = next(op for op in walk(module.root) if op.props.get(b"sym_name") == ("str", symbol))
    try:
        results, end, reason = machine.call(function, arguments), End.DEFINED, ""
    except (Undefined, Endless, Unmodelled) as fault:
        results, end, reason = [], END_OF[type(fault)], str(fault)
    return Outcome(end, results, machine.trace, reason, machine.is_unsure)


END_OF = {Undefined: End.UNDEFINED, Endless: End.ENDLESS, Unmodelled: End.UNMODELLED}


def same_number(old, new):
    """Whether a value refines another one: poison may become any value."""
    return old is None or old == new


def agrees(old, new):
    """Whether an outcome refines another one: if that is defined, this is the same where that isn't poison."""
    if old.end is not End.DEFINED:
        return True
    if new.end is not End.DEFINED or len(old.trace) != len(new.trace) or len(old.results) != len(new.results):
        return False
    traced = all(one[0] == two[0] and all(map(same_number, one[1], two[1])) for one, two in zip(old.trace, new.trace))
    return traced and all(map(same_number, old.results, new.results))
