"""Small functions as trees: their text, what they compute, and random ones. tests/compare/compare_pairs.py makes pairs
of them for `mlir-work compare`.

The meaning is written a third time here, on signed numbers, apart from oracle. A value is a number or POISON;
memory is a list of four of them."""
import copy

POISON = "poison"
SIZE = 4
NUMBER, TRUTH, INDEX, MEMORY = "number", "truth", "index", "memory"
COMMUTATIVE = ["addi", "muli", "andi", "ori", "xori", "maxsi", "minui"]
OVERFLOWING = ["addi", "subi", "muli", "shli"]
EXACT = ["divui", "divsi", "shrui", "shrsi"]
DIVISIONS = ["divui", "divsi", "remui", "remsi", "ceildivsi", "floordivsi", "ceildivui"]
SWAPPED = ["subi", "shli", "shrui", "shrsi", *DIVISIONS]
WORDS = [*COMMUTATIVE, *SWAPPED]
PREDICATES = 10


class Undefined(Exception):
    """Undefined behaviour."""


class Statement:
    """An operation: its word, results and operands by name, its flags, a constant or predicate, and its blocks."""

    def __init__(self, word, results=(), operands=(), flags=(), value=0, blocks=()):
        self.word, self.results, self.operands = word, list(results), list(operands)
        self.flags, self.value, self.blocks = set(flags), value, list(blocks)


class Block:
    """Arguments, statements, and the yielded values."""

    def __init__(self, arguments, body, handed):
        self.arguments, self.body, self.handed = list(arguments), list(body), list(handed)


class Function:
    """A function on integers of one width; `kinds` has the kind of each value by its name."""

    def __init__(self, width, takes, block, kinds):
        self.width, self.takes, self.block, self.kinds = width, takes, block, kinds

    def copy(self):
        return copy.deepcopy(self)

    def type(self, name):
        """The type of a value."""
        return {NUMBER: f"i{self.width}", TRUTH: "i1", INDEX: "index",
                MEMORY: f"memref<{SIZE}xi{self.width}>"}[self.kinds[name]]

    def types(self, names):
        return ", ".join(map(self.type, names))

    def fresh(self, kind):
        """A new name of a kind."""
        name = f"n{len(self.kinds)}"
        self.kinds[name] = kind
        return name

    def blocks(self):
        """All blocks, each after those around it."""
        waiting = [self.block]
        while waiting:
            block = waiting.pop(0)
            yield block
            waiting += [inner for it in block.body for inner in it.blocks]

    def places(self, *words):
        """The block and the place of each statement of some words."""
        return [(block, at) for block in self.blocks() for at, it in enumerate(block.body) if it.word in words]


# Text in generic form.

def values(names):
    return ", ".join("%" + it for it in names)


def properties(function, it):
    """The properties of a statement."""
    if it.word == "constant":
        kind = function.kinds[it.results[0]]
        text = ("true" if it.value else "false") if kind == TRUTH else f"{it.value} : {function.type(it.results[0])}"
        return f" <{{value = {text}}}>"
    if it.word == "cmpi":
        return f" <{{predicate = {it.value} : i64}}>"
    overflow = [word for word in ("nsw", "nuw") if word in it.flags]
    if overflow:
        return f" <{{overflowFlags = #arith.overflow<{', '.join(overflow)}>}}>"
    return " <{isExact}>" if "exact" in it.flags else ""


def statement_lines(function, it):
    """A statement, with its blocks."""
    dialect = {"if": "scf", "for": "scf", "load": "memref", "store": "memref"}.get(it.word, "arith")
    head = f"{values(it.results)} = " if it.results else ""
    lines = [f'{head}"{dialect}.{it.word}"({values(it.operands)})' + (" ({" if it.blocks else "")]
    for place, block in enumerate(it.blocks):
        lines += ["}, {"] * bool(place) + block_lines(function, block, "scf.yield")
    end = "})" if it.blocks else lines.pop() + properties(function, it)
    return [*lines, f"{end} : ({function.types(it.operands)}) -> ({function.types(it.results)})"]


def block_lines(function, block, end):
    """The lines of a block."""
    arguments = [f"^bb0({', '.join(f'%{it}: {function.type(it)}' for it in block.arguments)}):"]
    lines = [line for it in block.body for line in statement_lines(function, it)]
    last = f'"{end}"({values(block.handed)}) : ({function.types(block.handed)}) -> ()'
    return arguments * bool(block.arguments) + lines + [last]


def text_of(function, name="f"):
    """The function in generic form."""
    takes, gives = function.types(function.block.arguments), function.types(function.block.handed)
    head = f'"func.func"() <{{function_type = ({takes}) -> ({gives}), sym_name = "{name}"}}> ({{'
    return "\n".join([head, *block_lines(function, function.block, "func.return"), "}) : () -> ()", ""])


# Meaning.

def wrapped(number, width):
    """A number modulo 2^w, as a signed one."""
    half = 1 << (width - 1)
    return (number + half) % (1 << width) - half


def floor_quotient(word, x, y, u, v):
    """A quotient by a divisor that isn't 0, from the signed and the unsigned readings."""
    if word == "divsi":
        return abs(x) // abs(y) * (1 if (x < 0) == (y < 0) else -1)
    return {"divui": u // v, "ceildivui": (u + v - 1) // v, "floordivsi": x // y, "ceildivsi": -((-x) // y)}[word]


def division(it, width, x, y, notes):
    """The result of a division, which may be undefined."""
    if y in (POISON, 0):
        raise Undefined
    if x == POISON:
        return POISON
    least, whole = -(1 << (width - 1)), 1 << width
    if it.word == "remsi":
        notes["is_trapping"] = notes.get("is_trapping") or (x, y) == (least, -1)
        return x - floor_quotient("divsi", x, y, 0, 1) * y
    if it.word == "remui":
        return wrapped((x % whole) % (y % whole), width)
    if it.word.endswith("si") and (x, y) == (least, -1):
        raise Undefined
    found = floor_quotient(it.word, x, y, x % whole, y % whole)
    is_rest = (found * y != x) if it.word.endswith("si") else found * (y % whole) != x % whole
    return POISON if "exact" in it.flags and is_rest else wrapped(found, width)


def shift(it, width, x, y):
    """The result of a shift."""
    whole, amount = 1 << width, y % (1 << width)
    if amount >= width:
        return POISON
    if it.word == "shli":
        return kept(it, width, x * 2 ** amount, (x % whole) * 2 ** amount)
    source = x if it.word == "shrsi" else x % whole
    return POISON if "exact" in it.flags and source % 2 ** amount else wrapped(source // 2 ** amount, width)


def kept(it, width, exact_signed, exact_unsigned):
    """A result that is poison if a flag says that it doesn't overflow and it does."""
    is_signed_fit = wrapped(exact_signed, width) == exact_signed
    is_unsigned_fit = 0 <= exact_unsigned < 1 << width
    if "nsw" in it.flags and not is_signed_fit or "nuw" in it.flags and not is_unsigned_fit:
        return POISON
    return wrapped(exact_signed, width)


def arithmetic(it, width, x, y, notes):
    """The result of an operation on two numbers."""
    if it.word in DIVISIONS:
        return division(it, width, x, y, notes)
    if POISON in (x, y):
        return POISON
    if it.word in ("shli", "shrui", "shrsi"):
        return shift(it, width, x, y)
    u, v = x % (1 << width), y % (1 << width)
    if it.word in ("addi", "subi", "muli"):
        compute = {"addi": lambda a, b: a + b, "subi": lambda a, b: a - b, "muli": lambda a, b: a * b}[it.word]
        return kept(it, width, compute(x, y), compute(u, v))
    return wrapped({"andi": x & y, "ori": x | y, "xori": x ^ y, "maxsi": max(x, y), "minui": min(u, v)}[it.word], width)


def comparison(predicate, width, x, y):
    """Whether a predicate holds."""
    if POISON in (x, y):
        return POISON
    if predicate >= 6:
        x, y = x % (1 << width), y % (1 << width)
    return int([x == y, x != y, x < y, x <= y, x > y, x >= y, x < y, x <= y, x > y, x >= y][predicate])


class Run:
    """Runs a function on values; `notes` says whether the processor would trap where the result is defined."""

    def __init__(self, function):
        self.function, self.found, self.notes = function, {}, {}

    def results(self, given):
        """The results; the memory that is given is changed. Raises `Undefined`."""
        return self.block(self.function.block, given)

    def block(self, block, given):
        self.found.update(zip(block.arguments, given))
        for it in block.body:
            self.found.update(zip(it.results, self.statement(it, [self.found[name] for name in it.operands])))
        return [self.found[name] for name in block.handed]

    def statement(self, it, given):
        width = 64 if it.operands and self.function.kinds[it.operands[0]] == INDEX else self.function.width
        if it.word == "constant":
            return [it.value]
        if it.word == "cmpi":
            return [comparison(it.value, width, *given)]
        if it.word == "select":
            return [POISON if given[0] == POISON else given[1] if given[0] else given[2]]
        if it.word in ("if", "for", "load", "store"):
            return getattr(self, it.word + "_results")(it, given)
        if self.function.kinds[it.results[0]] == TRUTH:
            return [POISON if POISON in given else given[0] ^ given[1]]
        return [arithmetic(it, width, *given, self.notes)]

    def if_results(self, it, given):
        if given[0] == POISON:
            raise Undefined
        return self.block(it.blocks[0 if given[0] else 1], [])

    def for_results(self, it, given):
        lower, upper, by, *handed = given
        if POISON in (lower, upper) or lower < upper and by == POISON:
            raise Undefined
        while lower < upper:
            handed = self.block(it.blocks[0], [lower, *handed])
            lower += by
        return handed

    def load_results(self, _, given):
        memory, at = given
        if at == POISON or not 0 <= at < SIZE:
            raise Undefined
        return [memory[at]]

    def store_results(self, _, given):
        value, memory, at = given
        if at == POISON or not 0 <= at < SIZE:
            raise Undefined
        memory[at] = value
        return []


# Random functions.

class Maker:
    """Makes a random function."""

    def __init__(self, chance, width):
        self.chance = chance
        memories = chance.choice([0, 0, 1, 1, 2])
        kinds = [NUMBER, NUMBER, *[TRUTH, INDEX] * chance.randrange(2), *[MEMORY] * memories]
        names = [f"n{place}" for place in range(len(kinds))]
        self.made = Function(width, names, Block(names, [], []), dict(zip(names, kinds)))
        self.left = chance.randrange(4, 14)

    def function(self):
        seen = list(self.made.takes)
        while self.left > 0:
            self.fill(self.made.block.body, seen, 0)
        body, last = self.made.block.body, self.of(seen, NUMBER)[-1]
        self.made.block.handed = [last, *(self.pick(body, seen, NUMBER) for _ in range(self.chance.randrange(2)))]
        return self.made

    def of(self, seen, kind):
        return [name for name in seen if self.made.kinds[name] == kind]

    def pick(self, body, seen, kind):
        """A value of a kind, most often one that is there, and most often a new one of these."""
        there = self.of(seen, kind)
        if there and self.chance.random() < (0.8 if kind == NUMBER else 0.7):
            return self.chance.choice(there[-4:] if self.chance.random() < 0.6 else there)
        return self.constant(body, seen, kind)

    def constant(self, body, seen, kind, value=None):
        if value is None:
            half = 1 << (self.made.width - 1)
            value = {TRUTH: self.chance.randrange(2), INDEX: self.chance.randrange(SIZE)}.get(
                kind, self.chance.choice([0, 1, 2, 4, -1, 3, self.chance.randrange(-half, half)]))
            value = wrapped(value, self.made.width) if kind == NUMBER else value
        return self.put(body, seen, "constant", [], kind, value=value)

    def put(self, body, seen, word, operands, kind, **more):
        name = self.made.fresh(kind)
        body.append(Statement(word, [name], operands, **more))
        seen.append(name)
        return name

    def fill(self, body, seen, depth):
        """One more statement, or a few."""
        self.left -= 1
        kinds = ["pair"] * 6 + ["choice"] + ["branch", "guarded", "loop"] * (depth < 2)
        kinds += ["load", "store", "store"] * bool(self.of(seen, MEMORY))
        getattr(self, self.chance.choice(kinds))(body, seen, depth)

    def pair(self, body, seen, _=0):
        word = self.chance.choice(WORDS if self.chance.random() < 0.3 else [*COMMUTATIVE, *OVERFLOWING])
        operands = [self.pick(body, seen, NUMBER) for _ in range(2)]
        is_flagged = self.chance.random() < 0.25
        flags = [self.chance.choice(["nsw", "nuw"])] if word in OVERFLOWING else ["exact"] if word in EXACT else []
        self.put(body, seen, word, operands, NUMBER, flags=flags if is_flagged else [])

    def truth(self, body, seen):
        operands = [self.pick(body, seen, NUMBER) for _ in range(2)]
        return self.put(body, seen, "cmpi", operands, TRUTH, value=self.chance.randrange(PREDICATES))

    def choice(self, body, seen, _=0):
        condition = self.truth(body, seen)
        self.put(body, seen, "select", [condition, *(self.pick(body, seen, NUMBER) for _ in range(2))], NUMBER)

    def inner(self, seen, arguments, depth):
        """A block that yields a number."""
        body, own = [], [*seen, *arguments]
        for _ in range(self.chance.randrange(1, 4)):
            self.fill(body, own, depth + 1)
        return Block(arguments, body, [self.pick(body, own, NUMBER)])

    def branch(self, body, seen, depth):
        condition = self.pick(body, seen, TRUTH)
        blocks = [self.inner(seen, [], depth) for _ in range(2)]
        self.put(body, seen, "if", [condition], NUMBER, blocks=blocks)

    def guarded(self, body, seen, _):
        """A quotient whose divisor isn't 0, or else a value."""
        divided, by = (self.pick(body, seen, NUMBER) for _ in range(2))
        zero = self.constant(body, seen, NUMBER, 0)
        condition = self.put(body, seen, "cmpi", [by, zero], TRUTH, value=1)
        inside, quotient = [], self.made.fresh(NUMBER)
        inside.append(Statement(self.chance.choice(DIVISIONS), [quotient], [divided, by]))
        self.put(body, seen, "if", [condition], NUMBER, blocks=[Block([], inside, [quotient]), Block([], [], [zero])])

    def loop(self, body, seen, depth):
        """A loop from 0 to a constant or an argument, over memory if there is some."""
        lower, by = self.constant(body, seen, INDEX, 0), self.constant(body, seen, INDEX, self.chance.choice([1, 1, 2]))
        own = self.of(self.made.takes, INDEX)
        upper = own[0] if own and self.chance.random() < 0.6 else self.constant(
            body, seen, INDEX, self.chance.choice([0, 2, 3, SIZE]))
        init = self.pick(body, seen, NUMBER)
        arguments = [self.made.fresh(INDEX), self.made.fresh(NUMBER)]
        self.put(body, seen, "for", [lower, upper, by, init], NUMBER, blocks=[self.inner(seen, arguments, depth)])

    def load(self, body, seen, _=0):
        operands = [self.chance.choice(self.of(seen, MEMORY)), self.pick(body, seen, INDEX)]
        self.put(body, seen, "load", operands, NUMBER)

    def store(self, body, seen, _=0):
        operands = [self.pick(body, seen, NUMBER), self.chance.choice(self.of(seen, MEMORY)),
                    self.pick(body, seen, INDEX)]
        body.append(Statement("store", [], operands))
