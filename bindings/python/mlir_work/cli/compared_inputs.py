"""The inputs on which `compare` runs two functions: numbers, poison, and memory with its contents."""
import enum
import itertools
import random

# All inputs are tried if there are at most this many; otherwise at most this many inputs of small numbers.
MOST, MOST_SMALL = 70000, 729
# How many constants are tried, on how many inputs; and the limit of numbers that bound a loop.
MOST_CONSTANTS, MOST_OF_CONSTANTS = 300, 6000
MOST_BOUND, NEAR = 1024, range(-2, 18)
# Loops over this few bits end soon, for any bounds.
FEW_BITS = 10
SIZES = [0, 1, 2, 3, 4, 5, 8, 17]
# How many inputs have poison in an argument, for each argument.
POISONED = 12
# How many inputs near 0 come first, so that most counterexamples are small; and the sizes of their memory.
PLAIN, PLAIN_SIZES = 32, [2, 3, 4, 8]
SHOWN = 8


class Use(enum.Enum):
    """What an argument decides, if it does: the bounds of a loop, or an index or a size."""
    BOUND, INDEX = range(2)


class Contents(enum.Enum):
    """The initial contents of memory."""
    ZEROS, PLACES, RANDOM, HOLES = range(4)


def mixed(seed, at):
    """Returns a number of 128 bits that follows from two numbers."""
    found = 0
    for turn in (1, 2):
        it = (seed * 0x9E3779B97F4A7C15 + at * 0xBF58476D1CE4E5B9 + turn * 0x94D049BB133111EB) % 2 ** 64
        it = (it ^ it >> 30) * 0xBF58476D1CE4E5B9 % 2 ** 64
        it = (it ^ it >> 27) * 0x94D049BB133111EB % 2 ** 64
        found = found << 64 | it ^ it >> 31
    return found


class Memory:
    """The memory of an argument: its sizes, and its contents. `shared` is the place of an earlier argument that has
    the same memory, if there is one."""

    def __init__(self, shape, contents, width, seed, numbers):
        self.shape, self.contents, self.width, self.seed = shape, contents, width, seed
        self.numbers, self.shared = numbers, None

    def element(self, at):
        """Returns the element at a place in row-major order; None is poison."""
        if self.contents is Contents.ZEROS:
            return 0
        if self.contents is Contents.PLACES:
            return (at + 1) % 2 ** self.width
        number = mixed(self.seed, at)
        if self.contents is Contents.HOLES and number % 4 == 0:
            return None
        if self.numbers and number % 3:
            return self.numbers[(number >> 2) % len(self.numbers)]
        return (number >> 8) % 2 ** self.width

    def text(self):
        """Returns the text of the memory."""
        if self.shared is not None:
            return f"the memory of %arg{self.shared}"
        count = 1
        for size in self.shape:
            count *= size
        items = ["poison" if it is None else str(it) for it in map(self.element, range(min(count, SHOWN)))]
        return f"memory of {'x'.join(map(str, self.shape)) or 1}: [{', '.join(items + ['..'] * (count > SHOWN))}]"


def uses(evaluator, program, function):
    """Returns the use of each argument of a function that decides a bound of a loop, an index or a size."""
    reached = program.reached(function)
    ops = [op for it in reached for op in operations(it)]
    bounds = [value for op in ops if op.name == b"scf.for" for value in op.operands[:3]]
    indices = [value for op in ops if op.name.startswith(b"memref.")
               for value in op.operands if program.module.type_of(value, program.ops) == evaluator.INDEX]
    found = {}
    for use, values in ((Use.INDEX, indices), (Use.BOUND, bounds)):
        for kind, owner, *place in sources(program, reached, values):
            if kind == "a" and owner == function.id:
                found[place[1]] = use
    return found


def operations(op):
    """Yields an operation and all operations inside it."""
    yield op
    for block in op.blocks():
        for inner in block.ops:
            yield from operations(inner)


def sources(program, reached, values):
    """Returns the values from which some values are computed, with themselves."""
    calls = {}
    for it in reached:
        for op in operations(it):
            if program.called.get(op.id) is not None:
                calls.setdefault(program.called[op.id].id, []).append(op)
    found, waiting = set(), list(values)
    while waiting:
        value = waiting.pop()
        if value in found:
            continue
        found.add(value)
        op = program.ops[value[1]]
        if value[0] == "a" and op.name == b"func.func":
            waiting += [it.operands[value[3]] for it in calls.get(op.id, []) if value[3] < len(it.operands)]
            continue
        target = program.called.get(op.id)
        ends = [block.ops[-1] for it in (op, target) if it is not None for block in it.blocks() if block.ops]
        waiting += op.operands + [it for end in ends for it in end.operands]
    return found


def constants(program, function):
    """Returns the constants of a function and of what it calls, and the sizes of its memrefs, each once."""
    found = {}
    for it in program.reached(function):
        for op in operations(it):
            value = op.props.get(b"value", ("",))
            if op.name == b"arith.constant" and value[0] == "int":
                found[value[2]] = None
            for ty in [*op.results, *(ty for block in op.blocks() for ty in block.args)]:
                if ty[0] == "memref":
                    found.update(dict.fromkeys(size for size in ty[1] if size is not None))
    return list(found)


class Inputs:
    """The inputs that are tried for the types of a function."""

    def __init__(self, reference, sides, types, count, seed):
        self.evaluator, self.running, self.memories = reference.evaluator, reference.running, reference.memories
        self.types, self.count, self.chance = types, count, random.Random(seed)
        self.uses = {}
        for program, function in sides:
            for place, use in uses(self.evaluator, program, function).items():
                self.uses[place] = Use.BOUND if Use.BOUND in (use, self.uses.get(place)) else use
        known = [it for pair in itertools.zip_longest(*(constants(*side) for side in sides)) for it in pair]
        self.constants = list(dict.fromkeys(it for it in known if it is not None))[:MOST_CONSTANTS]
        self.specials = [self.special(place) for place in range(len(types))]
        self.are_numbers = all(map(self.evaluator.is_number, types))
        self.number = 1
        for ty in types:
            self.number *= 2 ** self.evaluator.bits(ty) + 1 if self.evaluator.is_number(ty) else 1
        self.are_all = self.are_numbers and self.number <= MOST

    def many(self):
        """Returns how many inputs there are, in words."""
        if not self.are_numbers:
            return ""
        width = sum(map(self.evaluator.bits, self.types))
        return f" of {self.number:,}" if self.number < 10 ** 9 else f" of over 2^{width}"

    # Values of one argument.

    def special(self, place):
        """Returns constants and their neighbours, as numbers of an argument's type."""
        ty = self.types[place]
        if not self.evaluator.is_number(ty):
            return []
        near = [it + more for it in self.constants for more in (0, 1, -1)]
        if self.is_bound(place):
            near = [it for it in near if abs(it) <= MOST_BOUND]
        return list(dict.fromkeys(it % 2 ** self.evaluator.bits(ty) for it in near))

    def is_bound(self, place):
        """Whether an argument bounds loops, and has bits enough for a long one."""
        return self.uses.get(place) is Use.BOUND and self.width(place) > FEW_BITS

    def width(self, place):
        """Returns the width of an argument, or of its elements."""
        ty = self.types[place]
        return self.evaluator.bits(ty[2] if ty[0] == "memref" else ty)

    def small(self, place, most):
        """Returns numbers near 0."""
        return sorted({it % 2 ** self.width(place) for it in range(-most, most + 1)})

    def number_at(self, place):
        """Returns a random number: one near 0 or a constant, one near a power of two, or any one."""
        bits, turn, special = self.width(place), self.chance.random(), self.specials[place]
        is_index = self.uses.get(place) is Use.INDEX or self.types[place] == self.evaluator.INDEX
        if special and turn < 0.2:
            return self.chance.choice(special)
        if self.is_bound(place) or turn < (0.8 if is_index else 0.3):
            return self.chance.choice(NEAR) % 2 ** bits
        if turn < 0.6:
            return (self.chance.choice([1, -1]) * 2 ** self.chance.randrange(bits)
                    + self.chance.randrange(-2, 3)) % 2 ** bits
        return self.chance.getrandbits(bits)

    def memory_at(self, place, contents):
        """Returns random memory, with contents of some kind or of any."""
        _, shape, element = self.types[place]
        bits = self.evaluator.bits(element)
        near = list(NEAR) if self.is_bound(place) else [*NEAR, *self.constants]
        is_any, contents = contents is None, contents or self.chance.choice(list(Contents))
        if self.is_bound(place) and contents is Contents.RANDOM:
            contents = Contents.PLACES
        sizes = [self.chance.choice(SIZES if is_any else PLAIN_SIZES) if it is None else it for it in shape]
        return Memory(sizes, contents, bits, self.chance.getrandbits(32), [it % 2 ** bits for it in near])

    def value_at(self, place, contents):
        """Returns a random value of an argument."""
        ty = self.types[place]
        if self.evaluator.is_number(ty):
            return self.number_at(place)
        return self.memory_at(place, contents) if self.memories.is_modelled(ty) else self.running.Token(place)

    # Inputs.

    def row(self, fixed=(), contents=None):
        """Returns an input with some values fixed, and with memory that two arguments of one type may share."""
        fixed = dict(fixed)
        row = [fixed[place] if place in fixed else self.value_at(place, contents) for place in range(len(self.types))]
        for place, earlier in itertools.combinations(range(len(row)), 2):
            one, two = row[place], row[earlier]
            if (isinstance(one, Memory) and isinstance(two, Memory) and self.types[place] == self.types[earlier]
                    and one.shared is None and self.chance.random() < 0.3):
                two.shared = place
        return tuple(row)

    def near_zero(self):
        """All inputs of numbers near 0, as far from it as leaves few enough; with 1, 2, 3 and so on in memory."""
        places = [place for place, ty in enumerate(self.types) if self.evaluator.is_number(ty)]
        most = next((it for it in (4, 3, 2, 1) if (2 * it + 1) ** len(places) <= MOST_SMALL), 0)
        each = [self.small(place, most) for place in places]
        return [self.row(zip(places, numbers), Contents.PLACES) for numbers in itertools.product(*each)]

    def of_constants(self):
        """Inputs for each argument and each number near a constant, and with one such number in all arguments. If that
        makes too many inputs each of these has such a number in each argument."""
        counts = list(map(len, self.specials))
        if 2 * sum(counts) > MOST_OF_CONSTANTS:
            return [self.row({place: numbers[(turn + place) % len(numbers)]
                              for place, numbers in enumerate(self.specials) if numbers})
                    for turn in range(max(counts))]
        found = []
        for place in range(len(self.types)):
            for number in self.specials[place]:
                alike = [it for it, numbers in enumerate(self.specials) if number in numbers]
                found += [self.row({place: number}), self.row(dict.fromkeys(alike, number))]
        return found

    def poisoned(self):
        """Inputs with poison in one argument, and in all."""
        places = [place for place, ty in enumerate(self.types) if self.evaluator.is_number(ty)]
        found = [self.row({place: None}) for place in places for _ in range(POISONED)]
        return found + [self.row(dict.fromkeys(places))] * bool(places)

    def tried(self):
        """The inputs: a few plain ones, and then those of each kind in turn."""
        if self.are_all:
            ranges = ([*range(2 ** self.evaluator.bits(ty)), None] for ty in self.types)
            return list(itertools.product(*ranges))
        near = self.near_zero()
        kinds = [near[PLAIN:], self.of_constants(), self.poisoned(), [self.row() for _ in range(self.count)]]
        rows = [it for turn in itertools.zip_longest(*kinds) for it in turn if it is not None]
        return list(dict.fromkeys(near[:PLAIN] + rows))


def arguments_of(reference, row):
    """Returns the values of an input for a run, with new buffers for its memory."""
    made = []
    for place, it in enumerate(row):
        if isinstance(it, Memory):
            it = made[it.shared] if it.shared is not None else reference.memories.Buffer(it.shape, it.element, place)
        made.append(it)
    return made
