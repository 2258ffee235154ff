"""Random lines about user patterns: patterns that fit an operation of a module, or are changed somewhere, those of
patterns/, applied where they may apply; lists of rules and patterns; checks, and `patterns`. script_lines.py makes
lines of them."""
import functools
import pathlib
import re

from oracle import patterns, rewrites
from oracle.module import I1, INDEX, printing, walk
from oracle.operations import BINARY

TOKEN = re.compile(r"%?[A-Za-z0-9_.$]+|=>|[^\sA-Za-z0-9_]")
# Words that are put in the place of others.
WORDS = """%a %b %v1.0 c d 0 1 -1 255 300 i8 i32 index i0 i129 T ( ) < > : , - => = where width log2 add(c, 1) eq none
true false
arith.addi arith.constant arith.cmpi arith.select memref.load test.a $ "a" // # ^ ?
340282366920938463463374607431768211456""".split()
PREDICATES, FUNCTIONS = patterns.PREDICATES, [word for word, count in patterns.FUNCTIONS.items() if count == 2]
MOST_NAMES = 8
CONSTANT = b"arith.constant"


@functools.lru_cache(maxsize=None)
def book(name="arith"):
    """The patterns of a file of patterns/, each a line."""
    file = pathlib.Path(__file__).resolve().parents[2] / f"patterns/{name}.patterns"
    return [line for line in file.read_text().splitlines() if line and not line.startswith("//")]


def roots(module):
    """The operations at which a pattern may apply by their names."""
    return [op for op in walk(module.root) if op.name in patterns.FOLDING and len(op.results) == 1]


def type_text(ty):
    return "index" if ty == INDEX else printing.type_text(ty)


class Fitting:
    """A pattern that fits an operation of a module, mostly, and whose new side has the types that it should."""

    def __init__(self, maker, module, op):
        self.maker, self.module, self.ops, self.root = maker, module, module.ops(), op
        # Names of values and of numbers with their types, in their order.
        self.values, self.numbers = {}, {}

    def likely(self, share):
        return self.maker.random() < share

    def text(self):
        """The text, without its name."""
        old = self.operation(self.root, 1)
        new = self.new(self.root.results[0], 1)
        return f"{old} => {new}{self.conditions()}"

    # The left side.

    def operation(self, op, depth):
        operands = ", ".join(self.operand(value, depth) for value in op.operands)
        return f"{op.name.decode()}{self.asks(op)}({operands}){self.written(op.results[0], 0.1)}"

    def asks(self, op):
        """What the operation asks: mostly what it has."""
        if op.name == patterns.COMPARISON:
            found = op.props.get(b"predicate", ("", None, 0))
            is_one = found[0] == "int" and 0 <= found[2] < 10 and self.likely(0.9)
            return f"<{PREDICATES[found[2]] if is_one else self.maker.choice(PREDICATES)}>"
        return "<none>" if op.name in patterns.MAY_ASK_FOR_NO_FLAGS and self.likely(0.1) else ""

    def written(self, ty, share):
        """A type after a colon, or nothing."""
        if not self.likely(share):
            return ""
        return f" : {self.maker.choice([type_text(ty), type_text(ty), 'T', 'S'])}"

    def operand(self, value, depth):
        giver = self.ops.get(value[1]) if value[0] == "v" else None
        ty = self.module.type_of(value, self.ops)
        found = giver.props.get(b"value", ("",)) if giver and giver.name == CONSTANT else ("",)
        number = found[-1] if found[0] == "int" else None
        if number is not None and depth < 4 and self.likely(0.7):
            return self.number(number, ty)
        if giver and giver.name in patterns.FOLDING and len(giver.results) == 1 and depth < 3 and self.likely(0.6):
            return self.operation(giver, depth + 1)
        found = [name for name, (_, known_value) in self.values.items() if known_value == value]
        if not found or self.likely(0.05):
            found = [f"%{'abxyzw'[len(self.values) % 6]}{len(self.values) // 6 or ''}"]
            self.values[found[0]] = ty, value
        return found[0] + self.written(ty, 0.1)

    def number(self, number, ty):
        if self.likely(0.4):
            if ty == I1 and self.likely(0.5):
                return self.maker.choice(["true", "false"]) + self.written(ty, 0.1)
            return str(self.maker.choice([number, number, number + 1, 0])) + self.written(ty, 0.1)
        name = self.maker.choice([it for it, of in self.numbers.items() if of == ty] * self.likely(0.2)
                                 or ["cdefgh"[len(self.numbers) % 6] + str(len(self.numbers) // 6 or "")])
        self.numbers.setdefault(name, ty)
        return name + self.written(ty, 0.05)

    # The right side, and conditions.

    def new(self, ty, depth):
        """A term of a type."""
        values = [name for name, (of, _) in self.values.items() if of == ty]
        numbers = [name for name, of in self.numbers.items() if of == ty]
        pick = self.maker.random()
        if values and pick < 0.45 + 0.1 * depth:
            return self.maker.choice(values)
        if numbers and pick < 0.75:
            return self.computed(numbers, 2)
        if depth > 2 or pick < 0.5:
            return self.maker.choice(["0", "1", "-1", "2", "300"] if ty != I1 else ["0", "1", "-1", "true", "false"])
        if pick < 0.85 and self.root.name in BINARY and ty == self.root.results[0]:
            return f"{self.root.name.decode()}({self.new(ty, depth + 1)}, {self.new(ty, depth + 1)})"
        bits = [name for name, (of, _) in self.values.items() if of == I1]
        if bits and pick > 0.9:
            return f"arith.select({self.maker.choice(bits)}, {self.new(ty, depth + 1)}, {self.new(ty, depth + 1)})"
        name = self.maker.choice(sorted(BINARY)).decode()
        return f"{name}({self.new(ty, depth + 1)}, {self.new(ty, depth + 1)})"

    def computed(self, names, depth):
        """A number of some names."""
        pick = self.maker.random()
        if depth == 0 or pick < 0.4:
            return self.maker.choice(names)
        if pick < 0.6:
            return f"{self.maker.choice(['neg', 'not', 'log2', 'width'])}({self.computed(names, depth - 1)})"
        other = self.computed(names, depth - 1) if pick < 0.8 else self.maker.choice(["1", "-1", "2"])
        return f"{self.maker.choice(FUNCTIONS)}({self.computed(names, depth - 1)}, {other})"

    def conditions(self):
        if not self.numbers or not self.likely(0.3):
            return ""
        ty = self.maker.choice(list(self.numbers.values()))
        names = [name for name, of in self.numbers.items() if of == ty]
        one = self.maker.choice([f"power_of_two({self.computed(names, 1)})",
                                 f"{self.maker.choice(PREDICATES)}({self.computed(names, 1)}, 3)"])
        return f" where {one}"


def changed(maker, text):
    """A text with a word changed, dropped, or said twice."""
    words = TOKEN.findall(text)
    at, how = maker.randrange(len(words)), maker.randrange(4)
    words[at:at + 1] = [[maker.choice(WORDS)], [], [words[at], words[at]], [words[at], maker.choice(WORDS)]][how]
    return " ".join(words)


def defined(maker, module):
    """A line that defines a pattern, or is refused."""
    those, name = roots(module), f"p{maker.randrange(MOST_NAMES)}"
    if not those or maker.random() < 0.2:
        _, _, text = maker.choice(book()).partition(" ")
    else:
        text = Fitting(maker, module, maker.choice(those)).text()
    text = f"{name} {text}"
    return "pattern " + (changed(maker, text) if maker.random() < 0.2 else text)


def applied(maker, run):
    """A line that applies a pattern, mostly one that there is where it may apply."""
    name = maker.choice([*run.book, "p0", "nope"])
    op = maker.randrange(20)
    if name in run.book and maker.random() < 0.85:
        those = [it.id for it in roots(run.module) if it.name == run.book[name].old.name]
        op = maker.choice(those or [op])
    return f"apply {name} #{op}"


def why_line(maker, run):
    """A line that asks why a pattern, or at times a rule, doesn't apply. The operation mostly has the name that the
    pattern expects."""
    name = maker.choice([*run.book] or ["nope"])
    if maker.random() < 0.15:
        name = maker.choice(["p0", "nope", str(maker.randrange(1, 31)), maker.choice(rewrites.WORDS)])
    those = [it.id for it in roots(run.module)]
    if name in run.book and maker.random() < 0.8:
        those = [it.id for it in roots(run.module) if it.name == run.book[name].old.name]
    op = maker.choice(those) if those and maker.random() < 0.9 else maker.randrange(20)
    return f"why #{op} {name}"


def listed(maker, run):
    """A line that rewrites by a list of patterns and rules."""
    names = [maker.choice([*run.book, "p0", str(maker.randrange(1, 25)), maker.choice(rewrites.WORDS)])
             for _ in range(maker.randrange(1, 5))]
    word = maker.choice(["rewrite", "rewrite", "canon only"]) + f" {','.join(names)}"
    return word + maker.choice(["", " trace"]) + f" limit {maker.choice([1, 1, 2, 3, 5, 9, 0])}"


def ranged(maker, run):
    """A line that rewrites by a list with ranges of rules, `canon`, patterns and rules."""
    ends = [maker.randrange(26) for _ in range(2)]
    range_text = "-".join(map(str, sorted(ends) if maker.random() < 0.9 else ends))
    items = [maker.choice([*run.book, "p0", range_text, "canon", "canon", str(maker.randrange(1, 25))])
             for _ in range(maker.randrange(1, 4))]
    word = maker.choice(["rewrite", "rewrite", "canon only"]) + f" {','.join(items)}"
    return word + maker.choice(["", " trace"]) + f" limit {maker.choice([1, 2, 3, 5, 9])}"


def registered(maker, run):
    """A line about all patterns of a run, or one that removes a pattern or rewrites by a list with ranges."""
    name = maker.choice([*run.book, "p0", "nope"])
    pick = maker.random()
    if pick < 0.25:
        return maker.choice([f"forget {name}"] * 8 + ["forget", f"forget {name} x", "forget 4", "forget all"])
    if pick < 0.45:
        return f"pattern {maker.choice(['all', 'canon'])} {maker.choice(book()).partition(' ')[2]}"
    return "patterns" if pick < 0.55 else ranged(maker, run)


def widely_checked(maker, run):
    """A check without a width, or a sampled one, of patterns that the rules in Python try quickly."""
    few = [name for name, it in run.book.items() if len(it.variables) < 2 and len(it.all_types()) < 3]
    if few and maker.random() < 0.5:
        return f"check {maker.choice(few)}"
    few = [name for name, it in run.book.items() if len(it.all_types()) < 2]
    width = maker.choice([1, 2, 3, 8, 13, 32, 64, 100, 128, 0, 129])
    return f"check {maker.choice(few or ['nope'])} width {width} sampled" + maker.choice([""] * 9 + [" x", " sampled"])


def renewed(maker, run, line):
    """A line as it is, or one that replaces the pattern that it defines, asks for proved patterns in the list by which
    it rewrites, or checks all patterns if the rules in Python try them quickly."""
    pick, words = maker.random(), line.split(" ", 2)
    if pick < 0.3 and words[0] == "pattern":
        return "pattern!" + line.removeprefix("pattern")
    if pick < 0.4 and words[0] == "rewrite" and len(words) > 1:
        return " ".join([*words[:2], "proved", *words[2:]])
    few = all(len(it.variables) < 2 and len(it.all_types()) < 3 for it in run.book.values())
    return "check all" if pick > 0.95 and few else line


def line_of(maker, run):
    """A line about the patterns of a run."""
    pick = maker.random()
    if pick < 0.45 or not run.book:
        return defined(maker, run.module)
    if pick < 0.75:
        return applied(maker, run)
    if pick < 0.85:
        return listed(maker, run)
    if pick < 0.95:
        return f"check {maker.choice([*run.book, 'nope'])} width {maker.choice([1, 1, 2, 2, 2, 3, 0, 25])}"
    return maker.choice(["patterns", "patterns x", "check", "check p0 width", "pattern", "check 4",
                         "rewrite p0 limit 4"])
