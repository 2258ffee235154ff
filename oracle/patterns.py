"""User patterns: a text is parsed to a tree, names are resolved and types inferred, or the text is refused by a number
and a byte. A text is one line, and its tokens are those of modules."""
from . import rules
from .module import I1, INDEX
from .operations import BINARY, EXTENSIONS, FLAGGED, INDEX_CASTS
from .rules import Refused

PREDICATES = "eq ne slt sle sgt sge ult ule ugt uge".split()
FUNCTIONS = {"add": 2, "sub": 2, "mul": 2, "and": 2, "or": 2, "xor": 2, "neg": 1, "not": 1, "log2": 1, "width": 1}
TRUNCATION, COMPARISON, CHOICE = b"arith.trunci", b"arith.cmpi", b"arith.select"
CASTS = EXTENSIONS | INDEX_CASTS | {TRUNCATION}
FOLDING = BINARY | CASTS | {COMPARISON, CHOICE}
MAY_ASK_FOR_NO_FLAGS = FLAGGED | {TRUNCATION}
DEPTH, NESTED, MOST, MOST_NUMBERS, MOST_PATTERNS = 3, 16, 16, 256, 256


def refuse(number, at, is_so=True):
    if is_so:
        raise Refused(number, at)


# A part of a pattern knows the byte where it begins, and of a term the type that is written for it, if one is.

class Operation:
    def __init__(self, at, name, asks, operands, written):
        self.at, self.name, self.asks, self.operands, self.written = at, name, asks, operands, written
        self.spelled = name[6:].decode()

    def word(self):
        return self.spelled


class Value:
    def __init__(self, at, name, written):
        self.at, self.name, self.written = at, name, written


class Constant:
    """A constant: on the left a literal or a name, on the right any number."""

    def __init__(self, at, number, written):
        self.at, self.number, self.written = at, number, written


class MinusZero(int):
    """The literal `-0`, which is 0, and is printed as written."""

    def __str__(self):
        return "-0"


class Truth(int):
    """The literal `true` or `false`, which is 1 or 0 of type i1, and is printed as written."""

    def __str__(self):
        return "true" if self else "false"


TRUTHS = {"true": Truth(1), "false": Truth(0)}


class Number:
    """A literal (`word` is a whole number), a name (without parts), or a function of numbers."""

    def __init__(self, at, word, parts=None):
        self.at, self.word, self.parts = at, word, parts

    def is_literal(self):
        return isinstance(self.word, int)

    def is_name(self):
        return not self.is_literal() and self.parts is None

    def walk(self):
        """It and the numbers in it, in the order of the text."""
        yield self
        for part in self.parts or ():
            yield from part.walk()

    def weight(self):
        """How many numbers are computed for it: for two functions also the constant that they take."""
        return 0 if self.is_name() else 2 if self.parts is not None and self.word in ("neg", "not") else 1

    def says_type(self):
        """Whether it has a name, or `true` or `false`, so that its type is known."""
        return any(it.is_name() or isinstance(it.word, Truth) for it in self.walk())

    def names(self):
        """The names in it, each a number, in their order."""
        return [self] if self.is_name() else [name for part in self.parts or () for name in part.names()]


class Condition:
    """A predicate or `power_of_two` of numbers, or `narrower` of types, with the bytes where these begin."""

    def __init__(self, at, word, parts, starts):
        self.at, self.word, self.parts, self.starts = at, word, parts, starts

    def numbers(self):
        return self.parts if self.word != "narrower" else ()


def walk(term):
    """A term and the terms in it, in the order of the text."""
    yield term
    for operand in term.operands if isinstance(term, Operation) else ():
        yield from walk(operand)


def begins_number(it):
    """Whether a token begins a number."""
    return it.kind == "integer" or it.is_mark(b"-") or it.kind == "bare" and b"." not in it.text


class Reader(rules.Reader):
    """Reads parts of a pattern from a byte on; each call gives the part and the byte after it."""

    def word(self, at):
        """A bare identifier without a dot."""
        it = self.look(at)
        refuse(2, it.start, it.kind != "bare" or b"." in it.text)
        return it.text.decode(), it.end

    def typed(self, at):
        """The type after a colon, if one is written: `iN`, `index` or a variable's name."""
        behind = self.see(at, b":")
        return (None, at) if behind is None else self.type_name(behind)

    def type_name(self, at):
        start = self.look(at).start
        word, end = self.word(at)
        found = rules.integer_type(word.encode(), start) if word.startswith("i") else None
        return INDEX if word == "index" else found or word, end

    def literal(self, at):
        """A whole number, or None if there is none."""
        behind = self.see(at, b"-")
        it = self.look(at if behind is None else behind)
        if it.kind != "integer":
            refuse(2, it.start, behind is not None)
            return None
        found = rules.number(it.text)
        refuse(7, it.start, found > rules.MOST_MAGNITUDE)
        return (found if behind is None else -found or MinusZero()), it.end

    def some(self, at, close, part, most=MOST):
        """Parts up to a mark, one or more. A part past the limit is refused after its own faults."""
        parts = []
        while True:
            start = self.look(at).start
            found, at = part(at)
            refuse(11, start, len(parts) == most)
            parts.append(found)
            end = self.see(at, close)
            if end is not None:
                return parts, end
            at = self.expect(at, b",")

    def term(self, at, is_left, depth):
        it = self.look(at)
        if it.kind == "bare" and b"." in it.text:
            return self.operation(it, is_left, depth)
        refuse(2, it.start, it.kind != "value" and not begins_number(it))
        refuse(10, it.start, not is_left and depth > NESTED)
        if it.kind == "value":
            written, end = self.typed(it.end)
            return Value(it.start, it.text.decode(), written), end
        refuse(10, it.start, is_left and depth > DEPTH)
        number, end = self.left_number(at) if is_left else self.number(at, depth)
        written, end = self.typed(end)
        return Constant(it.start, number, written), end

    def operation(self, it, is_left, depth):
        refuse(13, it.start, it.text not in FOLDING)
        refuse(10, it.start, depth > (DEPTH if is_left else NESTED))
        asks, at = self.asked(it, is_left)
        operands, at = self.listed(self.expect(at, b"("), b")", lambda at: self.term(at, is_left, depth + 1))
        written, at = self.typed(at)
        return Operation(it.start, it.text, asks, operands, written), at

    def asked(self, it, is_left):
        """What an operation asks: the predicate of a comparison, or on the left, of one with flags, that it has
        none."""
        if it.text != COMPARISON and not (is_left and it.text in MAY_ASK_FOR_NO_FLAGS):
            return None, it.end
        behind = self.see(it.end, b"<")
        if behind is None and it.text != COMPARISON:
            return None, it.end
        behind = self.expect(it.end, b"<")
        start = self.look(behind).start
        word, end = self.word(behind)
        refuse(2, start, word not in (PREDICATES if it.text == COMPARISON else ["none"]))
        return word, self.expect(end, b">")

    def left_number(self, at):
        found = self.literal(at)
        if found:
            return Number(self.look(at).start, found[0]), found[1]
        start = self.look(at).start
        word, end = self.word(at)
        return Number(start, TRUTHS.get(word, word)), end

    def number(self, at, depth):
        it = self.look(at)
        start = it.start
        refuse(2, start, not begins_number(it))
        refuse(10, start, depth > NESTED)
        found = self.literal(at)
        if found:
            return Number(start, found[0]), found[1]
        word, end = self.word(at)
        opened = self.see(end, b"(")
        if opened is None:
            return Number(start, TRUTHS.get(word, word)), end
        parts, end = self.some(opened, b")", lambda at: self.number(at, depth + 1))
        return Number(start, word, parts), end

    def condition(self, at):
        start = self.look(at).start
        word, end = self.word(at)
        opened, starts = self.expect(end, b"("), []

        def part(at):
            starts.append(self.look(at).start)
            return self.type_name(at) if word == "narrower" else self.number(at, 1)

        parts, end = self.some(opened, b")", part)
        return Condition(start, word, parts, starts), end

    def conditions(self, at):
        """What follows the new side, to the text's end."""
        it, found = self.look(at), []
        while it.kind != "end":
            opens = it.is_mark(b",") if found else it.kind == "bare" and it.text == b"where"
            refuse(2, it.start, not opens)
            one, at = self.condition(it.end)
            refuse(11, one.at, len(found) == MOST)
            found.append(one)
            it = self.look(at)
        return found


class Types:
    """Unified types: each is a type, a link to another entry, or a variable."""

    def __init__(self):
        self.stands, self.named = {}, {}

    def new(self):
        made = ("variable", len(self.stands))
        self.stands[made] = None
        return made

    def written(self, it):
        """A type as written."""
        if it is None:
            return self.new()
        if not isinstance(it, str):
            return it
        if it not in self.named:
            self.named[it] = self.new()
        return self.named[it]

    def found(self, it):
        while self.stands.get(it) is not None:
            it = self.stands[it]
        return it

    def one(self, a, b, at):
        a, b = self.found(a), self.found(b)
        if a == b:
            return
        refuse(5, at, a not in self.stands and b not in self.stands)
        if a in self.stands:
            self.stands[a] = b
        else:
            self.stands[b] = a


class Pattern:
    """A pattern, well-formed. `variables` has the names on the left in their order, those of values with a `%`, each
    with its type; a literal isn't one."""

    def __init__(self, name, old, new, conditions):
        self.name, self.old, self.new, self.conditions = name, old, new, conditions
        self.types, self.variables, self.narrower, self.integers, self.type_of = Types(), {}, [], [], {}
        self.asked, self.index_casts = [], []

    def typed(self, it):
        """The known part of the type of a term or a condition."""
        return self.types.found(self.type_of[it])

    def all_types(self):
        """The type variables, in the order of the text."""
        found = [self.typed(term) for side in (self.old, self.new) for term in walk(side)]
        return list(dict.fromkeys(it for it in found if it in self.types.stands))

    def look_up(self):
        """Names on the left are taken, others have to be among them."""
        for place, term in enumerate(walk(self.old)):
            name = variable(term)
            if name and name not in self.variables:
                refuse(11, term.at, len(self.variables) == MOST)
                self.variables[name] = self.types.new()
        for side in (self.old, self.new):
            operations = [term for term in walk(side) if isinstance(term, Operation)]
            refuse(11, operations[MOST].at if len(operations) > MOST else 0, len(operations) > MOST)
        self.count_numbers()
        for term in walk(self.new):
            refuse(3, term.at, isinstance(term, Value) and variable(term) not in self.variables)
            if isinstance(term, Constant):
                self.look_up_number(term.number)
        for condition in self.conditions:
            refuse(3, condition.at, condition.word not in PREDICATES + ["power_of_two", "narrower"])
            for part in condition.numbers():
                self.look_up_number(part)

    def count_numbers(self):
        """There are so many constants on the left, and so many numbers that are computed."""
        constants = [term for term in walk(self.old) if isinstance(term, Constant)]
        refuse(11, constants[MOST_NUMBERS].at if len(constants) > MOST_NUMBERS else 0, len(constants) > MOST_NUMBERS)
        weights = [(it.at, it.weight()) for term in walk(self.new) if isinstance(term, Constant)
                   for it in term.number.walk()]
        for condition in self.conditions:
            weights.append((condition.at, {"narrower": 0, "power_of_two": 1}.get(condition.word, 2)))
            weights += [(it.at, it.weight()) for part in condition.numbers() for it in part.walk()]
        count = 0
        for at, weight in weights:
            count += weight
            refuse(11, at, count > MOST_NUMBERS)

    def look_up_number(self, number):
        refuse(3, number.at, number.is_name() and number.word not in self.variables)
        refuse(3, number.at, number.parts is not None and number.word not in FUNCTIONS)
        for part in number.parts or ():
            self.look_up_number(part)

    def tell_types(self):
        for side in (self.old, self.new):
            self.tell(side)
        self.types.one(self.type_of[self.old], self.type_of[self.new], self.new.at)
        for condition in self.conditions:
            self.tell_condition(condition)
        told = {self.typed(term) for term in walk(self.old)} | set(map(self.types.found, self.variables.values()))
        for term in walk(self.new):
            refuse(5, term.at, self.typed(term) in self.types.stands and self.typed(term) not in told)
        for at, it in self.asked:
            refuse(5, at, self.types.found(it) in self.types.stands and self.types.found(it) not in told)
        self.check_literals()
        for term in self.index_casts:
            self.is_index_cast(term)

    def check_literals(self):
        """Each literal is one of its type, unless that is a variable."""
        numbers = [(term, term.number) for side in (self.old, self.new) for term in walk(side)
                   if isinstance(term, Constant)]
        numbers += [(condition, part) for condition in self.conditions for part in condition.numbers()]
        for owner, number in numbers:
            for it in number.walk():
                if it.is_literal() and self.typed(owner) not in self.types.stands:
                    rules.value_of(self.typed(owner), it.word, it.at)

    def tell(self, term):
        """Records the type of a term."""
        if isinstance(term, Operation):
            for operand in term.operands:
                self.tell(operand)
        found = self.type_of[term] = self.types.new()
        if isinstance(term, Operation):
            self.tell_operation(term, found)
        elif isinstance(term, Value):
            self.types.one(self.variables[variable(term)], found, term.at)
        else:
            self.tell_number(term.number, found)
            if term.number.is_literal() and isinstance(term.written, tuple):
                rules.value_of(term.written, term.number.word, term.at)
        if term.written is not None:
            self.types.one(found, self.types.written(term.written), term.at)

    def tell_number(self, number, found):
        if number.is_name():
            self.types.one(self.variables[number.word], found, number.at)
        if isinstance(number.word, Truth):
            self.types.one(found, I1, number.at)
        for part in number.parts or ():
            self.tell_number(part, found)
        refuse(5, number.at, number.parts is not None and len(number.parts) != FUNCTIONS[number.word])

    def tell_operation(self, term, found):
        operands = [self.type_of[operand] for operand in term.operands]
        count = 1 if term.name in CASTS else 3 if term.name == CHOICE else 2
        refuse(5, term.at, len(operands) != count)
        if term.name == COMPARISON:
            self.types.one(operands[0], operands[1], term.operands[1].at)
            self.types.one(found, I1, term.at)
        elif term.name == CHOICE:
            self.types.one(operands[0], I1, term.operands[0].at)
            self.types.one(operands[1], operands[2], term.operands[2].at)
            self.types.one(operands[1], found, term.at)
        elif term.name in BINARY:
            self.types.one(operands[0], operands[1], term.operands[1].at)
            self.types.one(operands[0], found, term.at)
        elif term.name in INDEX_CASTS:
            self.index_casts.append(term)
        else:
            self.narrower.append((found, operands[0]) if term.name == TRUNCATION else (operands[0], found))

    def is_index_cast(self, term):
        """A cast of index leads from an integer type to index or back."""
        both = [self.typed(term.operands[0]), self.typed(term)]
        refuse(5, term.at, both.count(INDEX) != 1)
        self.integers.append(both[both[0] == INDEX])

    def tell_condition(self, condition):
        if condition.word == "narrower":
            types = [self.types.written(part) for part in condition.parts]
            refuse(5, condition.at, len(types) != 2)
            self.asked += zip(condition.starts, types)
            self.narrower.append(tuple(types))
            return
        found = self.type_of[condition] = self.types.new()
        for part in condition.parts:
            self.tell_number(part, found)
        refuse(5, condition.at, len(condition.parts) != (1 if condition.word == "power_of_two" else 2))
        refuse(5, condition.at, not any(part.says_type() for part in condition.parts))


def variable(term):
    """The name of a variable, or none: a value's has a `%`."""
    if isinstance(term, Value):
        return "%" + term.name
    return term.number.word if isinstance(term, Constant) and term.number.is_name() else None


def read(text, known=(), replaces=False):
    """The pattern that a text spells, apart from the names that are known, or one that may have a known name; raises
    `Refused`."""
    reader = Reader(text)
    start = reader.look(0).start
    name, at = reader.word(0)
    root = reader.look(at)
    old, at = reader.term(at, True, 1)
    refuse(2, root.start, not isinstance(old, Operation))
    at = reader.expect(reader.expect(at, b"="), b">")
    new, at = reader.term(at, False, 1)
    made = Pattern(name, old, new, reader.conditions(at))
    is_new = name not in known
    refuse(4, start, not is_new and not replaces)
    refuse(11, start, is_new and len(known) == MOST_PATTERNS)
    made.look_up()
    made.tell_types()
    return made


# A pattern is printed as the grammar has it.

def type_text(it):
    return it if isinstance(it, str) else "index" if it == INDEX else f"i{it[1]}"


def number_text(number):
    return f"{number.word}({', '.join(map(number_text, number.parts))})" if number.parts else str(number.word)


def term_text(term):
    if isinstance(term, Operation):
        asks = f"<{term.asks}>" if term.asks else ""
        text = f"{term.name.decode()}{asks}({', '.join(map(term_text, term.operands))})"
    else:
        text = f"%{term.name}" if isinstance(term, Value) else number_text(term.number)
    return text if term.written is None else f"{text} : {type_text(term.written)}"


def condition_text(condition):
    part = type_text if condition.word == "narrower" else number_text
    return f"{condition.word}({', '.join(map(part, condition.parts))})"


def text_of(pattern):
    asked = ", ".join(map(condition_text, pattern.conditions))
    return f"{pattern.name} {term_text(pattern.old)} => {term_text(pattern.new)}" + (f" where {asked}" if asked else "")
