"""Why a user pattern doesn't apply at an operation: the first of its tests that fails, as `why` prints it. The tests
are those of docs/PATTERNS.md, in that order."""
from .folds import holds, width
from .module import I1, INDEX
from .operations import is_T
from .pattern_checks import shown
from .pattern_uses import Instance, NoNumber, number_of
from .patterns import PREDICATES, Constant, Operation, type_text, variable, walk
from .rewrites import CONSTANT, No, Site

NO_FLAGS = ("overflow", False, False)


class Failed(Exception):
    """A test that fails; the text says which."""


def test(holds_here, text):
    if not holds_here:
        raise Failed(text() if callable(text) else text)


def operations_of(term):
    """The operations of a left side, operands first."""
    if isinstance(term, Operation):
        for operand in term.operands:
            yield from operations_of(operand)
        yield term


def kind_text(ty):
    return type_text(ty) if is_T(ty) else "another"


def value_text(value):
    return ("%v" if value[0] == "v" else "%a") + ".".join(map(str, value[1:]))


class Tests:
    """The tests of a pattern at an operation."""

    def __init__(self, pattern, module, number):
        self.pattern, self.site = pattern, Site(module, number)
        self.olds = list(operations_of(pattern.old))
        # A place is the name of a variable, or a term: an operation, a literal, or a second use of a number.
        self.place, self.parent, self.extra = {}, {}, []
        taken = set()
        for term in walk(pattern.old):
            name = variable(term)
            is_extra = isinstance(term, Constant) and (name is None or name in taken)
            self.place[term] = term if isinstance(term, Operation) or is_extra else name
            if is_extra:
                self.extra.append(term)
            taken.add(name)
        self.values = {pattern.old: ("v", number, 0)}

    def run(self):
        for term in reversed(self.olds):
            self.match(term)
        names = self.pattern.variables
        self.constants = [name for name in names if not name.startswith("%")]
        for name in self.constants:
            test(self.site.is_K(self.values[name]), lambda: self.expected(name, "arith.constant"))
        for term in reversed(self.olds):
            test(self.is_clean(self.values[term]), lambda: self.expected(term, "verified"))
        self.types, self.first = {}, {}
        for name, ty in names.items():
            self.bind_type(name, self.pattern.types.found(ty))
        for term in self.olds:
            self.bind_type(term, self.pattern.typed(term))
        self.instance = Instance(self.pattern, self.types)
        test(all(map(is_T, self.types.values())), "expected integer or index")
        test(self.fits(), "other-type")
        for name in self.constants:
            test(self.known(self.values[name]) is not None, lambda: self.expected(name, "verified"))
        self.numbers = {name: self.known(self.values[name]) for name in self.constants}
        self.compute()
        for term in self.extra:
            self.number_fits(term)
        test(len(self.site.x.results) == 1, "results")
        test(self.site.x is not self.site.module.root, "root")

    # Operations.

    def path(self, place):
        """The operands that lead from the root to the value at a place."""
        if place is self.pattern.old:
            return ""
        term, index = next((it, index) for it in reversed(self.olds) for index, operand in enumerate(it.operands)
                           if self.place[operand] == place)
        return f"{self.path(term)}operand {index} "

    def thing(self, value):
        """The operation of which a value is the first result, or the value."""
        if value[0] == "v" and value[2] == 0:
            return f"{self.site.ops[value[1]].name.decode()} #{value[1]}"
        return value_text(value)

    def expected(self, place, what, found=None):
        return f"{self.path(place)}expected {what} found {found or self.thing(self.values[place])}"

    def match(self, term):
        value = self.values[term]
        op = self.site.ops[value[1]] if value[0] == "v" and value[2] == 0 else None
        test(op is not None and op.name == term.name, lambda: self.expected(term, term.name.decode()))
        if term.asks and term.asks != "none":
            found = self.predicate(op)
            test(found == term.asks, lambda: self.expected(term, term.asks, found))
        if term.asks == "none":
            test(op.props.get(b"overflowFlags", NO_FLAGS) == NO_FLAGS,
                 lambda: self.expected(term, "none", "overflowFlags"))
        counts = f"expected {len(term.operands)} operands found {len(op.operands)}"
        for index, operand in enumerate(term.operands):
            test(index < len(op.operands), lambda: self.path(term) + counts)
            found = op.operands[index]
            bound = self.values.setdefault(self.place[operand], found)
            test(bound == found, lambda: f"{self.path(term)}operand {index} expected {value_text(bound)} found "
                                         f"{value_text(found)}")
        test(len(op.operands) == len(term.operands), lambda: self.path(term) + counts)

    def predicate(self, op):
        attr = op.props.get(b"predicate")
        return PREDICATES[attr[2]] if attr and attr[0] == "int" and 0 <= attr[2] < 10 else "none"

    def passes(self, call):
        try:
            call()
        except No:
            return False
        return True

    def is_clean(self, value):
        return self.passes(lambda: self.site.clean(self.site.ops[value[1]]))

    # Types.

    def bind_type(self, place, ty):
        found = self.site.type(self.values[place])
        wanted = self.types.setdefault(ty, found) if ty in self.pattern.types.stands else ty
        test(wanted == found, lambda: self.expected(place, kind_text(wanted), kind_text(found)))

    def fits(self):
        """Whether the types satisfy all constraints, and each literal fits its type."""
        if not self.instance.is_possible:
            return False
        return all(self.literal_fits(it, ty) for number, ty in self.given() for it in number.walk())

    def given(self):
        """The numbers that the pattern computes, each with its type: of new constants and of conditions."""
        for term in walk(self.pattern.new):
            if isinstance(term, Constant):
                yield term.number, self.instance.type(term)
        for condition in self.pattern.conditions:
            for part in condition.numbers():
                yield part, self.instance.type(condition)

    def literal_fits(self, number, ty):
        if not number.is_literal():
            return True
        try:
            number_of(number, ty, {})
        except NoNumber:
            return False
        return True

    # Numbers.

    def known(self, value):
        """The number of a verified constant, or none."""
        try:
            return self.site.K(value) if value[0] == "v" and value[2] == 0 else None
        except No:
            return None

    def compute(self):
        """Computes the numbers in their order."""
        for term in walk(self.pattern.new):
            if isinstance(term, Constant):
                self.number(term.number, self.instance.type(term))
        for condition in self.pattern.conditions:
            ty = self.instance.type(condition) if condition.word != "narrower" else None
            parts = [self.number(part, ty) for part in condition.numbers()]
            if condition.word == "power_of_two":
                self.power(parts[0], ty)
            elif condition.word != "narrower":
                texts = ", ".join(shown(it, ty) for it in parts)
                test(holds(PREDICATES.index(condition.word), ty, *parts), f"where {condition.word}({texts})")

    def power(self, number, ty):
        test(number != 0 and number & (number - 1) == 0, f"where power_of_two({shown(number, ty)})")

    def number(self, number, ty):
        """Computes a number, its parts first."""
        parts = [self.number(part, ty) for part in number.parts or ()]
        if number.parts is not None and number.word == "log2":
            self.power(parts[0], ty)
        return number_of(number, ty, self.numbers)

    def number_fits(self, term):
        """Whether an additional constant has its number."""
        name = variable(term)
        ty = self.instance.real(self.pattern.variables[name]) if name else self.instance.type(term)
        wanted = self.numbers[name] if name else self.instance.number(term, {})
        value = self.values[term]
        found = self.known(value)
        there = self.site.type(value)
        test(found == wanted and there == ty, lambda: self.expected(
            term, shown(wanted, ty), None if found is None else shown(found, there)))


def reason(pattern, module, number):
    """The text of the first test of a pattern that fails at an operation of a module, or none if it applies."""
    try:
        Tests(pattern, module, number).run()
    except Failed as failed:
        return str(failed)
    return None
