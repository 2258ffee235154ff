"""Runs the functions of a module, and those that they call, and says whether the outcome of one module refines that of
another.

The evaluator gives the operations of arith and scf their meaning, and memories.py those of memref. A call of a function
that has a body runs it. A run that executes any other operation is unmodelled: nothing follows from it."""
import enum

from . import evaluator, memories, printing
from .analyses import Symbols, diagnostics
from .evaluator import END_OF, End, Endless, Undefined, Unmodelled, is_number
from .module import walk
from .operations import CALL, FUNC

MOST_CALLS = 1000
# Calls and regions inside one another take a few frames of Python each.
FRAMES = 12000


class Repeated(Exception):
    """Two functions have one name; says which."""


class Program:
    """A module whose functions are run, and its functions by their names."""

    def __init__(self, module):
        self.module, self.ops, self.symbols = module, module.ops(), Symbols(module)
        self.functions = {}
        for _, name, number in self.symbols.definitions:
            if self.ops[number].name == FUNC:
                whole = self.whole_name(number, name)
                if whole in self.functions:
                    raise Repeated(whole)
                self.functions[whole] = self.ops[number]
        self.called = {op.id: self.ops.get(self.symbols.resolved(op, op.props[b"callee"][1]))
                       for op in self.ops.values() if op.name == CALL and op.props.get(b"callee", " ")[0] == "sym"}

    def whole_name(self, number, name):
        """The name of a function, after those of the modules around it."""
        names, where = [name], self.symbols.places.get(number)
        while where is not None:
            around = where.parent.props.get(b"sym_name")
            names += [around[1]] if around else []
            where = self.symbols.places.get(where.parent.id)
        return printing.attr_text(("sym", tuple(reversed(names))))

    def faults(self):
        """The rows of the verifier."""
        return diagnostics(self.module)

    def reached(self, function):
        """A function and all that it calls, each once."""
        found, waiting = {}, [function]
        while waiting:
            it = waiting.pop()
            if it is None or it.name != FUNC or it.id in found:
                continue
            found[it.id] = it
            waiting += [self.called.get(op.id) for op in walk(it)]
        return list(found.values())


def types_of(function):
    """The types of a function's arguments and of its results."""
    return function.props[b"function_type"][1][1:]


def has_body(function):
    """Whether a function is more than a declaration."""
    return bool(function.regions) and function.regions[0] is not None


class Token:
    """The value of an argument whose type isn't modelled: it is passed on, and nothing is computed of it."""

    def __init__(self, place):
        self.place = place


class Runner(evaluator.Machine):
    """Runs the functions of a program, each any number of times."""

    def __init__(self, program):
        super().__init__(program.module)
        self.program, self.depth, self.locals = program, 0, []

    def outcome(self, function, arguments, steps):
        """The outcome of a function, which may take a number of steps, and how many it took."""
        self.fuel, self.depth, self.locals = steps, 0, []
        try:
            results, end, reason = self.inside(function, arguments), End.DEFINED, ""
        except (Undefined, Endless, Unmodelled) as fault:
            results, end, reason = [], END_OF[type(fault)], str(fault) or f"more than {steps:,} steps"
        except RecursionError:
            results, end, reason = [], End.ENDLESS, "calls that are nested too deep"
        return evaluator.Outcome(end, results, reason=reason), steps - max(self.fuel, 0)

    def inside(self, function, arguments):
        """The results of a function that is called, after which its local memory is gone."""
        self.depth += 1
        if self.depth > MOST_CALLS:
            raise Endless(f"more than {MOST_CALLS:,} nested calls")
        count = len(self.locals)
        handed = self.call(function, arguments)
        for buffer in self.locals[count:]:
            buffer.is_live = False
        del self.locals[count:]
        self.depth -= 1
        return handed

    def allocated(self, buffer):
        """Takes note of a new buffer."""
        if buffer.is_local:
            self.locals.append(buffer)

    def foreign(self, op):
        """What runs an operation that isn't one of arith or scf."""
        word = op.name.decode("utf-8", "replace")
        operands, results = self.places(op)
        if op.name == CALL:
            return self.call_step(op, operands, results)
        if word == "ub.poison":
            return lambda values: evaluator.put(values, results, [None] * len(results))
        found = None
        if word.startswith("memref."):
            found = memories.step(op, operands, results, self.types(op), self.allocated)
        return found or self.stopped(f"{printing.string_text(op.name)}, which isn't modelled")

    def call_step(self, op, operands, results):
        """What runs a call."""
        target = self.program.called.get(op.id)
        if target is None or target.name != FUNC or not has_body(target):
            return self.stopped(f"a call of {callee_text(op)}, which has no body")
        if types_of(target) != (tuple(self.types(op)), tuple(op.results)):
            return self.stopped(f"a call of {callee_text(op)} with other types")

        def step(values):
            evaluator.put(values, results, self.inside(target, [values[it] for it in operands]))
        return step

    def cast(self, op):
        """A cast is known between index and i64, and from a type to itself."""
        types = [*self.types(op), *op.results]
        is_known = len(types) == 2 and (types[0] == types[1] or {*types} == {evaluator.INDEX, ("i", 64)})
        return super().cast(op) if is_known and is_number(types[0]) else self.foreign(op)


def callee_text(op):
    """The name of the function that an operation calls."""
    callee = op.props.get(b"callee")
    return printing.attr_text(callee) if callee else "a function"


# Whether an outcome refines another one.

class Finding(enum.Enum):
    """What two outcomes of one input show."""
    REFINES, DIFFERS, UNKNOWN = range(3)


class Comparison:
    """Two outcomes with the memory at their ends. Buffers that a function made and gives correspond to each other."""

    def __init__(self, old, new):
        self.old, self.new, self.pairs = old, new, {}

    def finding(self, before, after):
        """What they show; `before` and `after` have the buffers of the arguments."""
        found = [self.value(*pair) for pair in zip(self.old.results, self.new.results)]
        found += [self.contents(*pair) for pair in zip(before, after)]
        return max(found, key=[Finding.REFINES, Finding.UNKNOWN, Finding.DIFFERS].index, default=Finding.REFINES)

    def value(self, old, new):
        """What two results show."""
        if old is None:
            return Finding.REFINES
        if new is None:
            return Finding.DIFFERS
        if isinstance(old, memories.Buffer):
            return self.buffer(old, new)
        if isinstance(old, Token):
            return Finding.REFINES if old.place == new.place else Finding.UNKNOWN
        return Finding.REFINES if old == new else Finding.DIFFERS

    def buffer(self, old, new):
        """What two memrefs that are results show."""
        if old.place is not None and new.place is not None:
            return Finding.REFINES if old.place == new.place else Finding.DIFFERS
        if old.place is not None or new.place is not None:
            return Finding.UNKNOWN
        if self.pairs.setdefault(id(old), id(new)) != id(new) or list(self.pairs.values()).count(id(new)) > 1:
            return Finding.UNKNOWN
        return self.contents(old, new)

    def contents(self, old, new):
        """What the elements of two buffers show."""
        if not old.is_live:
            return Finding.REFINES
        if not new.is_live or old.shape != new.shape:
            return Finding.DIFFERS
        is_same = all(evaluator.same_number(old.element(at), new.element(at)) for at in {*old.cells, *new.cells})
        return Finding.REFINES if is_same else Finding.DIFFERS
