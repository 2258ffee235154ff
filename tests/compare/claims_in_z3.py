"""Whether a user pattern holds at types, by z3: each side is an expression of bit-vectors, a flag for poison and a flag
for undefined behavior. A variable has a flag for poison too, unless it is a constant."""
import itertools
import subprocess

from oracle.folds import width
from oracle.pattern_checks import type_variables
from oracle.pattern_uses import Instance, NoNumber, number_of
from oracle.patterns import CASTS, CHOICE, COMPARISON, Operation, Value, variable

# The widths of type variables: the first of each list for one, any of it for several. And how long a question takes at
# most.
WIDTHS, MOST_LISTS, MILLISECONDS = ((8, 5, 3, 2), (32, 17, 9, 4)), 1, 1000
BINARY = {"addi": "bvadd", "subi": "bvsub", "muli": "bvmul", "andi": "bvand", "ori": "bvor", "xori": "bvxor",
          "shli": "bvshl", "shrsi": "bvashr", "shrui": "bvlshr", "divsi": "bvsdiv", "divui": "bvudiv",
          "remsi": "bvsrem", "remui": "bvurem"}
GREATER = {"maxsi": "bvsge", "maxui": "bvuge", "minsi": "bvsle", "minui": "bvule"}
NUMBERS = {"add": "bvadd", "sub": "bvsub", "mul": "bvmul", "and": "bvand", "or": "bvor", "xor": "bvxor",
           "neg": "bvneg", "not": "bvnot"}


def bits(number, w):
    return f"(_ bv{number % 2 ** w} {w})"


def all_of(parts):
    return f"(and true {' '.join(parts)})"


def any_of(parts):
    return f"(or false {' '.join(parts)})"


def comparison(predicate, a, b):
    if predicate in ("eq", "ne"):
        return f"(= {a} {b})" if predicate == "eq" else f"(distinct {a} {b})"
    return f"(bv{predicate} {a} {b})"


def result_of(word, w, a, b):
    """A number, a flag for poison, and a flag for undefined behavior if neither operand is poison."""
    if word in GREATER:
        return f"(ite ({GREATER[word]} {a} {b}) {a} {b})", "false", "false"
    found = f"({BINARY[word]} {a} {b})"
    if word in ("shli", "shrsi", "shrui"):
        # (no amount of i1 is too great but 1)
        return found, f"(not (bvult {b} {bits(w, w)}))" if w < 2 ** w else "false", "false"
    if word in ("divsi", "divui", "remsi", "remui"):
        is_over = all_of([f"(= {a} {bits(2 ** (w - 1), w)})", f"(= {b} {bits(-1, w)})"])
        return found, "false", any_of([f"(= {b} {bits(0, w)})"] + [is_over] * (word == "divsi"))
    return found, "false", "false"


class Question:
    """The text of a question about a pattern at types; `NoNumber` is raised if the pattern applies to nothing there."""

    def __init__(self, instance):
        self.instance, self.needed, self.lines = instance, [], []
        pattern = instance.pattern
        for name, ty in pattern.variables.items():
            mark = "v" if name.startswith("%") else "c"
            self.lines.append(f"(declare-const {mark}_{name.strip('%')} (_ BitVec {width(instance.real(ty))}))")
            self.lines += [f"(declare-const p_{name[1:]} Bool)"] * (mark == "v")
        # (a constant that is made is needed whether or not it is used)
        for term in instance.made:
            self.number(term.number, instance.type(term))
        for condition in pattern.conditions:
            self.lines.append(f"(assert {self.condition(condition)})")
        (old, old_poison, old_undefined), (new, new_poison, new_undefined) = map(self.term, (pattern.old, pattern.new))
        self.lines += [f"(assert {it})" for it in self.needed]
        is_kept = all_of([f"(not {new_undefined})", any_of([old_poison, all_of([f"(not {new_poison})",
                                                                              f"(= {old} {new})"])])])
        self.lines += [f"(assert (not {old_undefined}))", f"(assert (not {is_kept}))", "(check-sat)"]

    def condition(self, condition):
        if condition.word == "narrower":
            return "true"
        ty = self.instance.type(condition)
        parts = [self.number(part, ty) for part in condition.parts]
        if condition.word == "power_of_two":
            return self.is_power(parts[0], width(ty))
        return comparison(condition.word, *parts)

    def is_power(self, a, w):
        return all_of([f"(distinct {a} {bits(0, w)})", f"(= (bvand {a} (bvsub {a} {bits(1, w)})) {bits(0, w)})"])

    def number(self, number, ty):
        w = width(ty)
        if number.is_literal():
            return bits(number_of(number, ty, {}), w)
        if number.is_name():
            return f"c_{number.word}"
        parts = [self.number(part, ty) for part in number.parts]
        if number.word == "width":
            return bits(w, w)
        if number.word == "log2":
            self.needed.append(self.is_power(parts[0], w))
            found = bits(0, w)
            for k in range(w):
                found = f"(ite (= {parts[0]} {bits(2 ** k, w)}) {bits(k, w)} {found})"
            return found
        return f"({NUMBERS[number.word]} {' '.join(parts)})"

    def named(self, sort, expression):
        """A name for an expression, so that no text grows beyond measure."""
        name = f"t{len(self.lines)}"
        self.lines.append(f"(define-fun {name} () {sort} {expression})")
        return name

    def term(self, term):
        """A number, a flag for poison and a flag for undefined behavior."""
        if isinstance(term, Value):
            return f"v_{term.name}", f"p_{term.name}", "false"
        if not isinstance(term, Operation):
            return (f"c_{variable(term)}" if variable(term) else self.number(term.number, self.instance.type(term)),
                    "false", "false")
        operands = [self.term(it) for it in term.operands]
        w = width(self.instance.type(term))
        number, poison, undefined = self.operation(term, w, width(self.instance.type(term.operands[0])), operands)
        undefined = any_of([undefined, *(it[2] for it in operands)])
        return self.named(f"(_ BitVec {w})", number), self.named("Bool", poison), self.named("Bool", undefined)

    def operation(self, term, w, operand_w, operands):
        numbers, poisons, word = [it[0] for it in operands], [it[1] for it in operands], term.word()
        if term.name == CHOICE:
            is_chosen = f"(= {numbers[0]} {bits(1, 1)})"
            return (f"(ite {is_chosen} {numbers[1]} {numbers[2]})",
                    any_of([poisons[0], f"(ite {is_chosen} {poisons[1]} {poisons[2]})"]), "false")
        if term.name == COMPARISON:
            found = f"(ite {comparison(term.asks, *numbers)} {bits(1, 1)} {bits(0, 1)})"
            return found, any_of(poisons), "false"
        if term.name in CASTS:
            return resized(numbers[0], word in ("extsi", "index_cast"), operand_w, w), poisons[0], "false"
        found, is_poison, is_undefined = result_of(word, w, *numbers)
        if word in ("divsi", "divui", "remsi", "remui"):
            is_zero = f"(= {numbers[1]} {bits(0, w)})"
            is_undefined = any_of([poisons[1], is_zero, all_of([f"(not {poisons[0]})", is_undefined])])
            return found, poisons[0], is_undefined
        return found, any_of([*poisons, is_poison]), "false"


def resized(number, is_signed, old, new):
    """A number at another width."""
    if new <= old:
        return f"((_ extract {new - 1} 0) {number})"
    return f"((_ {'sign' if is_signed else 'zero'}_extend {new - old}) {number})"


class Solver:
    """A z3 that answers one question after another."""

    def __init__(self):
        self.z3 = subprocess.Popen(["z3", "-in"], stdin=subprocess.PIPE, stdout=subprocess.PIPE, text=True)

    def answer(self, lines):
        """`sat` if there is a counterexample, `unsat`, or `unknown` if it took too long."""
        options = f"(reset)\n(set-option :timeout {MILLISECONDS})\n"
        self.z3.stdin.write(options + "\n".join(lines) + '\n(echo "end")\n')
        self.z3.stdin.flush()
        found = list(iter(lambda: self.z3.stdout.readline().strip(), "end"))
        if found not in (["sat"], ["unsat"], ["unknown"], ["timeout"]):
            raise SystemExit("\n".join([*lines, *found]))
        return "unknown" if found == ["timeout"] else found[0]

    def answers(self, pattern):
        """An answer at about 8 bits, and one at about 32."""
        return [self.answer(Question(it).lines) for it in instances(pattern)]


def is_asked(instance):
    try:
        Question(instance)
    except NoNumber:
        return False
    return True


def instances(pattern):
    """The pattern at types at which it may apply, some for each list of widths."""
    names = type_variables(pattern)
    for widths in WIDTHS if names else WIDTHS[:1]:
        found = (Instance(pattern, {ty: ("i", w) for ty, w in zip(names, those)})
                 for those in itertools.product(widths[:len(names)], repeat=len(names)))
        yield from itertools.islice((it for it in found if it.is_possible and is_asked(it)), MOST_LISTS)
