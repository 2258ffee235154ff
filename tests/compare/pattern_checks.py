#!/usr/bin/env python3
"""Random user patterns, whose checks by oracle are compared with those of an evaluator that shares
nothing with it: a pattern is made as a tree of tuples, from which its text is printed, and is run here on numbers.

    tests/compare/pattern_checks.py COUNT SEED

Half of them are of the forms that hold at every width, by pattern_forms.py. Patterns with this verdict are run at
widths up to 128, for random values; and some are sampled. Poison is None, and undefined behaviour raises. A pattern
with a literal that doesn't fit its written type must be refused by 7, and no other may be. The last line says how many
patterns there were and how many differ."""
import argparse
import collections
import functools
import itertools
import random
import sys

import checkout  # noqa: F401

from oracle import edits, everywhere, pattern_checks, patterns, rules, sampling
from oracle.evaluator import by_sign, compared, towards_zero
from tests.compare import pattern_forms

PAIRS = """addi subi muli shli divsi divui remsi remui andi ori xori shrsi shrui maxsi maxui minsi minui""".split()
PREDICATES = "eq ne slt sle sgt sge ult ule ugt uge".split()
CASTS = ("extsi", "extui", "trunci")
MOST_WIDTH, MOST_BITS = 4, 8
# At how many lists of values what holds everywhere is run, how many values are looked at, and which widths are
# sampled.
RUNS, VALUES, WIDTHS = 200, 20000, [1, 2, 3, 4, 5, 7, 8, 9, 13, 16, 17, 31, 32, 33, 63, 64, 65, 100, 127, 128]


class Undefined(Exception):
    """What is executed has no meaning."""


class NoNumber(Exception):
    """A number that isn't there."""


# A term is ("%", name, width), ("c", name, width), ("n", number, width) or (word, predicate, terms, width); a width is
# a letter, or its digits where the type is written. A number is an int, a bool (a literal of i1), a name or (function,
# numbers).

class Maker:
    """Makes a pattern."""

    def __init__(self, chance):
        self.chance, self.values, self.constants = chance, {}, {}

    def leaf(self, width, is_left):
        pick = self.chance.random()
        known = [name for name, w in self.values.items() if w == width]
        if not is_left:
            constants = [name for name, w in self.constants.items() if w == width]
            if constants and pick < 0.4:
                it = ("n", self.number(constants, 2)) if pick < 0.25 else ("c", self.chance.choice(constants))
                return *it, width
            is_known = known and pick < 0.85
            return ("%", self.chance.choice(known), width) if is_known else ("n", self.literal(width), width)
        if pick < 0.15:
            return ("n", self.literal(width), width)
        table, mark = (self.constants, "c") if pick < 0.4 else (self.values, "%")
        same = [name for name, w in table.items() if w == width]
        if same and self.chance.random() < 0.3:
            return (mark, self.chance.choice(same), width)
        if len(self.values) + len(self.constants) > 2:
            return ("n", self.literal(width), width)
        name = "xyzuv"[len(table)] if mark == "%" else "cdefg"[len(table)]
        table[name] = width
        return (mark, name, width)

    def literal(self, width):
        if width == "1" and self.chance.random() < 0.7:
            return self.chance.choice([False, True])
        return self.chance.choice([0, 0, 1, 1, -1, -1, 2, 3, -2, 7, 8, -8, 300])

    def number(self, names, depth):
        pick = self.chance.random()
        if depth == 0 or pick < 0.2:
            return self.chance.choice(names) if pick < 0.15 else self.literal(self.constants[names[0]])
        one = lambda: self.number(names, depth - 1)
        word = self.chance.choice(["add", "sub", "mul", "and", "or", "xor", "neg", "not", "log2", "width"])
        return word, [one()] if word in ("neg", "not", "log2", "width") else [one(), one()]

    def term(self, width, depth, is_left):
        if depth == 0 or depth < 3 and self.chance.random() < 0.4:
            return self.leaf(width, is_left)
        pick, inner = self.chance.random(), lambda w: self.term(w, depth - 1, is_left)
        if pick < 0.15 and width == "1":
            side = self.chance.choice("ST") if is_left else self.chance.choice(list(self.values.values()) or ["1"])
            return ("cmpi", self.chance.choice(PREDICATES), [inner(side), inner(side)], width)
        if pick < 0.3:
            return ("select", None, [inner("1"), inner(width), inner(width)], width)
        if pick < 0.4 and width != "1" and (is_left or len(set(self.values.values())) > 1):
            return (self.chance.choice(CASTS), None, [inner("T" if width == "S" else "S")], width)
        return (self.chance.choice(PAIRS), None, [inner(width), inner(width)], width)

    def pattern(self):
        root = self.chance.choice(["S", "S", "S", "1"])
        old = self.term(root, self.chance.choice([1, 2, 2]), True)
        while len(old) != 4:
            self.values, self.constants = {}, {}
            old = self.term(root, 2, True)
        new = self.term(root, self.chance.choice([0, 1, 1, 2]), False)
        if self.chance.random() < 0.15 and old[0] != "select":
            new = (*old[:2], old[2][::-1], old[3])
        conditions = []
        if self.constants and self.chance.random() < 0.3:
            width = self.chance.choice(list(self.constants.values()))
            names = [name for name, w in self.constants.items() if w == width]
            conditions = [(self.chance.choice(PREDICATES), width, [self.chance.choice(names), self.number(names, 1)])]
        return old, new, conditions


def number_text(number):
    if isinstance(number, bool):
        return "true" if number else "false"
    return str(number) if not isinstance(number, tuple) else f"{number[0]}({', '.join(map(number_text, number[1]))})"


def term_text(term):
    width = f"i{term[-1]}" if term[-1].isdigit() else term[-1]
    if len(term) == 3:
        text = f"%{term[1]}" if term[0] == "%" else number_text(term[1])
        # (a truth says its type by itself)
        return text if isinstance(term[1], bool) else f"{text} : {width}"
    asks = f"<{term[1]}>" if term[1] else ""
    return f"arith.{term[0]}{asks}({', '.join(map(term_text, term[2]))}) : {width}"


def text_of(old, new, conditions):
    asked = ", ".join(f"{word}({', '.join(map(number_text, parts))})" for word, _, parts in conditions)
    return f"p {term_text(old)} => {term_text(new)}" + (f" where {asked}" if asked else "")


# ---- run on numbers

def is_literal(number, width):
    return -(1 << (width - 1)) <= number < 1 << width


def literal(number, width):
    if not is_literal(number, width):
        raise NoNumber
    return number % (1 << width)


def literals_in(number):
    """The literals in a number."""
    if isinstance(number, tuple):
        return [it for part in number[1] for it in literals_in(part)]
    return [number] if isinstance(number, int) else []


def number_of(number, width, names):
    if isinstance(number, int):
        return literal(number, width)
    if isinstance(number, str):
        return names[number]
    word, parts = number
    found = [number_of(part, width, names) for part in parts]
    if word == "log2":
        if bin(found[0]).count("1") != 1:
            raise NoNumber
        return len(bin(found[0])) - 3
    a, b = found[0], found[-1]
    table = {"add": a + b, "sub": a - b, "mul": a * b, "and": a & b, "or": a | b, "xor": a ^ b, "neg": -a,
             "not": -1 - a, "width": width}
    return table[word] & ((1 << width) - 1)


def quotient(word, width, a, b):
    if b is None or b == 0:
        raise Undefined
    if a is None:
        return None
    if word.endswith("ui"):
        return a // b if word == "divui" else a - a // b * b
    x, y = by_sign(a, width), by_sign(b, width)
    if word == "remsi":
        return x - towards_zero(x, y) * y
    if towards_zero(x, y) == 1 << (width - 1):
        raise Undefined
    return towards_zero(x, y)


def computed(word, width, a, b):
    if word[:3] in ("div", "rem"):
        return quotient(word, width, a, b)
    if a is None or b is None:
        return None
    if word in ("shli", "shrsi", "shrui"):
        shifts = {"shli": lambda: a << b, "shrui": lambda: a >> b, "shrsi": lambda: by_sign(a, width) >> b}
        return shifts[word]() if b < width else None
    if word in ("maxsi", "minsi"):
        return sorted((a, b), key=lambda it: by_sign(it, width))[word == "maxsi"]
    return of_both(word, a, b)


def of_both(word, a, b):
    """What is computed of two numbers alike at all widths."""
    if word in ("addi", "subi", "muli"):
        return a + b if word == "addi" else a - b if word == "subi" else a * b
    if word in ("andi", "ori", "xori"):
        return a & b if word == "andi" else a | b if word == "ori" else a ^ b
    return max(a, b) if word == "maxui" else min(a, b)


class Case:
    """Widths by their letters and values by their names."""

    def __init__(self, widths, values):
        self.widths, self.values = widths, values

    def width(self, letter):
        return int(letter) if letter.isdigit() else self.widths[letter]

    def is_narrower(self, cast):
        """Whether the narrower type of a cast is."""
        ends = [self.width(cast[2][0][-1]), self.width(cast[3])]
        return ends[0] > ends[1] if cast[0] == "trunci" else ends[0] < ends[1]

    def run(self, term):
        if len(term) == 3:
            return self.number(term[1], term[2]) if term[0] == "n" else self.values[term[1]]
        word, predicate, parts, own = term
        found = [self.run(part) for part in parts]
        if word == "select":
            return None if found[0] is None else found[2 - found[0]]
        if word == "cmpi":
            width = self.width(parts[0][-1])
            return None if None in found else compared(PREDICATES.index(predicate), width, *found)
        if word in CASTS:
            it = found[0] if word != "extsi" or found[0] is None else by_sign(found[0], self.width(parts[0][-1]))
        else:
            it = computed(word, self.width(own), *found)
        return None if it is None else it % (1 << self.width(own))

    def number(self, number, letter):
        return number_of(number, self.width(letter), self.values)

    def met(self, condition):
        word, letter, parts = condition
        a, b = (self.number(part, letter) for part in parts)
        return compared(PREDICATES.index(word), self.width(letter), a, b)

    def shown(self, value, letter):
        if not isinstance(value, int):
            return value or "poison"
        width = self.width(letter)
        return ("false", "true")[value] if width == 1 else f"{by_sign(value, width)} : i{width}"

    def outcome(self, old, new, conditions, numbers):
        """What both sides give, or none if the pattern doesn't apply or the old one is undefined; `numbers` are
        those in it."""
        try:
            for _, number, letter in numbers:
                self.number(number, letter)
            if not all(map(self.met, conditions)):
                return None
            before = self.run(old)
        except (NoNumber, Undefined):
            return None
        try:
            return before, self.run(new)
        except Undefined:
            return before, "undefined"


def parts_of(term):
    """A term and those in it, in the order of the text."""
    yield term
    for part in term[2] if len(term) == 4 else ():
        yield from parts_of(part)


def leaves(term):
    return (part for part in parts_of(term) if len(part) == 3)


def is_wrong(before, after):
    return after == "undefined" or before is not None and after != before


def has_wrong_literal(old, new, conditions):
    """Whether there is a literal that isn't one of a type that is written."""
    numbers = [(part[1], part[2]) for side in (old, new) for part in leaves(side) if part[0] == "n"]
    numbers += [(part, letter) for _, letter, parts in conditions for part in parts]
    return any(letter.isdigit() and not is_literal(it, int(letter))
               for number, letter in numbers for it in literals_in(number))


def letters_of(old):
    """The type variables, in the order of the text."""
    return list(dict.fromkeys(part[-1] for part in parts_of(old) if not part[-1].isdigit()))


def variables_of(old):
    """The letter of each variable, by its mark and name, in the order of the text."""
    return {part[:2]: part[2] for part in leaves(old) if part[0] != "n"}


class Tried:
    """A pattern that is run on values of its variables, one after another, up to the first that tell against it."""

    def __init__(self, old, new, conditions):
        self.letters, self.variables = letters_of(old), variables_of(old)
        parts = [part for side in (old, new) for part in parts_of(side)]
        self.casts = [part for part in parts if part[0] in CASTS]
        self.sides = old, new, conditions, [part for part in parts if part[0] == "n"]
        # The reported width of a pattern without type variables: the widest type.
        self.widest = 0 if self.letters else max(int(part[-1]) for part in parts)
        self.is_heard, self.rows = False, None

    def at(self, widths):
        """The pattern at widths of its type variables, and how wide its variables are; none if the casts don't lead
        from one to the other."""
        case = Case(dict(zip(self.letters, widths)), {})
        if not all(map(case.is_narrower, self.casts)):
            return None, []
        return case, [case.width(letter) for letter in self.variables.values()]

    def tells_against(self, case, numbers):
        """Whether the values of its variables tell against it."""
        case.values = {name: number for (_, name), number in zip(self.variables, numbers)}
        both = case.outcome(*self.sides)
        self.is_heard |= both is not None
        if both is None or not is_wrong(*both):
            return False
        rows = [f"{mark.strip('c')}{name} {case.shown(case.values[name], letter)}" for (mark, name), letter in
                self.variables.items()]
        root = self.sides[0][3]
        self.rows = rows + [f"{word} {case.shown(it, root)}" for word, it in zip(("old", "new"), both)]
        return True

    def up_to(self, most):
        """What a check says of all values at all widths up to one, with its rows."""
        for widths in itertools.product(range(1, most + 1), repeat=len(self.letters)):
            case, wide = self.at(widths)
            for numbers in itertools.product(*[range(1 << w) for w in wide]) if case else ():
                if self.tells_against(case, numbers):
                    return f"fails {max(widths, default=self.widest)}", self.rows
        return f"{'holds' if self.is_heard else 'empty'} {self.widest or most}", []

    def sampled(self, most):
        """What a check says of 4,096 lists of values at a width, its half and its quarter, and then of 1,681 lists near
        the literals, with its rows."""
        near = [(it + more) % (1 << 128) for it in self.first_literals() for more in (0, -1, 1)]
        for numbers in [None, near] if near else [None]:
            for levels in itertools.product((1, 2, 4), repeat=len(self.letters)):
                widths = [most // level or 1 for level in levels]
                case, wide = self.at(widths)
                for number in range(1681 if numbers else 4096) if case else ():
                    values = list_near(numbers, wide, number) if numbers else list_of(wide, number)
                    if self.tells_against(case, values):
                        return f"fails {max(widths, default=self.widest)}", self.rows
        return f"unrefuted {self.widest or most}", []

    def first_literals(self):
        """Eight literals, those of the sides first."""
        old, new, conditions, _ = self.sides
        numbers = [part[1] for side in (old, new) for part in leaves(side) if part[0] == "n"]
        numbers += [part for _, _, parts in conditions for part in parts]
        return [it for number in numbers for it in computed_literals(number)][:8]

    def by_chance(self, chance):
        """Whether there is no counterexample among random values at random widths."""
        for _ in range(RUNS):
            case, wide = self.at([chance.choice([chance.randrange(1, 129), 128, 64, 1]) for _ in self.letters])
            if self.tells_against(case, [chance.choice([chance.getrandbits(w), chance.choice(edges(w))])
                                         for w in wide]):
                return False
        return True


def computed_literals(number):
    """The literals from which a number is computed: a negation is a difference from 0, a complement one of bits to
    -1."""
    if isinstance(number, int):
        return [int(number)]
    if not isinstance(number, tuple):
        return []
    found = [it for part in number[1] for it in computed_literals(part)]
    return found + {"neg": [0], "not": [-1]}.get(number[0], [])


def list_of(wide, number):
    """A list of values of these widths: edges, or pseudo-random ones."""
    digits = f"{number:03}"[::-1]
    return [edges(w)[int(digits[j % 3])] if number < 1000 else by_number(w, number * 16 + j)
            for j, w in enumerate(wide)]


def list_near(near, wide, number):
    """A list of values of these widths: two digits of 41 choose them, so that two variables take all pairs."""
    high, low = divmod(number, 41)
    found = []
    for j, w in enumerate(wide):
        those = [it & (1 << w) - 1 for it in near] + edges(w)
        place = (low + j * high) % 41
        found.append(those[place] if place < len(those) else by_number(w, number * 16 + j))
    return found


@functools.lru_cache(maxsize=None)
def edges(w):
    """Zero, one, all ones, the least and the greatest signed value, two, all ones but the last, half the bits, and the
    least signed value and one more."""
    size, half = 1 << w, 1 << (w - 1)
    middle = 1 << (w >> 1)
    return [it % size for it in (0, 1, -1, half, half - 1, 2, -2, middle, middle - 1, half + 1)]


def by_number(w, number):
    """The pseudo-random value with a number, from 0: a product modulo 2^128, its halves combined by xor, and the high
    bits of another product."""
    mixed = (number + 1) * 0x9E3779B97F4A7C15F39CC0605CEDC835 & (1 << 128) - 1
    mixed = (mixed ^ mixed >> 64) * 0xD6E8FEB86659FD93A5A3F1C2B4E7695B & (1 << 128) - 1
    return int(f"{mixed:0128b}"[:w], 2)


class Found:
    """What both say of a pattern: what differs, and the words of what was said."""

    def __init__(self, text, sides, chance):
        self.text, self.sides, self.chance, self.words, self.wrong = text, sides, chance, [], []
        self.pattern = self.read()

    def read(self):
        """The pattern of the text, or none if it is refused for a literal, as it has to be."""
        is_due = has_wrong_literal(*self.sides)
        try:
            pattern = patterns.read(self.text.encode())
        except rules.Refused as fault:
            if fault.number != 7:
                raise
            pattern = None
        if is_due != (pattern is None):
            self.wrong.append(f"  reference: refused {pattern is None}\n  evaluator: refused {is_due}")
        self.words += ["refused"] * (pattern is None)
        return pattern

    def same(self, said, told):
        """Notes the actual and the expected answer."""
        self.words.append(said[0].split()[0])
        if said != told:
            self.wrong.append(f"  reference {said}\n  evaluator {told}")

    def check(self):
        most = pattern_checks.default_width(self.pattern, MOST_WIDTH, MOST_BITS)
        types = {ty: ("i", most) for ty in self.pattern.all_types()}
        # (where types are written the variables may have more)
        edits.refuse(50, pattern_checks.bits_of(self.pattern, types) > MOST_BITS)
        said = pattern_checks.check(self.pattern, most)
        self.same(said, Tried(*self.sides).up_to(most))
        return said[0].split()[0]

    def everywhere(self, word):
        """Whether it has a form that holds at every width. Where it does all that is run there is kept."""
        is_so = everywhere.is_everywhere(self.pattern)
        told = pattern_forms.is_everywhere(*self.sides, self.chance)
        if is_so != told:
            self.wrong.append(f"  reference: everywhere {is_so}\n  evaluator: everywhere {told}")
        if is_so and word != "fails":
            self.words.append("everywhere")
            tried = Tried(*self.sides)
            if not tried.by_chance(self.chance):
                self.wrong.append(f"  reference: everywhere\n  evaluator: not so at {tried.rows}")

    def sample(self):
        most = self.chance.choice(WIDTHS)
        if len(letters_of(self.sides[0])) < 3:
            self.same(sampling.sample(self.pattern, most), Tried(*self.sides).sampled(most))


def compare(number, seed):
    """What both say of a pattern, or none if it isn't read, but for its literals, or has too many values."""
    chance = random.Random(f"{seed} {number}")
    maker = Maker(chance) if chance.random() < 0.5 else pattern_forms.FormMaker(chance, chance.random() < 0.5)
    sides = maker.pattern()
    try:
        found = Found(text_of(*sides), sides, chance)
        if found.pattern is None or found.wrong:
            return found
        found.everywhere(found.check())
        if chance.random() < (0.4 if len(letters_of(sides[0])) > 1 else 0.1):
            found.sample()
    except (rules.Refused, edits.Refused):
        return None
    return found


def values_differ(chance):
    """Whether a value that is sampled isn't that of the evaluator: of any width, case and variable."""
    for _ in range(VALUES):
        w, i, j = chance.randrange(1, 129), chance.randrange(4096), chance.randrange(16)
        told = edges(w)[i // (1, 10, 100)[j % 3] % 10] if i < 1000 else by_number(w, i * 16 + j)
        said = sampling.value(w, i, j)
        if i < 1681 and chance.random() < 0.5:
            near = [chance.getrandbits(128) for _ in range(chance.randrange(1, 25))]
            told, said = list_near(near, [w] * 16, i)[j], sampling.near_value(near, w, i, j)
        if said != told:
            print(f"width {w}, case {i}, variable {j}\n  reference {said}\n  evaluator {told}")
            return True
    return False


def main():
    parser = argparse.ArgumentParser(description=__doc__, formatter_class=argparse.RawDescriptionHelpFormatter)
    parser.add_argument("count", type=int)
    parser.add_argument("seed", type=int)
    asked = parser.parse_args()
    count, number, differ, words = 0, 0, 0, collections.Counter()
    while count < asked.count:
        number += 1
        found = compare(number, asked.seed)
        if found is None:
            continue
        count += 1
        words.update(found.words)
        if found.wrong:
            differ += 1
            print(found.text, *found.wrong, sep="\n")
    told = ", ".join(f"{count} {word}" for word, count in sorted(words.items()))
    print(f"{count} patterns ({told}; {number - count} not tried), {differ} differ")
    return values_differ(random.Random(asked.seed)) or bool(differ)


if __name__ == "__main__":
    sys.exit(main())
