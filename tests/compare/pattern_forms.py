"""Random patterns of the forms that hold at every width or at none: both sides are sums, differences and products, or
each bit of both depends only on the same bit of the values. The new side is derived from the old one by laws, and then
changed in some. Terms are those of pattern_checks.py, which compares."""

SUMS, BITS = ("addi", "subi", "muli"), ("andi", "ori", "xori")
NUMBERS = {"addi": "add", "subi": "sub", "muli": "mul", "andi": "and", "ori": "or", "xori": "xor"}
OF_SUMS, OF_BITS = ("add", "sub", "mul", "neg"), ("and", "or", "xor", "not")
LETTERS = ["S"] * 12 + ["8", "3", "1"]


def pair(word, a, b):
    return word, None, [a, b], a[-1]


def literal(number, like):
    return "n", number, like[-1]


def inverted(a):
    return pair("xori", a, literal(-1, a))


def is_pair(term, *words):
    return len(term) == 4 and term[0] in words


class FormMaker:
    """Makes a pattern, of sums or of bits."""

    def __init__(self, chance, is_of_sums):
        self.chance, self.is_of_sums = chance, is_of_sums
        self.words, self.laws = (SUMS, (commuted, grouped, of_sums)) if is_of_sums else (BITS, (commuted, grouped,
                                                                                              of_bits))
        self.letter = chance.choice(LETTERS)
        self.leaves = [("%", name, self.letter) for name in "xyzuv"[:chance.choice([1, 1, 2, 2, 2, 3, 5])]]
        self.leaves += [("c", name, self.letter) for name in "cd"[:chance.choice([0, 0, 1, 2])]]

    def likely(self, share):
        return self.chance.random() < share

    def number(self):
        if self.letter == "1" and self.likely(0.5):
            return self.likely(0.5)
        if self.likely(0.15):
            return self.chance.choice([1, 5, -8] if self.likely(0.9) else [300])
        return self.chance.choice([0, 1, -1, 2, 3, -2] if self.is_of_sums else [0, -1, -1])

    def leaf(self, depth):
        # (a constant may be three deep, a value four)
        those = [it for it in self.leaves if depth < 3 or it[0] == "%"]
        return literal(self.number(), self.leaves[0]) if depth < 3 and self.likely(0.2) else self.chance.choice(those)

    def term(self, depth=0):
        """A left side."""
        if depth == 3 or depth and self.likely(0.4):
            return self.leaf(depth)
        return pair(self.chance.choice(self.words), self.term(depth + 1), self.term(depth + 1))

    def rewritten(self, term, steps):
        """A term by some laws, at random places in it."""
        for _ in range(steps):
            term = self.at_some(term, lambda it: self.chance.choice(self.laws)(self, it))
        return term

    def at_some(self, term, change):
        """A term in which one within it is changed."""
        if len(term) == 3 or self.likely(0.4):
            return change(term)
        place = self.chance.randrange(len(term[2]))
        parts = [self.at_some(part, change) if at == place else part for at, part in enumerate(term[2])]
        return *term[:2], parts, term[3]

    def known(self, term, names):
        """A term without what the left side doesn't have, in which constants are computed as numbers here and there."""
        if len(term) == 3:
            return term if term[0] == "n" or term[:2] in names else literal(self.number(), term)
        parts = [self.known(part, names) for part in term[2]]
        word = NUMBERS.get(term[0])
        if word and all(part[0] in "cn" for part in parts) and self.likely(0.8):
            number = self.computed(word, [part[1] for part in parts])
            return "n", self.beside(number) if self.likely(0.2) else number, term[3]
        return *term[:2], parts, term[3]

    def beside(self, number):
        """A subterm that is opaque to the form: the same in any context, also if it occurs twice."""
        other = self.chance.choice([("width", [number]), ("neg", [number]), ("not", [number]), ("and", [number, 2])])
        if not self.is_of_sums:
            return "and", [number, ("or", [number, other])]
        if self.likely(0.5):
            return "sub", [("add", [number, other]), other]
        return "add", [number, ("mul", [other, 0])]

    def computed(self, word, parts):
        """A function of numbers, in one of its forms."""
        if word == "sub" and parts[0] == 0 and self.likely(0.5):
            return "neg", parts[1:]
        if word == "xor" and parts[1] == -1 and self.likely(0.5):
            return "not", parts[:1]
        return word, parts

    def changed(self, term):
        """A term that is another."""
        if len(term) == 3:
            return self.leaf(0)
        words = self.words if self.likely(0.8) else ("addi", "andi", "shli", "maxui", "divui")
        return self.chance.choice(words), None, term[2], term[3]

    def pattern(self):
        """Both sides, and conditions."""
        old = self.term()
        names = {it[:2] for it in leaves_of(old) if it[0] != "n"}
        new = self.known(self.rewritten(old, self.chance.choice([1, 2, 3, 3, 4, 5])), names)
        if self.likely(0.25):
            new = self.known(self.at_some(new, self.changed), names)
        if self.likely(0.08):
            # (from another type, which isn't one type any more)
            old, new = (("trunci", None, [it], "T" if self.letter == "S" else "1") for it in (old, new))
        return old, new, self.conditions(sorted(name for mark, name in names if mark == "c"))

    def conditions(self, names):
        word = self.chance.choice(["eq", "ne", "ult", "sge", "uge"])
        if self.likely(0.05):
            # (of i1, which is one type more)
            return [(word, "1", [self.likely(0.5), self.chance.choice([0, 1, -1, True])])]
        if not names or self.likely(0.8):
            return []
        return [(word, self.letter, [self.chance.choice(names), self.number()])]


def leaves_of(term):
    return [term] if len(term) == 3 else [leaf for part in term[2] for leaf in leaves_of(part)]


# ---- laws: what a term may be instead

def commuted(maker, term):
    """The operands the other way round."""
    if is_pair(term, "addi", "muli", *BITS):
        return pair(term[0], *term[2][::-1])
    return pair("subi", literal(0, term), pair("subi", *term[2][::-1])) if is_pair(term, "subi") else term


def grouped(maker, term):
    """Regroups a term: (a . b) . c becomes a . (b . c), and a product or conjunction distributes over a pair."""
    if not is_pair(term, "addi", "muli", *BITS):
        return term
    word, _, (a, b), _ = term
    if is_pair(a, word):
        return pair(word, a[2][0], pair(word, a[2][1], b))
    over = {"muli": ("addi", "subi"), "andi": ("ori", "xori"), "ori": ("andi",)}.get(word, ())
    return pair(a[0], pair(word, a[2][0], b), pair(word, a[2][1], b)) if is_pair(a, *over) else term


def of_sums(maker, term):
    pick, other = maker.chance.randrange(5), maker.chance.choice(maker.leaves)
    if pick == 0 and is_pair(term, "subi"):
        return pair("addi", term[2][0], pair("muli", term[2][1], literal(-1, term)))
    if pick == 1 and is_pair(term, "addi"):
        return pair("subi", term[2][0], pair("subi", literal(0, term), term[2][1]))
    if pick == 2:
        return pair("subi", pair("addi", term, other), other)
    if pick == 3:
        return pair("subi", pair("muli", term, literal(3, term)), pair("addi", term, term))
    return pair("muli", term, literal(1, term)) if maker.likely(0.5) else pair("addi", literal(0, term), term)


def of_bits(maker, term):
    pick, other = maker.chance.randrange(6), maker.chance.choice(maker.leaves)
    a, b = term[2] if len(term) == 4 else (term, term)
    if pick == 0 and is_pair(term, "andi", "ori"):
        return inverted(pair("ori" if term[0] == "andi" else "andi", inverted(a), inverted(b)))
    if pick == 1 and is_pair(term, "xori"):
        return pair("andi", pair("ori", a, b), inverted(pair("andi", a, b)))
    if pick == 2:
        return pair("ori", term, pair("andi", term, other))
    if pick == 3:
        return pair("xori", pair("xori", term, other), other)
    if pick == 4:
        return inverted(inverted(term))
    return pair("andi", term, literal(-1, term)) if maker.likely(0.5) else pair("ori", literal(0, term), term)


# ---- whether a pattern has such a form, apart from oracle

class TooLarge(Exception):
    """A polynomial has more than 256 terms, or one with more than 64 factors."""


def sized(word, a, b):
    """How many terms there are, before any are collected, and the most factors of one."""
    count, most = (a[0] * b[0], a[1] + b[1]) if word.startswith("mul") else (a[0] + b[0], max(a[1], b[1]))
    if count > 256 or most > 64:
        raise TooLarge
    return count, most


def size_of_number(number):
    if isinstance(number, int):
        return 1, 0
    if isinstance(number, str) or number[0] == "width":
        return 1, 1
    parts = [size_of_number(part) for part in number[1]]
    if number[0] == "neg":
        return sized("sub", (1, 0), parts[0])
    return sized(number[0], *parts) if number[0] in OF_SUMS else (1, 1)


def size_of(term):
    if len(term) == 3:
        return size_of_number(term[1]) if term[0] == "n" else (1, 1)
    return sized(term[0], *map(size_of, term[2]))


def sum_of(word, a, b):
    return a * b if word.startswith("mul") else a + b if word.startswith("add") else a - b


def number_at(number, values, chance):
    """A number at values of the constants; what isn't a sum, a difference or a product is any."""
    if isinstance(number, int):
        return number
    if isinstance(number, str):
        return values[number]
    parts = [number_at(part, values, chance) for part in number[1]]
    if number[0] == "neg":
        return -parts[0]
    return sum_of(number[0], *parts) if number[0] in OF_SUMS else chance.getrandbits(128)


def term_at(term, values, chance):
    if len(term) == 3:
        return number_at(term[1], values, chance) if term[0] == "n" else values[term[1]]
    return sum_of(term[0], *(term_at(part, values, chance) for part in term[2]))


def words_of(term):
    return [] if len(term) == 3 else [term[0]] + [word for part in term[2] for word in words_of(part)]


def letters_of(term):
    return {term[-1]} if len(term) == 3 else {term[-1]}.union(*map(letters_of, term[2]))


def has_bits_alone(number):
    """Whether each bit of a number depends only on the same bit of the constants."""
    if isinstance(number, int):
        return number in (0, -1)
    return isinstance(number, str) or number[0] in OF_BITS and all(map(has_bits_alone, number[1]))


def is_everywhere(old, new, conditions, chance):
    """Whether a pattern has such a form. Two polynomials are equal if they are equal at some random points."""
    letters, words = letters_of(old) | letters_of(new), {*words_of(old), *words_of(new)}
    letters = letters | {letter for _, letter, _ in conditions}
    if len(letters) != 1 or letters.pop().isdigit():
        return False
    if words <= set(BITS):
        return not conditions and all(has_bits_alone(it[1]) for it in leaves_of(old) + leaves_of(new) if it[0] == "n")
    if not words <= set(SUMS):
        return False
    try:
        size_of(old), size_of(new)
    except TooLarge:
        return False
    names = {it[1] for it in leaves_of(old) if it[0] != "n"}
    points = [{name: chance.getrandbits(128) for name in names} for _ in range(8)]
    return all((term_at(old, it, chance) - term_at(new, it, chance)) % 2 ** 128 == 0 for it in points)
