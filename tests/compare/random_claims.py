#!/usr/bin/env python3
"""Random user patterns, whose checks by a program are judged:

    tests/compare/random_claims.py COUNT SEED [PROGRAM] [--bits B]

PROGRAM is the one of MLIR_WORK_CLAIMS if none is given. Without a program nothing is judged, and the status is 0.

- A pattern that `holds` at all widths has no counterexample by `oracle/claims.py`: all values and poison at widths up
  to B (4), and edges of wider types. If that are too many cases, the widths are smaller. If z3 is installed, it finds
  no counterexample at 8 and at 32 bits; each variable has a bit that says whether it is poison.
- A pattern that `holds W` has no counterexample among the values and poison at widths up to B and W, and one that is
  `unrefuted W` none among the values.
- A pattern that `fails` has the rows of its counterexample: both sides are run at the outcomes of the variables.
- The old side of a pattern that is `empty W` is never a number at the widths and edges up to W.
- A pattern whose check takes too long (`slow`) is only counted.

Half of the patterns have a new side that laws derive from the old one; some laws are wrong for poison only, and some
sides are changed after. The others are of pattern_checks.py and pattern_forms.py, or lines of patterns/ with a word
changed. The last line says how many patterns there were and how many verdicts are wrong."""
import argparse
import collections
import itertools
import os
import random
import resource
import shutil
import subprocess
import sys

import checkout  # noqa: F401

from oracle import claims, patterns, rules
from oracle.folds import width
from oracle.pattern_checks import POISON, Case, is_kept, rows_of
from tests.compare import claims_in_z3, pattern_checks, pattern_forms, pattern_lines
from tests.compare.pattern_forms import inverted, literal, pair

# A check takes so many seconds of processor time at most.
MOST_SECONDS = 3
COMMUTE = "addi muli andi ori xori maxsi minsi maxui minui".split()
MIRRORED = dict(zip("eq ne slt sle sgt sge ult ule ugt uge".split(), "eq ne sgt sge slt sle ugt uge ult ule".split()))
NEGATED = dict(zip("eq ne slt sle sgt sge ult ule ugt uge".split(), "ne eq sge sgt sle slt uge ugt ule ult".split()))
LEAST = {"minsi": "slt", "maxsi": "sgt", "minui": "ult", "maxui": "ugt"}
# What may have a literal on the right in an automaton, and the literals.
BY_LITERAL = "muli shli shrui shrsi divui remui divsi remsi".split()
LITERALS = (1, 1, 2, 2, 3, 4, 5, 6, 7, 8, 10, 16)
# What an extension and a truncation may be moved through.
THROUGH = {"extsi": "andi ori xori".split(), "extui": "andi ori xori".split(),
           "trunci": "addi subi muli andi ori xori".split()}


def compared(predicate, a, b):
    return "cmpi", predicate, [a, b], "1"


def chosen(c, a, b):
    return "select", None, [c, a, b], a[-1]


def cast(word, a, to):
    return word, None, [a], to


# ---- laws: the terms that may take the place of one; y is any leaf of its type, c a leaf of i1

def of_any(x, y, c):
    """Terms that are x, or x unless y or c is poison."""
    yield from (pair(word, x, x) for word in ("ori", "andi", "maxsi", "minui"))
    yield from (pair(word, x, literal(0, x)) for word in ("addi", "subi", "ori", "xori", "shli", "shrsi", "shrui"))
    yield from (pair("andi", x, literal(-1, x)), pair("xori", inverted(x), literal(-1, x)))
    yield from (pair("muli", x, literal(1, x)), pair("divui", x, literal(1, x)))
    if y:
        yield from (pair("subi", pair("addi", x, y), y), pair("addi", pair("subi", x, y), y))
        yield from (pair("ori", x, pair("andi", x, y)), pair("andi", x, pair("ori", x, y)))
        yield chosen(compared("eq", x, y), y, x)
    if c:
        yield chosen(c, x, x)


def of_pair(word, a, b):
    """Terms that are a sum, a difference or bits of two."""
    if word in COMMUTE:
        yield pair(word, b, a)
    if word in LEAST:
        yield chosen(compared(LEAST[word], a, b), a, b)
    if word == "addi":
        yield pair("addi", pair("andi", a, b), pair("ori", a, b))
        yield pair("subi", pair("subi", a, inverted(b)), literal(1, a))
    if word == "subi":
        yield pair("addi", a, pair("addi", inverted(b), literal(1, b)))
    if word == "xori":
        yield pair("subi", pair("ori", a, b), pair("andi", a, b))
    if word == "andi":
        yield inverted(pair("ori", inverted(a), inverted(b)))


def of_literal(word, a, number):
    """Terms that are an operation on a value and a literal, or the same but for a number or poison."""
    if word in ("shli", "shrui") and 0 < number < 8:
        yield pair("muli" if word == "shli" else "divui", a, literal(2 ** number, a))
        yield pair(word, pair(word, a, literal(1, a)), literal(number - 1, a))
    if word in ("muli", "divui", "remui") and number in (2, 4, 8):
        bits = number.bit_length() - 1
        yield (pair("andi", a, literal(number - 1, a)) if word == "remui" else
               pair("shli" if word == "muli" else "shrui", a, literal(bits, a)))
    if word == "remui" and number > 0:
        yield pair("subi", a, pair("muli", pair("divui", a, literal(number, a)), literal(number, a)))
    if word == "divui" and number in (4, 6, 8, 10):
        yield pair(word, pair(word, a, literal(2, a)), literal(number // 2, a))
    if word == "shrsi" and number > 0:
        yield inverted(pair(word, inverted(a), literal(number, a)))
        yield pair(word, pair(word, a, literal(1, a)), literal(number - 1, a))
    if word in ("divsi", "remsi") and number == 1:
        yield a if word == "divsi" else literal(0, a)


def of_comparison(predicate, a, b):
    yield compared(MIRRORED[predicate], b, a)
    yield inverted(compared(NEGATED[predicate], a, b))
    if predicate in ("eq", "ne"):
        yield compared(predicate, pair("subi", a, b), literal(0, a))
        yield compared(predicate, pair("xori", a, b), literal(0, a))


def of_choice(c, a, b):
    yield chosen(inverted(c), b, a)
    if a[-1] == "1":
        yield pair("ori", pair("andi", c, a), pair("andi", inverted(c), b))
    if c[0] == "cmpi" and c[2] == [a, b]:
        yield from (pair(word, a, b) for word, predicate in LEAST.items() if predicate == c[1])


def of_cast(word, a, to):
    if len(a) == 4 and a[0] in THROUGH[word]:
        yield pair(a[0], *(cast(word, part, to) for part in a[2]))


def replacements(term, y, c):
    """The terms that may take the place of one."""
    found = list(of_any(term, y, c))
    if len(term) < 4:
        return found
    word, predicate, parts, own = term
    if word == "cmpi":
        return [*of_comparison(predicate, *parts)] * 3 + found
    if word == "select":
        return [*of_choice(*parts)] * 3 + found
    if word in BY_LITERAL and parts[1][0] == "n" and type(parts[1][1]) is int:
        found += [*of_literal(word, parts[0], parts[1][1])] * 3
    return [*(of_cast(word, *parts, own) if word in THROUGH else of_pair(word, *parts))] * 3 + found


class LawMaker(pattern_checks.Maker):
    """Makes a pattern whose new side is its old one by some laws."""

    def by_literals(self, term):
        """A term in which some operands on the right are literals."""
        if len(term) < 4:
            return term
        parts = [self.by_literals(part) for part in term[2]]
        if term[0] in BY_LITERAL and self.chance.random() < 0.6:
            parts[1] = literal(self.chance.choice(LITERALS), parts[0])
        return *term[:2], parts, term[3]

    def known(self, letter):
        """A variable of a type, or none."""
        found = [("%", name, it) for name, it in self.values.items() if it == letter]
        found += [("c", name, it) for name, it in self.constants.items() if it == letter]
        return self.chance.choice(found) if found else None

    def at_some(self, term, change):
        """A term in which one within it is changed."""
        if len(term) < 4 or self.chance.random() < 0.4:
            return change(term)
        place = self.chance.randrange(len(term[2]))
        parts = [self.at_some(part, change) if at == place else part for at, part in enumerate(term[2])]
        return *term[:2], parts, term[3]

    def replaced(self, term):
        return self.chance.choice(replacements(term, self.known(term[-1]), self.known("1")))

    def spoilt(self, term):
        """A term that mostly isn't the one it takes the place of."""
        if len(term) == 3:
            return ("n", self.literal(term[-1]), term[-1])
        word, predicate, parts, own = term
        if word == "cmpi":
            return word, self.chance.choice(list(MIRRORED)), parts, own
        if word == "select" or word in pattern_checks.CASTS:
            return word, None, [*parts[:-2], *parts[-2:][::-1]], own
        return self.chance.choice(pattern_checks.PAIRS), None, parts, own

    def without_flags(self, term):
        """An old side some of whose operations ask for no flags."""
        if len(term) < 4:
            return term
        asks = term[1]
        if term[0] in ("addi", "subi", "muli", "shli", "trunci") and self.chance.random() < 0.1:
            asks = "none"
        return term[0], asks, list(map(self.without_flags, term[2])), term[3]

    def pattern(self):
        """Both sides, and conditions."""
        old, _, conditions = super().pattern()
        new = old = self.by_literals(old)
        for _ in range(self.chance.choice([1, 1, 2, 3])):
            new = self.at_some(new, self.replaced)
        if self.chance.random() < 0.2:
            new = self.at_some(new, self.spoilt)
        if len(new) == 4 and self.chance.random() < 0.3:
            old, new = new, old
        return self.without_flags(old), new, conditions


def text_of(chance):
    """The text of a pattern, without its name; it may be refused."""
    pick = chance.random()
    if pick < 0.15:
        return pattern_lines.changed(chance, chance.choice(pattern_lines.book()).partition(" ")[2])
    maker = (LawMaker(chance) if pick < 0.65 else pattern_checks.Maker(chance) if pick < 0.85 else
             pattern_forms.FormMaker(chance, chance.random() < 0.5))
    return pattern_checks.text_of(*maker.pattern()).partition(" ")[2]


def read(text):
    """The pattern of a text, or none if it is refused."""
    try:
        return patterns.read(b"p " + text.encode())
    except rules.Refused:
        return None


# ---- what the program says

def limited():
    resource.setrlimit(resource.RLIMIT_CPU, (MOST_SECONDS, MOST_SECONDS))


def verdict_on(program, text):
    """The reply to a check of a pattern, or `slow` if it takes too long, and the rows below it."""
    ran = subprocess.run([program, "--brief"], input=f"// -----\npattern p {text}\ncheck p\n".encode(),
                         stdout=subprocess.PIPE, preexec_fn=limited, check=False)
    if ran.returncode < 0:
        return "slow", []
    defined, checked, *rows = ran.stdout.decode("latin-1").splitlines()
    if defined != "1 ok":
        raise SystemExit(f"{text}: {defined}")
    return checked.partition(" ")[2], rows


# ---- what is wrong

def is_number_up_to(pattern, most):
    """Whether the old side is a number somewhere at types of at most so many bits."""
    for instance, numbers in claims.cases_of(pattern):
        if all(width(ty) <= most for ty in instance.types.values()):
            both = Case(instance, dict(zip(pattern.variables, numbers))).both()
            if both is not None and both[0] is not POISON:
                return True
    return False


def small_counterexample(pattern, most, with_poison):
    """The rows of a counterexample at types of at most so many bits, or none."""
    for instance, lists in claims.exhaustive(pattern):
        those = lists if with_poison else [[it for it in outcomes if it is not POISON] for outcomes in lists]
        is_wide = any(width(ty) > most for ty in instance.types.values())
        for numbers in () if is_wide else itertools.islice(itertools.product(*those), claims.MOST_CASES):
            values = dict(zip(pattern.variables, numbers))
            both = Case(instance, values).both()
            if both is not None and not is_kept(*both):
                return rows_of(instance, values, *both)
    return None


def fault_of(pattern, verdict, rows, solver, words):
    """What is wrong with a verdict, or none."""
    if verdict.startswith("fails "):
        words["fails for poison"] += any(" poison : " in row for row in rows)
        most = int(verdict.split()[1])
        words["fails above 8"] += most > 8
        return None if claims.is_counterexample(pattern, rows, most) else f"no counterexample: {', '.join(rows)}"
    if verdict.startswith("empty "):
        return "a number on the old side" if is_number_up_to(pattern, int(verdict.split()[1])) else None
    if verdict.startswith(("holds ", "unrefuted ")):
        word, most = verdict.split()
        found = small_counterexample(pattern, int(most), word == "holds")
        return f"counterexample: {', '.join(found)}" if found else None
    if verdict != "holds":
        return None
    found = claims.counterexample(pattern)
    if found:
        return f"counterexample: {', '.join(found)}"
    answers = solver.answers(pattern) if solver else []
    words.update(f"{it} by z3" for it in answers)
    return "counterexample by z3" if "sat" in answers else None


def judge(text, program, solver, words):
    """Judges the verdict on a pattern, and says whether it is wrong."""
    verdict, rows = verdict_on(program, text)
    word, _, rest = verdict.partition(" ")
    words[f"{word} W" if rest and word in ("holds", "unrefuted") else word] += 1
    fault = fault_of(read(text), verdict, rows, solver, words)
    if fault:
        print(f"p {text}\n  {verdict}\n  {fault}", flush=True)
    return bool(fault)


def main():
    parser = argparse.ArgumentParser(description=__doc__, formatter_class=argparse.RawDescriptionHelpFormatter)
    parser.add_argument("count", type=int)
    parser.add_argument("seed", type=int)
    parser.add_argument("program", nargs="?", default=os.environ.get(claims.VARIABLE))
    parser.add_argument("--bits", type=int, default=claims.WIDTHS[0])
    asked = parser.parse_args()
    # (three variables of B bits, each with poison)
    claims.WIDTHS = tuple(range(asked.bits, 0, -1))
    claims.MOST_CASES = max(claims.MOST_CASES, (2 ** asked.bits + 1) ** 3)
    if not asked.program:
        print("left out: there is no program")
        return False
    solver = claims_in_z3.Solver() if shutil.which("z3") else None
    count, number, wrong, words = 0, 0, 0, collections.Counter()
    while count < asked.count:
        number += 1
        text = text_of(random.Random(f"{asked.seed} {number}"))
        if read(text) is not None:
            count += 1
            wrong += judge(text, asked.program, solver, words)
        if count % 100 == 0:
            print(f"... {count}", file=sys.stderr, flush=True)
    told = ", ".join(f"{count} {word}" for word, count in sorted(words.items()))
    print(f"{count} patterns ({told}; {number - count} refused), {wrong} wrong")
    return bool(wrong)


if __name__ == "__main__":
    sys.exit(main())
