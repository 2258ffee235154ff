"""What claims about bits, and samples of wide types, say of a pattern that no value up to 8 bits refutes. The program
under test says it, and what it says is judged here: a pattern that holds at all widths has no counterexample among the
values and poison of its variables at small widths, nor among some values of wide types; the old side of an empty one is
never a number there; and a counterexample is one, by both sides at its rows.

Which patterns are decided isn't computed here. If `MLIR_WORK_CLAIMS` in the environment names a program, the program
checks each pattern, once for each text. Otherwise `oracle/decided.txt` has the answers for the patterns of the golden
files, without their names: `holds`, or what a line has after `//`."""
import functools
import itertools
import os
import pathlib
import subprocess

from . import patterns
from .folds import width
from .module import I1, INDEX
from .pattern_checks import POISON, Case, is_kept, rows_of, type_variables
from .pattern_uses import Instance
from .sampling import edges

VARIABLE = "MLIR_WORK_CLAIMS"
KEPT = pathlib.Path(__file__).resolve().parent / "decided.txt"
# All values are tried at widths up to the first of these at which there are at most so many cases in all.
WIDTHS, MOST_CASES = (4, 3, 2, 1), 20000
# Types at which the edges of their values are tried, and how many cases of each list of types.
WIDE, MOST_WIDE = (("i", 8), INDEX, ("i", 128)), 1000
# The widths of type variables that no variable of a counterexample has are at most this, or near the greatest one.
MOST_FREE = 8


class Refuted(Exception):
    """The program says of a pattern what isn't so."""


def outcomes_of(instance, is_exhaustive):
    """The outcomes of each variable: its numbers, and poison unless it is a constant."""
    for name, ty in instance.pattern.variables.items():
        w = width(instance.real(ty))
        numbers = range(2 ** w) if is_exhaustive and w <= WIDTHS[0] else list(dict.fromkeys(edges(w)))
        yield [POISON, *numbers] if name.startswith("%") else numbers


def count_of(lists):
    """How many cases there are."""
    found = 1
    for those in lists:
        found *= len(those)
    return found


def instances(pattern, types):
    """The pattern with each list of these types in place of its type variables, if its types are as it asks."""
    names = type_variables(pattern)
    for found in itertools.product(types, repeat=len(names)):
        instance = Instance(pattern, dict(zip(names, found)))
        if instance.is_possible:
            yield instance


def exhaustive(pattern):
    """The instances at all widths up to the greatest at which there aren't too many cases, with the outcomes."""
    for most in WIDTHS:
        found = [(it, list(outcomes_of(it, True))) for it in instances(pattern, [("i", w + 1) for w in range(most)])]
        if sum(count_of(lists) for _, lists in found) <= MOST_CASES:
            break
    return found


def cases_of(pattern):
    """Each instance with the values of its variables: all of small widths, and the edges of wide ones. Some edges
    are skipped if there are too many."""
    for instance, lists in exhaustive(pattern):
        for numbers in itertools.islice(itertools.product(*lists), MOST_CASES):
            yield instance, numbers
    for instance in instances(pattern, WIDE):
        lists = list(outcomes_of(instance, False))
        step = -(-count_of(lists) // MOST_WIDE)
        for numbers in itertools.islice(itertools.product(*lists), 0, None, step):
            yield instance, numbers


def counterexample(pattern):
    """The rows of the first case in which the new side doesn't refine the old one, or none."""
    for instance, numbers in cases_of(pattern):
        values = dict(zip(pattern.variables, numbers))
        both = Case(instance, values).both()
        if both is not None and not is_kept(*both):
            return rows_of(instance, values, *both)
    return None


def is_number_somewhere(pattern):
    """Whether the old side is a number in some case."""
    for instance, numbers in cases_of(pattern):
        both = Case(instance, dict(zip(pattern.variables, numbers))).both()
        if both is not None and both[0] is not POISON:
            return True
    return False


def outcome_of(text):
    """A type and an outcome, as a row has them."""
    number, _, ty = text.partition(" : ")
    if text in ("true", "false"):
        return I1, int(text == "true")
    found = INDEX if ty == "index" else ("i", int(ty[1:]))
    return found, POISON if number == "poison" else int(number) % 2 ** width(found)


def is_shown(pattern, rows, types, values):
    """Whether a counterexample at these types has these rows."""
    instance = Instance(pattern, types)
    both = Case(instance, values).both() if instance.is_possible else None
    return both is not None and not is_kept(*both) and list(rows_of(instance, values, *both)) == list(rows)


def is_counterexample(pattern, rows, most):
    """Whether both sides at the outcomes of the rows give what the rows say, and the new side doesn't refine the old
    one; `most` is the greatest width of its types."""
    found = dict(row.split(" ", 1) for row in rows)
    if list(found) != [*pattern.variables, "old", "new"]:
        return False
    outcomes = {name: outcome_of(found[name]) for name in pattern.variables}
    types = {pattern.types.found(ty): outcomes[name][0] for name, ty in pattern.variables.items()}
    free = [ty for ty in type_variables(pattern) if ty not in types]
    values = {name: value for name, (_, value) in outcomes.items()}
    widths = sorted({*range(1, min(most, MOST_FREE) + 1), most // 4, most // 2, most - 1, most} - {0})
    return any(is_shown(pattern, rows, {**types, **dict(zip(free, those))}, values)
               for those in itertools.product([("i", w) for w in widths], repeat=len(free)))


def nameless(pattern):
    """The text of a pattern without its name."""
    return patterns.text_of(pattern).partition(" ")[2]


@functools.lru_cache(maxsize=None)
def kept():
    """The answers of `decided.txt`: a verdict and rows for each pattern."""
    found = {}
    for line in KEPT.read_text().splitlines() if KEPT.exists() else ():
        text, _, told = line.partition(" // ")
        verdict, *rows = told.split(" | ") if told else ["holds"]
        found[text] = verdict, rows
    return found


def answer_of(program, text):
    """The verdict of the program on a pattern without a name, and its rows."""
    ran = subprocess.run([program, "--brief"], input=f"// -----\npattern p {text}\ncheck p\n".encode(),
                         stdout=subprocess.PIPE, check=False)
    lines = ran.stdout.decode("latin-1").splitlines()
    return (lines[1].removeprefix("2 "), lines[2:]) if lines[:1] == ["1 ok"] and len(lines) > 1 else ("no verdict", [])


# What was asked in this process, with the answers.
ASKED = {}


def fault_of(pattern, verdict, rows):
    """What is wrong with an answer, or none."""
    if verdict == "holds":
        found = counterexample(pattern)
        return f"a counterexample: {', '.join(found)}" if found else None
    if verdict.startswith("fails "):
        is_one = is_counterexample(pattern, rows, int(verdict.split()[1]))
        return None if is_one else f"no counterexample: {', '.join(rows)}"
    return "a number on the old side" if verdict.startswith("empty ") and is_number_somewhere(pattern) else None


def judge(pattern, verdict, rows):
    """Raises `Refuted` if what the program says of a pattern isn't so."""
    fault = fault_of(pattern, verdict, rows)
    if fault:
        raise Refuted(f"{patterns.text_of(pattern)}: the program says `{verdict}`, but there is {fault}")


def said_of(pattern, text, known):
    """What the program, or else the file, says of a pattern, or none if that isn't more than is known."""
    program = os.environ.get(VARIABLE)
    if not program:
        return kept().get(text)
    verdict, rows = answer_of(program, text)
    if verdict == known or not (verdict == "holds" or verdict.startswith(("fails ", "empty "))):
        return None
    judge(pattern, verdict, rows)
    return verdict, rows


def decision(pattern, known=None):
    """What claims about bits, and samples, say of a pattern, or none: the program says it, and is judged. `known` is
    the verdict on all values at small widths."""
    text = nameless(pattern)
    if text not in ASKED:
        ASKED[text] = said_of(pattern, text, known)
    return ASKED[text]


def line_of(text, found):
    """The line of an answer in `decided.txt`."""
    verdict, rows = found
    return text if verdict == "holds" else f"{text} // {' | '.join([verdict, *rows])}"


def keep(found):
    """Writes the answers for these patterns, and for those that were asked for in this process, if a program was
    asked."""
    if not os.environ.get(VARIABLE):
        return
    for pattern in found:
        decision(pattern)
    KEPT.write_text("".join(f"{line_of(text, it)}\n" for text, it in sorted(ASKED.items()) if it))
