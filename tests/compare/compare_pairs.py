#!/usr/bin/env python3
"""Judges the verdicts of `mlir-work compare` on pairs of random functions, by an evaluator with poison that shares
nothing with it (tests/compare/compare_programs.py) and by running the pairs with MLIR's own tools.

usage: tests/compare/compare_pairs.py [COUNT [SEED]] [--quick]

Half of COUNT pairs (by default 200) are equal by construction. In the other half a function is mutated: swapped
operands, a changed constant, an added flag, a division that is hoisted out of a branch or a loop, a loop's bound that
is off by one, a removed store. A verdict is wrong if it says

- `same`, and the evaluator or the processor has an input on which the second function doesn't refine the first;
- `differs`, and on the input that it shows the second function does.

The processor runs both functions on inputs on which both are defined, without poison in the results, and has to agree
with the evaluator as well. It is left out with --quick, and if mlir-opt-22 or mlir-runner-22 isn't installed. The
status is 1 if a verdict is wrong."""
import collections
import contextlib
import copy
import io
import itertools
import pathlib
import random
import re
import shutil
import subprocess
import sys
import tempfile

import checkout  # noqa: F401
from mlir_work.cli import main as command_line
from tests.compare import compare_programs as programs
from tests.compare.compare_programs import INDEX, MEMORY, NUMBER, POISON, SIZE, TRUTH, Run, Statement, Undefined

WIDTHS = [3, 4, 8, 8, 32]
OPT, RUNNER = "mlir-opt-22", "mlir-runner-22"
LIBRARY = "/usr/lib/llvm-22/lib/libmlir_c_runner_utils.so"
LOWERING = ["--arith-expand", "--convert-scf-to-cf", "--finalize-memref-to-llvm", "--convert-arith-to-llvm",
            "--convert-func-to-llvm", "--convert-cf-to-llvm", "--reconcile-unrealized-casts"]
TRIED, EXECUTED = 400, 12


class Misfit(Exception):
    """A change doesn't apply to this function."""


def one_of(chance, items):
    """A random one of some; raises `Misfit` if there is none."""
    if not items:
        raise Misfit
    return chance.choice(items)


def numeric(made, *words):
    """The block and the place of each statement of some words that computes a number."""
    return [(block, at) for block, at in made.places(*words) if made.kinds[block.body[at].results[0]] == NUMBER]


# Changes that keep what a function computes.

def commuted(made, chance):
    block, at = one_of(chance, numeric(made, *programs.COMMUTATIVE))
    block.body[at].operands.reverse()


def dropped_flags(made, chance):
    block, at = one_of(chance, [(block, at) for block in made.blocks() for at, it in enumerate(block.body) if it.flags])
    block.body[at].flags = set()


def new_constant(made, block, at, value, kind=NUMBER):
    """Puts a constant before a statement."""
    name = made.fresh(kind)
    block.body.insert(at, Statement("constant", [name], value=value))
    return name


def difference_as_sum(made, chance):
    block, at = one_of(chance, numeric(made, "subi"))
    it = block.body[at]
    minus, negated = new_constant(made, block, at, -1), made.fresh(NUMBER)
    block.body.insert(at + 1, Statement("muli", [negated], [it.operands[1], minus]))
    it.word, it.operands, it.flags = "addi", [it.operands[0], negated], set()


def double_as_shift(made, chance):
    """A sum of a value with itself becomes a shift by one."""
    block, at = one_of(chance, [(block, at) for block, at in numeric(made, "addi")
                                if len(set(block.body[at].operands)) == 1])
    it = block.body[at]
    it.operands[1] = new_constant(made, block, at, 1)
    it.word, it.flags = "shli", set()


def neutral_sum(made, chance):
    block, at = one_of(chance, numeric(made, *programs.WORDS))
    it = block.body[at]
    zero, name = new_constant(made, block, at, 0), made.fresh(NUMBER)
    block.body.insert(at + 1, Statement(chance.choice(["addi", "ori", "xori"]), [name], [it.operands[0], zero]))
    it.operands[0] = name


def dead_sum(made, chance):
    block, at = one_of(chance, numeric(made, *programs.WORDS))
    name = made.fresh(NUMBER)
    block.body.insert(at, Statement(chance.choice(["addi", "muli", "shli"]), [name], block.body[at].operands))


def turned_branch(made, chance):
    block, at = one_of(chance, made.places("if"))
    it = block.body[at]
    true, name = new_constant(made, block, at, 1, TRUTH), made.fresh(TRUTH)
    block.body.insert(at + 1, Statement("xori", [name], [it.operands[0], true]))
    it.operands, it.blocks = [name], it.blocks[::-1]


def store_made_twice(made, chance):
    block, at = one_of(chance, made.places("store"))
    block.body.insert(at, copy.deepcopy(block.body[at]))


def store_forwarded(made, chance):
    """A load of what was just stored becomes the value."""
    found = [(block, at) for block, at in made.places("store") if at + 1 < len(block.body)
             and block.body[at + 1].word == "load" and block.body[at + 1].operands == block.body[at].operands[1:]]
    block, at = one_of(chance, found)
    zero = new_constant(made, block, at + 1, 0)
    block.body[at + 2] = Statement("addi", block.body[at + 2].results, [block.body[at].operands[0], zero])


KEPT = [commuted, dropped_flags, difference_as_sum, double_as_shift, neutral_sum, dead_sum, turned_branch,
        store_made_twice, store_forwarded]


def more_before(made, chance):
    """Makes the first function less defined, or gives it something that may go: an unused division, a load of what
    was just stored, a double."""
    block, at = one_of(chance, numeric(made, *programs.WORDS) + made.places("store"))
    it = block.body[at]
    if it.word == "store":
        block.body.insert(at + 1, Statement("load", [made.fresh(NUMBER)], it.operands[1:]))
        return
    word = chance.choice(["divui", "remsi", "addi"])
    operands = it.operands if word != "addi" else it.operands[:1] * 2
    block.body.insert(at, Statement(word, [made.fresh(NUMBER)], operands))


# Mutations.

def swapped(made, chance):
    block, at = one_of(chance, numeric(made, *programs.SWAPPED))
    if len(set(block.body[at].operands)) == 1:
        raise Misfit
    block.body[at].operands.reverse()


def changed_constant(made, chance):
    block, at = one_of(chance, numeric(made, "constant"))
    it = block.body[at]
    it.value = programs.wrapped(it.value + chance.choice([1, -1, 2]), made.width)


def added_flag(made, chance):
    block, at = one_of(chance, numeric(made, *programs.OVERFLOWING, *programs.EXACT))
    flags = ["exact"] if block.body[at].word in programs.EXACT else ["nsw", "nuw"]
    block.body[at].flags.add(chance.choice(flags))


def hoisted_division(made, chance):
    """A division goes before the branch or the loop around it, if its operands are there."""
    found = [(block, at, inner, place) for block, at in made.places("if", "for") for inner in block.body[at].blocks
             for place, it in enumerate(inner.body) if it.word in programs.DIVISIONS
             and not {*it.operands} & {*inner.arguments, *(name for other in inner.body for name in other.results)}]
    block, at, inner, place = one_of(chance, found)
    block.body.insert(at, inner.body.pop(place))


def bound_off_by_one(made, chance):
    block, at = one_of(chance, made.places("for"))
    it = block.body[at]
    one, name = new_constant(made, block, at, chance.choice([1, -1]), INDEX), made.fresh(INDEX)
    block.body.insert(at + 1, Statement("addi", [name], [it.operands[1], one]))
    it.operands[1] = name


def removed_store(made, chance):
    block, at = one_of(chance, made.places("store"))
    del block.body[at]


MUTATIONS = [swapped, changed_constant, added_flag, hoisted_division, bound_off_by_one, removed_store]


def function_of(chance):
    """A random function that is defined on at least a few inputs."""
    while True:
        made = programs.Maker(chance, chance.choice(WIDTHS)).function()
        rows = [[value_of(made, name, chance) for name in made.takes] for _ in range(12)]
        if sum(ran(made, row) is not None for row in rows) > 3:
            return made


def equal_pair(chance):
    """Two functions, the second a refinement of the first, and what was done."""
    before = function_of(chance)
    after, done = before.copy(), []
    for change in chance.sample(KEPT, 4):
        with contextlib.suppress(Misfit):
            change(after, chance)
            done.append(change.__name__)
    if chance.random() < 0.5:
        # (what is added to the first function alone has names that the second one doesn't have)
        with contextlib.suppress(Misfit):
            more_before(before, chance)
            done.append("more_before")
    return before, after, "+".join(done) or "copied"


def mutated_pair(chance, mutation):
    """A function and a mutant of it; most mutants that change nothing are given up."""
    while True:
        before = function_of(chance)
        after = before.copy()
        try:
            mutation(after, chance)
        except Misfit:
            continue
        rows = [[value_of(before, name, chance) for name in before.takes] for _ in range(40)]
        if chance.random() < 0.2 or not all(refines(before, after, row) for row in rows):
            return before, after, mutation.__name__


# What the evaluator says.

def value_of(function, name, chance):
    """A random value of an argument."""
    kind, half = function.kinds[name], 1 << (function.width - 1)
    if kind != MEMORY and chance.random() < 0.06:
        return POISON
    if kind == TRUTH:
        return chance.randrange(2)
    if kind == INDEX:
        return chance.choice([0, 1, 2, 3, 4, 5, -1])
    if kind == MEMORY:
        return [POISON if chance.random() < 0.05 else chance.randrange(-half, half) for _ in range(SIZE)]
    near = [0, 1, 2, -1, half - 1, -half, chance.randrange(-half, half), chance.randrange(-half, half)]
    return programs.wrapped(chance.choice(near), function.width)


def inputs_of(function, chance):
    """Inputs that are tried: all if there are few, or else random ones. An input may have one memory twice."""
    kinds = [function.kinds[name] for name in function.takes]
    if set(kinds) <= {NUMBER, TRUTH} and function.width <= 4:
        half = 1 << (function.width - 1)
        ranges = [[0, 1, POISON] if kind == TRUTH else [*range(-half, half), POISON] for kind in kinds]
        return [list(it) for it in itertools.product(*ranges)]
    found = [[value_of(function, name, chance) for name in function.takes] for _ in range(TRIED)]
    for row in found:
        memories = [place for place, it in enumerate(row) if isinstance(it, list)]
        if len(memories) == 2 and chance.random() < 0.3:
            row[memories[1]] = row[memories[0]]
    return found


def ran(function, row):
    """The results and the memory at the end, and whether the processor would trap; none if it is undefined."""
    given, run = copy.deepcopy(row), Run(function)
    try:
        found = run.results(given)
    except Undefined:
        return None
    return found + [it for memory in given if isinstance(memory, list) for it in memory], run.notes


def refines(before, after, row):
    """Whether the second function refines the first on an input."""
    old, new = ran(before, row), ran(after, row)
    if old is None:
        return True
    return new is not None and all(one in (POISON, two) for one, two in zip(old[0], new[0]))


# What `compare` says.

def compared(texts):
    """The verdict of `compare`, and what it wrote."""
    with tempfile.TemporaryDirectory() as folder:
        names = [pathlib.Path(folder, name) for name in ("before", "after")]
        for name, text in zip(names, texts):
            name.write_text(text)
        with contextlib.redirect_stdout(io.StringIO()) as out, contextlib.redirect_stderr(out):
            out.reconfigure = lambda **_: None
            status = command_line.main(["compare", *map(str, names), "--inputs", "300"])
    return {0: "same", 1: "differs", 3: "unknown"}.get(status, f"status {status}"), out.getvalue()


def row_of(function, said):
    """The input that `compare` shows, as the evaluator takes it."""
    row = []
    for line in re.findall(r"^  %arg\d+ = (.*)$", said.partition(" gives\n")[0], re.M):
        shared, memory = re.fullmatch(r"the memory of %arg(\d+)", line), re.fullmatch(r"memory of .*: \[(.*)\]", line)
        if shared:
            row.append(row[int(shared[1])])
        elif memory:
            row.append([POISON if it == "poison" else programs.wrapped(int(it), function.width)
                        for it in memory[1].split(", ")])
        else:
            word = line.split(" ")[0]
            row.append({"true": 1, "false": 0, "poison": POISON}.get(word) if word.isalpha() else int(word))
    return row


class Case:
    """A pair, what `compare` says of it, and on which inputs the processor runs it."""

    def __init__(self, number, chance, pair):
        self.number, (self.before, self.after, self.made) = number, pair
        self.texts = [programs.text_of(it) for it in (self.before, self.after)]
        self.verdict, self.said = compared(self.texts)
        self.rows = inputs_of(self.before, chance)
        self.wrong = self.judged()
        plain = [row for row in self.shown() + self.rows if self.is_plain(row)]
        self.executed = plain[:EXECUTED]

    def shown(self):
        """The input that `compare` shows, if it says that the functions differ."""
        return [row_of(self.before, self.said)] if self.verdict == "differs" else []

    def judged(self):
        """Why the evaluator finds the verdict wrong, or nothing."""
        if self.verdict == "same":
            wrong = next((row for row in self.rows if not refines(self.before, self.after, row)), None)
            return "" if wrong is None else f"the evaluator refutes `same` on {wrong}"
        if self.verdict == "differs" and refines(self.before, self.after, self.shown()[0]):
            return f"the evaluator refutes `differs` on {self.shown()[0]}"
        if self.verdict == "differs" and self.given() != ran(self.before, self.shown()[0])[0][:len(self.given())]:
            return f"on {self.shown()[0]} the evaluator has other results than {self.given()}"
        return "" if self.verdict in ("differs", "unknown") else f"{self.verdict}: {self.said}"

    def given(self):
        """The results of the first function on the input that `compare` shows."""
        line = self.said.partition("/before gives\n")[2].partition("\n")[0]
        return [POISON if it == "poison" else int(it.partition(" :")[0]) for it in line.strip().split(", ")]

    def is_plain(self, row):
        """Whether the processor may run both functions on an input, and compare all that comes out."""
        if any(POISON in (it if isinstance(it, list) else [it]) for it in row):
            return False
        both = [ran(it, row) for it in (self.before, self.after)]
        return all(it and POISON not in it[0] and not it[1].get("is_trapping") for it in both)

    def outputs(self):
        """What the evaluator expects of the processor, a list for each run."""
        return [ran(it, row)[0] for row in self.executed for it in (self.before, self.after)]


# What the processor says.

class Script:
    """A function that runs a case on its inputs, and prints all that comes out as 64-bit numbers."""

    def __init__(self, case):
        self.case, self.lines, self.count = case, [], 0

    def put(self, text, types, prefix="%v"):
        """An operation with a result."""
        self.count += 1
        self.lines.append(f"{prefix}{self.count} = {text} : {types}")
        return f"{prefix}{self.count}"

    def constant(self, value, ty):
        text = ("true" if value else "false") if ty == "i1" else f"{value} : {ty}"
        return self.put(f'"arith.constant"() <{{value = {text}}}>', f"() -> {ty}")

    def memory(self, values, ty, element):
        made = self.put('"memref.alloc"() <{operandSegmentSizes = array<i32: 0, 0>}>', f"() -> {ty}")
        for at, value in enumerate(values):
            operands = [self.constant(value, element), made, self.constant(at, "index")]
            self.lines.append(f'"memref.store"({", ".join(operands)}) : ({element}, {ty}, index) -> ()')
        return made

    def printed(self, value, ty):
        wide = self.put(f'"arith.extsi"({value})', f"({ty}) -> i64")
        self.lines.append(f'"func.call"({wide}) <{{callee = @printI64}}> : (i64) -> ()')
        self.lines.append('"func.call"() <{callee = @printNewline}> : () -> ()')

    def call(self, function, name, row):
        """Calls a function and prints its results, and then memory."""
        types, element = [function.type(it) for it in function.takes], f"i{function.width}"
        made, given = {}, []
        for it, ty in zip(row, types):
            if isinstance(it, list):
                made[id(it)] = made.get(id(it)) or self.memory(it, ty, element)
            given.append(made[id(it)] if isinstance(it, list) else self.constant(it, ty))
        gives = [function.type(it) for it in function.block.handed]
        self.count += 1
        results = [f"%v{self.count}#{place}" for place in range(len(gives))]
        self.lines.append(f'%v{self.count}:{len(gives)} = "func.call"({", ".join(given)}) <{{callee = @{name}}}> : '
                          f'({", ".join(types)}) -> ({", ".join(gives)})')
        for result, ty in zip(results, gives):
            self.printed(result, ty)
        for value, ty in [pair for pair in zip(given, types) if pair[1].startswith("memref")]:
            for at in range(SIZE):
                place = self.constant(at, "index")
                loaded = self.put(f'"memref.load"({value}, {place})', f"({ty}, index) -> {element}")
                self.printed(loaded, element)

    def text(self):
        """The two functions and that which runs them."""
        number, both = self.case.number, (self.case.before, self.case.after)
        for row in self.case.executed:
            for side, function in enumerate(both):
                self.call(function, f"f{number}_{side}", row)
        body = "\n".join([*self.lines, '"func.return"() : () -> ()'])
        return "".join(programs.text_of(it, f"f{number}_{side}") for side, it in enumerate(both)) + (
            f'"func.func"() <{{function_type = () -> (), sym_name = "run{number}"}}> ({{\n{body}\n}}) : () -> ()\n')


def declared(name, types):
    return (f'"func.func"() <{{function_type = ({types}) -> (), sym_name = "{name}", sym_visibility = "private"}}> '
            '({}) : () -> ()\n')


def whole(cases):
    """A module with all functions of the cases, and a function `main` that runs them."""
    calls = "".join(f'"func.call"() <{{callee = @run{it.number}}}> : () -> ()\n' for it in cases)
    return declared("printI64", "i64") + declared("printNewline", "") + "".join(Script(it).text() for it in cases) + (
        f'"func.func"() <{{function_type = () -> (), sym_name = "main"}}> ({{\n{calls}"func.return"() : () -> ()\n'
        "}) : () -> ()\n")


def executed(text):
    """What the processor gives for all runs of a module, as a list of numbers."""
    lowered = subprocess.run([OPT, *LOWERING], input=text, text=True, stdout=subprocess.PIPE, check=True).stdout
    out = subprocess.run([RUNNER, "-e", "main", "--entry-point-result=void", f"--shared-libs={library()}"],
                         input=lowered, text=True, stdout=subprocess.PIPE, check=True).stdout
    return list(map(int, out.split()))


def library():
    """The library that prints numbers."""
    return next((str(it) for it in sorted(pathlib.Path(LIBRARY).parent.glob(pathlib.Path(LIBRARY).name + "*"))), "")


def is_executable():
    """Whether MLIR's tools are there to run functions."""
    return bool(shutil.which(OPT) and shutil.which(RUNNER) and library())


def judged_by_processor(cases):
    """Compares what the processor gives with the evaluator and with each verdict; gives how many runs there were, and
    notes in a case what is wrong."""
    numbers, runs = iter(executed(whole(cases))), 0
    for case in cases:
        found = [[next(numbers) for _ in wanted] for wanted in case.outputs()]
        runs += len(found)
        if found != case.outputs():
            case.wrong = case.wrong or f"the processor gives {found}, and the evaluator {case.outputs()}"
        pairs = list(zip(found[::2], found[1::2]))
        if case.verdict == "same" and any(one != two for one, two in pairs):
            case.wrong = f"the processor refutes `same`: {pairs}"
        if case.verdict == "differs" and case.executed and case.executed[0] == case.shown()[0] and (
                pairs[0][0] == pairs[0][1]):
            case.wrong = f"the processor refutes `differs`: {pairs[0]}"
    return runs


def cases_of(count, seed):
    """The pairs: equal ones and mutants in turn."""
    chance, found = random.Random(seed), []
    for number in range(count):
        pair = mutated_pair(chance, MUTATIONS[number // 2 % len(MUTATIONS)]) if number % 2 else equal_pair(chance)
        found.append(Case(number, chance, pair))
        if not number % 2 and found[-1].verdict == "differs":
            found[-1].wrong = found[-1].wrong or "it says `differs` of a pair that is equal by construction"
    return found


def shown(cases):
    """The wrong verdicts."""
    for case in cases:
        if case.wrong:
            print(f"pair {case.number} ({case.made}): {case.wrong}", *case.texts, case.said, sep="\n")


def main():
    words = [it for it in sys.argv[1:] if it != "--quick"]
    if any(it.startswith("-") for it in words):
        print(__doc__)
        return 0
    count, seed = int(words[0]) if words else 200, int(words[1]) if len(words) > 1 else 1
    cases, runs = cases_of(count, seed), "not run by a processor"
    if "--quick" not in sys.argv:
        if is_executable():
            runs = f"{judged_by_processor(cases):,} runs by {RUNNER}"
        else:
            runs = f"left out: {OPT}, {RUNNER} or its library isn't installed"
    shown(cases)
    for is_mutant in (0, 1):
        found = collections.Counter(it.verdict for it in cases[is_mutant::2])
        print("mutated:" if is_mutant else "equal:", ", ".join(f"{found[it]} {it}" for it in sorted(found)))
    wrong = sum(bool(it.wrong) for it in cases)
    print(f"{count} pairs, seed {seed}: {wrong} wrong verdicts; {runs}")
    return int(bool(wrong))


if __name__ == "__main__":
    sys.exit(main())
