"""Compares two modules by running their functions on the same inputs. The second function must refine the first: it
gives the same results and memory unless these are poison, and has no undefined behaviour that the first doesn't have.
The comparison is a proof only if all inputs were tried."""
import argparse
import collections
import enum
import sys
import types

from ..errors import ModuleRefused
from . import compared_inputs, explain, generic, program

EPILOG = """Functions are compared by their names. The status is 0 if all are the same on what was tried, 1 if one
differs, 3 if none differs and one is unknown, 2 if the command line is wrong or nothing can be compared, and 130 after
Ctrl-C."""
# The limit of steps of a run, and of all runs of a function together.
STEPS, MOST_STEPS = 10_000_000, 10_000_000
# Inputs that need more steps than this are tried last. If this many inputs wait, no more inputs are tried.
FEW_STEPS, MOST_WAITING = 2_000, 300


class Unfit(Exception):
    """Nothing can be compared. The message says why."""


class Verdict(enum.Enum):
    """The verdict on a function."""
    SAME, DIFFERS, UNKNOWN, LEFT_OUT = "same", "differs", "unknown", "not compared"


def reference():
    """Returns the modules of the model in Python, which few commands need. Raises `Unfit` if it isn't installed."""
    try:
        from oracle import aliases, evaluator, memories, module, printing, rules, running
    except ImportError as fault:
        raise Unfit("`compare` needs the Python package `oracle`: run it in a checkout, or after tools/install.sh: "
                    f"{fault}") from None
    return types.SimpleNamespace(aliases=aliases, evaluator=evaluator, memories=memories, module=module,
                                 printing=printing, rules=rules, running=running)


def module_of(name, text, reader):
    """Returns a module in generic form and no lines, or None and the lines that say why it is refused."""
    it = reference()
    try:
        return it.module.read(text, reader), []
    except it.rules.Refused as fault:
        refused = ModuleRefused(fault.number, it.rules.WORDS[fault.number], fault.at)
        return None, explain.text_refused(name, text, refused)


def read(name, is_opaque):
    """Returns the module in a file. Raises `Unfit` if it can't be run."""
    it = reference()
    text, script, _ = program.inputs([name])
    if script:
        raise Unfit(f"{name}: a script follows the module, but `compare` takes only modules: remove the script")
    reader = it.aliases.Reader if is_opaque else it.rules.Reader
    found, why = module_of(name, text, reader)
    if found is None:
        made, said = generic.tried(name, text)
        print(*said, sep="\n", end="\n" * bool(said), file=sys.stderr)
        if made is not None:
            found, why = module_of(name, made, reader)
    if found is None:
        raise Unfit("\n".join(why))
    try:
        made = it.running.Program(found)
    except it.running.Repeated as fault:
        raise Unfit(f"{name}: two functions have the name {fault}") from None
    if made.faults():
        raise Unfit(f"{name}: the module breaks a rule of the verifier, so it can't run: {made.faults()[0]}")
    return made


# Texts of inputs and outcomes.

def value_text(value, ty):
    """Returns the text of a value of a type."""
    it = reference()
    if value is None:
        return "poison"
    if isinstance(value, it.memories.Buffer):
        return f"the memory of %arg{value.place}" if value.place is not None else "new memory"
    if isinstance(value, compared_inputs.Memory):
        return value.text()
    if isinstance(value, it.running.Token):
        return f"any value of {it.printing.type_text(ty)}"
    width = it.evaluator.bits(ty)
    if width == 1:
        return "true" if value else "false"
    return f"{it.evaluator.by_sign(value, width)} : {it.printing.type_text(ty)}"


def row_lines(row, takes):
    """Returns the lines that show an input."""
    return [f"  %arg{place} = {value_text(*it)}" for place, it in enumerate(zip(row, takes))] or ["  no arguments"]


def memory_lines(buffers, takes):
    """Returns the lines that show what a run wrote to the memory of its arguments."""
    lines = []
    for place, (buffer, ty) in enumerate(zip(buffers, takes)):
        if not isinstance(buffer, reference().memories.Buffer) or buffer.place != place:
            continue
        if not buffer.is_live:
            lines.append(f"  %arg{place} is freed")
        for at in sorted(buffer.cells)[:compared_inputs.SHOWN]:
            lines.append(f"  %arg{place}[{', '.join(map(str, indices(at, buffer.shape)))}] = "
                         f"{value_text(buffer.cells[at], ty[2])}")
    return lines


def indices(at, shape):
    """Returns the indices of a place in row-major order."""
    found = []
    for size in reversed(shape):
        at, index = divmod(at, size)
        found.insert(0, index)
    return found


def outcome_lines(outcome, buffers, takes, gives):
    """Returns the lines that show the outcome of a run."""
    if outcome.end is not reference().evaluator.End.DEFINED:
        return [f"  undefined behaviour: {outcome.reason}"]
    handed = [", ".join(map(value_text, outcome.results, gives))] if outcome.results else []
    return [f"  {it}" for it in handed] + memory_lines(buffers, takes) or ["  nothing"]


class Pair:
    """A function in both modules, and the results of its runs."""

    def __init__(self, comparison, name, functions):
        self.name, self.names, self.functions, self.steps = name, comparison.names, functions, comparison.given.steps
        self.it, self.runners = reference(), comparison.runners
        self.takes, self.gives = self.it.running.types_of(functions[0])
        sides = list(zip(comparison.programs, functions))
        self.inputs = compared_inputs.Inputs(self.it, sides, self.takes, comparison.given.inputs, comparison.given.seed)
        self.count = collections.Counter()
        self.used, self.difference, self.doubt, self.is_ended = 0, [], None, False

    def ran(self, side, row, steps):
        """Returns the outcome of one side on an input, and its arguments with what memory holds at the end."""
        given = compared_inputs.arguments_of(self.it, row)
        outcome, used = self.runners[side].outcome(self.functions[side], given, steps)
        self.used += used
        return outcome, given

    def doubted(self, side, outcome, row):
        """Counts an input with an unknown outcome, and notes the first one with the reason."""
        word = "executes" if outcome.end is self.it.evaluator.End.UNMODELLED else "takes"
        self.doubt = self.doubt or (f"{self.names[side]} {word} {outcome.reason}", row)
        self.count["unknown"] += 1
        return True

    def tried(self, row, steps):
        """Runs both sides on an input. Returns False if a side needs more steps."""
        end = self.it.evaluator.End
        old, before = self.ran(0, row, steps)
        if old.end is end.UNDEFINED:
            self.count["undefined"] += 1
            return True
        new, after = self.ran(1, row, steps) if old.end is end.DEFINED else (None, ())
        for side, outcome in enumerate((old, new)):
            if outcome and outcome.end is end.ENDLESS:
                if steps < self.steps:
                    return False
                self.is_ended = True
            if outcome and outcome.end in (end.ENDLESS, end.UNMODELLED):
                return self.doubted(side, outcome, row)
        self.judge(row, (old, before), (new, after))
        return True

    def judge(self, row, one, two):
        """Compares two outcomes. The first is defined, and the second isn't unknown."""
        (old, before), (new, after) = one, two
        running, finding = self.it.running, self.it.running.Finding
        found = finding.DIFFERS
        if new.end is self.it.evaluator.End.DEFINED:
            pairs = [it for it in zip(before, after) if isinstance(it[0], self.it.memories.Buffer)]
            found = running.Comparison(old, new).finding(*zip(*pairs)) if pairs else (
                running.Comparison(old, new).finding((), ()))
        if found is finding.DIFFERS:
            sides = [[f"{self.names[side]} gives", *outcome_lines(*it, self.takes, self.gives)]
                     for side, it in ((0, one), (1, two))]
            self.difference = [f"{self.name}: differs for", *row_lines(row, self.takes), *sides[0], *sides[1]]
        elif found is finding.UNKNOWN:
            self.doubt = self.doubt or ("a result that isn't a number can't be compared", row)
            self.count["unknown"] += 1
        else:
            says = not old.results or any(it is not None for it in old.results) or any(
                ty[0] == "memref" for ty in self.takes)
            self.count["agree" if says else "poison"] += 1

    def run(self):
        """Tries the inputs: first with few steps each, and then those that need more."""
        waiting = []
        for row in self.inputs.tried():
            if not self.tried(row, min(FEW_STEPS, self.steps)):
                waiting.append(row)
            if self.difference or self.is_ended or self.used > MOST_STEPS or len(waiting) == MOST_WAITING:
                break
        else:
            self.count["whole"] = 1
        for place, row in enumerate(waiting):
            if self.difference or self.is_ended or place and self.used > MOST_STEPS:
                self.count["whole"] = 0
                break
            self.tried(row, self.steps)

    def shown(self):
        """Returns how many inputs agree, or are undefined or poison in the first module."""
        return self.count["agree"] + self.count["poison"] + self.count["undefined"]

    def verdict(self):
        """Returns the verdict, and its text."""
        if self.difference:
            return Verdict.DIFFERS, self.difference
        if self.doubt:
            why, row = self.doubt
            more = f" ({self.count['agree']:,} other inputs agree)" * bool(self.count["agree"])
            return Verdict.UNKNOWN, [f"{self.name}: unknown: {why}{more}, for", *row_lines(row, self.takes)]
        if not self.count["agree"]:
            return Verdict.UNKNOWN, [f"{self.name}: unknown: {self.names[0]} is undefined, or gives poison, on "
                                     f"{self.tried_text()}"]
        return Verdict.SAME, [f"{self.name}: same on {self.tried_text()}", *self.notes()]

    def notes(self):
        """Returns the lines that limit the meaning of `same`."""
        notes = []
        if self.count["undefined"]:
            notes.append(f"  {self.names[0]} is undefined on {self.count['undefined']:,} of them, which show nothing")
        if [ty[0] for ty in self.takes].count("memref") > 1:
            notes.append("  two memrefs share all their memory or none")
        bounds = [f"%arg{place}" for place in range(len(self.takes)) if self.inputs.is_bound(place)]
        if bounds and not self.inputs.are_all:
            notes.append(f"  only small numbers in {', '.join(bounds)}, for loops")
        return notes

    def tried_text(self):
        """Returns which inputs were tried."""
        if not self.takes:
            return "its only input"
        if self.inputs.are_all and self.count["whole"]:
            return f"all {self.inputs.number:,} inputs"
        cut = "" if self.count["whole"] else " (more would take too long)"
        return f"{self.shown():,}{self.inputs.many()} inputs{cut}"


class Comparison:
    """Two modules, and their names."""

    def __init__(self, names, given):
        self.names, self.given = names, given
        self.programs = [read(name, given.reads_opaque) for name in names]
        self.runners = [reference().running.Runner(it) for it in self.programs]
        self.pair = None

    def functions(self):
        """Returns the names of the functions that are compared."""
        both = [it.functions for it in self.programs]
        if not self.given.function:
            return sorted({*both[0], *both[1]})
        name = "@" + self.given.function.removeprefix("@")
        if name not in both[0] or name not in both[1]:
            side = name in both[0]
            raise Unfit(f"{self.names[side]} has no function {name}: it has {', '.join(sorted(both[side])) or 'none'}")
        return [name]

    def compared(self, name):
        """Returns the verdict on a function, and its text."""
        running = reference().running
        there = [it.functions.get(name) for it in self.programs]
        if None in there:
            its = there[0] or there[1]
            is_private = its.props.get(b"sym_visibility") in (("str", b"private"), ("str", b"nested"))
            where = f"only in {self.names[there[0] is None]}"
            if is_private:
                return Verdict.LEFT_OUT, [f"{name}: not compared: {where}, and private"]
            return Verdict.DIFFERS, [f"{name}: differs: {where}"]
        signatures = [running.types_of(it) for it in there]
        if signatures[0] != signatures[1]:
            return Verdict.DIFFERS, [f"{name}: differs: it has other types"]
        bodies = [running.has_body(it) for it in there]
        if not all(bodies):
            verdict = Verdict.UNKNOWN if any(bodies) else Verdict.LEFT_OUT
            return verdict, [f"{name}: {verdict.value}: it has no body in {self.names[bodies[0]]}"]
        self.pair = Pair(self, name, there)
        self.pair.run()
        return self.pair.verdict()


def at_least(least):
    """Returns a parser of numbers not below a limit."""
    def number(text):
        if not text.isascii() or not text.isdigit() or int(text) < least:
            raise argparse.ArgumentTypeError(f"found `{text}`, expected a whole number, at least {least}")
        return int(text)
    return number


def arguments(parser):
    """Adds the arguments of the command."""
    parser.add_argument("before", metavar="BEFORE", help="a file with a module")
    parser.add_argument("after", metavar="AFTER", help="a file with the changed module, which must refine it")
    parser.add_argument("--function", metavar="NAME", help="only this function")
    parser.add_argument("--inputs", metavar="N", type=at_least(0), default=1000,
                        help="how many random inputs to try, if there are too many inputs to try all [default: 1000]")
    parser.add_argument("--seed", metavar="N", type=int, default=1, help="the seed of the random inputs [default: 1]")
    parser.add_argument("--steps", metavar="N", type=at_least(1), default=STEPS,
                        help="the limit of operations of a run [default: 10000000]")
    parser.add_argument(program.OPAQUE, dest="reads_opaque", action="store_true",
                        help="keep unknown types and attributes as their texts, like `mlir_work --opaque`; operations "
                             "on them give `unknown`")
    program.split_argument(parser)


def summary(found, number, is_interrupted=False):
    """Returns the line that sums up the verdicts."""
    counts = [(sum(it is verdict for it in found), verdict.value) for verdict in Verdict]
    parts = [f"{count} {'differ' if word == 'differs' and count > 1 else word}" for count, word in counts if count]
    text = f"of {number} function{'s' * (number != 1)}: {', '.join(parts) or 'none compared'}"
    return text + f"; interrupted with {number - len(found)} to go" * is_interrupted


def status_of(found):
    """Returns the status for some verdicts."""
    return 1 if Verdict.DIFFERS in found else 3 if Verdict.UNKNOWN in found else 0


def run(given):
    """Compares the modules, and returns the status."""
    sys.stdout.reconfigure(errors="backslashreplace")
    frames = sys.getrecursionlimit()
    found, names, comparison = [], [], None
    try:
        comparison = Comparison([given.before, given.after], given)
        names = comparison.functions()
        sys.setrecursionlimit(max(frames, reference().running.FRAMES))
        for name in names:
            verdict, lines = comparison.compared(name)
            found.append(verdict)
            print(*lines, sep="\n", flush=True)
        if all(it is Verdict.LEFT_OUT for it in found):
            raise Unfit("no function can be compared: expected a public function with a body in both modules")
    except Unfit as fault:
        print(f"mlir-work: {fault}", file=sys.stderr)
        return 2
    except KeyboardInterrupt:
        interrupted(comparison, names, found)
        return 130
    finally:
        sys.setrecursionlimit(frames)
    print(summary(found, len(names)))
    return status_of(found)


def interrupted(comparison, names, found):
    """Prints what was compared before Ctrl-C."""
    print()
    pair = comparison.pair if comparison else None
    if pair and len(found) < len(names) and pair.name == names[len(found)]:
        print(f"{pair.name}: interrupted; {pair.count['agree']:,} inputs agree so far")
    if names:
        print(summary(found, len(names), True))
