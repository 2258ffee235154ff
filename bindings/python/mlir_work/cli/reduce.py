"""Reduces a module while it still shows its goal: a row of a report, a refusal, or a shell command that succeeds. The
program makes the edits, so the module may break rules of the verifier, and each operation keeps its number.

It tries to erase whole functions first, and then operations: all of them, halves, quarters, and so on down to single
operations. Then it replaces results by operands of the same type, or by values before them, so that more operations can
be erased, and drops attributes. It repeats this until nothing more can be removed. A refused edit is skipped. Ctrl-C
ends the search, and the smallest module so far is written."""
import argparse
import os
import re
import subprocess
import sys
import tempfile

from .. import operations
from ..script import joined
from ..values import key_text
from . import explain, generic, program, ways
from .forms import kinds
from .kept import put

# How many values before an operation are tried in place of its results.
NEAR = 8
# How many pairs of values one run tries.
MOST_PAIRS = 20000
OPERATION = re.compile(r"(#|%v|%a)(\d+)")
EPILOG = """The output is the reduced module, after its script in comments; with -o, two files have the module and the
script. The status is 0, 1 if the module doesn't show the goal, or 130 if Ctrl-C ended the search: then the output is
the smallest module so far."""


class Row:
    """The module shows a row of a report."""

    def __init__(self, text):
        kind, *self.row = text.split() or [""]
        if kind not in kinds() or not self.row:
            raise argparse.ArgumentTypeError(f"found `{text}`, expected a kind and a row, as 'diagnostics #14 V15'; "
                                             f"the kinds are {', '.join(kinds())}")
        self.told, self.question = " ".join(text.split()), f"report {kind}"

    def is_shown(self, answer):
        """Whether the reply to the report has the row."""
        return any(line.split() == self.row for line in answer.lines)

    def renamed(self, numbers):
        """Returns the goal with other numbers of operations."""
        return OPERATION.sub(lambda it: it[1] + numbers.get(it[2], it[2]), self.told)


class Refusal:
    """The module refuses a command, with a number, a word or an operation."""

    def __init__(self, text):
        self.question, _, reason = (part.strip() for part in text.rpartition("="))
        self.reason, self.told = reason.split(), text
        if not self.question or not self.reason:
            raise argparse.ArgumentTypeError(f"found `{text}`, expected a command, `=`, and the number or word of a "
                                             "refusal, as 'erase #13 = HasUses'")

    def is_shown(self, answer):
        """Whether the reply is this refusal."""
        words = answer.brief.split()
        return words[:1] == ["refused"] and set(self.reason) <= set(words)

    renamed = Row.renamed


class Test:
    """A shell command ends with status 0. It gets the module on its input, and the file of the module as $1."""

    question = "print"

    def __init__(self, text):
        self.command, self.told = text, text

    def is_shown(self, answer):
        """Whether the command accepts the module that the reply prints."""
        with tempfile.NamedTemporaryFile(suffix=".mlir") as file:
            file.write(answer.shown.encode("utf-8", "surrogateescape"))
            file.flush()
            file.seek(0)
            return not subprocess.run(["sh", "-c", self.command, "sh", file.name], check=False, stdin=file,
                                      stdout=subprocess.DEVNULL, stderr=subprocess.DEVNULL).returncode

    def renamed(self, _):
        """Returns the goal, which names no operation."""
        return self.told


class Candidate:
    """An operation that may be erased: its number, depth, results, operands and keys, and the values before it, the
    nearest first."""

    def __init__(self, operation, before):
        self.number, self.depth, self.before = operation.number, operation.depth, before
        self.results, self.operands = [str(it) for it in operation.results], [str(it) for it in operation.operands]
        self.keys = [key_text(key) for key in (*operation.properties, *operation.attributes)]


def candidates(those):
    """Returns the operations of a module except the root, each after the operations inside it."""
    values, around, found = [], [], []
    for operation in those:
        while around and around[-1].depth >= operation.depth:
            found.append(around.pop())
        around.append(Candidate(operation, values[:-NEAR - 1:-1]))
        values += [str(it) for it in (*operation.results, *operation.arguments)]
    return found + around[:0:-1]


class Reducer:
    """Reduces a module. `kept` are the edits so far, after which the module still shows the goal, and `tries` counts
    runs. `first` is the number of operations at the start, or None until the module was seen to show the goal."""

    def __init__(self, module, goal, told=lambda count: None):
        self.way, self.goal, self.told = ways.fitting(module), goal, told
        self.kept, self.tries = [], 0
        self.first = None

    def operations(self):
        """Returns the operations of the current module, in the order of the text."""
        return operations.read(self.way.answer(self.kept, "print ids").shown)

    def shows(self, lines):
        """Tries some lines, and keeps the accepted ones if the module still shows the goal. Returns whether it does, or
        True if no line is accepted."""
        self.tries += 1
        replies, answer = self.way.tried(self.kept, lines, self.goal.question)
        done = [line for line, reply in zip(lines, replies) if not reply.is_refused]
        if lines and not done:
            return True
        if not self.goal.is_shown(answer):
            return False
        self.kept += done
        return True

    def shrink(self, units):
        """Tries units of lines: all at once, then halves, quarters, and so on down to single units. Units that are
        kept, or whose lines are all refused, aren't tried again."""
        size = len(units)
        while size:
            left = []
            for begin in range(0, len(units), size):
                part = units[begin:begin + size]
                left += [] if self.shows([line for unit in part for line in unit]) else part
            units, size = left, min(size // 2, len(left))

    def erase(self, numbers):
        """Tries to erase operations."""
        self.shrink([[f"erase #{number}"] for number in numbers])

    def stand_ins(self, those):
        """Returns for results a value of the same type: an operand of their operation, or else a value before it."""
        pairs = [(result, other) for it in those for result in it.results
                 for other in dict.fromkeys(it.operands + it.before)]
        found = {}
        for begin in range(0, len(pairs), MOST_PAIRS):
            part = pairs[begin:begin + MOST_PAIRS]
            lines = [line for pair in part for line in ("begin", "replace {} {}".format(*pair), "rollback")]
            replies, _ = self.way.tried(self.kept, lines, self.goal.question)
            for (result, other), reply in zip(part, replies[1::3]):
                if reply.text == "ok":
                    found.setdefault(result, other)
        return found

    def bypass(self, those):
        """Tries to replace the results of operations by other values, and to erase the operations."""
        stands = self.stand_ins(those)
        units = [[f"replace {it} {stands[it]}" for it in op.results if it in stands] + [f"erase #{op.number}"]
                 for op in those if any(it in stands for it in op.results)]
        self.shrink(units)

    def size(self):
        """Returns the number of operations and entries, and the operations, the last first."""
        those = candidates(self.operations())[::-1]
        self.told(len(those))
        return len(those) + sum(len(it.keys) for it in those), those

    def go(self):
        """Reduces the module as far as possible. Returns False if it doesn't show the goal."""
        if not self.shows([]):
            return False
        before, (size, those) = None, self.size()
        self.first = len(those)
        while size != before:
            before = size
            self.erase([it.number for it in self.operations()[::-1] if it.depth == 1])
            self.erase([it.number for it in self.size()[1]])
            self.bypass(self.size()[1])
            self.shrink([[f"drop-attr #{it.number} {key}"] for it in self.size()[1] for key in it.keys])
            size, _ = self.size()
        return True


def read(name):
    """Returns the module in a file, in generic form. Raises `Fault` if it is refused."""
    text, script, _ = program.inputs([name])
    if script:
        raise program.Fault(f"{name}: a script follows the module, but `reduce` takes only a module: remove the script")
    for module, said in attempts(name, text):
        print(*said, sep="\n", end="\n" * bool(said), file=sys.stderr)
        refused = program.ran(joined(module)).refused
        if not refused:
            return module
    raise program.Fault("\n".join(explain.module_refused(name, module, refused)))


def attempts(name, text):
    """Yields the module unchanged, and then in generic form if mlir-opt reads it; each with messages."""
    yield text, []
    made, said = generic.tried(name, text)
    if made is not None:
        yield made, said


def arguments(parser):
    """Adds the arguments of the command."""
    parser.add_argument("module", metavar="MODULE", help="a file with a module, which may break rules of the verifier")
    goal = parser.add_mutually_exclusive_group(required=True)
    goal.add_argument("--keep", metavar="ROW", type=Row, dest="goal",
                      help="goal: a kind and a row of its report, as 'diagnostics #14 V15'")
    goal.add_argument("--refused", metavar="COMMAND=REASON", type=Refusal, dest="goal",
                      help="goal: a refused command, and its number or word, as 'convert full rules 28 = 51'")
    goal.add_argument("--test", metavar="CMD", type=Test, dest="goal",
                      help="goal: a shell command that ends with status 0; the module is its input, and $1 the file")
    parser.add_argument("-o", "--output", metavar="FILE",
                        help="write the module to FILE and the script to FILE.script")
    program.arguments(parser)


def told(count):
    """Shows on a terminal how many operations are left."""
    if sys.stderr.isatty():
        print(f"\r{count} operations ", end="", file=sys.stderr, flush=True)


def run(given):
    """Writes a smaller module. Returns 0, or 1 if the module doesn't show the goal, or 130 if Ctrl-C ended the search;
    then the smallest module so far is written. A second interrupt ends that too."""
    reducer = Reducer(read(given.module), given.goal, told)
    status = 0
    try:
        try:
            if not reducer.go():
                print(f"{given.module} doesn't show `{given.goal.told}`: nothing to reduce", file=sys.stderr)
                return 1
        except KeyboardInterrupt:
            status = program.INTERRUPTED
            print("\ninterrupted: " + ("nothing is written, since no edit was tried yet" if reducer.first is None else
                                       "the smallest module so far is written"), file=sys.stderr)
        if reducer.first is not None:
            finish(given, reducer)
    finally:
        reducer.way.stop()
    return status


def finish(given, reducer):
    """Writes the reduced module, and prints its size."""
    numbers = {str(it.number): str(place) for place, it in enumerate(reducer.operations())}
    print(f"{len(numbers) - 1} of {reducer.first} operations are left, by {len(reducer.kept)} edits, which were found "
          f"by {reducer.tries} tries: {given.goal.renamed(numbers)}", file=sys.stderr)
    write(given.output, reducer.way.answer(reducer.kept, "print").shown, reducer.kept, given.module)


def write(name, text, script, source):
    """Writes the module and the script that made it."""
    module = text.encode("utf-8", "surrogateescape")
    lines = "".join(line + "\n" for line in script).encode("utf-8", "surrogateescape")
    if name is None:
        head = b"// %s, reduced by:\n" % os.fsencode(os.path.basename(source))
        sys.stdout.buffer.write(head + re.sub(b"(?m)^(?=.)", b"//   ", lines) + module)
        sys.stdout.buffer.flush()
        return
    put(name, module)
    put(f"{name}.script", lines)
