"""Runs a script over a module and explains each refusal.

For each refused line it prints `FILE:LINE:COLUMN: NUMBER WORD: ` and what was found, what was expected and what to do,
the line, and a caret if the fault has a place. For a line that isn't a command it prints the form of the closest
command. Below these lines it prints the operation that a refusal names, as `ids` at the prompt shows it, and the reason
of a `convert trace` why the operation stays. Columns count bytes from 1. The status is the program's."""
import re
import sys

from ..script import BLANKS, DIVIDER, counted, joined
from . import messages, mistakes, nesting, program
from .forms import looks
from .listing import MADE, listed

# The number with which unsupported constructs are refused.
LEFT_OUT = 13
BEHIND = "    note: this insert used no operation number: later inserts have lower numbers than if it were accepted"


def told(name, number, line, fault):
    """Returns the lines that show a fault."""
    column = len(line) - len(line.lstrip(BLANKS)) if fault.column is None else fault.column
    return [f"{name}:{number}:{column + 1}: {fault.words}", *mistakes.pointed(line, fault.column)]


def like_dividers(name, module):
    """Returns a line for each line of a module that looks like a divider and isn't one."""
    return [f"{name}:{number}:1: this line looks like the divider but isn't, so the module continues: write exactly "
            f"`{DIVIDER.decode()}`" for number, line in enumerate(module.split(b"\n"), 1)
            if re.fullmatch(rb"//[ \t]*-----", line.strip(BLANKS)) and line != DIVIDER]


def module_refused(name, module, refused):
    """Returns the lines that say why a module is refused. Places in a nested module are those in its source."""
    module, refused = nesting.in_source(module, refused)
    return text_refused(name, module, refused) + like_dividers(name, module)


def text_refused(name, module, refused):
    """Returns the lines that say why a text is refused, and where."""
    title = f"{refused.number} {refused.word}"
    if refused.at is None:
        return [f"{name}: {title}: {messages.general(refused.number)}"]
    offset = min(refused.at, len(module))
    says = f"{title}: {messages.of_module(module, offset, refused.number, refused.word)}"
    before = module[:offset]
    line = module.split(b"\n")[before.count(b"\n")]
    return told(name, before.count(b"\n") + 1, line, mistakes.Fault(offset - before.rfind(b"\n") - 1, says))


class Before:
    """A module, and the lines of a script that were accepted before one that is refused."""

    def __init__(self, module, kept):
        self.module, self.lines = module, list(kept)

    def take(self, line):
        """Takes one more line that was accepted."""
        text = line.decode("utf-8", "surrogateescape")
        if text.split()[0] not in looks():
            self.lines.append(text)

    def shown(self, number):
        """Returns the line of an operation."""
        return listed(self.module, self.lines).near(number, 0) or [MADE]


def commands_refused(name, parts, first, replies, kept=()):
    """Returns the lines that explain the refused lines of a script. The script begins at line `first` of a file,
    `parts` are the module and the script, and `kept` are edits before the script."""
    out, is_noted, before = [], False, Before(parts[0], kept)
    for (place, line), reply in zip(counted(parts[1]), replies):
        if not reply.is_refused:
            before.take(line)
            continue
        out += told(name, place + first - 1, line, mistakes.explained(reply, line))
        if line.split()[:1] == [b"insert"] and not is_noted:
            out.append(BEHIND)
            is_noted = True
        number = reply.refusal().operation
        out += [] if number is None else before.shown(number)
        # the reason why the operation stays
        out += [it for it in reply.lines if it.startswith("stays ")]
    return out


def said_on_the_side(lines):
    """Prints messages to standard error."""
    print(*lines, sep="\n", end="\n" * bool(lines), file=sys.stderr)


def explained(names):
    """Runs the files. Returns the status, and the lines that explain what was refused. If the module has an unsupported
    construct, such as a custom form, mlir-opt converts it first."""
    module, script, first = program.inputs(names)
    runs = []

    def attempt(text):
        runs.append(program.ran(joined(text, script), *program.explaining()))
        return runs[-1].refused

    module = nesting.read(names[0], module, attempt, said_on_the_side, lambda refused: refused.number == LEFT_OUT)
    done = runs[-1]
    if done.refused:
        return done.status, module_refused(names[0], module, done.refused)
    return done.status, commands_refused(names[-1], (module, script), first, done.replies())


def arguments(parser):
    """Adds the arguments of the command."""
    parser.add_argument("module", metavar="MODULE", 
                        help="a file with a module; if it isn't in generic form, mlir-opt converts it")
    parser.add_argument("script", metavar="SCRIPT", nargs="?",
                        help="a file with a script; without it, the script is in MODULE, after a line `// -----`")
    program.arguments(parser)
    program.blocks_argument(parser)


def run(given):
    """Prints what was refused, and returns the program's status."""
    status, lines = explained([given.module] + [given.script] * bool(given.script))
    sys.stdout.reconfigure(errors="backslashreplace")
    print(*lines, sep="\n", end="\n" if lines else "")
    return status
