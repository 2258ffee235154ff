"""Runs the program on a module and a script, and reads its output."""
import contextlib
import pathlib
import re
import subprocess
import sys
import tempfile

from .. import command
from ..process import Process
from ..reply import Transcript, decoded
from ..script import has_divider, joined, parted, patterns_in

OPAQUE, PATTERNS, EXPLAIN, SPLIT = "--opaque", "--patterns", "--explain", "--split-input-file"
# An option of the command line alone: the program gets modules with several blocks in a region in nested form.
BLOCKS = "--blocks"
# Options from the command line, which each run of the program gets.
ASKED = []
# Whether --blocks is on the command line: it has one member, or none.
READS_BLOCKS = []
# With --split-input-file, the module that a command reads in place of the file of this name.
PART = {}
# What is called while the program is waited for, as `Tick` of pipe.py says: it has one member, or none.
TICKS = []
# The status of a command that Ctrl-C ended, as in shells.
INTERRUPTED = 130


class Fault(Exception):
    """There is no program to run, or the files are no input. The message says why."""


class Wrong(Fault):
    """The program refuses a file that the command line names. The message says why."""


def started():
    """Returns the command that starts the program. Raises `Fault` if there is none."""
    try:
        return command.find()
    except FileNotFoundError as fault:
        raise Fault(str(fault)) from None


def asked_for():
    """Returns the command that starts the program, with the options that each run gets."""
    return started().with_words(*ASKED)


def explaining():
    """Returns the option with which the program says what a refusal is about, if it has that option."""
    return [EXPLAIN] * has_option(EXPLAIN)


def has_option(option):
    """Whether the program's help names an option. Raises `Fault` if the program can't be started."""
    program = started()
    try:
        return program.has_option(option)
    except OSError as fault:
        raise Fault(f"{program.words[0]}: {fault.strerror}") from None


def process(module):
    """Returns a process of the program that holds a module. Raises `ModuleRefused` and `ProcessLost`."""
    program = asked_for().with_words(*explaining())
    held = Process(program.words, program.more, tick=TICKS[0] if TICKS else None)
    held.open(module)
    return held


def arguments(parser):
    """Adds the options of each command that runs the program."""
    parser.add_argument(OPAQUE, action="store_true",
                        help="keep unknown types and attributes as their texts, like `mlir_work --opaque`")
    parser.add_argument(PATTERNS, metavar="FILE", action="append", default=[],
                        help="a file of user patterns, a line each, which are defined first; may be repeated")
    split_argument(parser)


def blocks_argument(parser):
    """Adds the option that reads regions with several blocks."""
    parser.add_argument(BLOCKS, dest="reads_blocks", action="store_true",
                        help="read regions with several blocks, as nested scopes, and print them as blocks (tested, "
                             "not proved)")


def split_argument(parser):
    """Adds the option that runs a command over each module of a file."""
    parser.add_argument(SPLIT, dest="is_split", action="store_true",
                        help="run the command over each module of the file between lines `// -----`")


def ask(is_opaque, files=(), reads_blocks=False):
    """Sets the options of all further runs: opaque terms, files of patterns, and several blocks. Raises `Fault` if the
    program lacks an option, and `Wrong` if it refuses a pattern."""
    READS_BLOCKS[:] = [BLOCKS] * reads_blocks
    ASKED[:] = [OPAQUE] * is_opaque + [word for file in files for word in (PATTERNS, file)]
    for option, is_asked in ((OPAQUE, is_opaque), (PATTERNS, files)):
        if is_asked and not has_option(option):
            raise Fault(f"{started().words[0]} has no option {option}: install a newer program, or leave out {option}")
    if files:
        program = asked_for()
        it = subprocess.run([*program.words, "--brief"], input=b"", capture_output=True, env=program.environment,
                            check=False)
        if it.returncode == 2:
            raise Wrong(it.stderr.decode("utf-8", "replace").strip().removeprefix("error: "))


def named_from_the_start():
    """Returns the names of the patterns in the files that the command line names."""
    files = [file for option, file in zip(ASKED, ASKED[1:]) if option == PATTERNS]
    return [line.split()[0].decode("utf-8", "replace") for line in patterns_in(files)]


def read(name):
    """Returns the bytes of a file, or of standard input for the name `-`."""
    return sys.stdin.buffer.read() if name == "-" else pathlib.Path(name).read_bytes()


def parts(name):
    """Returns the modules of a file between lines that are dividers. Each begins with empty lines for those above it,
    so that its lines have their numbers in the file."""
    found, lines = [], 0
    for text in re.split(rb"(?m)^// -----\n", read(name)):
        found.append(b"\n" * lines + text)
        lines += text.count(b"\n") + 1
    return found


def inputs(names):
    """Returns the module and the script of one or two files, and the line at which the script begins in the last file.
    The name `-` is standard input. Raises `Fault` if a divider ends the module of two files."""
    texts = [PART[name] if name in PART else read(name) for name in names]
    if len(texts) == 1:
        return parted(texts[0])
    if has_divider(texts[0]):
        raise Fault(f"{names[0]}: a line `// -----` begins a script here, but the command line names a script too: "
                    "remove one of the two")
    return (*texts, 1)


def written(text, *more):
    """Returns the status of a run over an input, with --brief and more options, and its output. The input is a file,
    since a pipe accepts only a few kilobytes at a time."""
    program = asked_for().with_words(*more)
    with tempfile.TemporaryFile() as given:
        given.write(text)
        given.seek(0)
        status, out = ended([*program.words, "--brief"], given, program.environment)
    if status not in (0, 1, 3) or not out and status:
        raise Fault(f"{program.words[0]} ended with status {status} after {len(out)} bytes of output: expected output, "
                    "and status 0, 1 or 3")
    return status, decoded(out)


def ended(words, given, environment):
    """Runs words over a file up to their end. Returns the status and the output. Any exception ends the process."""
    with subprocess.Popen(words, stdin=given, stdout=subprocess.PIPE, env=environment) as run:
        try:
            while True:
                with contextlib.suppress(subprocess.TimeoutExpired):
                    out, _ = run.communicate(timeout=TICKS[0]() if TICKS else None)
                    return run.returncode, out
        except BaseException:
            run.kill()
            raise


def ran(text, *more):
    """Returns the output of a run over an input, with more options."""
    return Transcript(*written(text, *more))


def answered(module, script):
    """Returns the output of a run over a module, as bytes, and a script, as text."""
    return ran(joined(module, script.encode("utf-8", "surrogateescape")))


def asked(module, lines):
    """Returns the output of a run over a module, as bytes, and some lines of text."""
    return answered(module, "".join([line + "\n" for line in lines]))
