"""Edits, reduces, compares and explains MLIR modules with the program `mlir_work`."""
import argparse
import difflib
import importlib
import os
import sys

from . import program, run

NAME = "mlir-work"
# The command that runs the program for scripts. It has the program's options.
RUN = "run"
# Each command, its description, and its module.
COMMANDS = {
    "open": ("open a prompt on a module, which answers each typed command at once", "prompt"),
    "reduce": ("reduce a module while it still shows a report row, a refusal, or what a test checks", "reduce"),
    "compare": ("check that a module refines another one, by running their functions on the same inputs", "comparison"),
    "explain": ("explain why commands of a script were refused, and where", "explain"),
    "show": ("print the operations of a module, one a line, as text or as JSON objects", "show"),
    "page": ("write a web page that shows a script on a module, step by step", "page"),
}
STATUS = """exit status: 0 if nothing was refused, 1 if a command was refused, 2 if the command line or a file of
patterns is wrong, 3 if the module was refused, 4 if a read or a write failed, 130 after Ctrl-C. `mlir-work FILE` is
short for `mlir-work open FILE`. --opaque, --blocks, --patterns FILE and --split-input-file may also be before the
command.
mlir-opt, if it is installed, converts each module that isn't in generic form."""
# What is printed between the outputs for two modules of a file, by the format of the outputs.
DIVIDERS = {"text": "// -----", "json": '{"divider":true}'}
# Options that may be before a command, and whether they take a word.
GLOBAL = {program.OPAQUE: False, program.BLOCKS: False, program.PATTERNS: True, program.SPLIT: False}


class Version(argparse.Action):
    """Prints the command that starts the program."""

    def __call__(self, parser, *_):
        print(f"{NAME} starts {' '.join(program.started().words)}")
        parser.exit()


def parser():
    """Returns the parser of the command line."""
    whole = argparse.ArgumentParser(prog=NAME, description=__doc__, epilog=STATUS)
    whole.add_argument("--version", action=Version, nargs=0, help="show the command that starts the program, and exit")
    parts = whole.add_subparsers(dest="command", metavar="COMMAND", required=True)
    for word, (about, name) in COMMANDS.items():
        part = importlib.import_module(f".{name}", __package__)
        own = parts.add_parser(word, help=about, description=f"{about[0].upper()}{about[1:]}.",
                               epilog=getattr(part, "EPILOG", None))
        part.arguments(own)
        own.set_defaults(run=part.run)
    parts.add_parser(RUN, help="run a script over a module, as `mlir_work` does (`mlir-work run --help`), also "
                                "with --blocks",
                     add_help=False)
    return whole


def is_unknown(word):
    """Whether a word is neither a command nor the path of a module: a bare name without a file."""
    return os.path.basename(word) == word and "." not in word and not os.path.exists(word)


def commands():
    """Returns all commands."""
    return [*COMMANDS, RUN]


def unknown(word):
    """Returns the message for a word that is neither a command nor a file."""
    near = difflib.get_close_matches(word, commands(), 1)
    more = f"; did you mean `{near[0]}`?" if near else ""
    return f"found `{word}`, expected a command ({', '.join(commands())}) or the file of a module{more}"


def reordered(words):
    """Returns the words of a command line with the command first, and options that are before it after it."""
    place = 0
    while place < len(words) and words[place].partition("=")[0] in GLOBAL:
        place += 2 if GLOBAL[words[place].partition("=")[0]] and "=" not in words[place] else 1
    return [*words[place:place + 1], *words[:place], *words[place + 1:]]


def numbered(name, place):
    """Returns the name of an output file for the module at a place in a file with several modules, from 1."""
    stem, end = os.path.splitext(name)
    return f"{stem}-{place}{end}"


def over_parts(given):
    """Runs a command over each module of its file, or of its two files. Returns the largest status."""
    names = [getattr(given, it) for it in ("module", "before", "after") if hasattr(given, it)]
    parts = [program.parts(name) for name in names]
    if len(set(map(len, parts))) > 1:
        raise program.Wrong(f"found {len(parts[0])} modules in {names[0]} and {len(parts[1])} in {names[1]}, expected "
                            "as many in both")
    keys = [it for it in ("out", "output") if getattr(given, it, None)]
    outputs, worst = {key: getattr(given, key) for key in keys}, 0
    for place, those in enumerate(zip(*parts), 1):
        program.PART.update(zip(names, those))
        if place > 1:
            print(DIVIDERS[getattr(given, "format", "text")], flush=True)
        for key in keys:
            setattr(given, key, numbered(outputs[key], place))
        worst = max(worst, given.run(given))
    program.PART.clear()
    return worst


def why(fault):
    """Returns the message of a fault: for a file, its name and what is wrong with it."""
    is_of_file = isinstance(fault, OSError) and fault.filename is not None and fault.strerror
    if not is_of_file:
        return str(fault)
    more = ": correct the name" * isinstance(fault, FileNotFoundError)
    return f"{os.fsdecode(fault.filename)}: {fault.strerror}{more}"


def main(words):
    """Runs the command that the words name, and returns its status."""
    words = reordered(words)
    if words[:1] == ["help"] and not os.path.exists("help"):
        words = [*words[1:2], "--help"]
    if not words:
        parser().error(f"a command is missing: write one of {', '.join(commands())}, or the file of a module")
    if words[0] not in commands() and not words[0].startswith("-"):
        if is_unknown(words[0]):
            parser().error(unknown(words[0]))
        words = ["open", *words]
    try:
        if words[0] == RUN:
            return run.main(words[1:])
        given = parser().parse_args(words)
        program.ask(getattr(given, "opaque", False), getattr(given, "patterns", ()),
                    getattr(given, "reads_blocks", False))
        return over_parts(given) if getattr(given, "is_split", False) else given.run(given)
    except BrokenPipeError:
        os.dup2(os.open(os.devnull, os.O_WRONLY), sys.stdout.fileno())
        return 4
    except (OSError, program.Fault) as fault:
        print(f"{NAME}: {why(fault)}", file=sys.stderr)
        return 2 if isinstance(fault, program.Wrong) else 4
    except KeyboardInterrupt:
        print(f"\n{NAME}: interrupted", file=sys.stderr)
        return program.INTERRUPTED
    except EOFError:
        print()
        return 1


def start():
    """Runs the command line of this process, and ends with its status."""
    sys.exit(main(sys.argv[1:]))
