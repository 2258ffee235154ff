"""Starts the command line of the Python package, with the program of these sources unless MLIR_WORK names another."""
import os
import sys

import checkout  # noqa: F401

from mlir_work import command
from mlir_work.cli import main
from tools import sources


def provide():
    """Selects the program of these sources, if there is one and the environment names no other."""
    if not os.environ.get(command.VARIABLE) and not os.environ.get(command.INSTALLED):
        found = sources.startable()
        if found:
            os.environ[command.INSTALLED] = str(found)


def start(*words):
    """Runs a command with the arguments of the script, and exits with its status."""
    given = [*words, *sys.argv[1:]]
    if given == ["--version"]:
        found = sources.program()
        print(sources.version(found) if found else "found no program of these sources: `./run --help` builds one")
        sys.exit()
    provide()
    sys.exit(main.main(given))
