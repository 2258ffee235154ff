"""Converts modules to generic form and back with mlir-opt, if it is installed.

MLIR_OPT in the environment has its command; the default is `mlir-opt` or `mlir-opt-22` on the path."""
import os
import shlex
import shutil
import subprocess

from . import program

NAMES = ["mlir-opt", "mlir-opt-22"]
UNREGISTERED = "--allow-unregistered-dialect"
GENERIC = ["--mlir-print-op-generic", "--mlir-print-local-scope", UNREGISTERED]


def tool():
    """Returns the words of the command for mlir-opt, or none if there is no such program."""
    named = os.environ.get("MLIR_OPT")
    if named:
        return shlex.split(named)
    return next(([name] for name in NAMES if shutil.which(name)), [])


def printed(text, options):
    """Returns what mlir-opt prints of a module. Raises `Fault` if it can't."""
    words = tool()
    if not words:
        raise program.Fault("there is no mlir-opt here: MLIR_OPT in the environment names one")
    try:
        it = subprocess.run([*words, *options], input=text, stdout=subprocess.PIPE, stderr=subprocess.PIPE, check=False)
    except OSError as fault:
        raise program.Fault(f"{words[0]}: {fault.strerror}") from None
    if it.returncode:
        said = it.stderr.decode("utf-8", "replace").strip().splitlines() or [f"status {it.returncode}"]
        raise program.Fault(f"{words[0]}: {said[0]}")
    return it.stdout


def generic(text):
    """Returns a module in generic form."""
    return printed(text, GENERIC)


def pretty(text):
    """Returns a module as mlir-opt prints it."""
    return printed(text, [UNREGISTERED])


def tried(name, text):
    """Returns a module in generic form, or None if there is no mlir-opt or it refuses the module; and messages."""
    if not tool():
        return None, []
    try:
        return generic(text), [f"{name}: in generic form, as {tool()[0]} prints it"]
    except program.Fault as fault:
        return None, [f"{name}: {fault}"]
