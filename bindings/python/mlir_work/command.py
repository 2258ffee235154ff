"""Finds the command that starts the program `mlir_work`, and its environment."""
import functools
import importlib.util
import os
import pathlib
import re
import shlex
import shutil
import subprocess
import sys
from typing import Dict, List, Optional, Sequence, Tuple, Union

Program = Union[str, os.PathLike[str], Sequence[str]]
NAME = "mlir_work"
# Environment variables: the first holds the words of the command that starts the program. The second holds the file of
# the program that was installed with the command line, or that a checkout built.
VARIABLE, INSTALLED = "MLIR_WORK", "MLIR_WORK_INSTALLED"
# This value of MLIR_WORK starts the model of the program in Python.
REFERENCE = "reference"
# Memory pages of 2 MB make large modules faster.
PAGES = {"GLIBC_TUNABLES": "glibc.malloc.hugetlb=1"}


class Command:
    """The words that start a program, and the environment that the program gets."""

    def __init__(self, words: Sequence[str], more: Optional[Dict[str, str]] = None) -> None:
        self.words, self.more = list(words), dict(more or {})

    @property
    def environment(self) -> Dict[str, str]:
        """The environment of this process, with what the program needs."""
        return {**PAGES, **os.environ, **self.more}

    def with_words(self, *words: str) -> "Command":
        """Returns the command with more words."""
        return Command([*self.words, *words], self.more)

    def has_option(self, option: str) -> bool:
        """Whether the help of the program names an option. Raises OSError if the program can't be started."""
        text = _help(tuple(self.words), tuple(sorted(self.more.items())))
        return re.search(rf"^ +(?:-\w, )?{option}\b", text, re.M) is not None


@functools.lru_cache(maxsize=None)
def _help(words: Tuple[str, ...], more: Tuple[Tuple[str, str], ...]) -> str:
    """Returns the help that a program prints."""
    ran = subprocess.run([*words, "--help"], stdin=subprocess.DEVNULL, stdout=subprocess.PIPE,
                         stderr=subprocess.DEVNULL, env={**os.environ, **dict(more)}, check=False)
    return ran.stdout.decode("utf-8", "replace")


def _reference() -> Command:
    """Returns the command of the model in Python. Raises FileNotFoundError if its package can't be imported."""
    found = importlib.util.find_spec("oracle")
    if not found or not found.origin:
        raise FileNotFoundError(f"{VARIABLE}={REFERENCE} needs the Python package `oracle`: run it in a checkout")
    folder = str(pathlib.Path(found.origin).parents[1])
    return Command([sys.executable, "-m", "oracle"], {"PYTHONPATH": folder, "PYTHONDONTWRITEBYTECODE": "1"})


def find(program: Optional[Program] = None) -> Command:
    """Returns the command that starts the program: the given file or words, or those of MLIR_WORK in the environment,
    or the file in MLIR_WORK_INSTALLED, or `mlir_work` on the path. Raises FileNotFoundError if there is none."""
    if program is not None:
        return Command([os.fspath(program)] if isinstance(program, (str, os.PathLike)) else program)
    named: List[str] = shlex.split(os.environ.get(VARIABLE, ""))
    if named == [REFERENCE]:
        return _reference()
    there = named or [os.environ.get(INSTALLED) or shutil.which(NAME) or ""]
    if not there[0]:
        raise FileNotFoundError(f"found no program `{NAME}` on the path: run `./run --help` in a checkout to build it, "
                                f"or set {VARIABLE} to its command")
    return Command(there)
