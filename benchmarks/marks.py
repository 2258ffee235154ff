"""Runs of a built program with marks: what it had used before it wrote each part of its output (marks.c is loaded
before the C library). Used by commands.py, chain.py, held.py and hostile.py."""
import contextlib
import os
import pathlib
import subprocess
import sys
import tempfile

import checkout  # noqa: F401

from oracle.script import BOXES

PAGES = {"GLIBC_TUNABLES": "glibc.malloc.hugetlb=1"}
MARKS = pathlib.Path(__file__).with_name("marks.c")
DIVIDER = b"// -----\n"


@contextlib.contextmanager
def library():
    """The library of marks.c, built in a temporary folder."""
    with tempfile.TemporaryDirectory() as folder:
        built = f"{folder}/marks.so"
        subprocess.run([os.environ.get("CC", "cc"), "-O2", "-shared", "-fPIC", str(MARKS), "-o", built], check=True)
        yield built


def run(words, text, more):
    """The processor time of a run on a text, in seconds, its output, and the mark of each part of the output."""
    with tempfile.TemporaryFile() as given, tempfile.TemporaryFile() as taken, tempfile.TemporaryFile() as told:
        given.write(text)
        given.seek(0)
        with_marks = {**PAGES, **os.environ, **more, "MARKS_TELL": str(told.fileno())}
        ran = subprocess.Popen(
            words, stdin=given, stdout=taken, stderr=subprocess.DEVNULL, env=with_marks, pass_fds=[told.fileno()]
        )
        used = os.wait4(ran.pid, 0)[2]
        taken.seek(0)
        told.seek(0)
        marks = [[int(it) for it in line.split()] for line in told]
        return used.ru_utime + used.ru_stime, taken.read(), marks


def edited(text, kept, lines):
    """The input of a run over the text of a module, and how many commands come before the lines of its script: those
    that detach all listeners but some."""
    gone = [f"detach {kind}" for kind in BOXES if kind not in kept]
    return text + DIVIDER + ("\n".join(gone + lines) + "\n").encode(), len(gone)


def command_cost(program, text, skipped, rounds, library):
    """The least microseconds of one command after some that are skipped, and how many commands were refused."""
    least, wrote = None, b""
    for _ in range(rounds):
        _, wrote, marks = run([program, "--brief"], text, {"LD_PRELOAD": library})
        full = [mark for mark in marks if mark[0] > skipped]
        if len(full) < 3:
            sys.exit(f"{program}: its replies are too few to be timed")
        # (the last part is written when the module is gone)
        (first, begun), (last, ended) = full[0], full[-2]
        cost = (ended - begun) / (last - first) / 1000
        least = cost if least is None else min(least, cost)
    return least, wrote.count(b" refused ")
