#!/usr/bin/env python3
"""Compares the ways to run the workbench over random cases, those of by_chance.py: a whole run, `--interactive`, and
the library if there is one. Each has to write the same bytes, but for the empty lines that end the answers of
`--interactive`, and end with the same status.

Most cases go to `--interactive` line by line: a line is written once the answer to the line before it has arrived. The
others are written two or three lines at a time, all at once, or in random pieces. In one of four cases the last line
has no line feed.

usage: tests/compare/three_ways.py PROGRAM [CASES [SEED]] [--first N] [--only KIND,..] [--library MODULE:WAY]

CASES is 2000 and SEED 1 if they aren't given. PROGRAM is a file, or words in one argument. WAY is a class of the
package bindings/python/mlir_work (`mlir_work.Way`), as a ctypes way over the library; a library writes no listings, so
it gets only the cases with --brief. Each difference is printed, and a count; the status is 1 if there is one."""
import argparse
import importlib
import os
import random
import shlex
import subprocess
import sys

import checkout  # noqa: F401
import mlir_work
from mlir_work.pipe import FIRST, Lost, Pipe
from oracle import claims, script
from tests.compare import by_chance

# How the lines of a case are written, each way with its frequency here.
HOWS = ("one", "one", "one", "some", "all", "bytes")
MOST_SECONDS, MOST_SHOWN = 60, 5


def words_of(case):
    """The program's arguments."""
    limit = ["--limit", str(case.limit)] if case.limit != script.LIMIT else []
    return ["--brief"] * case.brief + limit


def is_counted(line):
    """Whether a line is replied to."""
    return next(script.lines_of(line), "") != ""


def whole(program, case):
    """The status and the bytes of a whole run."""
    ran = subprocess.run([*program, *words_of(case)], input=case.text, stdout=subprocess.PIPE, check=False,
                         timeout=MOST_SECONDS)
    return ran.returncode, ran.stdout


def parts(maker, lines, how):
    """The lines in parts that are written at once: each a text, and how many of its lines are replied to by its end."""
    sizes = {"one": lambda: 1, "some": lambda: maker.randrange(1, 4), "all": lambda: len(lines)}
    found, left = [], lines
    while left:
        count = sizes[how]()
        found.append((b"".join(left[:count]), sum(map(is_counted, left[:count]))))
        left = left[count:]
    return found


def pieces(maker, text):
    """A text cut at some bytes, and how many of its lines are replied to by the end of each piece."""
    cuts = sorted({*(maker.randrange(len(text) + 1) for _ in range(maker.randrange(1, 12))), len(text)})
    found, told = [], 0
    for begin, end in zip([0, *cuts], cuts):
        count = sum(map(is_counted, text[:end].split(b"\n")[:-1]))
        found.append((text[begin:end], count - told))
        told = count
    return found


def interactive(program, case, maker):
    """The status and the bytes that `--interactive` writes, without the ends of answers; and how the lines were
    written."""
    module, behind = script.split(case.text)
    how, is_open = maker.choice(HOWS), maker.random() < 0.25
    *lines, last = behind.split(b"\n")
    lines = [it + b"\n" for it in lines]
    if last and not is_open:
        lines, last = [*lines, last + b"\n"], b""
    elif lines and is_open and not last:
        last = lines.pop()[:-1]
    pipe = Pipe([*program, "--interactive", *words_of(case)], timeout=MOST_SECONDS)
    try:
        return (*told(pipe, module, pieces(maker, b"".join(lines)) if how == "bytes" else parts(maker, lines, how),
                      last), how)
    except Lost as fault:
        return fault.status, str(fault).encode(), how
    finally:
        pipe.stop()


def told(pipe, module, those, last):
    """The status and the bytes of a process that gets a module, some texts and a last line without its end."""
    answers = pipe.ask(module + by_chance.DIVIDER, [FIRST], True)
    if answers[0].startswith(b"module refused"):
        return pipe.close(), answers[0]
    count = 0
    for text, more in those:
        answers += pipe.ask(text, [b"%d " % (count + it) for it in range(1, more + 1)])
        count += more
    more, status = pipe.finish(last, [b"%d " % (count + 1)] * is_counted(last))
    return status, b"".join([*answers, *more])


def library(make, case):
    """The status and the bytes of another way."""
    module, behind = script.split(case.text)
    way = make()
    try:
        out = "".join(it + "\n" for it in way.open(module, case.limit))
    except mlir_work.ModuleRefused as fault:
        return 3, f"module refused {fault}\n".encode()
    try:
        lines = [it.strip(b" \t\r") for it in behind.split(b"\n") if is_counted(it)]
        replies = way.lines(lines)
    finally:
        way.close()
    wanted = [script.expected(line.decode("latin-1"))[0] for line in lines]
    are_right = [it.outcome != "refused" if refusal is None else it.text.startswith(f"refused {refusal} ")
                 for it, refusal in zip(replies, wanted)]
    status = int(bool(out) or not all(are_right))
    text = out + "".join(f"{number} {it.text}\n{it.shown}" for number, it in enumerate(replies, 1))
    return status, text.encode("utf-8", "surrogateescape")


def shown(number, case, ways):
    """What differs."""
    text = f"case {number} ({case.kind}, {' '.join(words_of(case)) or 'no words'}):\n"
    text += case.text.decode("utf-8", "backslashreplace")
    for name, (status, out) in ways.items():
        text += f"\n--- {name}: status {status}\n{out.decode('utf-8', 'backslashreplace')}"
    return text


def compared(number, given, make):
    """The ways of a case, or none if there is no case."""
    case = by_chance.case_of(number, given.seed, script.ALL, [], given.only)
    if case is None or case.answer[1] is None:
        return None, {}
    status, out, how = interactive(given.program, case, random.Random(f"{given.seed} {number} ways"))
    ways = {"a whole run": whole(given.program, case), f"--interactive, by {how}": (status, out)}
    if make and case.brief:
        ways["the library"] = library(make, case)
    return case, ways


def options():
    """What the command line asks."""
    as_it_stands = argparse.RawDescriptionHelpFormatter
    reader = argparse.ArgumentParser(description=__doc__, usage=argparse.SUPPRESS, formatter_class=as_it_stands)
    reader.add_argument("program", type=shlex.split)
    reader.add_argument("cases", nargs="?", type=int, default=2000)
    reader.add_argument("seed", nargs="?", type=int, default=1)
    reader.add_argument("--first", type=int, default=0)
    reader.add_argument("--only", default=(), type=lambda word: word.split(","))
    reader.add_argument("--library")
    return reader.parse_args()


def main():
    given = options()
    if len(given.program) == 1:
        os.environ[claims.VARIABLE] = given.program[0]
    module, _, name = (given.library or "").partition(":")
    make = getattr(importlib.import_module(module), name) if given.library else None
    os.environ.setdefault("GLIBC_TUNABLES", "glibc.malloc.hugetlb=1")
    counts, wrong = {"cases": 0, "commands": 0, "modules refused": 0, "by the library too": 0}, 0
    for number in range(given.first, given.first + given.cases):
        case, ways = compared(number, given, make)
        if case is None:
            continue
        counts["cases"] += 1
        counts["commands"] += case.commands
        counts["modules refused"] += case.answer[0] == 3
        counts["by the library too"] += "the library" in ways
        if len(set(ways.values())) > 1:
            wrong += 1
            print(shown(number, case, ways) if wrong <= MOST_SHOWN else f"case {number} differs", flush=True)
    print(f"seed {given.seed}: " + ", ".join(f"{many:,} {name}" for name, many in counts.items())
          + f"; {wrong or 'no'} difference{'s' * (wrong > 1)}")
    return int(wrong > 0)


if __name__ == "__main__":
    sys.exit(main())
