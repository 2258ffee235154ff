#!/usr/bin/env python3
"""Compares a program with `--opaque` and the rules in Python on modules with opaque terms in which one token is
dropped, doubled, or exchanged with the next. Both have to read the same module, or refuse it by the same number at the
same byte.

usage: tests/compare/opaque_tokens.py PROGRAM [--most MOST] [--seed SEED] [--processes COUNT] [--first FIRST]

The modules are those of `tests/golden/opaque/modules.tar.xz`. One of more than 300 tokens is cut into the operations of
its body, each a module with the definitions of aliases around it. If one has more than MOST tokens (300), that many are
chosen at random. The longest come first, and FIRST of them are left out. Each difference is printed, and the status is
1 if there is one. By `pypy3` it takes a third of the time."""
import argparse
import multiprocessing
import pathlib
import random
import re
import struct
import subprocess
import sys
import tarfile

from checkout import ROOT

from oracle import rules, script

MODULES = ROOT / "tests/golden/opaque" / "modules.tar.xz"
DIVIDER = b"\n// -----\nprint\n"
TOKEN = re.compile(rb'@?"(?:[^"\\\n]|\\.)*"|//[^\n]*|->|[%#!^@][\w.$-]*(?::\d+)?|[A-Za-z_][\w.$-]*|\d[\w.+]*|\S', re.S)
WAYS = ("dropped", "doubled", "exchanged")
BEGINS = re.compile(rb'  ["%]')
MOST = 300


def modules():
    """Name and text of each module that is to be read."""
    with tarfile.open(MODULES) as held:
        for member in held.getmembers():
            if member.name.endswith(".mlir"):
                yield member.name, held.extractfile(member).read()


# Runs a program over each text of standard input, with its length in front. A small process does it, since one that
# holds much takes long to begin another.
RUNS = """
import struct, subprocess, sys
while head := sys.stdin.buffer.read(4):
    text = sys.stdin.buffer.read(struct.unpack("<I", head)[0])
    ran = subprocess.run(sys.argv[1:], input=text, capture_output=True, check=False)
    sys.stdout.buffer.write(struct.pack("<iI", ran.returncode, len(ran.stdout)) + ran.stdout)
    sys.stdout.buffer.flush()
"""


class Runner:
    """The answers of a program to texts: its status, and what it writes."""

    def __init__(self, program):
        words = ["python3", "-c", RUNS, program, "--brief", "--opaque"]
        self.there = subprocess.Popen(words, stdin=subprocess.PIPE, stdout=subprocess.PIPE)

    def __enter__(self):
        return self

    def __exit__(self, *_):
        self.there.stdin.close()
        self.there.wait()

    def answer(self, text):
        self.there.stdin.write(struct.pack("<I", len(text)) + text)
        self.there.stdin.flush()
        status, length = struct.unpack("<iI", self.there.stdout.read(8))
        return status, self.there.stdout.read(length)


def parts(text):
    """A module, or one for each operation of its body, as `mlir-opt` lays them out."""
    lines = text.splitlines(keepends=True)
    first = next((at for at, line in enumerate(lines) if line.startswith(b'"builtin.module"')), None)
    last = next((at for at, line in enumerate(lines) if line.startswith(b"})")), None)
    if len(TOKEN.findall(text)) <= MOST or first is None or last is None or not lines[first].endswith(b"({\n"):
        return [text]
    found = []
    for line in lines[first + 1:last]:
        if BEGINS.match(line):
            found.append([])
        if not found:
            return [text]
        found[-1].append(line)
    return [b"".join([*lines[:first + 1], *one, *lines[last:]]) for one in found]


def changed(text, places, at, way):
    """A text with one changed token."""
    begin, end = places[at]
    if way == "dropped":
        return text[:begin] + text[end:]
    if way == "doubled":
        return text[:end] + b" " + text[begin:end] + text[end:]
    first, last = places[at + 1]
    return text[:begin] + text[first:last] + text[end:first] + text[begin:end] + text[last:]


def differences(asked):
    """How many texts of a module were tried, how many of them are read, and those that are answered otherwise."""
    program, name, text, most, seed = asked
    places, tried, read, found = [it.span() for it in TOKEN.finditer(text)], 0, 0, []
    taken = range(len(places))
    if len(places) > most:
        taken = sorted(random.Random(f"{seed} {name}").sample(taken, most))
    with Runner(program) as runner:
        for at, way in ((at, way) for at in taken for way in WAYS):
            if way == "exchanged" and at + 1 == len(places):
                continue
            one = changed(text, places, at, way) + DIVIDER
            try:
                wanted = script.run_opaque(one)
            except rules.Open:  # the rules leave open what is to be said of it
                continue
            said = runner.answer(one)
            tried, read = tried + 1, read + (said[0] == 0)
            if said != wanted:
                found.append((name, way, places[at], wanted, said))
    return tried, read, found


def main():
    parser = argparse.ArgumentParser(description=__doc__, formatter_class=argparse.RawDescriptionHelpFormatter)
    parser.add_argument("program")
    parser.add_argument("--most", type=int, default=MOST)
    parser.add_argument("--seed", type=int, default=1)
    parser.add_argument("--processes", type=int, default=1)
    parser.add_argument("--first", type=int, default=0)
    asked = parser.parse_args()
    program, tried, read, wrong = str(pathlib.Path(asked.program).resolve()), 0, 0, 0
    work = [(program, name, part, asked.most, asked.seed) for name, text in modules() for part in parts(text)]
    work = sorted(work, key=lambda it: -len(it[2]))[asked.first:]
    with multiprocessing.Pool(asked.processes) as pool:
        for count, (one, good, found) in enumerate(pool.imap_unordered(differences, work), 1):
            tried, read, wrong = tried + one, read + good, wrong + len(found)
            if count % 20 == 0:
                print(f"{count} of {len(work)}, {tried} texts, {wrong} differences", file=sys.stderr, flush=True)
            for name, way, place, wanted, said in found:
                print(f"{name}: token at {place[0]} {way}\n  {wanted!r}\n  {said!r}")
    print(f"{tried} texts of {len(work)} modules, {read} of them read, {wrong} differences")
    sys.exit(bool(wrong))


if __name__ == "__main__":
    main()
