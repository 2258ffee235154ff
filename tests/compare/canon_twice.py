#!/usr/bin/env python3
"""Canonicalizes modules by the program and by the rules (oracle), which search from the root: replies, modules
and the reports of all listeners have to be the same, and a second `canon` after it has to answer `converged 0`.
The modules are the named files, and COUNT random ones.

usage: tests/compare/canon_twice.py PROGRAM COUNT SEED [FILE..]"""
import pathlib
import random
import subprocess
import sys

import checkout  # noqa: F401

from oracle import chance, script
from oracle.module import rules, text_of


def modules(count, seed, files):
    for name in files:
        yield name, pathlib.Path(name).read_bytes()
    maker = random.Random(seed)
    for number in range(count):
        taste = maker.choice(sorted(chance.TASTES))
        yield f"module {number}", text_of(chance.module(maker, maker.randrange(2, 40), maker.choice([0, 0.1, 0.3]),
                                                        taste)).encode()


def main(argv):
    program, count, seed, files = argv[0], int(argv[1]), int(argv[2]), argv[3:]
    reports = "".join(f"report {kind}\n" for kind in script.BOXES)
    whole = rewritten = 0
    for name, text in modules(count, seed, files):
        run = text.rstrip(b"\n") + f"\n// -----\ncanon limit 1000000\n{reports}canon\nprint\n".encode()
        try:
            wanted = script.run(run, True, script.BOXES, script.ALL)
        except rules.Open:
            continue
        ran = subprocess.run([program, "--brief"], input=run, capture_output=True)
        if (ran.returncode, ran.stdout) != wanted:
            print(f"{name}:\n{text.decode()}\nthe program: {ran.returncode}\n{ran.stdout.decode()}\nthe rules: "
                  f"{wanted[0]}\n{wanted[1].decode()}")
            return 1
        if ran.returncode == 0:
            whole += 1
            rewritten += not ran.stdout.startswith(b"1 converged 0\n")
            second = f"{2 + len(script.BOXES)} converged 0\n".encode()
            if second not in ran.stdout:
                print(f"{name}: a second run rewrites\n{text.decode()}\n{ran.stdout.decode()}")
                return 1
    print(f"seed {seed}: {whole} modules, {rewritten} of them rewritten: no difference, and none is rewritten again")
    return 0


if __name__ == "__main__":
    sys.exit(main(sys.argv[1:]))
