#!/usr/bin/env python3
"""Times each word of a session (tools/session.py) over large modules: the seconds until a line that is typed is
answered, and in brackets those of the program alone, both as processor time, the least of some rounds. After a `*` come
the seconds of wall time, if they are more than two.

usage: benchmarks/session_times.py [SIZE [ROUNDS [SHAPES]]]     (100000 operations, 3 rounds, all shapes)

The program is the built one, or that of MLIR_WORK. `--runs` prints how often it was run, and how
many megabytes went in and out, in place of seconds."""
import contextlib
import os
import resource
import sys
import time

import checkout  # noqa: F401
from benchmarks import shapes
from mlir_work.cli import program, session
from tools import launch

AIM = 2
REWRITE = {"functions": "sweep", "remainders": "convert partial illegal arith.remsi rules 27"}


def functions(n):
    """Functions of 20 operations, every other one private: nothing calls them."""
    head = ('"func.func"() <{{function_type = (i32, i32) -> i32, sym_name = "f{0}", sym_visibility = "{1}"}}> ({{\n'
            "^bb0(%a: i32, %b: i32):\n")
    body = "".join(shapes.added(f"%x{k}", f"%x{k - 1}" if k else "%a", "%b") for k in range(18))
    ends = ["public", "private"]
    return "".join(head.format(k, ends[k % 2]) + body + '"func.return"(%x17) : (i32) -> ()\n' + shapes.CLOSE
                   for k in range(n // 20))


def remainders(n):
    """Remainders in one function."""
    return shapes.remainders(n)[0]


SHAPES = {it.__name__: it for it in (shapes.addzero, shapes.deadchain, shapes.flat, functions, remainders)}


def lines(shape, n):
    """What is typed over a module of a shape, by what it is called in the table."""
    rewrite, middle = REWRITE.get(shape, "canon limit 1000000"), n // 40 * 20 + 10
    owner = middle // 20 * 20 + 1 if shape == "functions" else 1
    edit = f"set-operand #{middle} 1 %a{owner}.0.0"
    return [("`set-operand`", edit), ("`at #N`, behind an edit", f"at #{middle}"), ("`diff`, of one line", "diff"),
            ("`insert`", f'insert before #{middle} "t.a"() : () -> i32'), ("`diff`, of one line that came", "diff"),
            ("`ids`", "ids"), ("`undo`", "undo"), ("`uses %v`", f"uses %v{middle}.0"), ("`diagnostics`", "diagnostics"),
            ("`canon`, `sweep` or `convert`", rewrite), ("`diff`, of what that changed", "diff"), ("`at #N`", "at #1"),
            ("`undo` of that", "undo"), ("`set-attr`", f"set-attr #{middle} k 1"),
            ("`canon`, .. behind an edit", rewrite), ("`ids` behind that", "ids")]


class Clock:
    """What the program's runs took, and how much went in and out of them."""

    def __init__(self):
        self.run, self.runs = program.written, []
        program.written = self.written

    def written(self, text):
        """Runs the program."""
        status, out = self.run(text)
        self.runs.append((len(text), len(out)))
        return status, out


def spent(who):
    """Processor seconds, of this process or of those that it ran."""
    it = resource.getrusage(who)
    return it.ru_utime + it.ru_stime


def timed(clock, call):
    """What a call costs: all seconds, the program's, those by the clock, and its runs."""
    clock.runs = []
    here, there, begun = spent(resource.RUSAGE_SELF), spent(resource.RUSAGE_CHILDREN), time.perf_counter()
    call()
    there = spent(resource.RUSAGE_CHILDREN) - there
    return spent(resource.RUSAGE_SELF) - here + there, there, time.perf_counter() - begun, clock.runs


def say(lines):
    """Prints what is answered, which has to be no refusal."""
    if lines[0].startswith("refused"):
        sys.exit(lines[0])
    print(*lines, sep="\n")


def typed(shape, n, clock):
    """What each line costs, by what it is called."""
    here, costs = session.Session(SHAPES[shape](n).encode()), {}
    costs["the beginning"] = timed(clock, lambda: here.begin(b""))
    for name, line in lines(shape, n):
        costs[name] = timed(clock, lambda line=line: say(here.answer(line)))
    return costs


def cell(costs, with_runs):
    """The cell of a line in the table, of its costs in each round."""
    if with_runs:
        runs = costs[0][3]
        return f"{len(runs)}" + "".join(f", {given / 1e6:.1f} to {out / 1e6:.1f}" for given, out in runs)
    least, clock = min(costs), min(it[2] for it in costs)
    return f"{least[0]:.2f} ({least[1]:.2f})" + (f" *{clock:.2f}" if clock > AIM else "")


def main(words):
    launch.provide()
    with_runs = "--runs" in words
    words = [word for word in words if not word.startswith("--")]
    n, rounds = int(words[0]) if words else 100000, int(words[1]) if len(words) > 1 else 3
    names = words[2].split(",") if len(words) > 2 else list(SHAPES)
    clock, found = Clock(), {shape: [] for shape in names}
    with open(os.devnull, "w", encoding="utf-8") as nowhere, contextlib.redirect_stdout(nowhere):
        for shape in names:
            for _ in range(1 if with_runs else rounds):
                found[shape].append(typed(shape, n, clock))
    print("| Typed | " + " | ".join(names) + " |\n|---|" + "---|" * len(names))
    for name in found[names[0]][0]:
        cells = (cell([it[name] for it in found[shape]], with_runs) for shape in names)
        print(f"| {name} | " + " | ".join(cells) + " |")


if __name__ == "__main__":
    main(sys.argv[1:])
