#!/usr/bin/env python3
"""Counts the allocations of the calls of a module under edits, by runs of crates/ir_store_cases that differ in nothing
else.

A line whose call has another word of the same length is read and answered in the same way, but calls no module. The
cost of some lines is how many more allocations a run with them makes than a run with such words. The program checks
some calls first, for which it reads the whole module. The same call, refused by this check, gives the cost of the
check. A call that is refused at once gives the cost of a refusal's words. The rest is the cost of the call, which has
to be 0.

Then rounds of `put`, `take` and `release` are run, and more of them: the most bytes in use may differ by the table of
ids alone, since ids aren't used again: at most 16 bytes a round.

usage: tests/faults/no_memory.py PROGRAM        (the program built from crates/ir_store_cases; it needs a C compiler)"""
import os
import pathlib
import subprocess
import sys
import tempfile

COUNT = pathlib.Path(__file__).with_name("count.c")
MODULE = ("load 10 : op:0 name:0 block op:1 res:0 end op:2 res:0 end op:3 use:1.0 end op:4 use:1.0 end op:5 name:1 "
          "attr:54=0 end end")
ROUNDS = 500


def run(program, library, lines):
    """The answers, how often it allocated, and the most bytes in use."""
    told, teller = os.pipe()
    env = {"LD_PRELOAD": library, "COUNT_TELL": str(teller)}
    done = subprocess.run([program], input="".join(line + "\n" for line in lines).encode(), stdout=subprocess.PIPE,
                          env=env,
                          pass_fds=[teller], timeout=600, check=True)
    os.close(teller)
    count, most = os.read(told, 80).split()
    os.close(told)
    return done.stdout.decode().splitlines(), int(count), int(most)


def asked(line):
    """A line of the same length that asks no module."""
    return "-" + line[1:]


def same(name, more):
    print(f"{name}: {more} more allocations in {ROUNDS} rounds")
    return more != 0


class Costs:
    def __init__(self, program, library):
        self.run = lambda lines: run(program, library, [MODULE, "show nothing", *lines])

    def of(self, *cycle, before=(), ok=False):
        """What the lines of a cycle cost in all rounds."""
        answers, count, _ = self.run([*before, *cycle * ROUNDS])
        if ok and set(answers[2:]) != {"ok"}:
            sys.exit(f"{cycle}: it answers {answers[2:6]}")
        return count - self.run([*before, *map(asked, cycle * ROUNDS)])[1]


def calls(costs):
    back, none = "restore old 3 0 0 4", "restore old 9 0 0 4"
    read = costs.of(none, before=["take 3"])  # the module without #3
    words = costs.of("take 9")
    shifts, reverts = ["shift 3 0 0 end", "shift 3 0 0 4"], ["revert 5 attrs 54 1", "revert 5 attrs 54 0"]
    held = [line for op in range(ROUNDS) for line in (PUTS[1], f"take {10 + op}")]
    first = costs.of("retract old 1") - costs.of("take 1")  # to read the module, and whether its ids are distinct
    return sum([
        same("set_operand", costs.of("set 3 0 2.0", "set 3 0 1.0", ok=True)),
        same("take, restore", costs.of("take 3", back, ok=True) - read),
        same("retract, restore", costs.of("retract old 3", back, ok=True) - first - 2 * read),
        same("shift", costs.of(*shifts, ok=True) - 2 * (costs.of("shift 9 0 0 4") - words)),
        same("revert_entry", costs.of(*reverts, ok=True) - 2 * costs.of("revert 9 attrs 54 1")),
        same("release", costs.of("release 10", before=held, ok=True)),
        same("release of gone keys", costs.of("release 0", before=["entry 5 attrs 54 -"], ok=True)),
    ])


# Headers that are put.
PUTS = ["put 0 0 end : op:0 res:0 end", "put 0 0 3 : op:0 use:1.0 use:2.0 res:0 block arg:0 end"]


def rounds(program, library, puts, number):
    """How many more bytes are in use at most for each round, with input of the same length."""
    runs = []
    for many in number, 2 * number:
        lines = [MODULE, "show nothing"]
        for op in range(10, 10 + many):
            lines += [puts[op % len(puts)], f"take {op}", "release 10"]
        runs.append(lines)
    length = [sum(len(line) + 1 for line in lines) for lines in runs]
    runs[0].append("-" * (length[1] - length[0] - 1))
    most = []
    for lines, many in zip(runs, (number, 2 * number)):
        answers, _, used = run(program, library, lines)
        if set(answers[2:2 + 3 * many]) != {"ok"}:
            sys.exit(f"it answers {answers[2:8]}")
        most.append(used)
    return (most[1] - most[0]) / number


def main():
    [program] = sys.argv[1:]
    with tempfile.TemporaryDirectory() as work:
        library = work + "/count.so"
        subprocess.run([os.environ.get("CC", "cc"), "-shared", "-fPIC", "-O1", "-o", library, COUNT], check=True)
        bad = calls(Costs(program, library))
        for puts in PUTS[:1], PUTS[1:], PUTS:
            more = rounds(program, library, puts, 100000)
            print(f"100,000 rounds of {', '.join(puts)}: {more:.1f} bytes more each")
            bad += more > 16
    sys.exit(1 if bad else 0)


main()
