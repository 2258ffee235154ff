#!/usr/bin/env python3
"""Refuses allocations of runs of a program, and checks by the rules that the output is possible (oracle/outputs.py): a
command that isn't accepted leaves the module; a listener has the rows of the module, is stale, or is refused with 36; a
command that takes no memory is never refused with 36. It needs a C compiler.

usage: tests/faults/fail_script.py PROGRAM [--without COMMAND,..] [--parts script,alone,conversion] [--every N]
                                   [--sizes N,..] [--processes N]

- script: one of every command over a function, marks inside a mark that stays open, with and without listings. The Nth
  growth is refused, for N from 1 until a run has no Nth; the Nth and the two after it; and each from the Nth on, until
  the script has rolled back all open marks. Then there is memory again: the module has to be the first one, with its
  ids and its next id, and each listener has to have its rows once it has begun again.
- alone: each growth of one command, and each from it on, with all seven listeners and with none. Afterwards the same
  command has to do what it does without refused allocations.
- conversion: each growth of a refused conversion, with each listener alone, in modules of several sizes.

With `--every N` only each Nth growth of the script is taken; the sizes are of the modules of a conversion. The table
says how many growths were refused, and the results. The status is 1 if something isn't explained, or if a listener
never turned stale in a refused conversion."""
import argparse
import collections
import concurrent.futures
import os
import sys
import tempfile

import checkout  # noqa: F401

from oracle import claims, outputs, script
from tests.faults import fail_listeners
from tests.faults.refusing import ALL, Program

MODULE = """"func.func"() <{function_type = (i32) -> i32, sym_name = "f"}> ({
^bb0(%a: i32):
  %c = "arith.constant"() <{value = 2 : i32}> : () -> i32
  %s = "arith.addi"(%a, %c) <{overflowFlags = #arith.overflow<none>}> : (i32, i32) -> i32
  "func.return"(%s) : (i32) -> ()
}) : () -> ()
"""
DIVIDER = "// -----\n"
ASKED = [f"report {kind}" for kind in script.BOXES]
REMAINDER = '%0 = "arith.remsi"(%v3.0, %v2.0) : (i32, i32) -> i32'
PRIVATE = '"func.func"() <{function_type = () -> (), sym_name = "p", sym_visibility = "private"}> ({}) : () -> ()'
# The remainder is made of a quotient, a product and a difference, which is refused then; all is undone.
TOO_DEEP = "convert partial illegal arith.remsi,arith.subi rules 27,26 depth 1"
TOLD_TOO_DEEP = TOO_DEEP.replace("convert", "convert trace")
DEEPER = "convert partial illegal arith.remsi,arith.subi,arith.addi rules 27,26 depth 2"
# A function with a remainder, and values for what a container has.
CONVERTED = """"func.func"() <{function_type = (i32, i32) -> i32, sym_name = "r"}> ({
^bb0(%a: i32, %b: i32):
  %r = "arith.remsi"(%a, %b) : (i32, i32) -> i32
  "func.return"(%r) : (i32) -> ()
}) : () -> ()
%c = "arith.constant"() <{value = 2 : i32}> : () -> i32
%s = "arith.muli"(%c, %c) : (i32, i32) -> i32
"""
# A pattern that is right, and one that isn't.
NEGATED = "pattern negated arith.addi(%a, c) => arith.subi(%a, neg(c))"
HALF = "pattern half arith.divsi(%a, c) => arith.shrsi(%a, log2(c))"
# (few values are tried, so that there are few growths)
THREE = "pattern three arith.addi(1, 2) => 3"
# The first mark stays open; those inside it are dropped, or gone back to.
OPENED = [
    "begin", "set-operand #3 0 %v2.0", "move #2 start #1 0", "begin",
    'insert before #4 %0:2 = "test.a"(%v2.0) ({ ^bb0(%x: i8): "test.b"(%x) : (i8) -> () }, {}) {k = [@f, "name"]} : '
    '(i32) -> (i32, index)',
    "replace %v3.0 %v5.0", "set-attr #3 note {deep = [1 : i7, memref<?xi7>]}", "begin", "drop-attr #3 note", "erase #3",
    f"insert end #0 0 {PRIVATE}", "sweep", "commit", "canon limit 1", "rollback",
    f"insert before #4 {REMAINDER}", "set-operand #4 0 %v5.0", TOO_DEEP, "begin",
    "convert partial illegal arith.remsi rules 27", "rollback", TOLD_TOO_DEEP, "begin",
    "convert trace partial illegal arith.remsi rules 27", "rollback",
    "convert partial illegal func.return rules 25", f"insert end #0 0 {PRIVATE}", "sweep", "erase #9", "jump",
    "set-attr #3 k 1 : i129", "insert before #3 %0 =",
    'set-attr #1 function_type (i32) -> i64', "report diagnostics", "report uses of %v2.0",
    "report symbols of #1", "report dead of #99", "canon trace", "resync constants", "resync symbols",
    NEGATED, HALF, THREE, "check half", "check negated width 2", "check three", "check half width 9 sampled",
    "rewrite negated,three proved", "check all", "pattern! half arith.divui(%a, 2) => arith.shrui(%a, 1)",
    "patterns", NEGATED, "pattern p arith.addi(%a) => %a",
    'insert before #4 %0 = "arith.addi"(%a1.0.0, %v8.0) : (i32, i32) -> i32', "apply negated #4", "apply negated #9",
    "print", *ASKED, "detach dead", "report dead", "begin", "erase #1", "commit"]
CLOSED = ["rollback", "rollback", "rollback"]
# What is written by the last rollback, and how many lines have replies that fill what is written at once, without
# listings and with.
UNTIL, FILLING = "NoMark", {True: ["x"] * 400, False: ["x"] * 240}
BEGUN = [f"resync {kind}" for kind in script.BOXES]
AFTER = ["print", *BEGUN, *ASKED, 'insert end #0 0 "test.z"() : () -> ()']


def without(lines, gone):
    return [line for line in lines if line.split(" ")[0] not in gone]


def written(module, lines):
    return (module + DIVIDER + "".join(line + "\n" for line in lines)).encode()


class Look:
    """A program, the results of its refused growths, and how many runs aren't explained."""

    def __init__(self, program, gone):
        self.program, self.gone = program, gone
        self.commands, self.kinds = script.ALL - set(gone), script.BOXES
        self.counts, self.bad, self.rules = collections.defaultdict(collections.Counter), 0, {}

    def rules_of(self, module):
        if module not in self.rules:
            self.rules[module] = outputs.Rules(module.encode(), self.commands)
        return self.rules[module]

    def run(self, row, module, lines, number, brief=True, many=1, until=None, calm=None):
        """Whether there was a growth to refuse. Notes the result, or prints what isn't explained."""
        was_refused, answer = self.program.run(written(module, lines), number, brief, many, until)
        try:
            faults = outputs.followed(self.rules_of(module), lines, brief, self.kinds, *answer, calm=calm)
            if many == 1 and sum(faults.values()) > 1:
                raise outputs.NoOutput(f"one growth was refused, and there are {dict(faults)}")
        except outputs.NoOutput as why:
            self.bad += 1
            print(f"{row}, growth {number} and {many - 1} more: {why}\nstatus "
                  f"{answer[0]}\n{answer[1].decode()[-3000:]}", flush=True)
            faults = {"not explained": 1}
        if was_refused:
            self.counts[row][", ".join(sorted(faults)) if many == 1 else "several" if sum(faults.values()) > 1
                             else "one"] += 1
            self.counts[row]["all"] += 1
        return was_refused, faults

    # The script.

    def whole(self, brief, name, many, every):
        """Refuses growths of the script from each on."""
        opened, filling = without(OPENED, self.gone), FILLING[brief] if many == ALL else []
        lines = opened + CLOSED + filling + AFTER
        calm = len(opened + CLOSED + filling) + 1 if many == ALL else None
        for number in range(1, 1000000, every):
            if not self.run(("script", "brief" if brief else "with listings", name), MODULE, lines, number, brief, many,
                            UNTIL if many == ALL else None, calm)[0]:
                return

    # One command.

    def alone(self, module, before, command, kept):
        detached = [f"detach {kind}" for kind in script.BOXES if kind not in kept]
        front, behind = detached + before, [*(f"report {kind}" for kind in kept), command, "print",
                                            *(f"resync {kind}" for kind in kept), *(f"report {kind}" for kind in kept),
                                            command, "print"]
        # Comments of as many bytes stand for what isn't run yet.
        hidden = ["//" + "-" * (len(line) - 2) for line in [command] + behind]
        first = self.program.count(written(module, front + hidden))[0] + 1
        last = self.program.count(written(module, front + [command] + hidden[1:]))[0]
        row = "alone", command.split(" ")[0] + (", a mark open" if "begin" in before else ""), f"{len(kept)} listeners"
        for number in range(first, last + 1):
            for many in (1, last + 1 - number):
                self.run(row, module, front + [command] + behind, number, True, many)

    def conversion(self, kind, size):
        """A refused conversion with one listener."""
        module = CONVERTED + fail_listeners.container(kind, size, ("%s", "%c")) + "\n"
        lines = [f"detach {it}" for it in script.BOXES if it != kind]
        behind = [f"report {kind}", "print", f"resync {kind}", f"report {kind}"]
        hidden = ["//" + "-" * (len(line) - 2) for line in [DEEPER] + behind]
        first = self.program.count(written(module, lines + hidden))[0] + 1
        last = self.program.count(written(module, lines + [DEEPER] + hidden[1:]))[0]
        for number in range(first, last + 1):
            self.run(("conversion", "convert, refused", kind), module, lines + [DEEPER] + behind, number)


# Each command that takes memory or notifies listeners, with the lines before it.
COMMANDS = [
    ([], "set-operand #3 0 %v2.0"), ([], "move #2 start #1 0"), ([], "replace %v3.0 %v2.0"), ([], "erase #1"),
    ([], "drop-attr #3 overflowFlags"),
    ([], "set-attr #3 note {deep = [1 : i7, memref<?xi7>]}"), ([], f"insert end #0 0 {PRIVATE}"), ([], OPENED[4]),
    ([], "begin"), (["begin"] * 3, "begin"),
    ([], "report uses"), ([], "print"), ([], "resync uses"), ([f"insert end #0 0 {PRIVATE}"], "sweep"), ([], "sweep"),
    ([], "canon"), ([], "canon limit 1"), ([], "canon trace"), (["set-operand #3 0 %v2.0"], "canon trace limit 2"),
    (["set-operand #3 0 %v2.0"], "rewrite 2,1"), (["set-operand #3 0 %v2.0"], "rewrite 2,1 trace"),
    (["set-operand #3 0 %v2.0"], "canon fired limit 1"), (["set-operand #3 0 %v2.0"], "canon fired limit 2"),
    (["set-operand #3 0 %v2.0", NEGATED], "rewrite negated,2,1 fired limit 1"),
    (["set-operand #3 0 %v2.0"], "canon"), (["set-operand #3 0 %v2.0"], "canon at #3"), ([], "why #3"),
    ([], "why #3 fold-to-constant"), ([], "show all"), ([], "show #1 2"), ([], "apply 1 #2"), ([], "apply 2 #3"),
    ([], "apply drop-zero #3"),
    (["begin", "set-operand #3 0 %v2.0", "erase #4", "insert end #1 0 \"test.z\"(%v3.0) : (i32) -> ()"], "rollback"),
    ([], NEGATED), ([NEGATED], "patterns"), ([NEGATED], "check negated width 2"), ([HALF], "check half"),
    ([THREE], "check three"), ([THREE, "pattern four arith.subi(1, 2) => 4"], "check all"),
    ([THREE], "pattern! three arith.addi(1, 2) => 4"), ([], "pattern! three arith.addi(1, 2) => 3"),
    ([NEGATED], "rewrite negated proved"), ([HALF], "check half width 9 sampled"),
    ([NEGATED], "apply negated #3"), ([NEGATED], "apply negated #2"), ([NEGATED], NEGATED),
    ([f"insert before #4 {REMAINDER}"], TOO_DEEP),
    ([f"insert before #4 {REMAINDER}"], "convert partial illegal arith.remsi rules 27"), ([], "convert partial"),
    ([f"insert before #4 {REMAINDER}"], TOLD_TOO_DEEP), ([], "convert trace full"),
    ([f"insert before #4 {REMAINDER}"], "convert trace partial illegal arith.remsi,arith.subi rules 27,26")]
MARKED = {"set-operand", "move", "replace", "erase", "drop-attr", "set-attr", "insert", "sweep", "canon", "rewrite",
          "convert", "apply"}
SIZES = [0, 1, 2, 3, 4, 7, 8, 11, 14, 15, 16]


def jobs(look, parts, every, sizes):
    """Each call that is asked for."""
    if "script" in parts:
        for brief in (True, False):
            for name, many in (("one", 1), ("three", 3), ("from it on", ALL)):
                yield look.whole, (brief, name, many, every)
    if "alone" in parts:
        for before, command in COMMANDS:
            word = command.split(" ")[0]
            if word in look.gone:
                continue
            fronts = [before] + [["begin"] + before] * (word in MARKED and "begin" not in before)
            for front in fronts:
                for kept in ((), script.BOXES):
                    if word in ("report", "resync") and not kept:
                        continue
                    yield look.alone, (MODULE, front, command, kept)
    if "conversion" in parts and "convert" not in look.gone:
        for kind in script.BOXES:
            for size in sizes:
                yield look.conversion, (kind, size)


def one(words, place):
    """The result of one of the jobs, in a separate process."""
    with tempfile.TemporaryDirectory() as work:
        look = Look(Program(words.program, work), [word for word in words.without.split(",") if word])
        call, given = list(jobs(look, words.parts.split(","), words.every, words.sizes))[place]
        call(*given)
        return dict(look.counts), look.bad


def table(counts):
    print("| Part | Growths of | How | Runs | What came of it |\n|---|---|---|---|---|")
    for row, here in counts.items():
        said = ", ".join(f"{count:,} {word or 'as due'}" for word, count in sorted(here.items()) if word != "all")
        print(f"| {' | '.join(row)} | {here['all']:,} | {said} |")
    print(f"{sum(here['all'] for here in counts.values()):,} runs with refused growths")


def main():
    reader = argparse.ArgumentParser(description=__doc__, usage=argparse.SUPPRESS,
                                     formatter_class=argparse.RawDescriptionHelpFormatter)
    reader.add_argument("program")
    reader.add_argument("--without", default="")
    reader.add_argument("--parts", default="script,alone,conversion")
    reader.add_argument("--every", type=int, default=1)
    reader.add_argument("--sizes", type=lambda text: [int(size) for size in text.split(",")], default=SIZES)
    reader.add_argument("--processes", type=int, default=1)
    words = reader.parse_args()
    os.environ[claims.VARIABLE] = words.program
    gone = [word for word in words.without.split(",") if word]
    count = len(list(jobs(Look(None, gone), words.parts.split(","), words.every, words.sizes)))
    counts, bad = collections.defaultdict(collections.Counter), 0
    with concurrent.futures.ProcessPoolExecutor(words.processes) as pool:
        for more, wrong in pool.map(one, [words] * count, range(count)):
            bad += wrong
            for row, here in more.items():
                counts[row] += here
                print(*row, here["all"], file=sys.stderr, flush=True)
    table(counts)
    missing = [row[2] for row, here in counts.items() if row[0] == "conversion" and not here["stale"]]
    print(f"{bad} not explained" + (f"; never stale in a refused conversion: {', '.join(missing)}" if missing else ""))
    return 1 if bad or missing else 0


if __name__ == "__main__":
    sys.exit(main())
