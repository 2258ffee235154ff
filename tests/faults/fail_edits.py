#!/usr/bin/env python3
"""Runs a program over a script of every edit, mark and rollback with each of its allocations refused in turn, with and
without listings. Each run has to end, and its status and all its bytes have to be among those that one refused
allocation explains by the rules (oracle/refused.py). It needs a C compiler.

usage: tests/faults/fail_edits.py PROGRAM [KINDS]

KINDS are the program's listeners in their order, with commas (all seven if they aren't given)."""
import collections
import sys
import tempfile

import checkout  # noqa: F401

from oracle import refused, script
from tests.faults.refusing import Program

MODULE = b"""\"func.func\"() <{function_type = (i32) -> i32, sym_name = \"f\"}> ({
^bb0(%a: i32):
  %c = \"arith.constant\"() <{value = 2 : i32}> : () -> i32
  %s = \"arith.addi\"(%a, %c) <{overflowFlags = #arith.overflow<none>}> : (i32, i32) -> i32
  \"func.return\"(%s) : (i32) -> ()
}) : () -> ()
// -----
"""
COMMANDS = """set-operand #3 0 %v2.0
move #2 start #1 0
insert before #4 %0:2 = "test.a"(%v2.0) ({ ^bb0(%x: i8): "test.b"(%x) : (i8) -> () }, {}) \
{k = [@f, "name"]} : (i32) -> (i32, index)
begin
replace %v3.0 %v5.0
set-attr #3 note {deep = [1 : i7, memref<?xi7>]}
begin
drop-attr #3 note
erase #3
insert before #4 "func.call"() <{callee = @f}> : () -> ()
move #7 start #1 0
rollback
set-attr #2 value 3 : i32
set-operand #4 0 %v2.0
commit
report symbols
insert end #0 0 "func.call"() <{callee = @f}> : () -> ()
move #7 start #1 0
report symbols
erase #5
drop-attr #1 nothing
jump
resync constants
report constants
begin
erase #1
rollback
detach effects
replace %v2.0 %a1.0.0
print
""".encode()


def look(program, brief, kinds):
    """How many runs aren't explained."""
    known, counts, bad, number = refused.explained(MODULE + COMMANDS, brief, kinds), collections.Counter(), 0, 1
    while True:
        was_refused, answer = program.run(MODULE + COMMANDS, number, brief)
        if answer not in known:
            bad += 1
            print(f"allocation {number}: status {answer[0]}\n{answer[1].decode()}")
        counts[known.get(answer, "not explained")] += 1
        if not was_refused:
            break
        number += 1
    said = ", ".join(f"{count} {word}" for word, count in sorted(counts.items()))
    print(f"{'brief' if brief else 'with listings'}: {number - 1} refused ({said})", flush=True)
    return bad + (answer != script.run(MODULE + COMMANDS, brief, kinds))


def main(argv):
    if not 1 <= len(argv) <= 2:
        sys.exit(__doc__)
    kinds = argv[1].split(",") if len(argv) > 1 else script.BOXES
    with tempfile.TemporaryDirectory() as work:
        program = Program(argv[0], work)
        return 1 if sum(look(program, brief, kinds) for brief in (True, False)) else 0


if __name__ == "__main__":
    sys.exit(main(sys.argv[1:]))
