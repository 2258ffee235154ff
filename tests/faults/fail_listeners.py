#!/usr/bin/env python3
"""Refuses each allocation of each call of a listener in turn: begin, each of the five events of an edit and of the
rollback of the inverse edit, and report, in modules and trees of several sizes, so that each table grows. Each script
has one listener attached. The output has to be that of the rules (oracle) for a refused command, for a stale listener,
or for neither. A listener may become stale only at an event that may need memory (docs/LISTENERS.md). After the call
the script reports twice, edits, reports, rolls back and reports if a mark is open, begins the listener again, reports,
and prints. It needs a C compiler.

usage: tests/faults/fail_listeners.py PROGRAM [KINDS [SIZES]]

KINDS and SIZES are lists with commas. The table says for each kind and call how many allocations were refused, and the
results: the listener was stale or up to date; the command was refused; the listener, or another one, wasn't attached;
or there was no module. The status is 1 if something isn't explained, or if nothing was refused of what needs memory."""
import collections
import concurrent.futures
import sys
import tempfile

import checkout  # noqa: F401

from oracle import refused, script
from oracle.module import read
from tests.faults.refusing import Program

SIZES = [0, 1, 2, 3, 4, 7, 8, 11, 14, 15, 16]
# The sizes at which also each allocation of a whole run is refused.
ATTACHED = [0, 3, 16]
AT_ONCE = 4
EVENTS = ["Put", "Take", "SetOperand", "SetEntry", "Shift"]
# The events that a listener may need memory to follow.
NEEDS = {"uses": {"Put", "SetOperand"}, "symbols": {"Put", "SetOperand", "SetEntry", "Shift"},
         "diagnostics": set(EVENTS), "effects": {"Put"}, "dead": {"Put"},
         "constants": {"Put", "SetOperand", "SetEntry"}, "unreached": {"Put", "SetOperand", "SetEntry", "Shift"}}
OUTCOMES = ["stale", "whole", "refused", "not attached", "other not attached", "no module"]
INVERSE = {"Put": "Take", "Take": "Put"}

# Where each operation has its number: the container, #12, is last.
BASE = """%x = "test.d"() : () -> i32
%y = "test.d"() : () -> i64
%c = "arith.constant"() <{value = 2 : i32}> : () -> i32
%s = "arith.addi"(%c, %c) : (i32, i32) -> i32
%t = "arith.muli"(%s, %s) : (i32, i32) -> i32
%b = "test.d"() : () -> i1
"scf.if"(%b) ({
  "test.a"(%t) {k = [@f, @g]} : (i32) -> ()
  "scf.yield"() : () -> ()
}, {}) : (i1) -> ()
"func.func"() <{function_type = (i32) -> i32, sym_name = "f", sym_visibility = "private"}> ({}) : () -> ()
%r = "func.call"(%x) <{callee = @f}> : (i32) -> i32
"""
HOLDS = 12
CONTAINERS = dict.fromkeys(("symbols", "unreached"),
                           '"builtin.module"() <{{sym_name = "m"}}> ({{ ^bb0: {} }}) : () -> ()')
CONTAINER = '"test.r"() ({{ ^bb0: {} }}) : () -> ()'
# Each operation in the container has its own entry in the listener's table.
FILLERS = {"uses": '"test.u"({s}, {c}) : (i32, i32) -> ()',
           "symbols": '"func.func"() <{{function_type = (i32) -> i32, sym_name = "h"}}> ({{}}) {{k = [@f, @g]}} : () '
                      '-> ()',
           "diagnostics": '"arith.addi"({s}) : (i32) -> ()', "effects": '"memref.alloc"() : () -> memref<i32>',
           "dead": '"arith.addi"({s}, {c}) : (i32, i32) -> i32',
           "constants": '"arith.addi"({s}, {c}) : (i32, i32) -> i32',
           "unreached": '"func.func"() <{{function_type = (i32) -> i32, sym_name = "h", sym_visibility = "private"}}> '
                        '({{}}) {{k = [@f, @g]}} : () -> ()'}
# Edits that are one event, or several of one kind, and an edit that is its inverse.
OPERANDS = {**dict.fromkeys(("symbols", "unreached"), ("set-operand #11 0 %v2.0", "set-operand #11 0 %v1.0")),
            "diagnostics": ("set-operand #4 1 %v2.0", "set-operand #4 1 %v3.0")}
OPERAND = "set-operand #4 1 %v1.0", "set-operand #4 1 %v3.0"
REPLACES = "replace %v3.0 %v1.0", "replace %v1.0 %v3.0"
ENTRIES = {**dict.fromkeys(("symbols", "unreached"), ("set-attr #11 callee @g::@h", "drop-attr #11 callee")),
           "diagnostics": ("set-attr #3 value 7 : i64", "drop-attr #3 value")}
ENTRY = "set-attr #3 value 7 : i32", "drop-attr #3 value"
SHIFTS = "move #8 end #7 0", "move #8 start #7 0"
ELSEWHERE = "insert end #0 0 \"test.u\"(%v3.0) : (i32) -> ()"


def filler(kind, values):
    return FILLERS[kind].format(**dict(zip("sc", values)))


def container(kind, count, values):
    return CONTAINERS.get(kind, CONTAINER).format(" ".join([filler(kind, values)] * count))


def edits(kind, size):
    """Each event with an edit that makes it, and the edit back, if there is one."""
    values, new = ("%v4.0", "%v3.0"), HOLDS + size + 1
    yield "Put", f"insert end #{HOLDS} 0 {filler(kind, values if kind not in CONTAINERS else ())}", f"erase #{new}"
    yield "Put", f"insert end #0 0 {container(kind, size, values)}", f"erase #{new}"
    # These were there when the listener began.
    yield "Take", f"erase #{HOLDS}", None
    yield "SetOperand", *OPERANDS.get(kind, OPERAND)
    yield "SetOperand", *REPLACES
    yield "SetEntry", *ENTRIES.get(kind, ENTRY)
    yield "Shift", *SHIFTS


def calls(kind, size):
    """The event, its cause, the commands before, and the command."""
    yield "begin", "resync", [], f"resync {kind}"
    yield "report", "report", [], f"report {kind}"
    for event, there, back in edits(kind, size):
        inverse = INVERSE.get(event, event)
        yield event, "edit", [], there
        yield event, "edit", ["begin"], there
        yield inverse, "rollback", ["begin", there], "rollback"
        if back:
            yield inverse, "edit", [there], back
            yield inverse, "edit", [there, "begin"], back
            yield event, "rollback", [there, "begin", back], "rollback"


def behind(kind, before, command):
    """The commands after a call."""
    report, is_marked = f"report {kind}", "begin" in before and command != "rollback"
    return [report, report, ELSEWHERE, report] + ["rollback", report] * is_marked + [f"resync {kind}", report, "print"]


def detached(kind):
    return [f"detach {it}" for it in script.BOXES if it != kind]


def text_of(kind, size, lines):
    module = BASE + container(kind, size, ("%s", "%c")) + "\n"
    return module.encode(), (module + "// -----\n" + "".join(line + "\n" for line in lines)).encode()


def answers(kind, event, module, before, command):
    """What is written where the command was refused, the listener went stale by it, or neither, by which it was."""
    run, found = refused.Once(read(module), script.BOXES, script.ALL), {}
    front = "".join(run.step(place + 1, line, None, True) for place, line in enumerate(before))
    assert " refused " not in front, front
    state = run.state()
    faults = [("whole", None), ("refused", ("reply",))] + [("stale", ("stale", kind))] * (event in NEEDS[kind])
    for word, fault in faults:
        run.back(state)
        text = run.step(len(before) + 1, command, fault, True)
        if text is None:
            continue
        assert word == "refused" or " refused " not in text, text
        rest = [run.step(len(before) + 2 + place, line, None, True) for place,
                line in enumerate(behind(kind, before, command))]
        out = front + text + "".join(rest)
        found.setdefault((refused.status_of(out), out.encode()), word)
    return found


class Look:
    """A program, the results of its refused allocations, and how many of them aren't explained."""

    def __init__(self, program):
        self.program, self.counts, self.bad = program, collections.defaultdict(collections.Counter), 0

    def note(self, row, word):
        self.counts[row][word] += 1

    def wrong(self, number, text, answer):
        self.bad += 1
        print(f"allocation {number}:\n{text.decode()}\nstatus {answer[0]}\n{answer[1].decode()}", flush=True)

    def call(self, kind, size, event, how, before, command):
        """Refuses each allocation of a command in turn."""
        before = detached(kind) + before
        said = [command] + behind(kind, before, command)
        # Comments of as many bytes stand for what isn't run yet.
        hidden = ["//" + "-" * (len(line) - 2) for line in said]
        module, text = text_of(kind, size, before + said)
        known = answers(kind, event, module, before, command)
        first = self.program.count(text_of(kind, size, before + hidden)[1])[0] + 1
        last = self.program.count(text_of(kind, size, before + said[:1] + hidden[1:])[1])[0]
        answer = self.program.count(text)[1]
        if known.get(answer) != "whole":
            self.wrong(0, text, answer)
        for number in range(first, last + 1):
            was_refused, answer = self.program.run(text, number)
            word = known.get(answer) if was_refused else None
            if word is None:
                self.wrong(number, text, answer)
            self.note((kind, event, how), word)

    def attached(self, kind, size):
        """Refuses each allocation of a run that attaches the listeners, leaves one, and asks it."""
        text = text_of(kind, size, detached(kind) + [f"report {kind}"])[1]
        known, number = refused.explained(text, True), 1
        while True:
            was_refused, answer = self.program.run(text, number)
            if answer not in known or not was_refused and known[answer] != "whole":
                self.wrong(number, text, answer)
            if not was_refused:
                return
            self.note((kind, "begin", "attach"), self.outcome(kind, known.get(answer, ""), answer[1]))
            number += 1

    @staticmethod
    def outcome(kind, word, out):
        if word == "box refused":
            return "not attached" if out.startswith(f"attach {kind} ".encode()) else "other not attached"
        if word in ("module refused", "no memory in main"):
            return "no module"
        return word if word == "whole" else "refused"


def rows(kind):
    """The calls in the order of the table."""
    yield "begin", "attach"
    yield "begin", "resync"
    for event in EVENTS:
        yield event, "edit"
        yield event, "rollback"
    yield "report", "report"


def needed(kind, event, how):
    """The result that a call must have at least once, if any."""
    if how == "attach":
        return "not attached"
    if event in EVENTS:
        if (kind, event, how) == ("uses", "Take", "edit"):
            # Asks for memory, and does without.
            return "whole"
        if (event, how) == ("Put", "rollback") and kind in ("effects", "dead"):
            # The place of an operation that was taken is there still.
            return None
        return "stale" if event in NEEDS[kind] else None
    return "refused"


def table(counts, kinds):
    """Prints the table, and says how many calls didn't need memory that have to."""
    missing = 0
    print("| Kind | Call | Allocations refused | " + " | ".join(OUTCOMES) + " |\n" + "|---" * (3 + len(OUTCOMES)) + "|")
    for kind in kinds:
        for event, how in rows(kind):
            here = counts[kind, event, how]
            call = f"{event}, by {how}" if how != "report" else how
            print(f"| {kind} | {call} | {sum(here.values())} | "
                  + " | ".join(str(here[word] or "") for word in OUTCOMES) + " |")
            want = needed(kind, event, how)
            missing += want is not None and not here[want]
    print(f"{sum(sum(it.values()) for it in counts.values())} allocations refused", flush=True)
    return missing


def main(argv):
    if not 1 <= len(argv) <= 3:
        sys.exit(__doc__)
    kinds = argv[1].split(",") if len(argv) > 1 else script.BOXES
    sizes = [int(it) for it in argv[2].split(",")] if len(argv) > 2 else SIZES
    with tempfile.TemporaryDirectory() as work, concurrent.futures.ThreadPoolExecutor(AT_ONCE) as pool:
        look = Look(Program(argv[0], work))
        jobs = []
        for kind in kinds:
            for size in sizes:
                if size in ATTACHED:
                    jobs.append(pool.submit(look.attached, kind, size))
                jobs += [pool.submit(look.call, kind, size, *call) for call in calls(kind, size)]
        for job in jobs:
            job.result()
    missing = table(look.counts, kinds)
    print(f"{look.bad} not explained, {missing} calls in which nothing was refused that needs memory")
    return 1 if look.bad or missing else 0


if __name__ == "__main__":
    sys.exit(main(sys.argv[1:]))
