"""Traces of the events that a listener is notified of, which are cases of crates/mlir_work_cases, and the diagnostics
of single operations, which are golden files; mlir_work_cases.py makes cases of them. The answers are those of the rules
(oracle/heard.py). Random cases come from the seed below."""
import random

from tests.generate.analyses_cases import EDITS, NEAR
from oracle import chance, examples, heard, script
from oracle.module import read, text_of

SEED = 21
SCRIPTS, COMMANDS = 150, 12
DIVIDER = "// -----\n"

# The function #1 of one argument: the constant #2, the sum #3 of both, and the return #4.
SUM = """"func.func"() <{function_type = (i32) -> i32, sym_name = "f"}> ({
^bb0(%a: i32):
  %c = "arith.constant"() <{value = 2 : i32}> : () -> i32
  %s = "arith.addi"(%a, %c) <{overflowFlags = #arith.overflow<none>}> : (i32, i32) -> i32
  "func.return"(%s) : (i32) -> ()
}) : () -> ()
"""
PRODUCT = 'insert before #4 %0 = "arith.muli"(%v2.0, %v2.0) : (i32, i32) -> i32\n'
# The sum is replaced by the constant and erased, a product is put in its place, and all is undone: six events in all.
UNDONE = "begin\nreplace %v3.0 %v2.0\nerase #3\n" + PRODUCT + "rollback\n"
SIX = ["set_#4_0_%v3.0_%v2.0", "take_#3_#1_0_#4_old", "put_#5_#1_0_#4_fresh", "take_#5_#1_0_#4_fresh",
       "put_#3_#1_0_#4_old", "set_#4_0_%v2.0_%v3.0"]


class Cases:
    def __init__(self, case):
        self.case = case

    def trace(self, text):
        """A run with its events, and the journal afterwards."""
        status, out, events, journal = heard.traced(text.encode())
        heard_and_left = (f"status {status} heard{heard.text_of_events(events)} journal {len(journal)}"
                          f"{heard.text_of_events(journal)}")
        self.case("trace", text.encode(), out + heard_and_left.encode())
        return [heard.text_of_event(event) for event in events], len(journal)


def six_events(cases):
    """A rollback notifies of exactly the inverses, the newest first."""
    assert cases.trace(SUM + DIVIDER + UNDONE) == (SIX, 0)
    # What was undone is made again with the same ids.
    assert cases.trace(SUM + DIVIDER + UNDONE + PRODUCT + "print\n") == (SIX + [SIX[2]], 0)
    assert cases.trace(SUM + DIVIDER + UNDONE.replace("rollback", "commit")) == (SIX[:3], 0)
    assert cases.trace(SUM + DIVIDER + UNDONE.replace("rollback\n", "")) == (SIX[:3], 3)


def unseen(cases):
    """An insert that is refused late, since an inner operand isn't dominated, is notified and taken back."""
    text = 'insert end #0 0 "t.a"() ({ "t.b"() : () -> () "t.c"(%v3.0) : (i32) -> () }) : () -> ()\n'
    cases.trace(SUM + DIVIDER + text + "print\n")


def by_hand(cases):
    """The events of edits that change rows elsewhere, and of each edit of a small module."""
    for _, _, edits in EDITS:
        said = [line for line in edits if line != "replace %v10.0 %a9.0.0"]
        try:
            cases.trace(NEAR + DIVIDER + "".join(line + "\n" for line in said))
        except heard.Unsaid:
            print("not told:", edits)
    for line in ("set-operand #3 0 %a1.0.0", "set-operand #3 1 %v2.0", "move #2 before #2", "move #2 before #3",
                 "move #2 start #1 0", "move #4 end #1 0", "set-attr #3 k unit", "set-attr #2 value 2 : i32",
                 "set-attr #2 value 3 : i32", "drop-attr #2 value", "drop-attr #2 nope", "erase #4", "erase #1",
                 "erase #3", "erase #0", "replace %v3.0 %v3.0", "replace %v3.0 %v2.0", "replace %v3.0 %v9.0",
                 "begin", "commit", "rollback", "report uses", "print", "detach kind102", "resync kind102",
                 'insert before #3 "t.a"(%v2.0) ({}, { ^b(%x: i8): "t.b"(%x) : (i8) -> () "t.c"() : () -> () }) : '
                 '(i32) -> ()',
                 'insert before #2 "t.a"(%v2.0) : (i32) -> ()', "jump"):
        for front, behind in (("", ""), ("begin\n", ""), ("begin\n", "rollback\n"), ("begin\n", "commit\n"),
                              ("begin\nset-attr #3 l unit\nbegin\n", "rollback\n"),
                              ("begin\nset-attr #3 l unit\nbegin\n", "commit\n"),
                              ("begin\nset-attr #3 l unit\nbegin\n",
                               "rollback\nset-attr #3 m unit\nrollback\nprint\n")):
            if "kind102" not in line:
                cases.trace(SUM + DIVIDER + front + line + "\n" + behind)


def by_chance(cases):
    """Scripts of edits and marks with the events of all, and a listener that turns stale at one of them."""
    maker = random.Random(SEED)
    for number in range(SCRIPTS):
        text = text_of(chance.module(maker, maker.randrange(5, 14), maker.choice([0, 0.1, 0.3]), "any"))
        run, lines = heard.Heard(read(text.encode())), []
        scripter = chance.Scripter(maker, run)
        for _ in range(COMMANDS):
            line = scripter.edit_or_mark()
            try:
                run.reply(line)
            except heard.Unsaid:
                continue
            lines.append(line)
        text += DIVIDER + "".join(line + "\n" for line in lines)
        cases.trace(text)


def asked(text):
    """A script that asks for the diagnostics of each operation of a module, and of one that isn't there, alone, and
    what is written for it."""
    text = text.encode()
    count = read(text).next + 1
    return text + DIVIDER.encode() + b"".join(b"report diagnostics of #%d\n" % number for number in range(count))


def checks(case):
    """The rules that each operation of a module breaks, looked at alone: of the example of each rule, broken and
    mended (`broken-1`, `mended-1`), of what silences what and of edges (by number), of a sum, and of no text."""
    modules = [(f"{word}-{rule}", text) for rule, (broken, _, mended) in examples.RULES.items()
               for word, text in (("broken", broken), ("mended", mended))]
    modules += [(f"silenced-{at}", text) for at, (_, _, text, _) in enumerate(examples.SILENCED, 1)]
    modules += [(f"edge-{at}", text) for at, (_, _, text, _) in enumerate(examples.EDGES, 1)]
    for name, text in modules + [("sum", SUM), ("empty", "")]:
        lines = asked(text)
        case(["--brief"], lines, script.run(lines, True), name=name)


def all_cases(traced, case, begin, title):
    """Makes all cases: those of crates/mlir_work_cases, and golden ones."""
    cases = Cases(traced)
    for part in (six_events, unseen, by_hand, by_chance):
        part(cases)
    begin("verifier/each_operation")
    title("each-operation", "A report on one operation lists the rules that this operation breaks, and no others.")
    checks(case)
