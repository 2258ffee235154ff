"""Inputs with traced rewrites, by `canon trace` and `rewrite RULES trace`: each rule, limits, marks, listings,
refusals, lines answered one by one, and as JSON; and random modules from the seed here. mlir_work_cases.py makes golden
files of them. The first traces are written by hand; all answers are those of the rules in Python."""
import random

from tests.compare import rules_page
from oracle import chance, json_lines, live, rewrites, script
from oracle.module import text_of

SEED = 62
DIVIDER = "// -----\n"
# Sums with constants, where one constant has another user; a product by 1 with its constant first.
SUMS = """%x = "t.x"() : () -> i32
%a = "arith.constant"() <{value = 2 : i32}> : () -> i32
%b = "arith.constant"() <{value = 3 : i32}> : () -> i32
%s = "arith.addi"(%x, %a) <{overflowFlags = #arith.overflow<none>}> : (i32, i32) -> i32
%t = "arith.addi"(%s, %b) <{overflowFlags = #arith.overflow<none>}> : (i32, i32) -> i32
%1 = "arith.constant"() <{value = 1 : i32}> : () -> i32
%p = "arith.muli"(%1, %t) <{overflowFlags = #arith.overflow<none>}> : (i32, i32) -> i32
"t.u"(%p, %a) : (i32, i32) -> ()
"""
# A known branch with operations inside, and a loop without iterations.
NESTED = """%c = "arith.constant"() <{value = true}> : () -> i1
%r = "scf.if"(%c) ({
  %v = "t.v"() : () -> i8
  "scf.yield"(%v) : (i8) -> ()
}, {
  %w = "t.w"() : () -> i8
  "scf.yield"(%w) : (i8) -> ()
}) : (i1) -> i8
%n = "arith.constant"() <{value = 0 : index}> : () -> index
%e = "arith.constant"() <{value = 1 : index}> : () -> index
"scf.for"(%n, %n, %e) ({
^bb0(%i: index):
  "t.w"(%i) : (index) -> ()
  "scf.yield"() : () -> ()
}) : (index, index, index) -> ()
"t.u"(%r) : (i8) -> ()
"""
TOLD_OF_SUMS = """rewrote 10 regroup-constants #5 made #9,#10 erased #5
rewrote 1 erase-dead #3 erased #3
rewrote 1 erase-dead #4 erased #4
rewrote 3 swap-constant #7
rewrote 5 drop-one #7 erased #7
rewrote 1 erase-dead #6 erased #6
"""
TOLD_OF_NESTED = """rewrote 22 open-branch #2 erased #2
rewrote 1 erase-dead #1 erased #1
rewrote 23 open-loop #9 erased #9
rewrote 1 erase-dead #7 erased #7
rewrote 1 erase-dead #8 erased #8
"""
ROWS = "report uses\nreport dead\nreport constants\n"
REFUSED = {
    50: ("canon trace limit 0", "canon trace limit 1000001", "rewrite 1 trace limit 0",
         "canon only 24,1 trace limit 1000001"),
    26: ("rewrite nope trace", "rewrite 1,nope trace limit 1", "rewrite lower-loop trace", "canon only nope trace",
         "rewrite nope trace limit 0", "rewrite trace", "rewrite trace trace", "canon only trace", "rewrite trace,1"),
    60: ("rewrite 25 trace", "rewrite 1,30 trace", "rewrite 1, trace", "canon trace x", "canon trace limit",
         "canon trace limit x", "canon trace limit 1 x", "canon trace limit 4294967296", "canon trace trace",
         "canon trace only 1", "canon limit 1 trace", "canon traces", "canon Trace", "rewrite 1 traced",
         "rewrite 1 trace trace", "rewrite 1 trace x", "rewrite 1 limit 1 trace", "rewrite 1 trace limit",
         "canon only 1 trace limit x", "canon only 25 trace", "canon only 1 limit 1 trace", "trace", "trace limit 1",
         "sweep trace", "apply trace 1 #2", "convert trace")}


def over(module, *lines):
    return (module + DIVIDER + "".join(line + "\n" for line in lines)).encode()


def form_of(brief):
    """The name of a case in its group."""
    return "brief" if brief else "full"


class Cases:
    """Hands runs on with what the rules give; `case` takes the program's words, an input and an answer."""

    def __init__(self, case, title):
        self.case, self.title = case, title

    def run(self, text, brief=True, limit=script.LIMIT, form="text"):
        """Hands a run on, and gives its output."""
        status, out = script.run(text, brief, limit=limit, explained=form == "json")
        words = ["--brief"] * brief + ["--limit", str(limit)] * (limit != script.LIMIT)
        if form == "json":
            self.case([*words, "--format", "json"], text, (status, json_lines.json_of(out)), name=form_of(brief))
        else:
            self.case(words, text, (status, out), name=form_of(brief))
        return out.decode()

    def both(self, text):
        """The same with listings and without; gives the output of the second."""
        self.run(text, False)
        return self.run(text)

    def lived(self, text, brief=True):
        """A run that answers each line as soon as it arrives."""
        self.case(["--brief"] * brief + ["--interactive"], text, live.run(text, brief), name=form_of(brief))


def by_hand(cases):
    """Traces of two modules, in full and up to a limit, by chosen rules, and of one that no rule changes."""
    for name, module, told in (("sums", SUMS, TOLD_OF_SUMS), ("branches", NESTED, TOLD_OF_NESTED)):
        lines = told.splitlines(True)
        cases.title(f"trace-{name}",
                    "`canon trace` reports each rewrite: the rule, the operation, what it made and erased.")
        out = cases.both(over(module, "canon trace", "canon trace", "print"))
        assert out.startswith(f"1 converged {len(lines)}\n{told}2 converged 0\n3 ok\n"), out
        for limit in range(1, len(lines) + 2):
            word = "limit" if limit < len(lines) else "converged"
            cases.title(f"trace-{name}-limit-{limit}", f"`canon trace` reports the rewrites up to a limit of {limit}.")
            front = f"1 {word} {min(limit, len(lines))}\n{''.join(lines[:limit])}"
            out = cases.both(over(module, f"canon trace limit {limit}", "canon trace", "print"))
            assert out.startswith(f"{front}2 converged {max(len(lines) - limit, 0)}\n{''.join(lines[limit:])}"), out
            assert cases.run(over(module, "canon trace"), True, limit) == front
        # One after another, and next to the same commands without trace.
        cases.title(f"trace-{name}-one-by-one", "`canon trace limit 1` again and again reports the same rewrites.")
        one = [f"{at} {'limit' if at < len(lines) else 'converged'} 1\n{line}" for at, line in enumerate(lines, 1)]
        assert cases.run(over(module, *["canon trace limit 1"] * len(lines))) == "".join(one)
        cases.title(f"trace-{name}-beside-untraced", "`canon` without `trace` reports nothing between traced ones.")
        cases.run(over(module, "canon limit 1", "canon trace limit 2", "canon", "canon trace"))
    cases.title("trace-list-of-rules",
                "`rewrite RULES trace` and `canon only RULES trace` report the rewrites of their rules.")
    out = cases.both(over(SUMS, "rewrite swap-constant,5 trace limit 1", "canon only drop-one trace", "rewrite 4 trace",
                          "rewrite 1,2 trace limit 9"))
    assert out == ("1 limit 1\nrewrote 3 swap-constant #7\n2 converged 1\nrewrote 5 drop-one #7 erased #7\n"
                   "3 converged 0\n4 converged 1\nrewrote 1 erase-dead #6 erased #6\n"), out
    cases.title("trace-nothing", "If no rule applies, nothing is reported.")
    for module in ("", '"t.a"() : () -> ()\n'):
        out = cases.both(over(module, "canon trace", "rewrite 1,2,3 trace", "print"))
        assert out.startswith("1 converged 0\n2 converged 0\n3 ok\n"), out


def rules(cases):
    """Each example of docs/CANONICALIZE.md: by its rule alone, by all but it, and by all rules."""
    for number, _, module, op, _ in rules_page.EXAMPLE.findall(rules_page.PAGE.read_text()):
        word, others = rewrites.WORDS[int(number) - 1], ",".join(str(it) for it in range(1, 25) if it != int(number))
        cases.title(f"trace-{word}",
                    f"The example of `{word}` is rewritten by its rule alone, by all others, and by all rules.")
        out = cases.run(over(module, "begin", f"rewrite {number} trace", "print", "rollback", "begin",
                             f"rewrite {others} trace", "rollback", f"canon only {word} trace limit 1", "canon trace",
                             "print"))
        assert f"\nrewrote {number} {word} #" in out, (number, out)
        cases.run(over(module, f"rewrite {word},1,2 trace", "canon trace"), False)


def marks(cases):
    """After a rollback the trace is the same, with the same ids; a rollback has no trace."""
    for name, module, told in (("sums", SUMS, TOLD_OF_SUMS), ("branches", NESTED, TOLD_OF_NESTED)):
        cases.title(f"trace-{name}-under-marks", "After a rollback the same rewrites are reported with the same ids.")
        count = told.count("\n")
        out = cases.both(over(module, "begin", "canon trace", "rollback", "canon trace", "begin", "commit"))
        assert out == f"1 ok\n2 converged {count}\n{told}3 ok\n4 converged {count}\n{told}5 ok\n6 ok\n", out
        cases.title(f"trace-{name}-with-rows",
                    "A rollback restores the rows and ids from before a traced canonicalization.")
        cases.run(over(module, "print", "begin", "canon trace", ROWS + "print", "rollback", ROWS + "print", "begin",
                       "canon trace limit 2", "begin", "rewrite 1,22,3 trace", "print ids", "rollback", "print ids",
                       "rollback", "print ids", "canon trace"))
        cases.title(f"trace-{name}-with-detached-analyses",
                    "Analyses are detached before a canonicalization and attached "
                    "after it.")
        cases.both(over(module, "detach dead", "detach constants", "begin", "canon trace", "attach dead", ROWS,
                        "rollback", "attach constants", "resync uses", ROWS))
    cases.title("trace-after-insert", "Operations that a rule makes have the ids after that of an inserted operation.")
    out = cases.both(over(SUMS, 'insert before #8 "arith.addi"(%v1.0, %v1.0) : (i32, i32) -> i32',
                          "canon trace limit 1", "erase #8", "canon trace", "print ids"))
    assert "rewrote 10 regroup-constants #5 made #10,#11 erased #5\n" in out, out


def refused(cases):
    """Each refusal, for each reason: there is no trace, and the module stays."""
    for number, lines in REFUSED.items():
        cases.title(f"trace-refused-{number}",
                    f"Lines that are refused by {number} report no rewrite and change nothing.")
        out = cases.run(over(SUMS, *lines, "print"))
        told = out.splitlines()[:len(lines)]
        assert all(line.startswith(f"{at} refused {number} ") for at, line in enumerate(told, 1)), out
        cases.run(over(SUMS, *(f"expect {number} {line}" for line in lines)))
        for line in lines[:2]:
            cases.both(over(SUMS, line, "canon trace limit 2", line, ROWS))
    cases.title("trace-expected-refusals", "The line of an expectation comes between the reply and the rewrites.")
    out = cases.both(over(SUMS, "expect 50 canon trace limit 2", "expect 26 rewrite 1,3 trace",
                          "expect 60 rewrite 1 trace limit 0"))
    assert out.startswith("1 limit 2\n1 expected 50 BadLimit\nrewrote 10 "), out
    cases.title("trace-user-pattern", "A user pattern in a list is reported like a rule.")
    cases.run(over(SUMS, "pattern one arith.muli(1, %a) => %a", "apply one #7", "rewrite one trace",
                   "rewrite 1,one trace", "canon trace"))


def opaque(cases):
    """Modules with unknown types and attributes."""
    cases.title("trace-opaque",
                "Rewrites beside floats are reported with `--opaque`, and without it the module is refused.")
    module = SUMS + '%f = "t.f"() {k = #d.a<1>} : () -> f32\n%g = "arith.select"(%h, %f, %f) : (i1, f32, f32) -> f32\n'
    module = module.replace("%f = ", '%h = "t.h"() : () -> i1\n%f = ')
    for brief in (True, False):
        text = over(module, "canon trace limit 3", "canon trace", "print")
        cases.case(["--brief"] * brief + ["--opaque"], text, script.run_opaque(text, brief))
        cases.case(["--brief"] * brief, text, script.run(text, brief))


def lived(cases):
    """Runs that answer each line as soon as it arrives."""
    cases.title("trace-interactive", "Traced rewrites are answered line by line.")
    for module in (SUMS, NESTED, ""):
        for brief in (True, False):
            cases.lived(over(module, "canon trace limit 2", "rewrite 1,5,3 trace", "canon trace limit 0", "canon trace",
                             "", "// none", "canon trace", "print"), brief)
    cases.lived(over(SUMS, "begin", "canon trace", "rollback", "canon trace", "expect 22 canon trace") + b"canon trace")


def by_chance(cases):
    """Random modules, with marks and edits between; the module afterwards is that of the same commands without
    trace."""
    cases.title("trace-random", "Rewrites of random modules are reported, with marks and edits between them.")
    for number in range(50):
        maker = random.Random(f"{SEED} {number}")
        text = text_of(chance.module(maker, maker.randrange(6, 40), maker.choice([0, 0, 0.1]),
                                     maker.choice(sorted(chance.TASTES))))
        scripter, lines = chance.Scripter(maker, script.Run(script.read(text.encode()))), []
        for _ in range(maker.randrange(3, 9)):
            picked = maker.sample(range(1, 25), maker.randrange(1, 25))
            names = ",".join(maker.choice([str(rule), rewrites.WORDS[rule - 1]]) for rule in picked)
            line = maker.choice(["canon trace", "canon trace", f"rewrite {names} trace", f"canon only {names} trace",
                                 scripter.edit(), scripter.mark()])
            line += f" limit {maker.randrange(1, 6)}" * (line.endswith("trace") and maker.random() < 0.5)
            scripter.run.reply(line)
            lines.append(line)
        cases.run(over(text, *lines, "print"), maker.random() < 0.8)
        alone = [line.replace(" trace", "") for line in lines]
        traced, untraced = (script.run(over(text, *those, "print"))[1] for those in (lines, alone))
        kept = [line for line in traced.splitlines() if not line.startswith(b"rewrote ")]
        assert kept == untraced.splitlines(), text


def as_json(cases):
    """The same as JSON, with listings and without."""
    for name, module in (("sums", SUMS), ("branches", NESTED)):
        cases.title(f"traced-{name}", "JSON has the rewrites, refusals and expectations.")
        for brief in (True, False):
            cases.run(over(module, "canon trace limit 2", "rewrite 1,5,3 trace", "rewrite nope trace",
                           "expect 22 canon trace", "canon trace"), brief, form="json")


FILES = {"runs/tracing": (by_hand, marks, refused, opaque, lived, by_chance), "rules/traced": (rules,),
         "json/tracing": (as_json,)}


def all_cases(case, begin, title):
    """Adds each input: `case` takes the program's words, an input and an answer, `begin` a file, and `title` the name
    and the sentence of the next cases."""
    for name, parts in FILES.items():
        begin(name)
        for part in parts:
            part(Cases(case, title))
