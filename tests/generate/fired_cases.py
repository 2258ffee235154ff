"""Inputs that count which rules and patterns fired before the limit, by `canon fired` and `rewrite RULES fired`: limits
around a hundred rewrites, rules and patterns in one list, marks, listings, refusals, lines answered one by one, and as
JSON; and random modules from the seed here. mlir_work_cases.py makes golden files of them. The first answers are
written by hand; all are those of the rules in Python."""
import random

from oracle import chance, live, rewrites, script
from oracle.module import text_of
from tests.generate.trace_cases import NESTED, ROWS, SUMS, Cases, over

SEED = 71
# A pattern that applies again and again, and one for a sum whose first operand is a constant.
SWAP = "pattern swap arith.muli(%a, %b) => arith.muli(%b, %a)"
SHIFT = "pattern shift arith.addi(%a, 2) => arith.addi(%a, 3)"
FIRED_IN_SUMS = ("fired 10 regroup-constants 1\n", "fired 1 erase-dead 2\n", "fired 3 swap-constant 1\n",
                 "fired 5 drop-one 1\n")
REFUSED = {
    50: ("canon fired limit 0", "canon fired limit 1000001", "rewrite 1 fired limit 0",
         "canon only 24,1 fired limit 1000001"),
    26: ("rewrite nope fired", "rewrite 1,nope fired limit 1", "rewrite lower-loop fired", "canon only nope fired",
         "rewrite nope fired limit 0", "rewrite fired", "rewrite fired fired", "canon only fired", "rewrite fired,1"),
    60: ("rewrite 25 fired", "rewrite 1, fired", "canon fired x", "canon fired limit", "canon fired limit x",
         "canon fired limit 1 x", "canon fired fired", "canon fired trace", "canon trace fired",
         "rewrite 1 fired trace", "rewrite 1 trace fired", "canon fired only 1", "canon limit 1 fired", "canon fire",
         "canon Fired", "rewrite 1 fires", "rewrite 1 fired proved", "rewrite 1 limit 1 fired",
         "canon only 1 fired limit x", "canon at #3 fired", "canon fired at #3", "fired", "fired limit 1",
         "sweep fired", "apply fired 1 #2", "convert fired partial", "convert partial fired")}


def by_hand(cases):
    """Counts in two modules, up to each limit; nothing is counted in a run that converges."""
    for limit, counts in ((1, FIRED_IN_SUMS[:1]), (3, FIRED_IN_SUMS[:2]), (4, FIRED_IN_SUMS[:3]), (5, FIRED_IN_SUMS)):
        cases.title(f"fired-sums-limit-{limit}",
                    f"`canon fired limit {limit}` counts the rules of its rewrites, in the order of their first ones.")
        out = cases.both(over(SUMS, f"canon fired limit {limit}", "canon fired", "print"))
        assert out.startswith(f"1 limit {limit}\n{''.join(counts)}2 converged {6 - limit}\n3 ok\n"), out
    for name, module, count in (("sums", SUMS, 6), ("branches", NESTED, 5), ("nothing", "", 0)):
        cases.title(f"fired-{name}-converged", "A run that converges has no counts, at its limit too.")
        out = cases.both(over(module, f"canon fired limit {max(count, 1)}", "canon fired", "rewrite 1 fired limit 1"))
        assert out == f"1 converged {count}\n2 converged 0\n3 converged 0\n", out
        cases.title(f"fired-{name}-one-by-one", "`canon fired limit 1` counts one rewrite at a time.")
        cases.run(over(module, *["canon fired limit 1"] * (count + 1)))
    cases.title("fired-list-of-rules", "`rewrite RULES fired` and `canon only RULES fired` count their rules.")
    out = cases.both(over(SUMS, "rewrite swap-constant,5 fired limit 1", "canon only drop-one fired", "rewrite 4 fired",
                          "rewrite 1-9,erase-dead fired limit 1"))
    assert out == ("1 limit 1\nfired 3 swap-constant 1\n2 converged 1\n3 converged 0\n"
                   "4 converged 1\n"), out


def hundreds(cases):
    """Limits around a hundred, with a pattern that applies again and again."""
    for limit in (1, 99, 100, 101, 102, 103, 199, 200, 201, 1000):
        cases.title(f"fired-last-hundred-of-{limit}",
                    f"Of {limit} rewrites the last hundred are counted; a rule of an earlier rewrite isn't named.")
        out = cases.run(over(SUMS, SWAP, f"rewrite 10,1,swap fired limit {limit}", "rewrite swap fired limit 3"))
        swaps = limit - 3
        counts = [("10 regroup-constants", 1), ("1 erase-dead", 2), ("swap", max(swaps, 0))]
        if limit == 1:
            counts = counts[:1]
        elif swaps >= 100:
            counts = [("swap", 100)]
        elif swaps > 97:
            counts = [("1 erase-dead", 100 - swaps), ("swap", swaps)]
        told = "".join(f"fired {name} {count}\n" for name, count in counts)
        assert out == (f"1 ok\n2 limit {limit}\nunproved swap unchecked\n{told}"
                       "3 limit 3\nunproved swap unchecked\nfired swap 3\n"), out
    cases.title("fired-in-turn", "A rule and a pattern that undo each other have half of the last hundred rewrites.")
    turns = ["fired 3 swap-constant 50\n", "fired swap 50\n"]
    for limit in (150, 151):
        out = cases.both(over(SUMS, SWAP, f"rewrite 3,swap fired limit {limit}", "rewrite swap,3 fired limit 7"))
        assert "".join(turns) in out, out
        turns.reverse()


def patterns(cases):
    """Rules and patterns in one list: the line of a pattern has its name, below the lines of unproved patterns."""
    cases.title("fired-user-patterns", "The line of a user pattern has its name, whatever the order of the list.")
    for names in ("swap,shift", "shift,swap", "canon,swap", "swap,canon,shift", "shift,shift,swap", "1-24,shift,swap"):
        cases.both(over(SUMS, SWAP, SHIFT, f"rewrite {names} fired limit 5", f"canon only {names} fired limit 120",
                        f"rewrite {names} limit 2", "check swap", f"rewrite {names} fired limit 2", "print"))
    cases.title("fired-proved-patterns", "`proved fired` is refused if no check proves a pattern, and else counts.")
    out = cases.both(over(SUMS, SWAP, "rewrite swap proved fired limit 2", "check swap",
                          "rewrite swap proved fired limit 2", "rewrite 1 proved fired limit 2",
                          "rewrite 10,1 proved fired limit 2"))
    assert out.startswith("1 ok\n2 refused 61 NotProved\nunproved swap unchecked\n3 holds"), out
    cases.title("fired-patterns-named-as-words",
                "Patterns named `fired`, `trace` and `limit` are patterns as any other.")
    for name in ("fired", "trace", "limit", "proved", "canon"):
        cases.run(over(SUMS, SWAP.replace("swap", name, 1), f"rewrite {name} fired limit 2", f"rewrite {name} fired",
                       f"rewrite {name},1 proved fired limit 2", "canon fired limit 1", f"canon only {name} fired x"))


def marks(cases):
    """After a rollback the counts are the same; a refusal counts nothing and changes nothing."""
    cases.title("fired-under-marks", "After a rollback the same rules are counted.")
    for module in (SUMS, NESTED):
        cases.both(over(module, "begin", "canon fired limit 4", "rollback", "canon fired limit 4", "begin", "commit",
                        "canon limit 1", "canon trace limit 1", "canon fired limit 1", ROWS))
    for number, lines in REFUSED.items():
        cases.title(f"fired-refused-{number}", f"Lines that are refused by {number} count nothing and change nothing.")
        out = cases.run(over(SUMS, *lines, "print"))
        told = out.splitlines()[:len(lines)]
        assert all(line.startswith(f"{at} refused {number} ") for at, line in enumerate(told, 1)), out
        cases.run(over(SUMS, *(f"expect {number} {line}" for line in lines)))
    cases.title("fired-expected-refusals", "The line of an expectation comes between the reply and the counts.")
    out = cases.both(over(SUMS, "expect 50 canon fired limit 2", "expect 26 rewrite 1,3 fired"))
    assert out.startswith("1 limit 2\n1 expected 50 BadLimit\nfired 10 "), out
    cases.title("fired-default-limit", "`--limit` is the limit of a command that has none.")
    for limit in (1, 2, 6):
        cases.run(over(SUMS, "canon fired", "canon fired limit 1"), True, limit)
    cases.title("fired-interactive", "Counts are answered line by line.")
    for module in (SUMS, ""):
        for brief in (True, False):
            cases.lived(over(module, SWAP, "canon fired limit 2", "rewrite swap fired limit 3", "canon fired limit 0",
                             "", "// none", "canon fired"), brief)


def by_chance(cases):
    """Random modules, with marks and edits between; the module afterwards is that of the same commands without
    counts."""
    cases.title("fired-random", "Rules that fired in random modules are counted, with marks and edits between.")
    for number in range(40):
        maker = random.Random(f"{SEED} {number}")
        text = text_of(chance.module(maker, maker.randrange(6, 40), maker.choice([0, 0, 0.1]),
                                     maker.choice(sorted(chance.TASTES))))
        scripter, lines = chance.Scripter(maker, script.Run(script.read(text.encode()))), []
        for _ in range(maker.randrange(3, 9)):
            picked = maker.sample(range(1, 25), maker.randrange(1, 25))
            names = ",".join(maker.choice([str(rule), rewrites.WORDS[rule - 1]]) for rule in picked)
            line = maker.choice(["canon fired", "canon fired", f"rewrite {names} fired", f"canon only {names} fired",
                                 scripter.edit(), scripter.mark()])
            line += f" limit {maker.randrange(1, 9)}" * (line.endswith("fired") and maker.random() < 0.9)
            scripter.run.reply(line)
            lines.append(line)
        cases.run(over(text, *lines, "print"), maker.random() < 0.8)
        alone = [line.replace(" fired", "") for line in lines]
        counted, uncounted = (script.run(over(text, *those, "print"))[1] for those in (lines, alone))
        kept = [line for line in counted.splitlines() if not line.startswith(b"fired ")]
        assert kept == uncounted.splitlines(), text


def as_json(cases):
    """The same as JSON, with listings and without."""
    cases.title("fired-as-json", "JSON has the counts of rules and of patterns.")
    for brief in (True, False):
        cases.run(over(SUMS, SWAP, "rewrite 3,swap fired limit 150", "canon fired limit 5", "rewrite nope fired",
                       "canon fired"), brief, form="json")
    cases.title("fired-as-a-name-in-json", "A constant named `fired` in the rows of a check is no count.")
    cases.run(over(SUMS, "pattern p arith.muli(%a, fired) => arith.addi(%a, fired)", "check p",
                   "pattern q arith.divsi(arith.muli(%a, fired), fired) => %a", "check q",
                   "pattern fired arith.muli(1, %a) => arith.muli(%a, 1)", "check fired", "patterns",
                   "rewrite fired,3 fired limit 1"), form="json")


FILES = {"runs/fired": (by_hand, hundreds, patterns, marks, by_chance), "json/fired": (as_json,)}


def all_cases(case, begin, title):
    """Adds each input: `case` takes the program's words, an input and an answer, `begin` a file, and `title` the name
    and the sentence of the next cases."""
    for name, parts in FILES.items():
        begin(name)
        for part in parts:
            part(Cases(case, title))
