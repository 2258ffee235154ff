"""Inputs of runs in which `--analyses` lists the analyses that are attached at the start: each kind alone, several, all
and none; line by line, as JSON, and with opaque terms; and random lists with random scripts from the seed here.
mlir_work_cases.py makes golden files of them. The first answers are written by hand; all answers are those of the rules
in Python."""
import random

from oracle import aliases, chance, json_lines, live, script
from oracle.module import text_of

from tests.generate.trace_cases import over

SEED = 92
MODULE = """%a = "t.a"() : () -> i8
%c = "arith.constant"() <{value = 2 : i8}> : () -> i8
%s = "arith.addi"(%a, %c) : (i8, i8) -> i8
"t.use"(%a, %c) : (i8, i8) -> ()
"func.func"() <{function_type = () -> (), sym_name = "f", sym_visibility = "private"}> ({
  "func.return"() : () -> ()
}) : () -> ()
"""
USES = "%v1.0 #3 0\n%v1.0 #4 0\n%v2.0 #3 1\n%v2.0 #4 1\n"
DEAD = "#3\n"
EDITS = ("set-operand #4 0 %v2.0", "begin", "erase #3", "rollback", "canon", "print")
OPAQUE = '%f = "t.f"() : () -> f32\n"t.g"(%f) {k = #d.a<1>} : (f32) -> ()\n'
# Lists of kinds that mean the same, and the kinds of each in order.
SAME = (("all", script.BOXES), ("all,dead", script.BOXES), ("none,all", script.BOXES),
        ("unreached,constants,dead,effects,diagnostics,symbols,uses", script.BOXES),
        ("none", ()), ("none,none", ()), ("none,uses", ("uses",)), ("uses,uses", ("uses",)),
        ("uses,dead", ("uses", "dead")), ("dead,uses", ("uses", "dead")), ("dead,uses,dead", ("uses", "dead")))


class Cases:
    """Hands runs on with what the rules give; `case` takes the program's words, an input and an answer."""

    def __init__(self, case, title):
        self.case, self.title = case, title

    def run(self, items, text, brief=True, words=(), name=None):
        """Hands a run with a list on, and gives its output."""
        boxes, is_json = script.listed(items), "json" in words
        reader = aliases.Reader if "--opaque" in words else script.rules.Reader
        how = {"boxes": boxes, "reader": reader, "explained": is_json or "--explain" in words}
        status, out = (live.run if "--interactive" in words else script.run)(text, brief, **how)
        told = json_lines.json_of(out) if is_json else out
        self.case([*["--brief"] * brief, *words, "--analyses", items], text, (status, told),
                  name=name or ("brief" if brief else "full"))
        return out.decode()

    def both(self, items, text, words=()):
        """The same with listings and without; gives the output of the second."""
        self.run(items, text, False, words)
        return self.run(items, text, True, words)


def by_hand(cases):
    """A report of a kind that is listed, of one that isn't, and the same after it is attached."""
    cases.title("list-of-one", "Only a listed analysis has a report, until another one is attached.")
    out = cases.both("uses", over(MODULE, "report uses", "report dead", "attach dead", "report dead", "detach uses",
                                  "report uses"))
    assert out == (f"1 ok\n{USES}2 refused 41 NoSuchKind\n3 ok\n4 ok\n{DEAD}5 ok\n6 refused 41 NoSuchKind\n"), out
    cases.title("list-of-none", "With `none` no analysis is attached at the start, and each one can be attached.")
    lines = [f"{word} {kind}" for kind in script.BOXES for word in ("report", "resync", "detach", "attach", "report")]
    out = cases.both("none", over(MODULE, *lines, *EDITS))
    assert out.count(" refused 41 NoSuchKind\n") == 21 and " 42 " not in out, out
    cases.title("listings-without-analyses", "Without analyses a listing has the module alone.")
    out = cases.run("none", over(MODULE, "erase #3"), False)
    assert out.startswith("1 ok\n\"builtin.module\"") and "-- " not in out, out
    cases.title("listed-analyses-in-order", "Listed analyses stand in the order of kinds, and an attached one is last.")
    out = cases.run("dead,constants,symbols", over(MODULE, "erase #3", "attach uses", "print"), False)
    found = [line[3:] for line in out.split("\n") if line.startswith("-- ")]
    assert found == ["symbols", "dead", "constants", "symbols", "dead", "constants", "uses"], found


def each_kind(cases):
    """Each kind alone, and all others."""
    for kind in script.BOXES:
        others = ",".join(it for it in script.BOXES if it != kind)
        cases.title(f"list-of-{kind}", f"`{kind}` alone follows edits, a rollback and a rewriting.")
        cases.both(kind, over(MODULE, *EDITS, f"report {kind}", f"attach {kind}", f"resync {kind}", f"detach {kind}"))
        cases.title(f"list-without-{kind}", f"All analyses but `{kind}` follow edits, and `{kind}` is attached later.")
        cases.both(others, over(MODULE, f"report {kind}", f"detach {kind}", *EDITS, f"attach {kind}",
                                f"report {kind}"))
        cases.title(f"list-like-detach-{kind}", f"A run without `{kind}` replies as after `detach {kind}`.")
        lines = [*EDITS, f"report {kind}", "erase #4", f"resync {kind}"]
        out = cases.run(others, over(MODULE, "report kind9", *lines), False)
        same = script.run(over(MODULE, f"detach {kind}", *lines), False)[1].decode()
        assert out.partition("\n2 ")[2] == same.partition("\n2 ")[2], out


def same_lists(cases):
    """Lists with items twice, in another order, and with `all` and `none` among them."""
    for items, boxes in SAME:
        assert script.listed(items) == boxes, items
    for name, sentence, kinds in (
            ("lists-of-all", "`all` lists each kind, as a list of all seven does.", script.BOXES),
            ("lists-of-no-kind", "`none` lists no kind.", ()),
            ("list-with-none", "`none` beside a kind changes nothing.", ("uses",)),
            ("lists-in-any-order", "The order of a list doesn't matter, nor a kind that is there twice.",
             ("uses", "dead"))):
        cases.title(name, sentence)
        text = over(MODULE, *EDITS, "report uses", "report dead")
        for items, boxes in SAME:
            if boxes == kinds:
                cases.run(items, text, False, name=items.replace(",", "-"))


def forms(cases):
    """The other forms of runs: line by line, as JSON, with refusals explained, and with opaque terms."""
    lines = ("report uses", *EDITS, "report dead", "attach dead", "report dead", "erase #1", "jump")
    for words, name, sentence in (
            (("--interactive",), "interactive-list", "`--analyses` holds for `--interactive`."),
            (("--format", "json"), "json-list", "`--analyses` holds for JSON."),
            (("--explain",), "explained-list", "`--analyses` holds beside `--explain`."),
            (("--opaque",), "opaque-list", "`--analyses` holds beside `--opaque`.")):
        for items in ("none", "uses", "dead,symbols", "all"):
            cases.title(f"{name}-{items.replace(',', '-')}", sentence)
            module = OPAQUE + MODULE if "--opaque" in words else MODULE
            cases.both(items, over(module, *lines), words)
    cases.title("list-without-script", "A list without commands prints nothing, and a refused module is refused.")
    for text in (b"", MODULE.encode(), b'"a"('):
        cases.run("none", text)


def by_chance(cases):
    """Random scripts with random lists."""
    cases.title("random-lists", "Random lists with random scripts, in which analyses are attached and dropped.")
    for number in range(40):
        maker = random.Random(f"{SEED} {number}")
        items = ",".join(maker.sample(script.BOXES, maker.randrange(1, 6))) if number % 8 else "none"
        text = text_of(chance.module(maker, maker.randrange(4, 16), maker.choice([0, 0, 0.1]),
                                     maker.choice(sorted(chance.TASTES))))
        here = script.Run(script.read(text.encode()), script.listed(items))
        scripter, lines = chance.Scripter(maker, here), []
        for _ in range(maker.randrange(4, 12)):
            kind = maker.choice(script.BOXES)
            line = maker.choice([scripter.edit(), scripter.edit(), scripter.mark(), f"report {kind}",
                                 f"attach {kind}", f"detach {kind}", f"resync {kind}", "canon limit 2"])
            here.reply(line)
            lines.append(line)
        cases.run(items, over(text, *lines, *(f"report {kind}" for kind in script.BOXES)), maker.random() < 0.5,
                  name=str(number + 1))


FILES = {"runs/listed": (by_hand, each_kind, same_lists, forms, by_chance)}


def all_cases(case, begin, title):
    """Adds each input: `case` takes the program's words, an input and an answer, `begin` a file, and `title` the name
    and the sentence of the next cases."""
    for name, parts in FILES.items():
        begin(name)
        for part in parts:
            part(Cases(case, title))
