#!/usr/bin/env python3
"""Each rule at operations of modules: the module after it, or that the rule doesn't apply. Cases that a script can have
are golden files of tests/golden/rules; those of a module whose ids are nearly used up are lines of
crates/mlir_work_cases. `tests/generate/mlir_work_cases.py` writes both.

Each rule has templates of modules at which it applies, in which `T` is a type and `$NAME` a number. Each is tried at
every type that it is for; with each of its constants a little off, or none at all; with operands in the other order;
with a property more, with one that is wrong, and without one, at each operation. The answers come from the rules in
Python."""
import collections
import itertools
import re

import checkout  # noqa: F401

from oracle import rewrites
from oracle.module import read, rules, text_of

MOST_NEXT = 4294967295
WRITTEN = range(1, 31)
WIDTHS = ["i1", "i8", "i64", "i65", "i128", "index"]
SWAPPING = "addi muli andi ori xori maxsi maxui minsi minui".split()
GIVER = '%{0} = "test.d"() : () -> {1}\n'


def giver(*names, ty="T"):
    return "".join(GIVER.format(name, ty) for name in names)


def constant(name, number, ty="T"):
    return f'%{name} = "arith.constant"() <{{value = {number} : {ty}}}> : () -> {ty}\n'


def on_two(word, a, b, ty="T", result="T", props=""):
    return f'%x = "arith.{word}"(%{a}, %{b}){props} : ({ty}, {ty}) -> {result}\n'


def on_one(word, a, start, end, name="x"):
    return f'%{name} = "{word}"(%{a}) : ({start}) -> {end}\n'


def choice(c, a, b, ty="T"):
    return f'%x = "arith.select"(%{c}, %{a}, %{b}) : (i1, {ty}, {ty}) -> {ty}\n'


def compared(a, b, predicate):
    return on_two("cmpi", a, b, result="i1", props=f" <{{predicate = {predicate} : i64}}>")


def used(ty="T"):
    return f'"test.use"(%x) : ({ty}) -> ()\n'


def cast_pairs(outer, inner, start, middle, end):
    return giver("a", ty=start) + on_one(inner, "a", start, middle, "y") + on_one(outer, "y", middle, end) + used(end)


BRANCH = """%x = "scf.if"(%c) ({
  %y = "test.d"() : () -> T
  "test.s"(%y) : (T) -> ()
  "scf.yield"(%y) : (T) -> ()
}, {
  %z = "test.e"() : () -> T
  "scf.yield"(%z) : (T) -> ()
}) : (i1) -> T
"""
LONE = '"scf.if"(%c) ({\n  "test.s"() : () -> ()\n  "scf.yield"() : () -> ()\n}, {}) : (i1) -> ()\n'
LOOP = """%x = "scf.for"(%l, %u, %s, %a) ({
^bb0(%i: U, %v: T):
  %y = "test.e"(%i, %v) : (U, T) -> T
  "scf.yield"(%y) : (T) -> ()
}) : (U, U, U, T) -> T
"""
TWO_RESULTS = """%x:2 = "scf.if"(%c) ({
  %y = "test.d"() : () -> T
  %z = "test.d"() : () -> U
  "scf.yield"(%y, %z) : (T, U) -> ()
}, {
  %y, %z = "test.d"() : () -> (T, U)
  "scf.yield"(%y, %z) : (T, U) -> ()
}) {k = 1 : index} : (i1) -> (T, U)
"test.use"(%x#0, %x#1) : (T, U) -> ()
"""
UNTIL = """%x = "scf.while"(%a) ({
^bb0(%v: T):
  %y = "test.e"(%v) : (T) -> T
  %c = "arith.constant"() <{value = CONDITION}> : () -> i1
  "scf.condition"(%c, %y) : (i1, T) -> ()
}, {
^bb0(%w: T):
  "scf.yield"(%w) : (T) -> ()
}) : (T) -> T
"""
INDEX_LOOP = """%l:3 = "test.d"() : () -> (index, index, index)
%x = "scf.for"(%l#0, %l#1, %l#2, %a) ({
^bb0(%i: index, %v: T):
  %y = "test.e"(%i, %v) : (index, T) -> T
  "scf.yield"(%y) : (T) -> ()
}) : (index, index, index, T) -> T
"""


def loop(lower, upper, step, ty):
    bounds = constant("l", lower, ty) + constant("u", upper, ty) + constant("s", step, ty)
    return giver("a") + bounds + LOOP.replace("U", ty) + used()


def ones(word, number):
    return giver("a") + constant("c", number) + on_two(word, "a", "c") + used()


def twice(word):
    return giver("a") + on_two(word, "a", "a") + used()


def templates():
    """Each rule with modules at which it may apply, at the operation whose result is %x (or the last but one)."""
    yield 1, giver("a") + on_two("addi", "a", "a")
    yield 1, giver("a") + on_two("addi", "a", "a") + used()
    yield 1, giver("c", ty="i1") + BRANCH.replace("test.d",
                                                  "arith.constant").replace('  "test.s"(%y) : (T) -> ()\n', "")
    yield 1, giver("m", ty="memref<T>") + '%x = "memref.load"(%m) : (memref<T>) -> T\n'
    yield 1, '%x = "memref.alloc"() : () -> memref<T>\n'
    for word in [*SWAPPING, "subi", "divsi", "remui", "shli", "shrsi", "cmpi"]:
        props, result = (" <{predicate = 3 : i64}>", "i1") if word == "cmpi" else ("", "T")
        yield 2, constant("a", "$1") + constant("b",
                                                "$1") + on_two(word, "a", "b", result=result, props=props) + used(
                                                    result)
    for word, number in (("muli", 0), ("andi", 0), ("ori", -1)):
        yield 2, ones(word, number)
    yield 2, constant("c", 1, "i1") + constant("a", "$5") + giver("b") + choice("c", "a", "b") + used()
    for word in SWAPPING:
        yield 3, constant("c", "$5") + giver("a") + on_two(word, "c", "a") + used()
        yield 3, constant("c", "$5") + constant("a", "$5") + on_two(word, "c", "a") + used()
    for word in "addi subi ori xori shli shrsi shrui muli".split():
        yield 4, ones(word, 0)
    for word in "muli divsi divui remsi".split():
        yield 5, ones(word, 1)
    for word in ("andi", "ori"):
        yield 6, ones(word, -1)
    for rule, words in ((7, "subi xori addi"), (8, "andi ori maxsi maxui minsi minui xori")):
        for word in words.split():
            yield rule, twice(word)
            yield rule, giver("a", "b") + on_two(word, "a", "b") + used()
    for word in "remsi remui divsi".split():
        yield 9, ones(word, 1)
    for word in "addi muli andi ori xori subi".split():
        inner = on_two(word, "a", "c").replace("%x", "%y")
        yield 10, giver("a") + constant("c", "$5") + inner + constant("d", "$3") + on_two(word, "y", "d") + used()
    yield 11, ones("subi", "$3")
    yield 11, ones("addi", "$3")
    for predicate in range(10):
        yield 12, giver("a") + compared("a", "a", predicate) + used("i1")
        yield 13, constant("c", "$5") + giver("a") + compared("c", "a", predicate) + used("i1")
        yield 14, giver("a") + constant("c", 0) + compared("a", "c", predicate) + used("i1")
    yield 12, giver("a", "b") + compared("a", "b", 0) + used("i1")
    yield 15, giver("c", ty="i1") + giver("a", "b") + choice("c", "a", "a") + used()
    yield 15, giver("c", ty="i1") + giver("a", "b") + choice("c", "a", "b") + used()
    yield 15, giver("c", ty="i1") + giver("a",
                                          ty="memref<4xi8>") + choice("c", "a", "a", "memref<4xi8>") + used(
                                              "memref<4xi8>")
    yield 15, constant("c", 1, "i1") + constant("a", "$5") + choice("c", "a", "a") + used()
    for number in (0, 1):
        yield 16, constant("c", number, "i1") + giver("a", "b") + choice("c", "a", "b") + used()
    yield 16, giver("c", ty="i1") + giver("a", "b") + choice("c", "a", "b") + used()
    for left, right, ty in itertools.product((0, 1), (0, 1), ("i1", "i8")):
        yield 17, giver("c", ty="i1") + constant("t", left,
                                                 ty) + constant("f", right, ty) + choice("c", "t", "f", ty) + used(ty)
    turned = giver("c", ty="i1") + constant("t", "$1", "i1") + '%n = "arith.xori"(%c, %t) : (i1, i1) -> i1\n'
    yield 18, turned + giver("a", "b") + choice("n", "a", "b") + used()
    yield 18, turned.replace("xori", "andi") + giver("a", "b") + choice("n", "a", "b") + used()
    for outer, inner in itertools.product(("arith.extsi", "arith.extui"), repeat=2):
        for start, middle, end in (("i1", "i8", "i64"), ("i8", "i65", "i128"), ("i8", "i16", "i16"),
                                   ("i64", "i65", "i66")):
            yield 19, cast_pairs(outer, inner, start, middle, end)
    for inner, types in itertools.product(("trunci", "extsi", "extui"),
                                          (("i8", "i64"), ("i1", "i128"), ("i64", "i65"))):
        start, middle = types if inner != "trunci" else types[::-1]
        yield 20, cast_pairs("arith.trunci", f"arith.{inner}", start, middle, types[0])
        yield 20, cast_pairs("arith.trunci", f"arith.{inner}", start, middle, "i1")
    for word in ("arith.index_cast", "arith.index_castui", "builtin.unrealized_conversion_cast"):
        for start, middle in (("i1", "index"), ("i64", "index"), ("i65", "index"), ("i128", "index"), ("index", "i64"),
                              ("index", "i8"), ("index", "i128")):
            yield 21, cast_pairs(word, word, start, middle, start)
        yield 21, cast_pairs(word, "builtin.unrealized_conversion_cast", "i64", "index", "i64")
    yield 21, giver("a") + on_one("builtin.unrealized_conversion_cast", "a", "T", "T") + used()
    for number in (0, 1):
        yield 22, constant("c", number, "i1") + BRANCH + used()
        yield 22, constant("c", number, "i1") + LONE
    yield 22, giver("c", ty="i1") + BRANCH + used()
    for lower, upper, step in ((4, 5, 1), (5, 5, 1), (6, 5, 0), (0, 2, 2), (0, 3, 2), (-1, 0, 1), (0, 1, 0), (0, 1, -1),
                               (0, -1, 1)):
        for ty in ("index", "i8", "i65"):
            yield 23, loop(lower, upper, step, ty)
    for ty, (least, most) in (("i8", (-128, 127)), ("i128", (-2 ** 127, 2 ** 127 - 1)),
                              ("index", (-2 ** 63, 2 ** 63 - 1))):
        yield 23, loop(least, most, most, ty)
        yield 23, loop(most - 1, most, most, ty)
    for condition in ("false", "true"):
        yield 24, giver("a") + UNTIL.replace("CONDITION", condition) + used()
    for word in "maxsi maxui minsi minui addi".split():
        yield 25, giver("a", "b") + on_two(word, "a", "b") + used()
    for word in ("subi", "addi"):
        yield 26, giver("a", "b") + on_two(word, "a", "b") + used()
    for word in ("remsi", "remui", "divsi"):
        yield 27, giver("a", "b") + on_two(word, "a", "b") + used()
    for word in "addi subi muli shli divsi divui remsi remui andi ori xori shrsi shrui maxsi maxui minsi minui".split():
        yield 28, giver("a", "b") + on_two(word, "a", "b") + used()
    yield 28, giver("a", "b") + compared("a", "b", 6) + used("i1")
    yield 28, giver("c", ty="i1") + giver("a", "b") + choice("c", "a", "b") + used()
    yield 28, '%x = "arith.constant"() <{value = $5 : T}> {k, m = 3 : index} : () -> T\n' + used()
    yield 29, giver("a") + INDEX_LOOP + used()
    yield 29, giver("a") + constant("l", 0,
                                    "i8") + constant("u", 1,
                                                     "i8") + constant("s", 1, "i8") + LOOP.replace("U", "i8") + used()
    yield 30, giver("c", ty="i1") + BRANCH + used()
    for other in ("i8", "index"):
        yield 30, giver("c", ty="i1") + TWO_RESULTS.replace("U", other)
    yield 30, constant("c", 1, "i1") + BRANCH + used()
    yield 30, giver("c", ty="i1") + LONE


def typed(text):
    """A template at each type that it is for."""
    if not re.search(r"\bT\b", text):
        return [text]
    return [re.sub(r"\bT\b", ty, text) for ty in WIDTHS]


def numbered(text):
    """Numbers in their places, taken modulo what the type holds."""
    def number(found):
        width = 64 if found[2] == "index" else int(found[2][1:])
        value = int(found[1].lstrip("$")) % 2 ** width
        return f"value = {value - 2 ** width if value >= 2 ** (width - 1) else value} : {found[2]}"
    return re.sub(r"value = (\$?-?\d+) : (i\d+|index)", number, text)


def changes(text):
    """A module, and the like with one thing changed."""
    yield text
    for found in re.finditer(r"<\{value = (-?\d+)", text):
        yield text[:found.start(1)] + str(0 if int(found[1]) else 1) + text[found.end(1):]
    for found in re.finditer(r'"arith\.constant"\(\) <\{value = [^}]*\}>', text):
        yield text[:found.start()] + '"test.d"()' + text[found.end():]
        yield text[:found.start()] + '"arith.constant"()' + text[found.end():]
        yield text[:found.start()] + '"arith.constant"() <{extra, ' + text[found.start() + 22:]
        yield text[:found.start()] + '"arith.constant"() <{value = "a"}>' + text[found.end():]
    for found in re.finditer(r'"(?:arith|scf|builtin)\.\w+"\((%\w+), (%\w+)', text):
        yield text[:found.start(1)] + found[2] + ", " + found[1] + text[found.end(2):]
    for found in re.finditer(r'"(?:arith|scf|builtin)\.(?!constant)\w+"\([^)]*\)( <\{)?', text):
        yield text[:found.end()] + ("extra, " if found[1] else " <{extra}>") + text[found.end():]
    for found in re.finditer(r'"arith\.(?:addi|subi|muli|shli|trunci)"\([^)]*\)(?! <)', text):
        yield text[:found.end()] + " <{overflowFlags = #arith.overflow<nsw>}>" + text[found.end():]
        yield text[:found.end()] + " <{overflowFlags = 1}>" + text[found.end():]
    for found in re.finditer(r"predicate = \d", text):
        yield text[:found.start()] + "predicate = 10" + text[found.end():]


def target(module):
    """The operation that a template is about: the last of the module's own but what uses it."""
    ops = module.root.regions[0].ops
    return ops[-2] if ops[-1].name == b"test.use" and len(ops) > 1 else ops[-1]


def some(items, most):
    """At most so many of some items, spread over them."""
    step = max(1, -(-len(items) // most))
    return items[::step]


def cases(most=60):
    """Lines: a rule, an operation, a module's text, and the module after the rule, or none, and how many operations it
    made."""
    by_rule = {}
    for rule, template in templates():
        for text in map(numbered, typed(template)):
            by_rule.setdefault(rule, []).extend(changes(text))
    for rule, texts in sorted(by_rule.items()):
        seen, kept = set(), {True: [], False: []}
        for text in texts:
            if text in seen:
                continue
            seen.add(text)
            try:
                module = read(text.encode())
            except rules.Refused:  # (a change may leave no module)
                continue
            op = target(module)
            found = rewrites.apply(module, rule, op.id)
            kept[found is not None].append((rule, op.id, text, found and text_of(found), found and found.next
                                            - module.next))
        yield from some(kept[True], most)
        yield from some(kept[False], most)


def edges():
    """An operation that isn't there, and the root, at which no rule applies."""
    text = giver("a", ty="i8") + on_two("addi", "a", "a", "i8", "i8")
    for rule in WRITTEN:
        yield rule, 9, 0, text, "20 NoSuchOp", None
        yield rule, 0, 0, text, "none", None


def with_ids(lines):
    """Lines, and for each rule the first at which it makes operations again with just enough ids, and with one less."""
    tried = set()
    for rule, op, text, after, made in lines:
        yield rule, op, 0, text, "none" if after is None else "applied", after
        if made and rule not in tried:
            tried.add(rule)
            yield rule, op, MOST_NEXT - made, text, "applied", after
            yield rule, op, MOST_NEXT - made + 1, text, "32 IdsExhausted", None


def swaps(count):
    """Operations one after another, each with its constant first: so many rewrites. A driver that began again at the
    root after each of 1,001 would look at half a million operations (tools/tests/test_costs.py)."""
    lines = [giver("x0", ty="i32"), constant("c", 5, ty="i32")]
    lines += (on_two("maxsi", "c", f"x{i}", "i32", "i32").replace("%x =", f"%x{i + 1} =") for i in range(count))
    return "".join(lines) + f'"test.use"(%x{count}) : (i32) -> ()\n'


def asked(rule, op, text, answer, after):
    """A script that applies a rule at an operation and prints the module, and what is written for it."""
    shown = text_of(read(text.encode())) if after is None else after
    reply = {"applied": "applied 1", "none": "applied 0"}.get(answer, f"refused {answer}")
    script = f"{text}// -----\napply {rule} #{op}\nprint\n"
    return script.encode(), (int(reply.startswith("refused")), f"1 {reply}\n2 ok\n{shown}".encode())


def title_of(rule, op, answer):
    """The name and the sentence of cases of a rule."""
    word = rewrites.WORDS[rule - 1]
    if op == 0:
        return "no-rule-at-root", "No rule applies at the root."
    if answer.startswith("20 "):
        return "no-such-operation", "No rule applies at an operation that doesn't exist."
    if answer == "applied":
        return f"{word}-applies", f"Rule {rule}, `{word}`, applies at the types and operations that it is for."
    return (f"{word}-does-not-apply",
            f"Rule {rule}, `{word}`, doesn't apply where its operation, constants, types or form don't fit.")


def all_cases(case, ask):
    """All cases, and how many there are of each rule; `case` takes words, a text, an answer and a title, `ask` a case
    of crates/mlir_work_cases and its answer."""
    count = collections.Counter()
    lines = with_ids(line for line in cases() if line[0] in WRITTEN)
    for rule, op, least, text, answer, after in itertools.chain(lines, edges()):
        count[rule, after is not None] += 1
        if least:
            shown = text_of(read(text.encode())) if after is None else after
            ask(f"{rule} {op} {least}", text.encode(), f"{answer}\n{shown}".encode())
        else:
            case(["--brief"], *asked(rule, op, text, answer, after), title=title_of(rule, op, answer))
    for rule in WRITTEN:
        print(f"rule {rule}: applies {count[rule, True]}, doesn't {count[rule, False]}")
