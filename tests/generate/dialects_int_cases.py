#!/usr/bin/env python3
"""Writes stdin and stdout of crates/dialects_int_cases: each case is a line, and its answer computed here from the
rules of the operation table and of folds, on Python's whole numbers. Run it at the top of the repository."""
import pathlib
import random

cases = []
seen = set()


def case(line, want):
    if line not in seen:
        seen.add(line)
        cases.append((line, want))


KINDS = ["i1", "i2", "i8", "i63", "i64", "i65", "i127", "i128", "index"]


def width(kind):
    return 64 if kind == "index" else int(kind[1:])


def signed(w, a):
    return a - 2**w if a >= 2 ** (w - 1) else a


def towards_zero(a, b):
    q = abs(a) // abs(b)
    return -q if (a < 0) != (b < 0) else q


def divides(w, a, b):
    """The signed readings of a and b, where their quotient is a value."""
    a, b = signed(w, a), signed(w, b)
    if b == 0 or (a == -(2 ** (w - 1)) and b == -1):
        return None
    return a, b


def divsi(w, a, b):
    parts = divides(w, a, b)
    return None if parts is None else towards_zero(*parts)


def remsi(w, a, b):
    parts = divides(w, a, b)
    return None if parts is None else parts[0] - parts[1] * towards_zero(*parts)


def by_sign(pick):
    return lambda w, a, b: pick(signed(w, a), signed(w, b))


# What each operation computes of two values, as a whole number that is then taken modulo 2^w.
PAIRS = {
    "addi": lambda w, a, b: a + b,
    "subi": lambda w, a, b: a - b,
    "muli": lambda w, a, b: a * b,
    "shli": lambda w, a, b: a * 2**b if b < w else None,
    "divsi": divsi,
    "divui": lambda w, a, b: a // b if b else None,
    "remsi": remsi,
    "remui": lambda w, a, b: a % b if b else None,
    "andi": lambda w, a, b: a & b,
    "ori": lambda w, a, b: a | b,
    "xori": lambda w, a, b: a ^ b,
    "shrsi": lambda w, a, b: signed(w, a) // 2**b if b < w else None,
    "shrui": lambda w, a, b: a // 2**b if b < w else None,
    "maxsi": by_sign(max),
    "maxui": lambda w, a, b: max(a, b),
    "minsi": by_sign(min),
    "minui": lambda w, a, b: min(a, b),
}
FLAGGED = ["addi", "subi", "muli", "shli", "trunci"]
# The operand that alone gives the result, if there is one.
ENOUGH = {"muli": lambda w: 0, "andi": lambda w: 0, "ori": lambda w: 2**w - 1}
PREDICATES = [
    lambda w, a, b: a == b,
    lambda w, a, b: a != b,
    by_sign(lambda a, b: a < b),
    by_sign(lambda a, b: a <= b),
    by_sign(lambda a, b: a > b),
    by_sign(lambda a, b: a >= b),
    lambda w, a, b: a < b,
    lambda w, a, b: a <= b,
    lambda w, a, b: a > b,
    lambda w, a, b: a >= b,
]
CASTS = ["extsi", "extui", "trunci", "index_cast", "index_castui"]


def is_integer(kind):
    return kind[0] == "i" and kind != "index"


def has_values(kind):
    return kind == "index" or is_integer(kind)


def allowed(op, key, attr):
    """Whether the property is of the row, and its attribute as it must be."""
    if key == "overflowFlags":
        return op in FLAGGED and attr == "flags"
    if key == "value":
        return op == "constant" and ":" in attr
    if key == "predicate":
        return op == "cmpi" and attr.startswith("i64:") and int(attr[4:]) <= 9
    return False


def pair(op, kind, operands):
    if len(operands) != 2:
        return None
    w = width(kind)
    for operand in operands:
        if op in ENOUGH and operand == (kind, ENOUGH[op](w)):
            return ENOUGH[op](w)
    if any(operand is None or operand[0] != kind for operand in operands):
        return None
    return PAIRS[op](w, operands[0][1], operands[1][1])


def cmpi(kind, operands, props):
    if kind != "i1" or len(operands) != 2 or None in operands or "predicate" not in props:
        return None
    (left, a), (right, b) = operands
    if left != right:
        return None
    return int(PREDICATES[int(props["predicate"][4:])](width(left), a, b))


def select(kind, operands):
    if len(operands) != 3 or operands[0] is None or operands[0][0] != "i1":
        return None
    chosen = operands[1] if operands[0][1] else operands[2]
    return chosen[1] if chosen and chosen[0] == kind else None


def cast(op, kind, operands):
    if len(operands) != 1 or operands[0] is None:
        return None
    source, a = operands[0]
    if "index" not in op and not (is_integer(kind) and is_integer(source)):
        return None
    if op == "trunci":
        return a if width(kind) < width(source) else None
    return signed(width(source), a) if op in ("extsi", "index_cast") else a


def value_of(op, kind, operands, props):
    if op in PAIRS:
        return pair(op, kind, operands)
    if op == "cmpi":
        return cmpi(kind, operands, props)
    if op == "select":
        return select(kind, operands)
    if op in CASTS:
        return cast(op, kind, operands)
    if op == "constant" and not operands and "value" in props:
        ty, value = props["value"].split(":")
        return int(value) if ty == kind else None
    return None


def fold(name, results, operands, props):
    dialect, _, op = name.partition(".")
    if dialect != "arith" or len(results) != 1 or not has_values(results[0]):
        return "none"
    if not all(allowed(op, key, attr) for key, attr in props.items()):
        return "none"
    value = value_of(op, results[0], operands, props)
    return "none" if value is None else f"{results[0]}:{value % 2 ** width(results[0])}"


def listed(words):
    return ",".join(words) or "-"


def ask(name, results, operands, props={}):
    known = ["?" if operand is None else f"{operand[0]}:{operand[1]}" for operand in operands]
    entries = [f"{key}={attr}" for key, attr in props.items()]
    case(f"fold {name} {listed(results)} {listed(known)} {listed(entries)}", fold(name, results, operands, props))


def ends(w):
    """Both ends, around 0 and around the sign."""
    return sorted({n % 2**w for n in (0, 1, 2 ** (w - 1) - 1, 2 ** (w - 1), -1)})


def more_ends(w):
    return sorted(set(ends(w)) | {n % 2**w for n in (2, 2 ** (w - 1) + 1, 2 ** (w - 1) - 2, -2)})


chance = random.Random(20)
FLAGS = {"overflowFlags": "flags"}

# Every operation on two values at every width.
for op in PAIRS:
    for kind in KINDS:
        w = width(kind)
        for a in ends(w):
            for b in ends(w):
                ask(f"arith.{op}", [kind], [(kind, a), (kind, b)])
        for _ in range(4):
            a, b = chance.randrange(2**w), chance.randrange(2**w)
            ask(f"arith.{op}", [kind], [(kind, a), (kind, b)], FLAGS if op in FLAGGED else {})
        for b in (3, 5, 7):
            ask(f"arith.{op}", [kind], [(kind, 2 ** (w - 1) % 2**w), (kind, b % 2**w)])

# Shifts by less than the width, by the width, and by more.
for op in ("shli", "shrsi", "shrui"):
    for kind in KINDS:
        w = width(kind)
        for amount in (0, 1, w // 2, w - 1, w, w + 1, 2**32, 2**64):
            for a in (1, 2 ** (w - 1), 2**w - 1):
                if amount < 2**w:
                    ask(f"arith.{op}", [kind], [(kind, a), (kind, amount)])

# One operand that is enough, with one that isn't known or isn't of the type.
for op in PAIRS:
    for kind in KINDS:
        w = width(kind)
        other = "i32" if kind != "i32" else "i16"
        for a in (0, 1, 2**w - 1):
            for b in (None, (other, 0), (other, 5)):
                ask(f"arith.{op}", [kind], [(kind, a), b])
                ask(f"arith.{op}", [kind], [b, (kind, a)])
    for operands in ([None, None], [("i64", 0), ("index", 0)], [("index", 0), ("i64", 0)]):
        ask(f"arith.{op}", ["i64"], operands)
        ask(f"arith.{op}", ["index"], operands)

# Comparisons.
for number in range(10):
    predicate = {"predicate": f"i64:{number}"}
    for kind in KINDS:
        w = width(kind)
        for a in ends(w):
            for b in ends(w)[::2]:
                ask("arith.cmpi", ["i1"], [(kind, a), (kind, b)], predicate)
    for operands in ([None, ("i8", 1)], [("i8", 1), None], [("i8", 1), ("i16", 1)], [("i64", 1), ("index", 1)]):
        ask("arith.cmpi", ["i1"], operands, predicate)
    ask("arith.cmpi", ["i8"], [("i8", 1), ("i8", 1)], predicate)
for attr in ("i64:10", "i32:1", "si64:1", "index:1", "unit", "flags"):
    ask("arith.cmpi", ["i1"], [("i8", 1), ("i8", 1)], {"predicate": attr})
ask("arith.cmpi", ["i1"], [("i8", 1), ("i8", 1)])

# Selects.
for kind in KINDS:
    w = width(kind)
    choices = [(kind, 0), (kind, 2**w - 1), None, ("i32", 1)]
    for condition in (("i1", 0), ("i1", 1), None, ("i8", 1)):
        for a in choices:
            for b in choices:
                ask("arith.select", [kind], [condition, a, b])

# Casts from every width to every other.
for op in CASTS:
    for source in KINDS:
        for kind in KINDS:
            for a in ends(width(source))[1:]:
                ask(f"arith.{op}", [kind], [(source, a)])
    ask(f"arith.{op}", ["i8"], [None])

# Constants.
for kind in KINDS:
    for a in more_ends(width(kind)):
        ask("arith.constant", [kind], [], {"value": f"{kind}:{a}"})
for ty, kind in (("i8", "i16"), ("si8", "i8"), ("ui8", "i8"), ("i8", "si8"), ("si8", "si8"), ("i64", "index"),
                 ("index", "i64")):
    ask("arith.constant", [kind], [], {"value": f"{ty}:5"})
for props in ({}, {"value": "unit"}, {"value": "flags"}, {"value": "i8:5", "overflowFlags": "flags"},
              {"predicate": "i64:1"}):
    ask("arith.constant", ["i8"], [], props)

# Numbers of operands and results, types of results, and properties outside the row.
FIVE = ("i8", 5)
EVERY = [f"arith.{op}" for op in [*PAIRS, "constant", "cmpi", "select", *CASTS]]
for name in EVERY:
    row = {"value": "i8:5"} if name == "arith.constant" else {"predicate": "i64:0"} if name == "arith.cmpi" else {}
    for count in range(5):
        for results in ([], ["i8"], ["i1"], ["i8", "i8"], ["si8"], ["ui8"]):
            ask(name, results, [("i1", 1), *[FIVE] * 4][:count] if name == "arith.select" else [FIVE] * count, row)
    operands = {"arith.constant": 0, "arith.select": 3}.get(name, 1 if name[6:] in CASTS else 2)
    for key in ("overflowFlags", "value", "predicate", "alignment", "test"):
        for attr in ("flags", "unit", "i8:5", "i64:5", "i64:10"):
            ask(name, ["i1" if name == "arith.cmpi" else "i8"], [("i1", 1), *[("i16", 0)] * 2] if operands == 3
                else [FIVE] * operands, {**row, key: attr})

# Operations that have no fold.
OTHERS = """builtin.module builtin.unrealized_conversion_cast func.func func.call func.return scf.for scf.if scf.while
scf.yield scf.condition memref.alloc memref.dealloc memref.load memref.store""".split()
for name in [*OTHERS, "test.op", "arith.addf", "arith", "arith.addi.x", "sym_name"]:
    for count in range(4):
        ask(name, ["i8"], [FIVE] * count)

# The table: how many operands and whether more, results the same, regions, properties, those required, parents.
ROWS = {
    "builtin.module": (0, False, 0, False, 1, 2, 0, 0),
    "builtin.unrealized_conversion_cast": (0, True, 1, True, 0, 0, 0, 0),
    "func.func": (0, False, 0, False, 1, 5, 2, 0),
    "func.call": (0, True, 0, True, 0, 3, 1, 0),
    "func.return": (0, True, 0, False, 0, 0, 0, 1),
    "arith.constant": (0, False, 1, False, 0, 1, 1, 0),
    "arith.cmpi": (2, False, 1, False, 0, 1, 1, 0),
    "arith.select": (3, False, 1, False, 0, 0, 0, 0),
    "scf.for": (3, True, 0, True, 1, 0, 0, 0),
    "scf.if": (1, False, 0, True, 2, 0, 0, 0),
    "scf.while": (0, True, 0, True, 2, 0, 0, 0),
    "scf.yield": (0, True, 0, False, 0, 0, 0, 3),
    "scf.condition": (1, True, 0, False, 0, 0, 0, 1),
    "memref.alloc": (0, True, 1, False, 0, 2, 0, 0),
    "memref.dealloc": (1, False, 0, False, 0, 0, 0, 0),
    "memref.load": (1, True, 1, False, 0, 2, 0, 0),
    "memref.store": (2, True, 0, False, 0, 2, 0, 0),
}
for op in PAIRS:
    ROWS[f"arith.{op}"] = (2, False, 1, False, 0, int(op in FLAGGED), 0, 0)
for op in CASTS:
    ROWS[f"arith.{op}"] = (1, False, 1, False, 0, int(op in FLAGGED), 0, 0)
KNOWN = {"memref.alloc": 0, "memref.dealloc": 1, "memref.load": 2, "memref.store": 3}


def shown(words):
    return " ".join(str(word).lower() for word in words)


def effects(name):
    if name in KNOWN:
        return shown(place == KNOWN[name] for place in range(4))
    if name in ("scf.for", "scf.if", "scf.while"):
        return "recursive"
    return "unknown" if name not in ROWS or name in ("builtin.module", "func.func", "func.call") else "pure"


def traits(name):
    return shown([
        name in ("func.return", "scf.yield", "scf.condition"),
        name in ("builtin.module", "func.func"),
        name == "builtin.module",
        name in ("builtin.module", "func.func"),
        name in ("scf.for", "scf.if", "scf.while"),
    ])


for name in [*ROWS, "test.op", "sym_name", "arith.addf", "public"]:
    case(f"row {name}", shown(ROWS[name]) if name in ROWS else "none")
    case(f"effects {name}", effects(name))
    case(f"traits {name}", traits(name))

folder = pathlib.Path("crates/dialects_int_cases")
(folder / "stdin").write_text("".join(f"{line}\n" for line, _ in cases))
(folder / "stdout").write_text("".join(f"{want}\n" for _, want in cases))
print(len(cases), "cases")
