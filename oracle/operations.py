"""The operation table: a row for each listed operation."""
from .module import I1, INDEX

ANY_NUMBER = (0, 256)


class Row:
    """What is listed of an operation: how many operands, results and regions it has (the least and the most), which
    properties, which of them it needs, its own effects, and the parents of a terminator."""

    def __init__(self, operands, results, regions=0, props="", required="", effects=(), parents=None):
        self.operands, self.results, self.regions = operands, results, regions
        self.props = {key.encode() for key in props.split()}
        self.required = {key.encode() for key in required.split()}
        self.effects = effects
        self.parents = None if parents is None else {name.encode() for name in parents.split()}

    def is_terminator(self):
        return self.parents is not None


UNKNOWN, RECURSIVE = ("unknown",), "recursive"
ROWS = {
    b"builtin.module": Row((0, 0), (0, 0), 1, "sym_name sym_visibility", effects=UNKNOWN),
    b"builtin.unrealized_conversion_cast": Row(ANY_NUMBER, (1, 256)),
    b"func.func": Row((0, 0), (0, 0), 1, "function_type sym_name sym_visibility arg_attrs res_attrs",
                      "function_type sym_name", effects=UNKNOWN),
    b"func.call": Row(ANY_NUMBER, ANY_NUMBER, 0, "callee arg_attrs res_attrs", "callee", effects=UNKNOWN),
    b"func.return": Row(ANY_NUMBER, (0, 0), parents="func.func"),
    b"arith.constant": Row((0, 0), (1, 1), 0, "value", "value"),
    b"arith.cmpi": Row((2, 2), (1, 1), 0, "predicate", "predicate"),
    b"arith.select": Row((3, 3), (1, 1)),
    b"arith.trunci": Row((1, 1), (1, 1), 0, "overflowFlags"),
    b"scf.for": Row((3, 256), None, 1, effects=RECURSIVE),
    b"scf.if": Row((1, 1), ANY_NUMBER, 2, effects=RECURSIVE),
    b"scf.while": Row(ANY_NUMBER, ANY_NUMBER, 2, effects=RECURSIVE),
    b"scf.yield": Row(ANY_NUMBER, (0, 0), parents="scf.for scf.if scf.while"),
    b"scf.condition": Row((1, 256), (0, 0), parents="scf.while"),
    b"memref.alloc": Row(ANY_NUMBER, (1, 1), 0, "operandSegmentSizes alignment", effects=("allocate",)),
    b"memref.dealloc": Row((1, 1), (0, 0), effects=("free",)),
    b"memref.load": Row((1, 256), (1, 1), 0, "nontemporal alignment", effects=("read",)),
    b"memref.store": Row((2, 256), (0, 0), 0, "nontemporal alignment", effects=("write",)),
}
FLAGGED = {b"arith." + word for word in b"addi subi muli shli".split()}
BINARY = FLAGGED | {b"arith." + word for word in b"""divsi divui remsi remui andi ori xori shrsi shrui maxsi maxui
minsi minui""".split()}
EXTENSIONS = {b"arith.extsi", b"arith.extui"}
INDEX_CASTS = {b"arith.index_cast", b"arith.index_castui"}
for name in BINARY:
    ROWS[name] = Row((2, 2), (1, 1), 0, "overflowFlags" if name in FLAGGED else "")
for name in EXTENSIONS | INDEX_CASTS:
    ROWS[name] = Row((1, 1), (1, 1))

MODULE, FUNC, CALL, RETURN = b"builtin.module", b"func.func", b"func.call", b"func.return"
FOR, IF, WHILE, YIELD, CONDITION = b"scf.for", b"scf.if", b"scf.while", b"scf.yield", b"scf.condition"
ISOLATED = {MODULE, FUNC}


def is_listed(op):
    return op.name in ROWS


def is_terminator(op):
    return op.name in ROWS and ROWS[op.name].is_terminator()


def is_signless(ty):
    return ty[0] == "i"


def is_T(ty):
    """Whether a type is a signless integer type or index."""
    return is_signless(ty) or ty == INDEX


def result_count(op):
    """The least and the most results that an operation may have."""
    if op.name == FOR:
        inits = max(len(op.operands) - 3, 0)
        return inits, inits
    return ROWS[op.name].results


def has_kind(key, attr):
    """Whether a property of a row has the kind of attribute that it must have."""
    kind = attr[0]
    if key == b"value":
        return kind == "int"
    if key == b"predicate":
        return kind == "int" and attr[1] == ("i", 64) and 0 <= attr[2] <= 9
    if key == b"function_type":
        return kind == "ty" and attr[1][0] == "func"
    if key == b"sym_name":
        return kind == "str"
    if key == b"sym_visibility":
        return attr in (("str", b"public"), ("str", b"private"), ("str", b"nested"))
    if key == b"callee":
        return kind == "sym" and len(attr[1]) == 1
    if key == b"operandSegmentSizes":
        return kind == "dense" and attr[1] == ("i", 32)
    if key == b"overflowFlags":
        return kind == "overflow"
    return True


# What the table doesn't speak of: an operation beyond it breaks no rule on integers, and no rewrite rule but the first
# applies at it.

MEMREFS = {b"memref.load": (0, None), b"memref.store": (1, None), b"memref.dealloc": (0, None),
           b"memref.alloc": (None, 0)}


def places_of(op):
    """The operands and the results that an operation's row calls T, an integer or i1, or a memref, by place."""
    if op.name in MEMREFS:
        return [{place} for place in MEMREFS[op.name]]
    if not op.name.startswith(b"arith.") or not is_listed(op):
        return [set(), set()]
    if op.name == b"arith.select":
        return [{0}, set()]
    row = ROWS[op.name]
    return [set(range(row.operands[1])), set(range(row.results[1]))]


def is_beyond(op, types):
    """Whether an operation, whose operands have these types, is beyond the table: one of those places is opaque."""
    for wanted, them in zip(places_of(op), (types, op.results)):
        if any(ty is not None and ty[0] == "opaque" for place, ty in enumerate(them) if place in wanted):
            return True
    return False
