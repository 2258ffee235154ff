"""For each listed operation a module in which it is right, and all modules that differ from it by one change of a
kind."""
from .module import I1, I32, I64, INDEX, Block, Module, Op, number_from, read, rules, text_of, walk
from .operations import BINARY, EXTENSIONS, INDEX_CASTS, ROWS

TYPES = [I1, I32, I64, INDEX, ("ui", 32), ("memref", (), I32), ("memref", (None, 4), INDEX)]
ALL = '%d:7 = "test.d"() : () -> (i1, i32, i64, index, ui32, memref<i32>, memref<?x4xindex>)\n'
ATTRS = [("int", I32, 1), ("int", I64, 9), ("int", I64, 10), ("int", ("ui", 32), 1), ("str", b"private"), ("str", b"x"),
         ("ty", ("func", (), ())), ("ty", I32),
         ("sym", (b"f",)), ("sym", (b"f", b"g")), ("dense", I32, (0, 0)), ("dense", I64, (0, 0)),
         ("overflow", True, False), ("unit",)]
TERMINATORS = [(b"func.return", []), (b"scf.yield", []), (b"scf.yield", [I32]), (b"scf.condition", [I1]),
               (b"scf.condition", [I1, I32]), (b"test.a", []),
               (b"func.return", [I64]), (b"scf.condition", [])]


def function(body, ty="() -> ()", args="", last='"func.return"() : () -> ()\n'):
    return (f'"func.func"() <{{function_type = {ty}, sym_name = "f"}}> ({{\n^bb0{args}:\n{ALL}{body}{last}}}) : () -> '
            f'()\n')


YIELD = '"scf.yield"(%d#1) : (i32) -> ()\n'
FOR = (f'%r = "scf.for"(%d#3, %d#3, %d#3, %d#1) ({{\n^bb0(%k: index, %x: i32):\n{YIELD}}}) : (index, index, index, '
       f'i32) -> i32\n')
IF = f'%r = "scf.if"(%d#0) ({{\n{YIELD}}}, {{\n{YIELD}}}) : (i1) -> i32\n'
WHILE = (f'%r = "scf.while"(%d#2) ({{\n^bb0(%x: i64):\n"scf.condition"(%d#0, %d#1) : (i1, i32) -> ()\n}}, '
         f'{{\n^bb0(%y: i32):\n"scf.yield"(%d#2) : (i64) -> ()\n}})'
         ' : (i64) -> i32\n')
RIGHT = {
    "builtin.module": ALL + '"builtin.module"() <{sym_name = "m"}> ({\n"test.a"() : () -> ()\n}) : () -> ()\n',
    "builtin.unrealized_conversion_cast": ALL + '%r = "builtin.unrealized_conversion_cast"(%d#1) : (i32) -> index\n',
    "func.func": function("", "(i32) -> i64", "(%x: i32)", '"func.return"(%d#2) : (i64) -> ()\n'),
    "func.call": ALL + '%r = "func.call"(%d#1) <{callee = @f}> : (i32) -> i64\n',
    "func.return": function("", "() -> i32", "", '"func.return"(%d#1) : (i32) -> ()\n'),
    "arith.constant": ALL + '%r = "arith.constant"() <{value = 1 : i32}> : () -> i32\n',
    "arith.cmpi": ALL + '%r = "arith.cmpi"(%d#1, %d#1) <{predicate = 3 : i64}> : (i32, i32) -> i1\n',
    "arith.select": ALL + '%r = "arith.select"(%d#0, %d#5, %d#5) : (i1, memref<i32>, memref<i32>) -> memref<i32>\n',
    "arith.trunci": ALL + '%r = "arith.trunci"(%d#2) <{overflowFlags = #arith.overflow<nsw>}> : (i64) -> i32\n',
    "scf.for": ALL + FOR, "scf.if": ALL + IF, "scf.while": ALL + WHILE,
    "scf.yield": function(FOR), "scf.condition": ALL + WHILE,
    "memref.alloc": ALL + '%r = "memref.alloc"(%d#3) <{operandSegmentSizes = array<i32: 1, 0>}> : (index) -> '
                          'memref<?x4xi32>\n',
    "memref.dealloc": ALL + '"memref.dealloc"(%d#6) : (memref<?x4xindex>) -> ()\n',
    "memref.load": ALL + '%r = "memref.load"(%d#6, %d#3, %d#3) : (memref<?x4xindex>, index, index) -> index\n',
    "memref.store": ALL + '"memref.store"(%d#1, %d#5) : (i32, memref<i32>) -> ()\n',
}
for name in sorted(BINARY):
    word = name.decode()
    flags = " <{overflowFlags = #arith.overflow<none>}>" if ROWS[name].props else ""
    RIGHT[word] = ALL + f'%r = "{word}"(%d#1, %d#1){flags} : (i32, i32) -> i32\n'
for name in sorted(EXTENSIONS):
    RIGHT[name.decode()] = ALL + f'%r = "{name.decode()}"(%d#1) : (i32) -> i64\n'
for name in sorted(INDEX_CASTS):
    RIGHT[name.decode()] = ALL + f'%r = "{name.decode()}"(%d#1) : (i32) -> index\n'
PARENTS = [ALL + "X", function("X"), ALL + '"test.r"() ({\nX}) : () -> ()\n', ALL
           + f'"scf.if"(%d#0) ({{\nX"scf.yield"() : () -> ()\n}}, {{}}) : (i1) -> ()\n',
           ALL + '"test.r"() ({\nX"test.a"() : () -> ()\n}) : () -> ()\n', '"builtin.module"() ({\n' + ALL
           + "X}) : () -> ()\n",
           ALL + '"scf.while"() ({\nX}, {\nX}) : () -> ()\n', ALL + '"scf.if"(%d#0) ({\nX}, {\nX}) : (i1) -> ()\n',
           function("X", last="")]
SINGLE = ['"func.return"() : () -> ()\n', '"scf.yield"() : () -> ()\n', '"scf.condition"(%d#0) : (i1) -> ()\n',
          '"scf.yield"(%d#1) : (i32) -> ()\n',
          '"func.func"() <{function_type = () -> (), sym_name = "g", sym_visibility = "private"}> ({}) : () -> ()\n',
          '"arith.addf"() : () -> ()\n',
          '"arith.constant"() <{value = true}> : () -> i1\n', '"func.func"() <{sym_name = "g"}> ({}) : () -> ()\n',
          '"builtin.module"() ({\n^bb0:\n}) : () -> ()\n']


class Varied:
    """A module, one operation of it, and the values of all types."""

    def __init__(self, text, name):
        self.module = read(text.encode())
        ops = list(walk(self.module.root))
        self.op = [op for op in ops if op.name == name.encode() and op is not self.module.root][0]
        self.giver = [op for op in ops if op.name == b"test.d"][0]

    def value(self, ty):
        return ("v", self.giver.id, TYPES.index(ty))


def changes(op):
    """The changes of an operation: functions of a module with such an operation and its values."""
    def in_place(change):
        def made(it):
            change(it.op, it)
        return made

    def set_operand(k, ty):
        return in_place(lambda op, it: op.operands.__setitem__(k, it.value(ty)))

    def set_result(k, ty):
        return in_place(lambda op, it: op.results.__setitem__(k, ty))

    for ty in TYPES:
        for k in range(len(op.operands)):
            yield set_operand(k, ty)
        for k in range(len(op.results)):
            yield set_result(k, ty)
    yield in_place(lambda op, it: op.operands.append(it.value(I32)))
    yield in_place(lambda op, it: op.operands.append(it.value(INDEX)))
    yield in_place(lambda op, it: op.operands[-1:] and op.operands.pop())
    yield in_place(lambda op, it: op.operands.clear())
    yield in_place(lambda op, it: op.results.append(I32))
    yield in_place(lambda op, it: op.results[-1:] and op.results.pop())
    yield in_place(lambda op, it: op.regions.append(None))
    yield in_place(lambda op, it: op.regions[-1:] and op.regions.pop())
    yield in_place(lambda op, it: op.props.__setitem__(b"extra", ("unit",)))
    if op.name in ROWS:
        yield from (change for key in sorted(ROWS[op.name].props) for change in property_changes(in_place, key))
    for k in range(len(op.regions)):
        yield from region_changes(in_place, k)


def property_changes(in_place, key):
    yield in_place(lambda op, it: op.props.pop(key, None))
    for attr in ATTRS:
        yield in_place(lambda op, it, attr=attr: op.props.__setitem__(key, attr))


def region_changes(in_place, k):
    """Changes of a region that has a block."""
    def last(name, types):
        def change(op, it):
            values = list(map(it.value, types)) if it.giver.id < op.id else []
            op.regions[k].ops[-1:] = [Op(name, values)]
        return in_place(change)

    yield in_place(lambda op, it: op.regions.__setitem__(k, None))
    yield in_place(lambda op, it: op.regions.__setitem__(k, Block(op.regions[k].args)))
    yield in_place(lambda op, it: op.regions[k].ops.pop())
    yield in_place(lambda op, it: op.regions[k].ops.append(Op(b"test.a")))
    yield in_place(lambda op, it: op.regions[k].args.append(I32))
    yield in_place(lambda op, it: op.regions[k].args[-1:] and op.regions[k].args.pop())
    for ty in (I64, INDEX, ("ui", 32)):
        yield in_place(lambda op, it, ty=ty: op.regions[k].args and op.regions[k].args.__setitem__(0, ty))
    for name, types in TERMINATORS:
        yield last(name, types)


def numbered_anew(module):
    """A module numbered in pre-order, with its values."""
    old = [op.id for op in walk(module.root)]
    next = number_from(module.root, 0)
    numbers = {number: op.id for number, op in zip(old, walk(module.root)) if number is not None}
    for op in walk(module.root):
        op.operands = [(it[0], numbers[it[1]]) + it[2:] for it in op.operands]
    return Module(module.root, next)


def texts():
    """The texts of all."""
    return (text for _, text in named_texts())


def named_texts():
    """The texts of all, each with the name of the operation that is changed, or None if it is put into a parent."""
    for name, text in RIGHT.items():
        yield name, text.encode()
        for number in range(len(list(changes(Varied(text, name).op)))):
            it = Varied(text, name)
            list(changes(it.op))[number](it)
            try:
                made = text_of(numbered_anew(it.module)).encode()
                read(made)
            except (KeyError, rules.Refused):
                # A value that is used is gone, or isn't visible.
                continue
            yield name, made
    for parent in PARENTS:
        for inner in SINGLE:
            yield None, parent.replace("X", inner).encode()
