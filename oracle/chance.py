"""Random modules and scripts. Most operations of a module are right; some are changed a little, so that they break a
rule."""
from .module import I1, I8, I32, I64, INDEX, Block, Module, Op, printing, rules, text_of, value_text, walk
from .operations import (BINARY, CALL, CONDITION, EXTENSIONS, FLAGGED, FOR, FUNC, IF, INDEX_CASTS, ISOLATED, MODULE,
                         RETURN,
                         ROWS, WHILE, YIELD, is_T)

KINDS_OF_T = [I1, I8, I32, I32, I32, I64, INDEX, INDEX, ("i", 7), ("i", 128)]
ODD_TYPES = [("ui", 8), ("si", 32), ("memref", (), I32), ("memref", (None,), I32), ("memref", (4, None), INDEX),
             ("func", (), ())]
SYMBOLS = [b"f", b"g", b"h", b"m"]
UNLISTED = [b"test.a", b"test.b", b"arith.addf", b"func.constant", b"scf.execute_region"]

# Which operations a module has, and how often: in a module's own block (where a function is made), and elsewhere.
TASTES = {
    "any": ("function*4 declaration nested constant binary unlisted call access",
            "constant*2 binary*3 compare select cast loop branch while_loop alloc access call unlisted*2 unrealized"),
    "symbols": ("function*3 declaration*3 nested*4 call*2 unlisted*2",
                "call*5 unlisted*3 nested constant function declaration"),
    "effects": ("function*2 loop*2 branch*2 while_loop alloc access unlisted",
                "loop*2 branch*3 while_loop*2 alloc*2 access*5 constant unlisted call binary"),
    "dead": ("function*2 loop*2 branch*2 while_loop alloc access binary",
             "loop branch*2 while_loop alloc*2 access*2 constant*3 binary*4 select unrealized unlisted"),
    "unreached": ("function*4 declaration*2 nested*4 call*2 referring*3",
                  "call*4 referring*3 nested*2 function declaration unlisted"),
    "constants": ("function*2 constant*3 binary*6 compare*2 select*2 cast*3 branch",
                  "constant*3 binary*9 compare*3 select*3 cast*5 branch loop unlisted"),
}


def listed(words):
    """Words, each as often as the number after it."""
    return [word.partition("*")[0] for word in words.split() for _ in range(int(word.partition("*")[2] or 1))]


def integer(chance, ty):
    """An integer attribute of a type."""
    least, most, first = rules.span(ty)
    number = chance.choice([0, 0, 1, 1, 2, 3, -1, least, most, most // 3, chance.randrange(least, most + 1)])
    width = 64 if ty == INDEX else ty[1]
    return ("int", ty, (number - first) % 2 ** width + first)


class Maker:
    """Makes a module of some operations and changes a part of them."""

    def __init__(self, chance, most, wrong, taste="any"):
        self.chance, self.left, self.wrong, self.next, self.functions = chance, most, wrong, 0, []
        self.outer, self.inner = map(listed, TASTES[taste])
        # The share of functions and modules that are private, in addition to random ones.
        self.hidden = 0.6 if taste == "unreached" else 0
        # The defining op of other values: an unregistered operation, or a cast, which has no effect.
        self.giver = b"builtin.unrealized_conversion_cast" if taste in ("effects", "dead") else b"test.d"

    def is_so(self, part):
        return self.chance.random() < part

    def any_T(self):
        return self.chance.choice(KINDS_OF_T)

    def any_type(self):
        return self.any_T() if self.is_so(0.7) else self.chance.choice(ODD_TYPES)

    def signless(self):
        return ("i", self.chance.choice([1, 7, 8, 16, 32, 64, 128]))

    def any_attr(self):
        return self.chance.choice([("unit",), ("str", b"x"), integer(self.chance, I64), integer(self.chance, I8),
                                   ("ty", I32), ("sym", (b"f",)),
                                   ("sym", (b"m", b"f")), ("array", (("sym", (b"g",)), integer(self.chance, I32))),
                                   ("overflow", True, False),
                                   ("dense", I32, (1, 0)), ("dict", ((b"a", ("sym", (b"h",))), (b"b", ("unit",)))),
                                   ("ty", ("func", (I32,), ()))])

    def module(self):
        root = self.numbered(Op(MODULE, regions=[Block()]))
        self.fill(root, root.regions[0], [])
        return Module(root, self.next)

    def numbered(self, op):
        op.id, self.next = self.next, self.next + 1
        self.left -= 1
        return op

    # Blocks. The visible values are a list of values with their types.

    def fill(self, parent, block, seen):
        """Fills the block of an operation with a few operations and with what it needs last."""
        most = max(1, min(self.left, self.chance.randrange(1, 8)))
        while most > 0 and self.left > 0:
            self.one(parent, block, seen)
            most -= 1
        self.finish(parent, block, seen)
        if self.is_so(0.2 * self.wrong):
            self.one(parent, block, seen)

    def finish(self, parent, block, seen):
        region = next(place for place, it in enumerate(parent.regions) if it is block)
        if self.is_so(0.2 * self.wrong):
            self.one(parent, block, seen)
        elif self.is_so(0.3 * self.wrong):
            types = [self.any_type() for _ in range(self.chance.randrange(2))]
            self.put(block, seen, self.chance.choice([RETURN, YIELD, CONDITION]), types)
        elif self.is_so(0.2 * self.wrong):
            return
        elif parent.name == FUNC:
            ty = parent.props.get(b"function_type")
            self.put(block, seen, RETURN, list(ty[1][2]) if ty and ty[0] == "ty" and ty[1][0] == "func" else [])
        elif parent.name == WHILE and region == 0:
            self.put(block, seen, CONDITION, [I1] + parent.results)
        elif parent.name == WHILE:
            first = parent.regions[0]
            self.put(block, seen, YIELD, list(first.args) if first else [])
        elif parent.name in (FOR, IF):
            self.put(block, seen, YIELD, list(parent.results))

    def value(self, block, seen, ty):
        """A value of a type: a visible one, or a new one."""
        found = [value for value, it in seen if it == ty]
        if found and self.is_so(0.8):
            return self.chance.choice(found[-6:])
        op = Op(self.giver if self.is_so(0.9) else b"test.d", results=[ty])
        if is_T(ty) and self.is_so(0.7):
            op = Op(b"arith.constant", results=[ty], props={b"value": integer(self.chance, ty)})
        block.ops.append(self.numbered(op))
        seen.append((("v", op.id, 0), ty))
        return ("v", op.id, 0)

    def put(self, block, seen, name, types, results=(), props=None, regions=()):
        """Puts an operation that uses values of some types; a region is None or the types of its block's arguments."""
        if self.is_so(self.wrong):
            types, results, props, regions = self.changed(name, types, results, props or {}, regions)
        operands = [self.value(block, seen, ty) for ty in types]
        op = self.numbered(Op(name, operands, results, props))
        block.ops.append(op)
        if self.is_so(0.15):
            op.attrs[self.chance.choice([b"k", b"note", b"value.x"])] = self.any_attr()
        for args in regions:
            self.region(op, args, seen)
        seen.extend((("v", op.id, place), ty) for place, ty in enumerate(op.results))
        return op

    def region(self, op, args, seen):
        if args is None:
            op.regions.append(None)
            return
        inner = Block(args)
        op.regions.append(inner)
        around = [] if op.name in ISOLATED else list(seen)
        around += [(("a", op.id, len(op.regions) - 1, number), ty) for number, ty in enumerate(args)]
        self.fill(op, inner, around)

    def changed(self, name, types, results, props, regions):
        """The parts of an operation with one change."""
        types, results, props, regions = list(types), list(results), dict(props), list(regions)
        kinds = ["operand", "operand", "more operands", "result", "more results", "extra", "wrong", "wrong", "region",
                 "regions", "args", "args"]
        kind = self.chance.choice(kinds)
        if kind == "operand" and types:
            types[self.chance.randrange(len(types))] = self.any_type()
        elif kind == "more operands":
            types = types[:-1] if types and self.is_so(0.5) else types + [self.any_type()]
        elif kind == "result" and results:
            results[self.chance.randrange(len(results))] = self.any_type()
        elif kind == "more results":
            results = results[:-1] if results and self.is_so(0.5) else results + [self.any_type()]
        elif kind == "extra":
            props[b"extra"] = self.any_attr()
        elif kind == "wrong" and name in ROWS and ROWS[name].props:
            key = self.chance.choice(sorted(ROWS[name].props))
            if key in props and self.is_so(0.4):
                del props[key]
            else:
                props[key] = self.any_attr()
        elif kind == "region" and regions:
            regions[self.chance.randrange(len(regions))] = None
        elif kind == "regions":
            regions = regions[:-1] if regions and self.is_so(0.5) else regions + [None]
        elif kind == "args" and regions:
            place = self.chance.randrange(len(regions))
            regions[place] = (regions[place]
                              or []) + [self.any_type()] if self.is_so(0.5) else (regions[place] or [])[:-1]
        return types, results, props, regions

    # Operations.

    def one(self, parent, block, seen):
        words = self.outer if parent.name == MODULE else self.inner
        word = "function" if self.is_so(0.1 * self.wrong) else self.chance.choice(words)
        getattr(self, word)(block, seen)

    def constant(self, block, seen):
        ty = self.any_T()
        of = self.any_T() if self.is_so(0.3 * self.wrong) else ty
        self.put(block, seen, b"arith.constant", [], [ty], {b"value": integer(self.chance, of)})

    def binary(self, block, seen):
        name, ty = self.chance.choice(sorted(BINARY)), self.any_T()
        props = {b"overflowFlags": ("overflow", self.is_so(0.3), False)} if name in FLAGGED and self.is_so(0.6) else {}
        self.put(block, seen, name, [ty, ty], [ty], props)

    def compare(self, block, seen):
        ty = self.any_T()
        self.put(block, seen, b"arith.cmpi", [ty, ty], [I1],
                 {b"predicate": ("int", I64, self.chance.randrange(11 if self.is_so(self.wrong) else 10))})

    def select(self, block, seen):
        ty = self.any_T() if self.is_so(0.8) else self.any_type()
        self.put(block, seen, b"arith.select", [I1, ty, ty], [ty])

    def cast(self, block, seen):
        name = self.chance.choice(sorted(EXTENSIONS | INDEX_CASTS) + [b"arith.trunci"])
        one, two = self.signless(), self.signless()
        if name in INDEX_CASTS:
            one, two = self.chance.choice([(INDEX, two), (one, INDEX)])
        elif not self.is_so(self.wrong):
            one, two = sorted([("i", 8), self.chance.choice([I1, I32, I64])], key=lambda ty: ty[1], reverse=name
                              == b"arith.trunci")
        self.put(block, seen, name, [one], [two])

    def loop(self, block, seen):
        ty, inits = self.chance.choice([INDEX, INDEX, I32]), [self.any_T() for _ in range(self.chance.randrange(3))]
        self.put(block, seen, FOR, [ty] * 3 + inits, inits, {}, [[ty] + inits])

    def branch(self, block, seen):
        results = [self.any_T() for _ in range(self.chance.randrange(3))]
        second = [] if results and not self.is_so(self.wrong) or self.is_so(0.5) else None
        self.put(block, seen, IF, [I1], results, {}, [[], second])

    def while_loop(self, block, seen):
        inits, results = ([self.any_T() for _ in range(self.chance.randrange(3))] for _ in range(2))
        self.put(block, seen, WHILE, inits, results, {}, [list(inits), list(results)])

    def memref(self):
        return ("memref", tuple(self.chance.choice([None, 4]) for _ in range(self.chance.randrange(3))), self.any_T())

    def alloc(self, block, seen):
        ty = self.memref()
        sizes = [INDEX] * sum(dim is None for dim in ty[1])
        count = len(sizes) + self.is_so(0.4 * self.wrong)
        props = {b"operandSegmentSizes": ("dense", I32, (count, 0))} if self.is_so(0.6) else {}
        self.put(block, seen, b"memref.alloc", sizes, [ty], props)

    def access(self, block, seen):
        found = [ty for _, ty in seen if ty[0] == "memref"]
        ty = self.chance.choice(found) if found else self.memref()
        of = self.any_T() if self.is_so(self.wrong) else ty[2]
        indices = [INDEX] * max(len(ty[1]) + self.chance.choice([-1, 1]) * self.is_so(self.wrong), 0)
        name = self.chance.choice([b"memref.load", b"memref.store", b"memref.dealloc"])
        if name == b"memref.load":
            self.put(block, seen, name, [ty] + indices, [of])
        elif name == b"memref.store":
            self.put(block, seen, name, [of, ty] + indices)
        else:
            self.put(block, seen, name, [ty])

    def call(self, block, seen):
        name, inputs, outputs = self.chance.choice(SYMBOLS), [I32], []
        if self.functions and self.is_so(0.8):
            name, inputs, outputs = self.chance.choice(self.functions)
        parts = (self.chance.choice(SYMBOLS), name) if self.is_so(0.1 + self.wrong / 3) else (name,)
        self.put(block, seen, CALL, inputs, outputs, {b"callee": ("sym", parts)})

    def unrealized(self, block, seen):
        self.put(block, seen, b"builtin.unrealized_conversion_cast", [self.any_type()], [self.any_type()])

    def unlisted(self, block, seen):
        types = [self.chance.choice(seen)[1] for _ in range(self.chance.randrange(3)) if seen]
        results = [self.any_type() for _ in range(self.chance.randrange(3))]
        regions = [self.chance.choice([None, [], [self.any_type()]])
                   for _ in range(self.chance.choice([0, 0, 0, 1, 2]))]
        self.put(block, seen, self.chance.choice(UNLISTED), types, results, {}, regions)

    def function_props(self):
        inputs, outputs = ([self.any_T() for _ in range(self.chance.randrange(3))] for _ in range(2))
        props = {b"function_type": ("ty", ("func", tuple(inputs), tuple(outputs))),
                 b"sym_name": ("str", self.chance.choice(SYMBOLS))}
        if self.is_so(0.3):
            props[b"sym_visibility"] = ("str", self.chance.choice([b"private", b"nested", b"public"]))
        self.hide(props)
        self.functions.append((props[b"sym_name"][1], inputs, outputs))
        return props, inputs

    def function(self, block, seen):
        props, inputs = self.function_props()
        self.put(block, seen, FUNC, [], [], props, [inputs])

    def declaration(self, block, seen):
        props, _ = self.function_props()
        if not self.is_so(self.wrong):
            props[b"sym_visibility"] = ("str", b"private")
        self.put(block, seen, FUNC, [], [], props, [None])

    def nested(self, block, seen):
        props = {b"sym_name": ("str", self.chance.choice(SYMBOLS))} if self.is_so(0.7) else {}
        self.hide(props)
        self.put(block, seen, MODULE, [], [], props, [[]])

    def hide(self, props):
        if self.hidden and self.is_so(self.hidden):
            props[b"sym_visibility"] = ("str", b"private")

    def symbol(self):
        """A reference of some parts."""
        return ("sym", tuple(self.chance.choice(SYMBOLS) for _ in range(self.chance.choice([1, 1, 1, 2, 2, 3]))))

    def referring(self, block, seen):
        """An operation that refers to symbols from its properties and attributes."""
        here = [self.symbol(), ("array", (self.symbol(), self.symbol())),
                ("dict", ((b"a", self.symbol()), (b"b", ("array", (self.symbol(),)))))]
        op = self.put(block, seen, self.chance.choice(UNLISTED), [], [], {b"p": self.chance.choice(here)}
                      if self.is_so(0.5) else {}, [[]] if self.is_so(0.2) else [])
        op.attrs.update({b"k": self.chance.choice(here)} if self.is_so(0.6) else {})


def module(chance, most, wrong, taste="any"):
    return Maker(chance, most, wrong, taste).module()


# Opaque terms. A type is put in the place of another one everywhere, so that most operations stay as right as before.

OPAQUE_TYPES = [("opaque", text) for text in (
    b"f32", b"f64", b"none", b"vector<4xi8>", b"vector<[4]x2xi32>", b"tensor<?x4xf32>", b"tensor< 4xi8>", b"!d.t",
    b'!d.t<"a>b", (x -> y)>', b"!e<1>", b"complex<f32>", b"tuple<i8, f32>", b"memref<4xi8, 1>", b"memref<*xi32>")]
# What an opaque attribute may be with a type, and what may be one without.
TYPED = [b"1.5", b"-0.0", b"0x7FC0", b"dense<0>", b"dense<[[1, -2]]>", b"#d.a", b'#d.a<b = "x">', b'"s"',
         b"dense_resource<r>"]
ALONE = [b"1.0", b"#d.a", b"#d.a<x -> y>", b"affine_map<(d0) -> (d0)>", b"strided<[1], offset: ?>", b"distinct[0]<>",
         b"array<f32: 1.0>", b'loc("f":1:2)', b'#d.b<"@f">']


class Opener:
    """Puts opaque terms into a module."""

    def __init__(self, chance):
        self.chance = chance
        closed = dict.fromkeys([*KINDS_OF_T, *ODD_TYPES])
        self.types = {ty: chance.choice(OPAQUE_TYPES) for ty in closed if chance.random() < 0.35}

    def type(self, ty):
        if ty in self.types:
            return self.types[ty]
        if ty[0] == "memref":
            # (a memref is the element of another one only where that is opaque or known)
            return ("memref", ty[1], self.type(ty[2]))
        if ty[0] == "func":
            return ("func", tuple(map(self.type, ty[1])), tuple(map(self.type, ty[2])))
        return ty

    def attr(self, attr):
        """An attribute at the types that there are now."""
        kind = attr[0]
        if kind == "int" and attr[1] in self.types and self.chance.random() < 0.8:
            return ("opaque", self.chance.choice(TYPED), self.types[attr[1]])
        if kind == "ty":
            return ("ty", self.type(attr[1]))
        if kind == "array":
            return ("array", tuple(map(self.attr, attr[1])))
        if kind == "dict":
            return ("dict", tuple((key, self.attr(it)) for key, it in attr[1]))
        return attr

    def any_attr(self):
        """An opaque attribute."""
        if self.chance.random() < 0.5:
            return ("opaque", self.chance.choice(ALONE), None)
        return ("opaque", self.chance.choice(TYPED), self.chance.choice(OPAQUE_TYPES))

    def entries(self, entries, part):
        """Entries at the types that there are now, some of them opaque."""
        return {key: self.any_attr() if self.chance.random() < part else self.attr(it) for key, it in entries.items()}

    def open(self, op):
        """Opens an operation and all inside it."""
        for it in walk(op):
            it.results = list(map(self.type, it.results))
            it.props, it.attrs = self.entries(it.props, 0.02), self.entries(it.attrs, 0.4)
            if self.chance.random() < 0.05:
                it.attrs[self.chance.choice([b"k", b"o"])] = self.any_attr()
            for block in it.blocks():
                block.args = list(map(self.type, block.args))


def opened(chance, made):
    """A module with opaque terms in it."""
    Opener(chance).open(made.root)
    return made


def symbol_line(chance, scripter):
    """A line of a script about names of operations that may define symbols, and about references to them."""
    name, other = (chance.choice("fghm") for _ in range(2))
    value = chance.choice([f'"{name}"', f'"{name}"', f'"{name}" : !t.s', f"@{name}", "1 : i8"])
    return chance.choice([
        f"insert {scripter.place()} \"t.global\"() <{{sym_name = {value}}}> : () -> ()",
        f"insert {scripter.place()} \"t.global\"() {{sym_name = {value}}} : () -> ()",
        f'insert {scripter.place()} "t.table"() ({{ "t.func"() {{sym_name = "{other}"}} : () -> () }}) '
        f'{{sym_name = "{name}"}} : () -> ()',
        f'insert {scripter.place()} "t.user"() {{a = @{name}, b = [@{other}::@{name}, @n::@{other}]}} : () -> ()',
        f"set-attr #{scripter.any_op()} sym_name {value}", f"drop-attr #{scripter.any_op()} sym_name",
        f"report symbols of #{scripter.any_op()}", "report symbols"])


def opaque_line(chance, scripter):
    """A line of a script about symbols, or with opaque terms, most of them right."""
    if chance.random() < 0.4:
        return symbol_line(chance, scripter)
    term = printing.attr_text(Opener(chance).any_attr())
    if chance.random() < 0.2:
        term = chance.choice(["#m", "!t", "1.0 : i8", "1 : f32", "dense<1>", "#d.a<(x>", "#d.a<x", "tensor<4 // x>",
                              "[#d.a, @f, f32]", "{a = !d.t, b}", "memref<4xf32, #m>", "#d.a<@f>", "0x7F : f16"])
    if chance.random() < 0.6:
        op, key = scripter.keyed()
        return f"set-attr #{op.id} {printing.key_text(key)} {term}"
    value = scripter.value()
    ty = scripter.run.module.type_of(value) or I32
    used, shown = value_text(value), printing.type_text(ty)
    out = printing.type_text(chance.choice(OPAQUE_TYPES))
    return f"insert {scripter.place()} " + chance.choice([
        f'"test.u"({used}) {{k = {term}}} : ({shown}) -> {out}',
        f'%r = "arith.constant"() <{{value = {term}}}> : () -> {out}',
        f'"test.u"({used}) : ({out}) -> ()', f'%r = "builtin.unrealized_conversion_cast"({used}) : ({shown}) -> {out}',
        f'"test.r"({used}) ({{ ^bb0(%x: {out}): "test.u"(%x, {used}) : ({out}, {shown}) -> () }}) : ({shown}) -> ()'])


# Scripts.

class Scripter:
    """Makes commands for the module of a run, most of them with a meaning."""

    def __init__(self, chance, run):
        self.chance, self.run = chance, run

    def any_op(self):
        numbers = sorted(self.run.module.ops())
        if self.chance.random() < 0.05:
            return self.chance.choice([0, self.run.module.next, self.run.module.next + 1])
        return self.chance.choice(numbers)

    def values(self):
        found = []
        for op in walk(self.run.module.root):
            found += [("v", op.id, place) for place in range(len(op.results))]
            for region, block in enumerate(op.regions):
                found += [("a", op.id, region, place) for place in range(len(block.args) if block else 0)]
        return found

    def value(self, ty=None):
        """A value, of a type most of the time if one is asked for."""
        found = self.values()
        if not found or self.chance.random() < 0.05:
            return ("v", self.any_op(), self.chance.randrange(2))
        of_type = [value for value in found if self.run.module.type_of(value) == ty]
        return self.chance.choice(of_type if of_type and self.chance.random() < 0.8 else found)

    def visible(self, number, ty):
        """A value defined before an operation, most of the time of a type."""
        ops = self.run.module.ops()
        front = [value for value in self.values() if value[0] == "a" or value[1] < number or number not in ops]
        of_type = [value for value in front if self.run.module.type_of(value, ops) == ty]
        if of_type and self.chance.random() < 0.7:
            return self.chance.choice(of_type)
        return self.chance.choice(front) if front and self.chance.random() < 0.8 else self.value(ty)

    def place(self):
        word = self.chance.choice(["before", "before", "after", "start", "end"])
        if word in ("before", "after"):
            return f"{word} #{self.any_op()}"
        with_blocks = [op for op in walk(self.run.module.root) if op.blocks()]
        if self.chance.random() < 0.1 or not with_blocks:
            return f"{word} #{self.any_op()} {self.chance.randrange(2)}"
        op = self.chance.choice(with_blocks)
        return f"{word} #{op.id} {self.chance.randrange(len(op.regions))}"

    def set_operand(self):
        with_operands = [op for op in walk(self.run.module.root) if op.operands]
        if not with_operands or self.chance.random() < 0.05:
            return f"set-operand #{self.any_op()} 0 {value_text(self.value())}"
        op = self.chance.choice(with_operands)
        place = self.chance.randrange(len(op.operands))
        ty = self.run.module.type_of(op.operands[place])
        return f"set-operand #{op.id} {place} {value_text(self.visible(op.id, ty))}"

    def erase(self):
        used = {value[1] for op in walk(self.run.module.root) for value in op.operands if value[0] == "v"}
        unused = [op.id for op in walk(self.run.module.root) if op.id not in used]
        number = self.chance.choice(unused) if unused and self.chance.random() < 0.8 else self.any_op()
        return f"erase #{number}"

    def move(self):
        return f"move #{self.any_op()} {self.place()}"

    def replace(self):
        old = self.value()
        new = self.visible(old[1], self.run.module.type_of(old))
        return f"replace {value_text(old)} {value_text(new)}"

    def attr_of(self, op, key):
        maker = Maker(self.chance, 0, 0)
        if key == b"value" and op.results and is_T(op.results[0]):
            return integer(self.chance, op.results[0])
        if key == b"sym_name":
            return ("str", self.chance.choice(SYMBOLS))
        if key == b"callee":
            return ("sym", (self.chance.choice(SYMBOLS),))
        if key == b"predicate":
            return ("int", I64, self.chance.randrange(10))
        if key == b"function_type":
            block = op.regions[0] if op.regions else None
            return ("ty", ("func", tuple(block.args if block else ()),
                           tuple(self.chance.choice(KINDS_OF_T) for _ in range(self.chance.randrange(2)))))
        return maker.any_attr()

    def keyed(self):
        op = self.run.module.ops().get(self.any_op(), self.run.module.root)
        own = sorted(ROWS[op.name].props) if op.name in ROWS else []
        keys = own * 3 + sorted(op.props) + sorted(op.attrs) + [b"k", b"a b"]
        return op, self.chance.choice(keys)

    def set_attr(self):
        op, key = self.keyed()
        attr = self.attr_of(op, key) if self.chance.random() < 0.7 else Maker(self.chance, 0, 0).any_attr()
        return f"set-attr #{op.id} {printing.key_text(key)} {printing.attr_text(attr)}"

    def drop_attr(self):
        op, key = self.keyed()
        return f"drop-attr #{op.id} {printing.key_text(key)}"

    def inserted(self):
        """The text of an operation, with values of the module by their names."""
        value = self.value()
        ty = self.run.module.type_of(value) or I32
        used, shown = value_text(value), printing.type_text(ty)
        T = self.chance.choice(KINDS_OF_T)
        constant = (f'"arith.constant"() <{{value = {printing.attr_text(integer(self.chance, T))}}}> : () -> '
                    f'{printing.type_text(T)}')
        return self.chance.choice([
            constant, f'%0 = {constant}', f'"test.u"({used}) : ({shown}) -> ()',
            f'%r = "arith.addi"({used}, {used}) : ({shown}, {shown}) -> {shown}',
            f'%r:2 = "test.r"({used}) ({{}}, '
            f'{{ ^bb0(%x: {shown}): "test.u"(%x, {used}) : ({shown}, {shown}) -> () }}) : ({shown}) -> (i32, {shown})',
            f'"arith.muli"({used}, {used}) : ({shown}, {shown}) -> {shown}',
            f'"func.func"() <{{function_type = () -> (), sym_name = "{self.chance.choice("fgh")}"}}> '
            f'({{ "func.return"() : () -> () }}) : () -> ()',
            f'"func.call"({used}) <{{callee = @{self.chance.choice("fgh")}}}> : ({shown}) -> ()',
            '"memref.alloc"() : () -> memref<i32>',
            f'"builtin.module"() <{{sym_name = "{self.chance.choice("fm")}"}}> ({{ ^bb0: }}) : () -> ()',
            '"test.a"() {k = @f, l = @m::@f} : () -> ()',
            f'"scf.if"({used}) ({{ %i = {constant} "scf.yield"() : () -> () }}, {{}}) : ({shown}) -> ()',
            f'"test.bad"({used}) : (i9) -> ()',
            f'"builtin.module"() ({{ "test.u"({used}) : ({shown}) -> () }}) : () -> ()'])

    def insert(self):
        return f"insert {self.place()} {self.inserted()}"

    def sweep(self):
        return "sweep"

    def edit(self):
        return self.chance.choice([self.set_operand] * 4 + [self.erase] * 3 + [self.move] * 3 + [self.replace] * 2
                                  + [self.set_attr] * 3
                                  + [self.drop_attr, self.insert, self.insert, self.insert, self.sweep])()

    def mark(self):
        words = ["begin", "begin", "commit", "rollback",
                 "rollback"] if self.run.marks else ["begin"] * 6 + ["commit", "rollback"]
        return self.chance.choice(words)

    def edit_or_mark(self):
        return self.edit() if self.chance.random() < 0.75 else self.mark()


def commands(chance, text, count, make):
    """A script over a module, of commands that a call of `Scripter` makes; marks that are open are closed in the end,
    most of the time."""
    from . import script
    run, lines = script.Run(script.read(text)), []
    scripter = Scripter(chance, run)
    while len(lines) < count or run.marks and chance.random() < 0.9:
        line = make(scripter) if len(lines) < count else chance.choice(["commit", "rollback", "rollback"])
        run.reply(line)
        lines.append(line)
    return lines
