"""Modules as plain trees: operations with ids, values by their owner's id."""
from . import printing, rules

INDEX = ("index",)


def signless(width):
    return ("i", width)


I1, I8, I32, I64 = signless(1), signless(8), signless(32), signless(64)


class Block:
    def __init__(self, args=(), ops=()):
        self.args, self.ops = list(args), list(ops)


class Op:
    """An operation. An operand is `("v", id, place)` or `("a", id, region, place)`; a region is a block or None."""

    def __init__(self, name, operands=(), results=(), props=None, attrs=None, regions=()):
        self.id, self.name, self.operands, self.results = None, name, list(operands), list(results)
        self.props, self.attrs, self.regions = dict(props or {}), dict(attrs or {}), list(regions)

    def copy(self):
        """A copy; types and attributes can't be changed, so they are shared."""
        made = Op(self.name, self.operands, self.results, self.props, self.attrs)
        made.id, made.regions = self.id, [block and Block(block.args, [op.copy() for op in block.ops])
                                          for block in self.regions]
        return made

    def blocks(self):
        return [block for block in self.regions if block is not None]


def walk(op):
    """An operation and all inside it, in pre-order."""
    waiting = [op]
    while waiting:
        op = waiting.pop()
        yield op
        for block in reversed(op.regions):
            if block is not None:
                waiting.extend(reversed(block.ops))


class Where:
    """The position of an operation: its parent, the number of the region, and how many operations are before it."""

    def __init__(self, parent, region, index):
        self.parent, self.region, self.index = parent, region, index

    def ops(self):
        return self.parent.regions[self.region].ops

    def is_last(self):
        return self.index == len(self.ops()) - 1


class Module:
    """A tree and the next free id."""

    def __init__(self, root, next):
        self.root, self.next = root, next

    def copy(self):
        return Module(self.root.copy(), self.next)

    def ops(self):
        """All operations by their ids, in pre-order."""
        return {op.id: op for op in walk(self.root)}

    def places(self):
        """The position of each operation but the root."""
        found = {}
        for op in walk(self.root):
            for region, block in enumerate(op.regions):
                for index, inner in enumerate(block.ops if block else []):
                    found[inner.id] = Where(op, region, index)
        return found

    def type_of(self, value, ops=None):
        """The type of a value, or none if it isn't there."""
        op = (ops or self.ops()).get(value[1])
        if op is None:
            return None
        if value[0] == "v":
            return op.results[value[2]] if value[2] < len(op.results) else None
        block = op.regions[value[2]] if value[2] < len(op.regions) else None
        return block.args[value[3]] if block and value[3] < len(block.args) else None


def number_from(op, next):
    """Numbers an operation and all inside it in pre-order, and gives the next id."""
    for inner in walk(op):
        inner.id, next = next, next + 1
    return next


def order_of(value):
    """Values are ordered by owner, results before arguments, then region and place."""
    return (value[1], value[0] == "a") + value[2:]


def value_text(value):
    return "%" + value[0] + ".".join(map(str, value[1:]))


# From and to the trees of the reader of texts.

def taken(source, next):
    """A tree that was read, numbered from an id."""
    numbers = {}
    printing.numbered(source, numbers, next)

    def value(it):
        if it[0] == "outer":
            return ("v" if len(it[1]) == 2 else "a",) + it[1]
        return ("v" if it[0] == "result" else "a", numbers[id(it[1])]) + it[2:]

    def op(it):
        regions = [block and Block(block.args, map(op, block.ops)) for block in it.regions]
        made = Op(it.name, map(value, it.operands), it.results, it.props, it.attrs, regions)
        made.id = numbers[id(it)]
        return made

    return op(source)


def read(text, reader=rules.Reader):
    """The module that a text spells; raises `rules.Refused`."""
    root = taken(reader(text).source(), 0)
    return Module(root, sum(1 for _ in walk(root)))


class Outer(rules.Outer):
    """What a text that is read alone knows of the module that it is read for."""

    def __init__(self, module):
        super().__init__(module.next, None, None)
        self.module, self.ops = module, module.ops()

    def find(self, name):
        found = self.FORM.match(name)
        numbers = tuple(int(it) for it in found.groups() if it is not None) if found else ()
        value = ("v" if len(numbers) == 2 else "a",) + numbers
        if not found or self.module.type_of(value, self.ops) is None:
            return None
        return [("outer", numbers)]

    def type_of(self, numbers):
        return self.module.type_of(("v" if len(numbers) == 2 else "a",) + numbers, self.ops)


def read_op(text, module, reader=rules.Reader):
    """The operation that a text spells for a module, numbered from its next id."""
    return taken(reader(text, Outer(module)).single(), module.next)


def read_attr(text, reader=rules.Reader):
    return reader(text).one_attr()


class Printer(printing.Printer):
    """Prints operations whose values are named by ids."""

    def __init__(self, types):
        super().__init__()
        self.types = types

    def value(self, value):
        return self.names[value[1:]]

    def type(self, value):
        return self.types(value)

    def head(self, op):
        count, text = len(op.results), ""
        for place in range(count):
            self.names[(op.id, place)] = f"%{self.results}" + (f"#{place}" if count > 1 else "")
        if count:
            text = f"%{self.results}" + (f":{count}" if count > 1 else "") + " = "
            self.results += 1
        text += printing.string_text(op.name) + "(" + ", ".join(map(self.value, op.operands)) + ")"
        return text + (" <" + printing.entries_text(op.props.items()) + ">" if op.props else "")

    def region(self, op, place, block, margin):
        for number in range(len(block.args)):
            self.names[(op.id, place, number)] = f"%arg{self.arguments + number}"
        return super().region(op, place, block, margin)


def text_of(module):
    """The printed text of a module."""
    ops = module.ops()
    return Printer(lambda value: module.type_of(value, ops)).op(module.root, "")


def line_ids(op):
    """The ids of the operations, one for each line of an operation's text."""
    found = [op.id]
    for block in op.blocks():
        found += [op.id] * bool(block.args or not block.ops)
        for inner in block.ops:
            found += line_ids(inner)
        found.append(op.id)
    return found


def ids_text(module):
    """The printed text of a module with the id of the operation at the end of each line, as a comment."""
    lines = text_of(module).splitlines()
    return "".join(f"{line} // #{number}\n" for line, number in zip(lines, line_ids(module.root), strict=True))
