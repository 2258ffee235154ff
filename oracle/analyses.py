"""The analyses of a module, each as the lines of its report."""
from .folds import attribute_of, fold
from .module import order_of, printing, value_text, walk
from .operations import CALL, FUNC, MODULE, RECURSIVE, ROWS, is_terminator
from .verifier import diagnostics

EFFECTS = ("unknown", "allocate", "free", "read", "write")


def use_list(module):
    """Each use: the value, its user and the number of the operand."""
    found = [(value, op.id, place) for op in walk(module.root) for place, value in enumerate(op.operands)]
    return sorted(found, key=lambda it: (order_of(it[0]), it[1], it[2]))


def uses(module):
    return [f"{value_text(value)} #{user} {place}" for value, user, place in use_list(module)]


# Symbols.

def symbol_text(parts):
    return printing.attr_text(("sym", parts))


def references(op):
    """The symbol references of an operation's dictionaries, each once, by first occurrence."""
    found = []

    def look(attr):
        if attr[0] == "sym" and attr[1] not in found:
            found.append(attr[1])
        elif attr[0] == "array":
            for item in attr[1]:
                look(item)
        elif attr[0] == "dict":
            for _, item in sorted(attr[1]):
                look(item)

    for part in (op.props, op.attrs):
        for _, attr in sorted(part.items()):
            look(attr)
    return found


def name_of(op):
    """The string that an operation has as `sym_name`, among its properties or else among its attributes; or none."""
    for part in (op.props, op.attrs):
        attr = part.get(b"sym_name")
        if attr is not None and attr[0] == "str":
            return attr[1]
    return None


class Symbols:
    """The definitions of a module and what references resolve to. With opaque terms, where a module may have operations
    of any dialect, an operation that isn't a definition may still define a symbol of its name."""

    def __init__(self, module, is_opaque=False):
        self.module, self.ops, self.places = module, module.ops(), module.places()
        self.definitions = []
        for number, op in sorted(self.ops.items()):
            name, where = op.props.get(b"sym_name"), self.places.get(number)
            if op.name in (FUNC, MODULE) and name and name[0] == "str" and where and where.parent.name == MODULE:
                self.definitions.append((where.parent.id, name[1], number))
        defining = {number for _, _, number in self.definitions}
        others = [op for number, op in self.ops.items() if number not in defining]
        self.possible = {name_of(op) for op in others if is_opaque} - {None}

    def first(self, table, name):
        """The definition of a name in a table that counts, or none."""
        found = [number for around, it, number in self.definitions if (around, it) == (table, name)]
        return min(found) if found else None

    def table(self, op):
        """The symbol table around an operation, or none."""
        where = self.places.get(op.id)
        if where is None:
            return op.id if op.name == MODULE else None
        while where is not None:
            if where.parent.name == MODULE:
                return where.parent.id
            where = self.places.get(where.parent.id)
        return None

    def resolved(self, op, parts):
        table = self.table(op)
        for place, name in enumerate(parts):
            if table is None or place and self.ops[table].name != MODULE:
                return None
            table = self.first(table, name)
        return table

    def mismatched(self, op):
        """What a call resolves to where that isn't a function of its type."""
        callee = op.props.get(b"callee")
        found = self.resolved(op, callee[1]) if op.name == CALL and callee and callee[0] == "sym" else None
        if found is None:
            return None
        wanted = ("func", tuple(self.module.type_of(it, self.ops) for it in op.operands), tuple(op.results))
        target = self.ops[found]
        is_right = target.name == FUNC and target.props.get(b"function_type") == ("ty", wanted)
        return None if is_right else found


def symbols(module, is_opaque=False):
    them = Symbols(module, is_opaque)
    defined = [(table, symbol_text((name,)), number) for table, name, number in them.definitions]
    groups = [[f"def #{table} {name} #{number}" for table, name, number in defined]]
    groups.append([f"duplicate #{table} {name} #{number}" for table, name, number in defined
                   if any(it[:2] == (table, name) and it[2] < number for it in defined)])
    used, unresolved, mismatches = [], [], []
    for number, op in sorted(them.ops.items()):
        for parts in references(op):
            found = them.resolved(op, parts)
            if found is None:
                word = "unresolved" if them.possible.isdisjoint(parts) else "unknown"
                unresolved.append(f"{word} #{number} {symbol_text(parts)}")
            else:
                used.append(f"use #{number} {symbol_text(parts)} #{found}")
        found = them.mismatched(op)
        if found is not None:
            mismatches.append(f"mismatch #{number} #{found}")
    return sum(groups, []) + used + unresolved + mismatches


class Reach:
    """Which private definitions of a module something reaches."""

    def __init__(self, module):
        self.symbols = Symbols(module)
        ops = self.symbols.ops
        self.names = {number: name for _, name, number in self.symbols.definitions
                      if ops[number].props.get(b"sym_visibility") == ("str", b"private")}
        self.by = [(self.around(op), self.reached_by(op)) for op in ops.values()]

    def around(self, op):
        """The private definitions among an operation and those around it."""
        found, where = {op.id}, self.symbols.places.get(op.id)
        while where is not None:
            found.add(where.parent.id)
            where = self.symbols.places.get(where.parent.id)
        return found & self.names.keys()

    def reached_by(self, op):
        """Those that a front of a reference of an operation resolves to."""
        fronts = [parts[:count] for parts in references(op) for count in range(1, len(parts) + 1)]
        return {self.symbols.resolved(op, parts) for parts in fronts} & self.names.keys()

    def reached(self):
        found = set()
        while True:
            more = set().union(found, *(to for around, to in self.by if around <= found))
            if more == found:
                return found
            found = more


def unreached_ops(module):
    """The private definitions that nothing reaches, with their names."""
    them = Reach(module)
    found = them.reached()
    return {number: name for number, name in them.names.items() if number not in found}


def unreached(module):
    return [f"#{number} {symbol_text((name,))}" for number, name in sorted(unreached_ops(module).items())]


# Effects, dead operations, constants.

def effects_of(op):
    row = ROWS.get(op.name)
    if row is None:
        return {"unknown"}
    if row.effects == RECURSIVE:
        return set().union(*(effects_of(inner) for block in op.blocks() for inner in block.ops))
    return set(row.effects)


def effects(module):
    found = {op.id: effects_of(op) for op in walk(module.root)}
    return [f"#{number} " + " ".join(word for word in EFFECTS if word in words)
            for number, words in sorted(found.items()) if words]


def dead(module):
    used = {value[1] for value, _, _ in use_list(module) if value[0] == "v"}
    found = [op.id for op in walk(module.root) if op.id not in used and not is_terminator(op)
             and op.name not in (FUNC, MODULE) and effects_of(op) <= {"allocate", "read"}]
    return [f"#{number}" for number in sorted(found)]


def known_values(module):
    found = {}
    for op in walk(module.root):
        value = fold(op, [found.get(it) for it in op.operands])
        if value is not None:
            found[("v", op.id, 0)] = value
    return found


def constants(module):
    found = known_values(module)
    return [f"{value_text(value)} {printing.attr_text(attribute_of(found[value]))}"
            for value in sorted(found, key=order_of)]


def subject(row):
    """The subject of a row, as written: the operation of a definition or a duplicate, the operation that refers or
    calls, or else the first words of the row."""
    words = row.split(" ")
    if words[0] in ("def", "duplicate"):
        return words[-1]
    return words[1] if words[0] in ("use", "unresolved", "unknown", "mismatch") else words[0]


def is_about(row, thing):
    """Whether a row is about an operation, by its number, or about a value. What is about a value is also about the
    operation that it belongs to."""
    if isinstance(thing, int):
        return subject(row) == f"#{thing}" or subject(row).startswith((f"%v{thing}.", f"%a{thing}."))
    return subject(row) == value_text(thing)


ANALYSES = {"uses": uses, "symbols": symbols, "diagnostics": diagnostics, "effects": effects, "dead": dead,
            "constants": constants, "unreached": unreached}


def rows_of(kind, module, is_opaque):
    """The rows of an analysis in a run, which reads opaque terms or doesn't."""
    return symbols(module, is_opaque) if kind == "symbols" else ANALYSES[kind](module)


KINDS = {1: "uses", 2: "symbols", 3: "diagnostics", 4: "effects", 5: "dead", 6: "constants", 7: "unreached"}
