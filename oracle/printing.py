"""Prints the module, operation or attribute of a text, or its refusal."""

import re

from . import rules

BARE = re.compile(rb"[A-Za-z_][A-Za-z0-9_$.]*\Z")


def string_text(value):
    def shown(byte):
        if byte == 0x5C:
            return "\\\\"
        return chr(byte) if 0x20 <= byte <= 0x7E and byte != 0x22 else "\\%02X" % byte
    return '"' + "".join(shown(byte) for byte in value) + '"'


def key_text(name):
    return name.decode() if BARE.match(name) else string_text(name)


def outs_text(outs):
    if len(outs) == 1 and outs[0][0] != "func":
        return type_text(outs[0])
    return "(" + ", ".join(map(type_text, outs)) + ")"


def type_text(ty):
    if ty[0] == "index":
        return "index"
    if ty[0] == "func":
        return "(" + ", ".join(map(type_text, ty[1])) + ") -> " + outs_text(ty[2])
    if ty[0] == "memref":
        return "memref<" + "".join(("?" if it is None else str(it)) + "x" for it in ty[1]) + type_text(ty[2]) + ">"
    if ty[0] == "opaque":
        return ty[1].decode()
    return f"{ty[0]}{ty[1]}"


def attr_text(attr):
    kind = attr[0]
    if kind == "int":
        if attr[1] == ("i", 1):
            return "true" if attr[2] else "false"
        return f"{attr[2]} : {type_text(attr[1])}"
    if kind == "str":
        return string_text(attr[1])
    if kind == "ty":
        return type_text(attr[1])
    if kind == "opaque":
        return attr[1].decode() + (" : " + type_text(attr[2]) if attr[2] else "")
    if kind == "unit":
        return "unit"
    if kind == "array":
        return "[" + ", ".join(map(attr_text, attr[1])) + "]"
    if kind == "dict":
        return entries_text(attr[1])
    if kind == "sym":
        return "::".join("@" + key_text(it) for it in attr[1])
    if kind == "overflow":
        flags = [word for word, is_set in (("nsw", attr[1]), ("nuw", attr[2])) if is_set]
        return "#arith.overflow<" + (", ".join(flags) or "none") + ">"
    items = ["true" if it else "false" for it in attr[2]] if attr[1] == ("i", 1) else [str(it) for it in attr[2]]
    return "array<" + type_text(attr[1]) + (": " + ", ".join(items) if items else "") + ">"


def entries_text(entries):
    return "{" + ", ".join(key_text(key) + ("" if it == ("unit",) else " = " + attr_text(it)) for key,
                           it in sorted(entries)) + "}"


class Printer:
    def __init__(self, outer=None):
        self.outer, self.names, self.results, self.arguments, self.lines = outer, {}, 0, 0, []

    def key_of(self, value):
        return (id(value[1]),) + value[2:]

    def value(self, value):
        """A value that the tree has; for another, which no module has, a bare `%`, whose type is shown as index."""
        return self.names.get(self.key_of(value), "%") if value[0] != "outer" else "%"

    def type(self, value):
        return ("index",) if value[0] == "outer" else rules.type_of(value, self.outer)

    def head(self, op):
        count, text = len(op.results), ""
        for k in range(count):
            self.names[(id(op), k)] = f"%{self.results}" + (f"#{k}" if count > 1 else "")
        if count:
            text = f"%{self.results}" + (f":{count}" if count > 1 else "") + " = "
            self.results += 1
        text += string_text(op.name) + "(" + ", ".join(map(self.value, op.operands)) + ")"
        return text + (" <" + entries_text(op.props.items()) + ">" if op.props else "")

    def op(self, op, margin):
        text = margin + self.head(op)
        for place, block in enumerate(op.regions):
            text += ", " if place else " ("
            text += self.region(op, place, block, margin) if block else "{}"
        text += ")" if op.regions else ""
        text += " " + entries_text(op.attrs.items()) if op.attrs else ""
        inputs = ", ".join(type_text(self.type(it)) for it in op.operands)
        return text + f" : ({inputs}) -> {outs_text(op.results)}\n"

    def region(self, op, place, block, margin):
        text, args = "{\n", []
        for k, ty in enumerate(block.args):
            self.names[(id(op), place, k)] = f"%arg{self.arguments}"
            args.append(f"%arg{self.arguments}: {type_text(ty)}")
            self.arguments += 1
        if args or not block.ops:
            text += margin + "^bb0" + ("(" + ", ".join(args) + ")" if args else "") + ":\n"
        return text + "".join(self.op(it, margin + "  ") for it in block.ops) + margin + "}"


# Answers.

def refusal(fault):
    return f"{fault.number} {rules.WORDS[fault.number]} at {fault.at}"


def module(text):
    """The text that is printed for a module, or its refusal."""
    try:
        return True, Printer().op(rules.Reader(text).source(), "")
    except rules.Refused as fault:
        return False, refusal(fault)


def attribute(text):
    try:
        return True, attr_text(rules.Reader(text).one_attr())
    except rules.Refused as fault:
        return False, refusal(fault)


def numbered(op, numbers, next):
    numbers[id(op)] = next
    next += 1
    for block in op.regions:
        for it in block.ops if block else []:
            next = numbered(it, numbers, next)
    return next


def first_numbers(op, outer):
    """The ids and operands of an operation, the first inside it, and the first inside that."""
    numbers, shown = {}, ""
    numbered(op, numbers, outer.next)
    for _ in range(3):
        shown += f"#{numbers[id(op)]} "
        for it in op.operands:
            parts = it[1] if it[0] == "outer" else (numbers[id(it[1])],) + it[2:]
            shown += ("%v" if len(parts) == 2 else "%a") + ".".join(map(str, parts)) + " "
        if not op.regions or not op.regions[0] or not op.regions[0].ops:
            break
        op = op.regions[0].ops[0]
    return shown


def operation(text, outer):
    """The first numbers of an operation, or none, and the text that is printed for it, or its refusal."""
    try:
        op = rules.Reader(text, outer).single()
        return first_numbers(op, outer), Printer(outer).op(op, "")
    except rules.Refused as fault:
        return None, refusal(fault)


def cuts(text):
    """The answer to each prefix of a text."""
    said = []
    for length in range(len(text)):
        try:
            rules.Reader(text[:length]).source()
            said.append("read ")
        except rules.Refused as fault:
            said.append(f"{fault.number}@{fault.at} ")
    return "".join(said)
