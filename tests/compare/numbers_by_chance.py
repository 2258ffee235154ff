#!/usr/bin/env python3
"""Compares three ways to edit over random scripts: by lines of the library, by interned numbers, and by lines of a
process. All three have to make the same modules with the same numbers, to refuse the same edits, and to report the same
rows, those of the numbers as cells.

A text names values that its parser looks up, so an `insert` that is refused may have another refusal by numbers than by
text; everything else is compared exactly.

usage: tests/compare/numbers_by_chance.py PROGRAM LIBRARY [CASES [SEED]] [--first N]

LIBRARY is a libmlir_work.so. CASES is 2000 and SEED 1 if they aren't given. Each difference is printed, and a count;
the status is 1 if there is one."""
import argparse
import random
import shlex
import sys

import checkout  # noqa: F401
import mlir_work
from mlir_work import Argument, Result, after, before, end, start
from mlir_work.numbers import KINDS
from oracle import chance
from oracle.module import text_of

MOST_EDITS, MOST_SHOWN = 24, 5
NAMES = ("test.new", "arith.constant", "arith.addi", "func.return", "test.\u00e9")
TYPES = ("i32", "i1", "index", "i128", "memref<?x4xi32>", "(i32) -> i1", "ui8")
ATTRIBUTES = ("5 : i32", "true", "-1 : i128", "unit", "\"a b\"", "[1 : i8, @f]", "@f::@g", "array<i32: 1>", "i32",
              "#arith.overflow<nsw>", "{a = 1 : i8, b}", "9223372036854775807 : index")
KEYS = ("value", "sym_name", "a", "zone", "overflowFlags", "callee", "b.c")


class Editor:
    """Makes random edits of a module, each for all ways."""

    def __init__(self, maker, session):
        self.maker, self.session = maker, session

    def operation(self):
        """An operation of the module, or one that isn't there."""
        operations = [it.number for it in self.session.walk()]
        return self.maker.choice([*operations, max(operations) + self.maker.randrange(1, 5)])

    def value(self):
        """A value of the module, or in some cases one that isn't there."""
        found = [it.value for op in self.session.walk() for it in
                 (*op.results, *(argument for region in op.regions for block in region.blocks
                                 for argument in block.arguments))]
        other = self.maker.choice([Result(self.operation(), 7), Argument(self.operation(), 0, 9)])
        return other if not found or self.maker.random() < 0.1 else self.maker.choice(found)

    def place(self):
        """A place next to an operation or in a block."""
        make = self.maker.choice([before, after, start, end])
        return make(self.operation(), self.maker.randrange(2)) if make in (start, end) else make(self.operation())

    def entries(self):
        """Some entries of an operation."""
        keys = self.maker.sample(KEYS, self.maker.choice([0, 0, 1, 2, 3]))
        return {key: self.maker.choice(ATTRIBUTES) for key in keys}

    def insert(self):
        """An insertion: by numbers, and as a line."""
        operands = [self.value() for _ in range(self.maker.choice([0, 0, 1, 2, 3]))]
        results = [self.maker.choice(TYPES) for _ in range(self.maker.choice([0, 1, 1, 2]))]
        properties, attributes = self.entries(), self.entries()
        place, name = self.place(), self.maker.choice(NAMES)
        types = [self.session._read().type(it) or "i32" for it in operands]
        text = f"%r:{len(results)} = " if results else ""
        text += f'"{name}"({", ".join(map(str, operands))})'
        for opens, them, closes in (("<{", properties, "}>"), ("{", attributes, "}")):
            if them:
                text += f" {opens}{', '.join(f'{key} = {it}' for key, it in them.items())}{closes}"
        text += f' : ({", ".join(types)}) -> ({", ".join(results)})'
        return (f"insert {place} {text}",
                lambda it: it.insert(place, name, operands, results, properties, attributes))

    def one(self):
        """A random edit: a line, and what makes it by numbers."""
        kind = self.maker.choice("insert insert insert set drop operand operand replace erase move move".split())
        if kind == "insert":
            return self.insert()
        op, place, value, key = self.operation(), self.place(), self.value(), self.maker.choice(KEYS)
        if kind == "set":
            attribute = self.maker.choice(ATTRIBUTES)
            return (f"set-attr #{op} {key} {attribute}", lambda it: it.set_attribute(op, key, attribute))
        if kind == "drop":
            return f"drop-attr #{op} {key}", lambda it: it.drop_attribute(op, key)
        if kind == "operand":
            at = self.maker.randrange(3)
            return f"set-operand #{op} {at} {value}", lambda it: it.set_operand(op, at, value)
        if kind == "replace":
            other = self.value()
            return f"replace {value} {other}", lambda it: it.replace(value, other)
        if kind == "erase":
            return f"erase #{op}", lambda it: it.erase(op)
        return f"move #{op} {place}", lambda it: it.move(op, place)


def by_line(session, line):
    """What a line is answered: the number of a new operation or nothing, or the refusal."""
    try:
        return session.command(line).number
    except mlir_work.Refused as fault:
        return "refused" if line.startswith("insert") else f"refused {fault.number}"


def by_numbers(session, edit, line):
    """The same, by numbers."""
    try:
        number = edit(session.numbers)
        return number if line.startswith("insert") else None
    except mlir_work.Refused as fault:
        return "refused" if line.startswith("insert") else f"refused {fault.number}"


def cell_text(session, cell):
    """The text of a cell, as reports have it."""
    calls = session._read()
    if cell.kind == "operation":
        return f"#{cell.item}"
    if cell.kind == "name":
        name = calls._kept({}, "name", cell.item)
        is_bare = all(it.isascii() and (it.isalnum() or it in "_$.") for it in name)
        bare = name and name[0] not in "0123456789" and is_bare
        return f"@{name}" if bare else f"@{mlir_work.quoted(name)}"
    if cell.kind == "attribute":
        return calls._kept({}, "attribute", cell.item)
    if cell.kind == "constant":
        number, width = cell.item
        if width == 1:
            return "true" if number else "false"
        bits = width or 64
        signed = number - 2 ** bits if number >= 2 ** (bits - 1) else number
        return f"{signed} : {f'i{width}' if width else 'index'}"
    return f"V{cell.item}" if cell.kind == "rule" else str(cell.item)


def rows(session, kind):
    """The rows of a report by numbers, as lines."""
    return "".join(" ".join(cell_text(session, cell) for cell in row) + "\n" for row in session.numbers.report(kind))


def seen(session, is_by_numbers=False):
    """The module with its numbers, and the rows of all reports."""
    texts = [session.command("print ids").shown]
    for kind in KINDS:
        texts.append(rows(session, kind) if is_by_numbers else session.command(f"report {kind}").shown)
    return "\n".join(texts)


def compared(number, given):
    """Runs a case in three ways, and returns the edits and the first difference, or nothing."""
    maker = random.Random(f"{given.seed} {number} numbers")
    taste = maker.choice(sorted(chance.TASTES))
    module = chance.module(maker, maker.randrange(2, 30), maker.choice([0, 0, 0.1]), taste)
    text, log, marks = text_of(module), [], 0
    ways = [mlir_work.Session(text, way=mlir_work.Library(given.library)),
            mlir_work.Session(text, way=mlir_work.Library(given.library)), mlir_work.Session(text, given.program)]
    try:
        editor = Editor(maker, ways[0])
        for _ in range(maker.randrange(1, MOST_EDITS)):
            if maker.random() < 0.2:
                line = maker.choice(["begin"] + ["commit", "rollback"] * (marks > 0))
                marks += 1 if line == "begin" else -1
                if marks > 16:
                    marks, line = 16, "print"
                answers = [by_line(it, line) for it in ways]
            else:
                line, edit = editor.one()
                answers = [by_line(ways[0], line), by_numbers(ways[1], edit, line), by_line(ways[2], line)]
            log.append(f"{line}    {answers}")
            given.edits += 1
            given.refused += "refused" in str(answers[0])
            if len(set(answers)) > 1:
                return text, log, "different answers"
        shown = [seen(ways[0]), seen(ways[1], True), seen(ways[2])]
        if len(set(shown)) > 1:
            return text, log, "\n---\n".join(shown)
        return None
    finally:
        for way in ways:
            way.close()


def main():
    reader = argparse.ArgumentParser(description=__doc__, usage=argparse.SUPPRESS,
                                     formatter_class=argparse.RawDescriptionHelpFormatter)
    reader.add_argument("program", type=shlex.split)
    reader.add_argument("library")
    reader.add_argument("cases", nargs="?", type=int, default=2000)
    reader.add_argument("seed", nargs="?", type=int, default=1)
    reader.add_argument("--first", type=int, default=0)
    given = reader.parse_args()
    given.edits = given.refused = wrong = 0
    for number in range(given.first, given.first + given.cases):
        found = compared(number, given)
        if found:
            wrong += 1
            if wrong <= MOST_SHOWN:
                text, log, fault = found
                print(f"case {number}:\n{text}", *log, fault, sep="\n", flush=True)
    print(f"seed {given.seed}: {given.cases:,} scripts, {given.edits:,} edits, {given.refused:,} refused by all; "
          f"{wrong or 'no'} difference{'s' * (wrong > 1)}")
    return int(wrong > 0)


if __name__ == "__main__":
    sys.exit(main())
