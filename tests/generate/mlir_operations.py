#!/usr/bin/env python3
"""Writes operations/mlir22.ops: the effects and traits of the operations of MLIR 22, from MLIR's operation definitions.

usage: tests/generate/mlir_operations.py INCLUDE > operations/mlir22.ops

INCLUDE is the folder of Debian's libmlir-22-dev, /usr/lib/llvm-22/include. `llvm-tblgen-22` reads the definitions. A
line has the name of an operation, the words of its effects, and those of its traits. Operations about which the
definitions say nothing that the words can say, and operations that the program has in its own table, have no line."""
import json
import pathlib
import subprocess
import sys

from checkout import ROOT

TOOL = "llvm-tblgen-22"
HEAD = """\
// The effects and traits of the operations of MLIR 22.1.8, by tests/generate/mlir_operations.py.
// A line is an operation: its name, its effects (pure, recursive, or those of allocate, free, read and write), its
// traits (terminator, symbol, symbol-table, commutative). Without a word for effects they are unknown. A pure operation
// has no memory effect; whether it may be speculated isn't said.
"""
EFFECTS = {"Allocate": "allocate", "Free": "free", "Read": "read", "Write": "write"}
TRAITS = {"IsTerminator": "terminator", "SymbolOpInterface": "symbol", "FunctionOpInterface": "symbol",
          "SymbolTable": "symbol-table", "IsCommutative": "commutative"}


class Definitions:
    """The records of a file of definitions, by their names."""

    def __init__(self, include, file):
        words = [TOOL, "--dump-json", "-I", include, "-I", file.parent, file]
        ran = subprocess.run(words, stdout=subprocess.PIPE, stderr=subprocess.DEVNULL, check=False)
        self.records = json.loads(ran.stdout) if ran.returncode == 0 else {"!instanceof": {}}

    def operations(self):
        """The records of operations."""
        return [self.records[name] for name in self.records["!instanceof"].get("Op", ())]

    def of(self, reference):
        """The record that a value of a field refers to."""
        return self.records[reference["def"]] if isinstance(reference, dict) and "def" in reference else {}

    def name(self, operation):
        """The name of an operation, with that of its dialect."""
        return f'{self.of(operation["opDialect"])["name"]}.{operation["opName"]}'

    def traits(self, references):
        """The records of traits, those in lists of traits included."""
        for reference in references:
            trait = self.of(reference)
            if "TraitList" in trait["!superclasses"]:
                yield from self.traits(trait["traits"])
            else:
                yield trait

    def decorators(self, operation):
        """The records of the effects that are written at operands, attributes and results."""
        for part in ("arguments", "results"):
            for reference, _ in operation[part]["args"]:
                yield from map(self.of, self.of(reference).get("decorators", ()))


def kinds(effects):
    """The words of some records of effects."""
    found = {EFFECTS[it["effect"].rpartition(":")[2]] for it in effects if "MemoryEffect" in it["!superclasses"]}
    return [word for word in EFFECTS.values() if word in found]


def effects(definitions, operation, traits):
    """The words of an operation's effects; none if the operation computes them, or nothing is defined."""
    listed = [it for it in traits if "MemoryEffects" in it["!superclasses"]]
    written = [definitions.of(effect) for it in listed for effect in it["effects"]]
    words = kinds([*written, *definitions.decorators(operation)])
    is_computed = any(it.get("cppInterfaceName") == "MemoryEffectOpInterface" for it in traits)
    if any(it.get("trait") == "HasRecursiveMemoryEffects" for it in traits):
        return [] if words or is_computed else ["recursive"]
    if is_computed:
        return []
    return words or (["pure"] if listed else [])


def row(definitions, operation):
    """The words of a line after the name."""
    traits = list(definitions.traits(operation["traits"]))
    names = {it.get("cppInterfaceName") or it.get("trait") for it in traits}
    words = dict.fromkeys(word for name, word in TRAITS.items() if name in names)
    return [*effects(definitions, operation, traits), *words]


def listed():
    """The names of the operations in the program's own table."""
    rows = (ROOT / "crates/op_registry/specs/Rows.antt").read_text()
    return {name for name in rows.split('"')[1::2] if "." in name}


def main():
    if len(sys.argv) != 2 or sys.argv[1].startswith("-"):
        print(__doc__)
        return 0
    include, rows = pathlib.Path(sys.argv[1]), {}
    for file in sorted((include / "mlir").rglob("*.td")):
        if "Op<" in file.read_text(errors="replace"):
            definitions = Definitions(include, file)
            for operation in definitions.operations():
                rows.setdefault(definitions.name(operation), row(definitions, operation))
    print(HEAD, end="")
    own = listed()
    for name in sorted(rows):
        if rows[name] and name not in own:
            print(name, *rows[name])
    return 0


if __name__ == "__main__":
    sys.exit(main())
