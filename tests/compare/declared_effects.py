#!/usr/bin/env python3
"""Has `mlir-opt-22 -canonicalize` erase an unused operation of each name in operations/mlir22.ops without effects, or
with reads and allocations alone.

usage: tests/compare/declared_effects.py [FILE] [--tried]

For each name it looks for a form of the operation that MLIR's verifier accepts. It takes an operation without regions
from the modules of tests/golden/opaque, or it begins with an operand and a result of type i32, and changes what the
verifier complains about, up to 60 times. Prints the operations that MLIR keeps, how
many were accepted and erased, and how many found no such form; `--tried` also prints the names of these. Ends with
status 1 if an operation is kept. Terminators and symbols are left out."""
import collections
import pathlib
import re
import shutil
import subprocess
import sys

from checkout import ROOT

from tests.generate import opaque_cases

TOOL = "mlir-opt-22"
FLAGS = ["--split-input-file", "--mlir-print-op-generic", "--mlir-disable-threading"]
ROUNDS = 60
DEAD = {"pure", "read", "allocate"}
TYPES = ["i32", "f32", "index", "i1", "vector<4xf32>", "vector<4xi32>", "tensor<4xf32>", "tensor<4xi32>",
         "memref<4xf32>", "!llvm.ptr", "complex<f32>", "vector<4xi1>", "i64", "f16", "vector<16xf32>",
         "vector<8xf32>", "vector<16xi32>", "vector<8xi32>", "tensor<1x4x4x4xf32>", "tensor<4x4xf32>",
         "vector<4x4xf32>", "memref<?xf32>", "tensor<?xf32>", "tensor<4xi1>", "tensor<1xf32>", "vector<2xf64>",
         "vector<4xf64>", "vector<16xi8>", "vector<8xi16>", "bf16", "vector<[4]xi32>", "vector<[16]xi8>",
         "vector<[4]xi1>", "i8", "i16", "f64", "none", "memref<*xf32>", "!shape.shape", "!shape.size",
         "!shape.value_shape", "!shape.witness", "tensor<3xindex>", "tensor<4xindex>", "!transform.any_op",
         "!transform.param<i64>", "!pdl.operation", "!pdl.value", "!pdl.type", "!pdl.attribute", "!emitc.ptr<i32>",
         '!emitc.opaque<"int">', "!tosa.shape<1>", "!spirv.matrix<4 x vector<4xf32>>", "!quant.uniform<i8:f32, 2.0>",
         "!irdl.attribute", "!smt.int", "!smt.bool", "!smt.bv<8>", "!async.token"]
ATTRIBUTES = ["0 : i64", "0 : i32", "0 : index", "array<i64: 0>", "array<i32: 0>", "i32", '"a"', "unit", "@a", "[]",
              "true", "1.0 : f32", "affine_map<(d0) -> (d0)>", "dense<0> : vector<4xi32>",
              "dense<0.0> : tensor<4xf32>", "dense<0> : tensor<1xindex>", "[0 : i64]", "[[0]]", "{}", "#gpu<dim x>",
              "() -> ()", "0 : i8", "0 : i1", "dense<0> : tensor<4xi32>", '["a"]', "[i32]", "array<i64>",
              "array<i32>", "dense<0> : tensor<1xi64>", "[affine_map<(d0) -> (d0)>]", "#vector.kind<add>",
              "#spirv.scope<Workgroup>", "array<i1: false>"]
LINE = re.compile(r'\s*(?:%[^"=]* = )?"([\w.$-]+)"\([^()]*\)(| <\{.*\}>)(| \{.*\}) : \((.*)\) -> (.*)$')
NUMBERS = {"zero": 0, "a single": 1, "one": 1}


def function(name, operands, results, properties):
    """A function with an operation, whose results aren't used."""
    arguments = ", ".join(f"%a{at}: {it}" for at, it in enumerate(operands))
    names = ", ".join(f"%a{at}" for at in range(len(operands)))
    left = f"%r:{len(results)} = " if results else ""
    block = f"^bb0({arguments}):\n" if operands else ""
    return (f'"func.func"() <{{sym_name = "f", function_type = ({", ".join(operands)}) -> ()}}> ({{\n{block}'
            f'  {left}"{name}"({names}){properties} : ({", ".join(operands)}) -> ({", ".join(results)})\n'
            f'  "func.return"() : () -> ()\n}}) : () -> ()\n')


class Taken:
    """An operation of a module."""

    def __init__(self, found):
        self.name, properties, attributes, operands, results = found.groups()
        results = results[1:-1] if results.startswith("(") and results.endswith(")") else results
        self.chunk = function(self.name, listed(operands), listed(results), properties + attributes)

    def text(self):
        return self.chunk


class Form:
    """A form of an operation: the types of its operands and results, its attributes, and its number of regions."""

    def __init__(self, name):
        self.name, self.regions, self.attributes = name, 0, {}
        self.types = {"operand": [0], "result": [0]}
        self.tries = collections.Counter()

    def resize(self, kind, count):
        """Has a number of operands or results."""
        types = self.types[kind]
        self.types[kind] = (types + [types[-1] if types else 0] * count)[:count]

    def rotate(self, kind, place, wanted):
        """Takes another type for an operand or result: one that the complaint names, or the next."""
        key = (kind, place)
        order = sorted(range(len(TYPES)), key=lambda it: -likeness(TYPES[it], wanted))
        if place < len(self.types[kind]):
            self.types[kind][place] = order[self.tries[key] % len(order)]
            self.tries[key] += 1

    def rotate_all(self, start=None):
        """Takes one type for all operands and results."""
        if start is None:
            start, self.tries["all"] = self.tries["all"] % len(TYPES), self.tries["all"] + 1
        for kind, types in self.types.items():
            self.types[kind] = [start] * len(types)

    def text(self):
        operands, results = ([TYPES[it] for it in self.types[kind]] for kind in ("operand", "result"))
        properties = ", ".join(f"{key} = {ATTRIBUTES[at % len(ATTRIBUTES)]}" for key, at in self.attributes.items())
        regions = " (" + ", ".join(["{}"] * self.regions) + ")" if self.regions else ""
        return function(self.name, operands, results, f"{regions} {{{properties}}}")

    def repair(self, complaint):
        """Changes the form after a complaint of the verifier."""
        if found := re.match(r"requires (zero|a single|one) (operand|result|region)", complaint):
            self.count(found[2], NUMBERS[found[1]])
        elif found := re.match(r"expected (\d+)(?: or more)? (operand|result|region)", complaint):
            self.count(found[2], int(found[1]))
        elif found := re.match(r"(operand|result) #(\d+) must be (.*), but got", complaint):
            self.rotate(found[1], int(found[2]), found[3])
        elif found := re.search(r"inferred type\(s\) (.*) are incompatible", complaint):
            self.infer(re.findall(r"'([^']*)'", found[1]))
        elif found := re.match(r"requires (?:dense i32 array )?attribute '(\w+)'", complaint):
            self.attributes.setdefault(found[1], 0)
        elif found := re.search(r"attribute '(\w+)' failed", complaint):
            self.attributes[found[1]] = self.attributes.get(found[1], 0) + 1
        elif re.search(r"operand(?: group)? start index|expected.*operands", complaint):
            self.resize("operand", len(self.types["operand"]) + 1)
        else:
            self.rotate_all()

    def count(self, kind, count):
        """Has a number of operands, results or regions."""
        if kind == "region":
            self.regions = count
        else:
            self.resize(kind, count)

    def infer(self, types):
        """Has results of the types that MLIR infers."""
        for it in types:
            if it not in TYPES:
                TYPES.append(it)
        self.types["result"] = [TYPES.index(it) for it in types]


def likeness(candidate, wanted):
    """How many of the words that describe a type fit it."""
    words = {"float": "f32", "integer": "i", "signless": "i", "vector": "vector", "tensor": "tensor",
             "memref": "memref", "index": "index", "pointer": "!llvm.ptr", "complex": "complex", "1-bit": "i1",
             "boolean": "i1", "bool": "i1", "scalable": "[", "ranked": "x", "shape": "!shape", "matrix": "matrix"}
    exact = sum(3 for it in re.findall(r"[\w!.<>\[\]]+", wanted) if it == candidate)
    return exact + sum(part in candidate for word, part in words.items() if word in wanted.lower())


def listed(types):
    """The types of a list, which is cut at the commas outside brackets."""
    found, depth = [""], 0
    for at, letter in enumerate(types):
        depth += (letter in "(<[{") - (letter in ")]}" or letter == ">" and types[at - 1] != "-")
        if letter == "," and not depth:
            found.append("")
        else:
            found[-1] += letter
    return [it.strip() for it in found if it.strip()]


def taken(names, most=3):
    """Lists of operations of the modules of tests/golden/opaque, at most one of each name in a list."""
    lists, counts = [{} for _ in range(most)], collections.Counter()
    for module in opaque_cases.modules():
        for found in filter(None, map(LINE.match, module.text.decode("utf-8", "replace").splitlines())):
            if found[1] in names and counts[found[1]] < most:
                lists[counts[found[1]]][found[1]] = Taken(found)
                counts[found[1]] += 1
    return lists


def run(forms, *flags):
    """What mlir-opt complains about in each form, by its name, and the names of the operations that it prints."""
    chunks, owners, line = [], {}, 1
    for form in forms:
        text = form.text()
        for at in range(text.count("\n") + 1):
            owners[line + at] = form.name
        line += text.count("\n") + 1
        chunks.append(text)
    ran = subprocess.run([TOOL, *FLAGS, *flags], input="// -----\n".join(chunks), capture_output=True, text=True,
                         errors="replace", check=False)
    complaints = {}
    for found in re.finditer(r"^[^:\n]+:(\d+):\d+: error: (.*)$", ran.stderr, re.M):
        name = owners.get(int(found[1]))
        complaints.setdefault(name, re.sub(r"^'[\w.$-]+' op ", "", found[2]))
    return complaints, set(re.findall(r'"([\w.$-]+)"\(', ran.stdout))


def accepted(names):
    """A form that MLIR accepts of each operation, as far as one is found."""
    found = {}
    for forms in taken(set(names)):
        _, printed = run([form for name, form in forms.items() if name not in found])
        found |= {name: form for name, form in forms.items() if name in printed and name not in found}
    waiting = {name: Form(name) for name in names if name not in found}
    for _ in range(ROUNDS):
        complaints, printed = run(waiting.values())
        found |= {name: form for name, form in waiting.items() if name in printed}
        waiting = {name: form for name, form in waiting.items() if name not in printed}
        for name, complaint in complaints.items():
            if name in waiting:
                waiting[name].repair(complaint)
    return list(found.values()), sorted(waiting)


def declared(file):
    """The names of operations that are dead if unused: all effects are among those of dead operations."""
    rows = [line.split() for line in file.read_text().splitlines() if line and not line.startswith("//")]
    words = {row[0]: set(row[1:]) - {"commutative"} for row in rows}
    return [name for name in words if words[name] and words[name] <= DEAD]


def main():
    words = [it for it in sys.argv[1:] if it != "--tried"]
    if words[1:] or words[:1] in (["-h"], ["--help"]):
        print(__doc__)
        return 0
    if not shutil.which(TOOL):
        print(f"skipped: {TOOL} isn't installed")
        return 0
    names = declared(pathlib.Path(words[0]) if words else ROOT / "operations/mlir22.ops")
    forms, lacking = accepted(names)
    complaints, kept = run(forms, "-canonicalize")
    wrong = [form for form in forms if form.name in kept]
    for form in wrong:
        print(f"kept: {form.text()}")
    erased = len(forms) - len(wrong) - len(complaints)
    print(f"{len(names)} operations: {len(forms)} accepted, {erased} of them erased; no accepted form of "
          f"{len(lacking)}")
    if "--tried" in sys.argv:
        print("\n".join(lacking))
    return 1 if wrong or complaints else 0


if __name__ == "__main__":
    sys.exit(main())
