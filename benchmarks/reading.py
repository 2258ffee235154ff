#!/usr/bin/env python3
"""reading.py PROGRAM [N] [-- WORD..]: instructions that reading a module of N operations and printing it take for an
operation, by callgrind, beyond those for an empty module; and the functions that take most themselves. PROGRAM reads
standard input: one that `unproved.py` makes, or another with words that have it print."""
import os, re, subprocess, sys, tempfile

NONE = " <{overflowFlags = #arith.overflow<none>}>"
# How many operands an operation of `wide` has, and how many operations a function of `loops`.
OPERANDS, LOOPS = 256, 17
EMPTY = '"builtin.module"() ({\n^bb0:\n}) : () -> ()\n'


def module(lines):
    return '"builtin.module"() ({\n' + "".join(f"  {it}\n" for it in lines) + "}) : () -> ()\n"


def function(types, names, lines, number="", returned=""):
    """A function, with one result of type i32 where a value is returned."""
    listed, typed = ", ".join(types), ", ".join(f"{name}: {ty}" for name, ty in zip(names, types))
    out, ty = ("i32", "i32") if returned else ("()", "")
    return ([f'"func.func"() <{{function_type = ({listed}) -> {out}, sym_name = "{number}"}}> ({{', f"^bb0({typed}):"]
            + [f"  {it}" for it in [*lines, f'"func.return"({returned}) : ({ty}) -> ()']] + ["}) : () -> ()"])


def result(name, op, operands, types, ty, properties=""):
    """An operation of arith with one result."""
    return f'{name} = "arith.{op}"({", ".join(operands)}){properties} : ({", ".join(types)}) -> {ty}'


def flat(n):
    """A constant, a sum, a product, an exclusive or, a comparison and a `select`, repeated, in one block."""
    lines, x, y, c, p, two = [], "%arg0", "%arg1", "", "", ("i32", "i32")
    for k in range(n - 3):
        name, turn = f"%{k}", k % 6
        if turn == 0:
            c, line = name, result(name, "constant", (), (), "i32", f" <{{value = {k * 7 + 3} : i32}}>")
        elif turn == 1:
            x, line = name, result(name, "addi", (x, c), two, "i32", NONE)
        elif turn == 2:
            y, line = name, result(name, "muli", (y, x), two, "i32", NONE)
        elif turn == 3:
            x, line = name, result(name, "xori", (x, y), two, "i32")
        elif turn == 4:
            p, line = name, result(name, "cmpi", (x, y), two, "i1", " <{predicate = 2 : i64}>")
        else:
            x, line = name, result(name, "select", (p, x, y), ("i1", *two), "i32")
        lines.append(line)
    return module(function(two, ("%arg0", "%arg1"), lines, "f", x)), n


def loops(n):
    """Functions of four loops within each other, over a memref."""
    lines, a, v = [], 0, 0
    functions = max(1, (n - 1) // LOOPS)
    for number in range(functions):
        m, size, zero, one = f"%arg{a}", f"%arg{a + 1}", f"%{v}", f"%{v + 1}"
        inner = [f"%arg{a + 2 + d}" for d in range(4)]
        body = [result(name, "constant", (), (), "index", f" <{{value = {k} : index}}>")
                for k, name in enumerate((zero, one))]
        for d, name in enumerate(inner):
            body += ["  " * d + f'"scf.for"({zero}, {size}, {one}) ({{', "  " * d + f"^bb0({name}: index):"]
        x, y, p, q = (f"%{v + 2 + k}" for k in range(4))
        kernel = [f'{x} = "memref.load"({m}, {inner[0]}, {inner[1]}) : (memref<?x?xi32>, index, index) -> i32',
                  f'{y} = "memref.load"({m}, {inner[2]}, {inner[3]}) : (memref<?x?xi32>, index, index) -> i32',
                  result(p, "muli", (x, y), ("i32", "i32"), "i32", NONE),
                  result(q, "addi", (p, x), ("i32", "i32"), "i32", NONE),
                  f'"memref.store"({q}, {m}, {inner[0]}, {inner[3]}) : (i32, memref<?x?xi32>, index, index) -> ()']
        body += [" " * 8 + it for it in kernel]
        for d in reversed(range(4)):
            body += ["  " * d + '  "scf.yield"() : () -> ()', "  " * d + "}) : (index, index, index) -> ()"]
        lines += function(("memref<?x?xi32>", "index"), (m, size), body, f"k{number}")
        a, v = a + 6, v + 6
    return module(lines), 1 + LOOPS * functions


def wide(n):
    """Operations with many operands."""
    names, types = ", ".join(f"%{k % 4}" for k in range(OPERANDS)), ", ".join(["index"] * OPERANDS)
    lines = [result(f"%{k}", "constant", (), (), "index", f" <{{value = {k} : index}}>") for k in range(4)]
    return module(lines + [f'"t.many"({names}) : ({types}) -> ()' for _ in range(n - 5)]), n


def count(words, text, room):
    """The instructions of a run, and the file in which callgrind says where they went."""
    out = f"{room}/out"
    ran = subprocess.run(["valgrind", "--tool=callgrind", f"--callgrind-out-file={out}", *words],
                         input=text.encode(), capture_output=True, check=True)
    return int(re.search(r"Collected : (\d+)", ran.stderr.decode())[1]), out


def dearest(out, n):
    """The five functions that take most themselves, for an operation."""
    said = subprocess.run(["callgrind_annotate", out], capture_output=True, text=True, check=True).stdout
    rows = re.findall(r"^\s*([\d,]+) \([ \d.]+%\)\s+\S+?:(\S+)", said, re.M)
    return ", ".join(f"`{name.split('::<')[0]}` {int(taken.replace(',', '')) // n:,}" for taken, name in rows[:5])


def main():
    given, _, words = " ".join(sys.argv[1:]).partition(" -- ")
    program, *rest = given.split()
    words = [os.path.abspath(program), *words.split()]
    n = int(rest[0]) if rest else 1000
    print("| Shape | Instructions | Dearest |\n|---|---|---|")
    with tempfile.TemporaryDirectory() as room:
        base, _ = count(words, EMPTY, room)
        for shape in (flat, loops, wide):
            text, operations = shape(n)
            taken, out = count(words, text, room)
            print(f"| {shape.__name__} | {(taken - base) // operations:,} | {dearest(out, operations)} |", flush=True)


if __name__ == "__main__":
    main()
