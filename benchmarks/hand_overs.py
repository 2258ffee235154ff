#!/usr/bin/env python3
"""hand_overs.py KIT CHECKOUT [PROGRAM]: counts how often `canon` at one addition of zero passes from one crate to
another. Prints the functions that `canon` adds to a script with an open mark, in the order of their first calls, and
then the counts of functions, crates and changes of crate.

PROGRAM is built without proofs and without inlining, if it isn't there. Valgrind lists the blocks that run."""
import bisect, os, re, subprocess, sys, tempfile

import unproved

MODULE = """"builtin.module"() ({
"func.func"() <{function_type = (i32) -> i32, sym_name = "f"}> ({
^bb0(%a: i32):
%c = "arith.constant"() <{value = 0 : i32}> : () -> i32
%v = "arith.addi"(%a, %c) <{overflowFlags = #arith.overflow<none>}> : (i32, i32) -> i32
"func.return"(%v) : (i32) -> ()
}) : () -> ()
}) : () -> ()
// -----
"""
LISTED = ["valgrind", "--tool=lackey", "--basic-counts=no", "--trace-superblocks=yes", "--vex-guest-chase=no"]
# Valgrind places programs below this address, and the loader above.
LOADER = 0x4000000
DROPPED = ["-O3", "-Xclang", "-fmerge-functions"]


def build(kit, checkout, out):
    """Builds the program without proofs and without inlining."""
    unproved.MARKED = re.compile("$^")
    unproved.BUILD = [it for it in unproved.BUILD if it not in DROPPED] + ["-O0"]
    sys.argv[1:] = [kit, checkout, out, "mlir_work"]
    unproved.main()


def functions(program):
    """The addresses of the program's functions, in order, their names, and the address of its entry."""
    lines = subprocess.run(["nm", program], capture_output=True, text=True, check=True).stdout.splitlines()
    found = sorted((int(words[0], 16), words[2]) for words in (it.split(" ", 2) for it in lines)
                   if len(words) == 3 and words[1] in "tT" and "::" in words[2])
    origin = next(int(it.split()[0], 16) for it in lines if it.endswith(" T _start"))
    return [it[0] for it in found], [re.sub(r"::<.*$", "", it[1]) for it in found], origin


def first_calls(program, commands):
    """The functions that a script calls, in the order of their first calls."""
    starts, names, origin = functions(program)
    with tempfile.NamedTemporaryFile() as log:
        script = MODULE + "\n".join(commands) + "\n"
        subprocess.run([*LISTED, f"--log-file={log.name}", program, "--brief"], input=script, capture_output=True,
                       text=True, check=True)
        blocks = [int(it[1], 16) for it in re.finditer(r"^SB ([0-9a-f]+)$", open(log.name).read(), re.M)]
    base = next(it for it in blocks if it < LOADER and it & 0xFFF == origin & 0xFFF) - origin
    found = {}
    for it in blocks:
        place = bisect.bisect_right(starts, it - base) - 1
        if place >= 0 and starts[place] == it - base:
            found.setdefault(names[place], None)
    return list(found)


def main():
    kit, checkout = (os.path.abspath(it) for it in sys.argv[1:3])
    with tempfile.TemporaryDirectory() as room:
        program = os.path.abspath(sys.argv[3]) if len(sys.argv) > 3 else f"{room}/program"
        if not os.path.exists(program):
            build(kit, checkout, program)
        below = set(first_calls(program, ["begin"]))
        added = [it for it in first_calls(program, ["begin", "canon"]) if it not in below]
        crates = unproved.table(checkout)
        added = [it for it in added if it.split("::")[0] in crates and "Destruct" not in it]
    crates = [it.split("::")[0] for it in added]
    print(*added, sep="\n")
    changes = sum(first != second for first, second in zip(crates, crates[1:]))
    print(f"functions {len(added)}, crates {len(set(crates))}, changes of crate {changes}")


if __name__ == "__main__":
    main()
