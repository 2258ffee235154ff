#!/usr/bin/env python3
"""Times each command of a script on modules of hostile shapes, of a size and of ten times as much, through a built
program with all seven listeners attached, and says what grows more than twelve times.

Replies are written part by part, and the program's processor time is taken before each part (by benchmarks/marks.c,
which is loaded before the C library). Wrong lines between the commands make a part end there. Cheap commands are
repeated. A figure is the least of some rounds. A command that rewrites has its own run, which is stopped after some
seconds.

usage: benchmarks/hostile.py PROGRAM [--instructions] [--shapes SHAPE,..] [--rounds N] [--seconds N] [--less N]
                              [--only COMMAND] [--without COMMAND,..]

With `--instructions` these are counted in place of the time, by callgrind, fifty times as slowly, and what else the
machine does makes no difference. With `--less N` each shape has an Nth of its size. Of the figures the first is the
smaller size's; those below a millisecond in a larger module aren't judged. The status is 1 if something grows more
than twelve times."""
import argparse
import collections
import os
import pathlib
import re
import subprocess
import sys
import tempfile

import checkout  # noqa: F401

from benchmarks import marks
from oracle import script

FILLING, MOST = ["x"] * 420, 12
MOST_BYTES, MOST_OPS, LEAST_JUDGED = 16777216, 1048576, 1e6
HEAD = '%p = "t.p"() : () -> i32\n%q = "t.p"() : () -> i32\n"t.e"(%p) {k = 1 : i8} : (i32) -> ()\n'
Shape = collections.namedtuple("Shape", "body count convert")


def container(body):
    return f'"t.r"() ({{^b:\n{body}}}) : () -> ()\n'


def listed(lines):
    return "".join(line + "\n" for line in lines)


# The shapes: the contents of operation #4, its number of operations, and what a conversion does to it.

def string(n):
    """An operation whose attribute is a string of n bytes."""
    return Shape(container(f'"t"() {{a = "{"x" * n}"}} : () -> ()\n'), 2, "rules 2")


def block(n):
    """A block of n operations."""
    return Shape(container('"t"():()->()' * n), n + 1, "rules 2")


def deep(n):
    """Operations in 126 others and in #4, side by side."""
    towers = max(1, n // 127)
    return Shape(container(('"t"()({' * 126 + '"t"():()->()' + "}):()->()" * 126) * towers), 127 * towers + 1,
                 "rules 2")


def names(n):
    """n names, of operations, of keys and of values."""
    count = n // 3
    return Shape(container(listed(f'%v{k}="n{k}"(){{k{k}}}:()->i1' for k in range(count))), count + 1, "rules 2")


def symbols(n):
    """n private functions in one table, and n calls, one of each."""
    functions = (f'"func.func"()<{{function_type=()->(),sym_name="s{k}",sym_visibility="private"}}>({{}}):()->()'
                 for k in range(n))
    calls = (f'"func.call"()<{{callee=@s{k}}}>:()->()' for k in range(n))
    return Shape(f'"builtin.module"() ({{^b:\n{listed(functions)}{listed(calls)}}}) : () -> ()\n', 2 * n + 1, "rules 2")


def references(n):
    """n private functions in one table, and twenty operations that refer to each of them."""
    functions = (f'"func.func"()<{{function_type=()->(),sym_name="s{k}",sym_visibility="private"}}>({{}}):()->()'
                 for k in range(n))
    all_of_them = ",".join(f"@s{k}" for k in range(n))
    users = (f'"t"(){{k{u} = [{all_of_them}]}}:()->()' for u in range(20))
    return Shape(f'"builtin.module"() ({{^b:\n{listed(functions)}{listed(users)}}}) : () -> ()\n', n + 21, "rules 2")


def same_name(n):
    """n private functions of one name, and n calls of that name."""
    functions = ['"func.func"()<{function_type=()->(),sym_name="s",sym_visibility="private"}>({}):()->()'] * n
    users = ['"func.call"()<{callee=@s}>:()->()'] * n
    return Shape(f'"builtin.module"() ({{^b:\n{listed(functions)}{listed(users)}}}) : () -> ()\n', 2 * n + 1, "rules 2")


def calls(n):
    """n private functions; each calls the next one."""
    one = ('"func.func"()<{{function_type=()->(),sym_name="s{}",sym_visibility="private"}}>'
           '({{"func.call"()<{{callee=@s{}}}>:()->()"func.return"():()->()}}):()->()')
    functions = (one.format(k, k + 1) for k in range(n))
    return Shape(f'"builtin.module"() ({{^b:\n{listed(functions)}}}) : () -> ()\n', 3 * n + 1, "rules 2")


def users(n):
    """n operations that use one value."""
    return Shape(container('"t"(%p):(i32)->()\n' * n), n + 1, "rules 2")


def known(n):
    """A chain of n known values."""
    sums = (f'%x{k}="arith.addi"(%x{k - 1},%c):(i32,i32)->i32' for k in range(1, n))
    first = '%c="arith.constant"()<{value=1:i32}>:()->i32\n%x0="arith.addi"(%c,%c):(i32,i32)->i32\n'
    return Shape(container(first + listed(sums) + f'"t"(%x{n - 1}):(i32)->()\n'), n + 3, "illegal arith.subi rules 26")


def casts(n):
    """A chain of n casts, of index and back."""
    types = ("index", "i64"), ("i64", "index")
    one = (f'%x{k}="builtin.unrealized_conversion_cast"(%x{k - 1}):({types[k % 2][0]})->{types[k % 2][1]}'
           for k in range(1, n))
    return Shape(container('%x0="t"():()->i64\n' + listed(one)
                           + f'"t"(%x{n - 1}):({"index" if n % 2 == 0 else "i64"})->()\n'), n + 2, "rules 2")


def ifs(n):
    """Choices by a constant, a hundred and twenty inside each other, side by side."""
    towers = max(1, n // 120)
    tower = '"scf.if"(%c) ({' * 120 + '"t"():()->()' + '"scf.yield"():()->()},{}):(i1)->()\n' * 120
    return Shape(container('%c="arith.constant"()<{value=true}>:()->i1\n' + tower * towers), 241 * towers + 2,
                 "dynamic scf.if rules 30")


SIZES = {string: 16700000, block: 1048571, deep: 1000000, names: 300000, symbols: 10000, references: 10000,
         same_name: 10000, calls: 10000,
         users: 100000, known: 100000, casts: 100000, ifs: 30000}


def commands(shape):
    """Each command with its count and its lines. Each leaves the module unchanged."""
    count = shape.count + 4
    pairs = range(500)
    yield "print", 1, ["print"]
    for kind in script.BOXES:
        yield f"report {kind}", 1, [f"report {kind}"]
    for kind in script.BOXES:
        yield f"resync {kind}", 1, [f"resync {kind}"]
    yield "set-operand", 1000, ["set-operand #3 0 %v2.0", "set-operand #3 0 %v1.0"] * 500
    yield "set-attr", 1000, ["set-attr #3 k 2 : i8", "set-attr #3 k 1 : i8"] * 500
    yield "set-attr, drop-attr", 500, ["set-attr #3 m unit", "drop-attr #3 m"] * 500
    yield "move", 1000, ["move #3 end #0 0", "move #3 after #2"] * 500
    yield "insert, erase", 500, [line for k in pairs
                                 for line in ('insert end #0 0 "t"(%v1.0) : (i32) -> ()', f"erase #{count + k}")]
    yield "replace", 2, ["replace %v1.0 %v2.0", "replace %v2.0 %v1.0"]
    yield "begin, set-operand, rollback", 300, ["begin", "set-operand #3 0 %v2.0", "rollback"] * 300
    yield "begin, set-attr, commit", 300, ["begin", "set-attr #3 k 2 : i8", "commit"] * 300
    yield "sixteen marks, and back", 1, ["begin"] * 16 + ["rollback"] * 16
    yield "move all", 2, ["move #4 before #3", "move #4 end #0 0"]
    yield "begin, move all, rollback", 1, ["begin", "move #4 before #3", "rollback"]
    yield "begin, erase all, rollback", 1, ["begin", "erase #4", "rollback"]
    yield "begin, erase all, commit, one mark around", 1, ["begin", "begin", "erase #4", "commit", "rollback"]
    if 2 * count < MOST_OPS and len(shape.body) < MOST_BYTES // 2:
        text = shape.body.strip().replace("\n", " ").replace("%p", "%v1.0")
        yield "insert all, erase all", 1, [f"insert end #0 0 {text}", f"erase #{count + 500}"]
    yield "sweep 0" if "sym_visibility" not in shape.body else "begin, sweep, rollback", 1, [
        "begin", "sweep", "rollback"]
    yield "erase all", 1, ["erase #4"]


def rewrites(shape):
    yield "canon", 1, ["canon limit 1000000"]
    yield "canon trace", 1, ["canon trace limit 1000000"]
    yield "begin, canon, rollback", 1, ["begin", "canon limit 1000000", "rollback"]
    yield "convert", 1, [f"convert partial {shape.convert}"]
    yield "convert trace", 1, [f"convert trace partial {shape.convert}"]


# Runs.

def spread(them):
    """The lines of a script with wrong lines between the commands, and for each command the first and the last reply to
    its lines. The first entry measures the lines between two commands, whose cost is subtracted."""
    lines, spans = list(FILLING), []
    for _, _, more in [("nothing", 1, ["x"]), *them]:
        spans.append((len(lines) + 1, len(lines) + len(more)))
        lines += more + FILLING
    return lines, spans


def parts_of(replies, told, spans):
    """The indices of the marks at which a command's first part begins and its last one has ended."""
    for first, last in spans:
        begun = max(place for place, (count, _) in enumerate(told) if count <= replies[first - 1])
        ended = min(place for place, (count, _) in enumerate(told) if count >= replies[last])
        yield begun, ended


def cost_of(program, text, them, words, library):
    """What reading and each command cost, in nanoseconds or instructions, and its refusals; none if the run was
    given up."""
    lines, spans = spread(them)
    given = text.encode() + marks.DIVIDER + listed(lines).encode()
    try:
        wrote, told = run(program, given, library, words.seconds)
        # How many lines precede each reply; a line of rows or of a module begins with no digit.
        replies = [at for at, line in enumerate(wrote) if line[:1].isdigit()] + [len(wrote)]
        if len(replies) != len(lines) + 1:
            sys.exit(f"{program}: {wrote[:3]}")
        places = list(parts_of(replies, told, spans))
        if words.instructions:
            told = counted(program, given, library, told, {0, *(place for pair in places for place in pair)}, 60
                           * words.seconds)
    except subprocess.TimeoutExpired:
        return None
    costs = [told[ended][1] - told[begun][1] for begun, ended in places]
    found = [("read", told[0][1], "")]
    for (word, times, _), (first, last), cost in zip(them, spans[1:], costs[1:]):
        refusals = {wrote[replies[k]].split(b" ", 1)[1].decode() for k in range(first - 1, last)}
        found.append((word, max(cost - costs[0], 0) / times,
                      ", ".join(sorted(it for it in refusals if not it.startswith("ok")))))
    return found


def counted(program, text, library, told, places, seconds):
    """The marks, with the instructions up to each of these parts in place of the time. Before each part callgrind
    writes its count since the last one into a separate file, and one more at the end."""
    with tempfile.TemporaryDirectory() as folder:
        words = ["valgrind", "--tool=callgrind", f"--callgrind-out-file={folder}/out", program]
        dumps = ",".join(str(place) for place in sorted(places))
        run(words, text, library, seconds, {"MARKS_DUMPS": f",{dumps},"})
        files = sorted(pathlib.Path(folder).glob("out.*"), key=lambda it: int(it.suffix[1:]))
        sums = [int(re.search(r"^(?:totals|summary): (\d+)", file.read_text(), re.M)[1]) for file in files]
    found, so_far = list(told), 0
    for place, more in zip(sorted(places), sums, strict=True):
        so_far += more
        found[place] = told[place][0], so_far
    return found


def run(program, text, library, seconds, more=None):
    """The lines that a run wrote, and for each part the number of lines by its end, and the processor time."""
    with tempfile.TemporaryFile() as given, tempfile.TemporaryFile() as taken, tempfile.TemporaryFile() as told:
        given.write(text)
        given.seek(0)
        env = {**marks.PAGES, **os.environ, "LD_PRELOAD": library, "MARKS_TELL": str(told.fileno()), **(more or {})}
        words = [program] if isinstance(program, str) else program
        subprocess.run([*words, "--brief"], stdin=given, stdout=taken, stderr=subprocess.DEVNULL, env=env,
                       pass_fds=[told.fileno()], timeout=seconds)
        taken.seek(0)
        told.seek(0)
        wrote, parts = taken.read().splitlines(), [tuple(int(it) for it in line.split()) for line in told] or [(0, 0)]
    # The mark before a part counts the lines before it, which is the end of the part before.
    counts = [count for count, _ in parts[1:]] + [len(wrote)]
    return wrote, list(zip(counts, (at for _, at in parts)))


def least(shape, groups, library, words):
    """The least cost of each command, with what it was replied."""
    found = {}
    for group in groups:
        for _ in range(1 if words.instructions else words.rounds):
            costs = cost_of(words.program, HEAD + shape.body, group, words, library)
            if costs is None:
                found.setdefault(group[0][0], (None, f"not ended after {words.seconds} s"))
                break
            for word, cost, said in costs:
                if word not in found or found[word][0] is not None and cost < found[word][0]:
                    found[word] = cost, said
    return found


def shown(cost, is_counted):
    if cost is None:
        return "-"
    if is_counted:
        return f"{cost / 1e6:,.1f} million" if cost >= 1e5 else f"{cost:,.0f}"
    return f"{cost / 1e9:.2f} s" if cost >= 1e9 else f"{cost / 1e6:.1f} ms" if cost >= 1e5 else f"{cost / 1e3:.2f} us"


def look(words, make, library):
    """Prints the rows of a shape, and says how many of them grow too much."""
    size = max(10, SIZES[make] // words.less)
    small, large = make(size // 10), make(size)
    results, gone = [], [word for word in words.without.split(",") if word]
    for shape in (small, large):
        them = [it for it in commands(shape) if not words.only or it[0] == words.only]
        groups = ([them] if them else []) + [[it] for it in rewrites(shape) if it[0] not in gone
                                             and (not words.only or it[0] == words.only)]
        results.append(least(shape, groups, library, words))
    wrong = 0
    for word, (cost, said) in results[1].items():
        before = results[0].get(word, (None, ""))[0]
        growth = cost / before if cost and before else None
        is_judged = growth is not None and cost * (1000 if cost < LEAST_JUDGED else 1) >= LEAST_JUDGED
        too_much = cost is None or is_judged and growth > MOST
        wrong += too_much
        told = f"{growth:.1f}" + (" **more**" if too_much else "") if growth is not None else "-"
        print(f"| {make.__name__} {size:,} | {word} | {said} | {shown(before, words.instructions)} | "
              f"{shown(cost, words.instructions)} | {told} |", flush=True)
    return wrong


def main():
    reader = argparse.ArgumentParser(description=__doc__, usage=argparse.SUPPRESS,
                                     formatter_class=argparse.RawDescriptionHelpFormatter)
    reader.add_argument("program")
    reader.add_argument("--instructions", action="store_true")
    reader.add_argument("--shapes", default=",".join(it.__name__ for it in SIZES))
    reader.add_argument("--rounds", type=int, default=3)
    reader.add_argument("--seconds", type=int, default=120)
    reader.add_argument("--less", type=int, default=1)
    reader.add_argument("--only", default="")
    reader.add_argument("--without", default="")
    words = reader.parse_args()
    print("| Shape | Command | Replies but `ok` | A tenth | All | Growth |\n|---|---|---|---|---|---|")
    with marks.library() as library:
        wrong = sum(look(words, it, library) for it in SIZES if it.__name__ in words.shapes.split(","))
    print(f"{wrong} grow more than {MOST} times, or don't end")
    return 1 if wrong else 0


if __name__ == "__main__":
    sys.exit(main())
