#!/usr/bin/env python3
"""Counts, of the modules that `mlir-opt-22 -canonicalize` changes without region simplification, those in which it
changes nothing after the program's `canon`, and after `rewrite` with its rules and the patterns in
patterns/arith.patterns.

usage: tests/compare/canon_reach.py PROGRAM [FILE..]

The modules are FILE.., or those of tests/golden/opaque. Those that the program reads without `--opaque` and the others
are counted apart. The places of constants and the names of values don't count. For each module in which something is
left it looks for the cause: MLIR erases dead operations, folds, or applies patterns. It prints the causes by how many
modules each of them settles alone, the most frequent first."""
import collections
import pathlib
import re
import shutil
import subprocess
import sys

from checkout import ROOT

from tests.generate import opaque_cases

TOOL = "mlir-opt-22"
FLAGS = ["--allow-unregistered-dialect", "--mlir-print-op-generic", "--mlir-disable-threading", "--split-input-file"]
BOOK = ROOT / "patterns" / "arith.patterns"
DIVIDER = b"\n// -----\n"
REPLIES = re.compile(rb"1 (?:converged|limit) [0-9]+\n(?:unproved [^\n]*\n)*2 ok\n")
VALUE = re.compile(r"%[\w.]+(?::\d+|#\d+)?")
CONSTANT = re.compile(r'\s*(%\w+) = "arith\.constant"\(\) (<\{value = .*\}> : .*)$')
PATTERN = re.compile(r"Action `apply-pattern pattern: (\S.*?) \(")


def printed(texts, *more):
    """What mlir-opt prints for each of some modules; none for those that it refuses."""
    ran = subprocess.run([TOOL, *FLAGS, *more], input=DIVIDER.join(texts), stdout=subprocess.PIPE,
                         stderr=subprocess.DEVNULL, check=False)
    found = re.split("^// -----$", ran.stdout.decode("utf-8", "replace"), flags=re.M)
    if len(found) == len(texts):
        return [it if "(" in it else None for it in found]
    if len(texts) < 2:
        return [None] * len(texts)
    return [it for text in texts for it in printed([text], *more)]


def canonicalized(texts, patterns=None):
    """The forms of modules after MLIR's canonicalization, or after that with some patterns alone."""
    chosen = "" if patterns is None else f" enable-patterns={{{patterns}}}"
    return [form(it) for it in printed(texts, f"--canonicalize=region-simplify=disabled{chosen}")]


def form(text):
    """The lines of a module without constants, in whose place their users have their values, and without names."""
    constants, lines = {}, []
    for line in (text or "").splitlines():
        constant = CONSTANT.match(line)
        if constant:
            constants[constant[1]] = constant[2]
            continue
        defined, equals, rest = line.partition(" = ")
        if equals and defined.lstrip().startswith("%"):
            for name in VALUE.findall(defined):
                constants.pop(name.partition(":")[0], None)
        lines.append(VALUE.sub(lambda found: constants.get(found[0], found[0]), line))
    return named(lines)


def named(lines):
    """Lines with values named by the order in which they occur."""
    names = {}
    return [VALUE.sub(lambda found: names.setdefault(found[0], f"%{len(names)}"), line) for line in lines]


def is_part(after, before):
    """Whether lines are some of other lines, in order, but for the names of values."""
    left = iter(VALUE.sub("%", line) for line in before)
    return all(VALUE.sub("%", line) in left for line in after)


def names():
    """The names of the patterns of patterns/arith.patterns."""
    lines = (line.split() for line in BOOK.read_text().splitlines())
    return [words[0] for words in lines if words and not words[0].startswith("//")]


def rewritten(program, text, command, *flags):
    """A module after a command of the program, or None if it is refused."""
    words = [program, "--brief", *flags, "--patterns", str(BOOK)]
    ran = subprocess.run(words, input=text + DIVIDER + command + b"\nprint\n", stdout=subprocess.PIPE, check=False)
    replies = REPLIES.match(ran.stdout)
    return ran.stdout[replies.end():] if replies else None


def causes(modules):
    """What MLIR still does to each of some modules; none where it changes nothing."""
    before, after = [form(it) for it in printed(modules)], canonicalized(modules)
    simple = canonicalized(modules, "none")
    found = {}
    for at, module in enumerate(modules):
        if before[at] == after[at]:
            found[at] = None
        elif simple[at] == after[at]:
            found[at] = "dead operations" if is_part(after[at], before[at]) else "folds"
    left = [at for at in range(len(modules)) if at not in found]
    logs = printed([modules[at] for at in left], "--canonicalize=region-simplify=disabled", "--log-actions-to=-")
    tried = {at: dict.fromkeys(PATTERN.findall(log or "")) for at, log in zip(left, logs)}
    for pattern in dict.fromkeys(pattern for at in left for pattern in tried[at]):
        places = [at for at in left if pattern in tried[at] and at not in found]
        alone = canonicalized([modules[at] for at in places], pattern) if places else []
        for at, result in zip(places, alone):
            if result == after[at]:
                found[at] = pattern.removeprefix("(anonymous namespace)::")
    return [found.get(at, "several patterns") for at in range(len(modules))]


def show(kind, ways, modules):
    """Prints, for modules of a kind after each command, in how many nothing is left, and the causes."""
    print(f"{kind}: {len(modules)} modules are changed by -canonicalize")
    for way in ways:
        counts = collections.Counter(causes([it[way] for it in modules])) if modules else collections.Counter()
        reached = counts.pop(None, 0)
        print(f"  {way}: {reached} ({100 * reached / max(len(modules), 1):.0f} %)")
        for name, count in counts.most_common(30):
            print(f"    {count} {name}")


def main():
    words = sys.argv[1:]
    if not words or words[0].startswith("-"):
        print(__doc__)
        return 0
    if not shutil.which(TOOL):
        print(f"skipped: {TOOL} isn't installed")
        return 0
    texts = [pathlib.Path(name).read_bytes() for name in words[1:]] or [it.text for it in opaque_cases.modules()]
    rules = b",".join(str(rule).encode() for rule in range(1, 25))
    ways = {"canon": b"canon limit 1000000",
            "rules and book": b"rewrite " + rules + b"," + ",".join(names()).encode() + b" limit 1000000"}
    texts = list(dict.fromkeys(texts))
    changed = [text for text, before, after in zip(texts, printed(texts), canonicalized(texts))
               if before and form(before) != after]
    kinds = {"without --opaque": [], "with --opaque only": []}
    for text in changed:
        kind = "with --opaque only" if rewritten(words[0], text, ways["canon"]) is None else "without --opaque"
        modules = {way: rewritten(words[0], text, command, "--opaque") for way, command in ways.items()}
        if None not in modules.values():
            kinds[kind].append(modules)
    for kind, modules in kinds.items():
        show(kind, ways, modules)
    return 0


if __name__ == "__main__":
    sys.exit(main())
