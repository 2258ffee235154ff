#!/usr/bin/env python3
"""Compares a program with the rules (oracle) over random cases, the status and every byte of each: texts and modules of
files that are cut and changed, short scripts, and long scripts with listings, over all commands, up to sixteen marks
and all seven listeners. A case depends only on the seed and its number, so `--first` repeats it.

usage: tests/compare/by_chance.py PROGRAM [CASES [SEED]] [--first N] [--processes N] [--only KIND,..] [--opaque N]
                                  [--without COMMAND,..] [--json] [--files FILE..]

CASES is 20000, SEED 1 and the processes are one if they aren't given. The kinds are text, file, script, long,
conversions and reasons. The last two are there with `--only` alone: scripts of conversions that fit their module, and
scripts that ask why patterns and rules don't apply. Without files the cases of files are texts too. A program that
hasn't a command is compared without it. N of a hundred cases have opaque terms, and go with `--opaque`: 25 by
default; their files are those of tests/golden/opaque. Each case is a process. With `--json` it is asked for JSON, and
each line of that has to be JSON to Python too. The seed is printed, what a case costs, how conversions were replied
to, and each difference, whole; the status is 1 if there is one."""
import argparse
import collections
import concurrent.futures
import functools
import json
import os
import pathlib
import random
import re
import subprocess
import sys
import time

import checkout  # noqa: F401

from oracle import aliases, chance, claims, culprits, json_lines, script, texts
from oracle.module import rules, text_of
from tests.compare import pattern_lines, script_lines
from tests.generate import opaque_cases

DIVIDER = b"// -----\n"
# Of a hundred cases.
MIX = {"text": 45, "file": 25, "script": 26, "long": 4}
ALL_KINDS = (*MIX, "conversions", "reasons")
BATCH, MOST_SHOWN = 500, 3
# Words that are put in the place of others, or between them.
WORDS = """i32 i64 index i1 i129 si8 ui128 memref<?x4xi32> () ({ }) ({}) ({^bb0: }) ^bb1: ^bb0(%a: <{ }> { } ( ) [ ] = :
:2 , -> - // /// # % @f @f::@g %0 %1 %arg0 %0#0 %0#1 %v1.0 %a1.0.0 "test.a" "func.func" "scf.if" "arith.addi"
"func.return" "builtin.module" true false unit 0 1 -1 255 0xFF 128 340282366920938463463374607431768211456 1.5 "" "\\0a"
"\\ " array<i32: 1> dense<1> #arith.overflow<nsw> sym_name value callee loc("x") f32 vector<4xi8> !t.x
affine_map<(d0)->(d0)> ! ^ \x00 \xff \xc3\xa9 \x0b""".encode("latin-1").split()
TOKEN = re.compile(rb'"(?:[^"\\\n]|\\.)*"|[%@#!^]?[A-Za-z0-9_$.]+|\s+|->|[^\sA-Za-z0-9]', re.S)
# How a module is refused where the rules leave the number open, as text and as JSON.
OPEN = (rb"module refused ([1-9]|1[0-4]) [A-Za-z0-9]+ at [0-9]+\n",
        rb'\{("about":\["[a-z-]+"\],)?"offset":[0-9]+,"refused":([1-9]|1[0-4]),"word":"[A-Za-z0-9]+"\}\n')
CONVERTED = re.compile(r"(?m)^[0-9]+ (converted|refused 5[1-4] \w+)")
Case = collections.namedtuple("Case", "kind text brief limit answer commands is_opaque explained")


# Texts that are changed.

def changed_bytes(maker, text):
    at, end = sorted(maker.randrange(len(text) + 1) for _ in range(2))
    byte = bytes([maker.choice(b'%@#"(){}[]<>:,=-\n /\\xi0129az_.$^!\x00\xff\xc3')])
    how = maker.randrange(6)
    if how == 0:
        return text[:at]
    if how == 1:
        return text[:at] + text[at + 1:]
    if how == 2:
        return text[:at] + byte + text[at:]
    if how == 3:
        return text[:at] + byte + text[at + 1:]
    if how == 4:
        return text[:at] + text[end:]
    return text[:end] + text[at:]


def changed_words(maker, text, pieces):
    words = TOKEN.findall(text)
    if not words:
        return maker.choice(pieces)
    at, other = maker.randrange(len(words)), maker.randrange(len(words))
    how = maker.randrange(6)
    if how == 0:
        words[at] = maker.choice(pieces)
    elif how == 1:
        words.insert(at, maker.choice(pieces) + b" ")
    elif how == 2:
        words[at], words[other] = words[other], words[at]
    elif how == 3:
        words[at] = words[other]
    elif how == 4:
        del words[at]
    else:
        number = re.fullmatch(rb"[0-9]+", words[at])
        words[at] = b"%d" % (int(number[0]) + maker.choice([-1, 1, 2**31, 2**64]) if number else maker.randrange(300))
    return b"".join(words)


def changed_lines(maker, text):
    lines = text.split(b"\n")
    at, other = maker.randrange(len(lines)), maker.randrange(len(lines))
    how = maker.randrange(4)
    if how == 0:
        del lines[at]
    elif how == 1:
        lines.insert(other, lines[at])
    elif how == 2:
        lines[at], lines[other] = lines[other], lines[at]
    else:
        lines.insert(other, lines.pop(at))
    return b"\n".join(lines)


def changed(maker, text, is_opaque=False):
    """A text that is changed at up to four places; one of ten isn't."""
    pieces = WORDS + texts.OPEN_PIECES + texts.OPEN_TYPES + texts.OPEN_ATTRS if is_opaque else WORDS
    for _ in range(maker.choice([0, 1, 1, 1, 1, 1, 2, 2, 3, 4])):
        call = maker.choice([changed_bytes, changed_words, changed_words, changed_lines])
        text = call(maker, text, pieces) if call is changed_words else call(maker, text)
    return text


# Scripts.

def made(maker, most, is_opaque):
    """The text of a module."""
    taste = maker.choice(sorted(chance.TASTES))
    found = chance.module(maker, maker.randrange(2, most), maker.choice([0, 0, 0.1, 0.3]), taste)
    return text_of(chance.opened(maker, found) if is_opaque else found).encode()


@functools.lru_cache(maxsize=None)
def opaque_files():
    """The texts of the smaller modules with opaque terms that are read."""
    return [it.text for it in opaque_cases.modules() if len(it.text) < 8192 and not it.is_refused]


def line_of(maker, scripter, is_opaque):
    """A line of a script."""
    if is_opaque and maker.random() < 0.15:
        return chance.opaque_line(maker, scripter)
    return script_lines.line_of(maker, scripter)


def asked(maker, known):
    """A few lines that ask what a module is, or rewrite it."""
    asks = ["print", "print ids", "show all", f"show #{maker.randrange(20)} {maker.randrange(8)}"]
    asks += [f"report {kind}" for kind in script.BOXES]
    lines = maker.sample(asks, maker.randrange(1, 4))
    if maker.random() < 0.3:
        lines += [maker.choice([script_lines.rewriting(maker) if "convert" in known else "canon", "sweep"]), "print"]
    return lines


class Runs:
    """A run by the rules over lines that are made as it goes."""

    def __init__(self, text, known, limit, brief, is_opaque=False):
        reader = aliases.Reader if is_opaque else rules.Reader
        self.run, self.brief = script.Run(script.read(text, reader), script.BOXES, known, limit), brief
        self.run.reader, self.run.explained, self.is_opaque = reader, True, is_opaque
        self.lines, self.count, self.out, self.status = [], 0, [], 0

    def obey(self, line):
        self.lines.append(line)
        for kept in script.lines_of(line.encode("latin-1")):
            self.count += 1
            is_right, told = script.answer(self.run, self.count, kept, self.brief)
            self.status = self.status if is_right else 1
            self.out.append(told)

    def case(self, kind, text, limit):
        told = "".join(self.out).encode()
        return Case(kind, text + DIVIDER + "\n".join(self.lines).encode("latin-1"), self.brief, limit,
                    (self.status, culprits.untold(told)), self.count, self.is_opaque, told)


def a_text(maker, known, text, kind, is_opaque):
    """A valid or invalid text, with a few lines after it."""
    text = changed(maker, text, is_opaque)
    if text and not text.endswith(b"\n"):
        text += b"\n"
    text = text.replace(DIVIDER, b"// ----\n")
    try:
        runs = Runs(text, known, script.LIMIT, True, is_opaque)
    except rules.Refused as fault:
        said = f"module refused {script.printing.refusal(fault)}{culprits.about_text(text, fault)}\n".encode()
        answer = 3, culprits.untold(said)
        return Case(kind, text + DIVIDER + b"print\n", True, script.LIMIT, answer, 0, is_opaque, said)
    except rules.Open:
        # The rules say that the text is refused, but not by which number.
        return Case(kind, text + DIVIDER + b"print\n", True, script.LIMIT, (3, None), 0, is_opaque, None)
    for line in asked(maker, known):
        runs.obey(line)
    return runs.case(kind, text, script.LIMIT)


def a_script(maker, known, most, ops, brief, is_opaque):
    """A script of so many commands at most; one in forty opens all the marks that there may be, and one more."""
    text, limit = made(maker, ops, is_opaque), maker.choice([script.LIMIT] * 4 + [1, 2]) if brief else script.LIMIT
    runs = Runs(text, known, limit, brief, is_opaque)
    scripter, deep = chance.Scripter(maker, runs.run), maker.random() < 0.025
    for _ in range(17 if deep else 0):
        runs.obey("begin")
        if maker.random() < 0.5:
            runs.obey(line_of(maker, scripter, is_opaque))
    for _ in range(maker.randrange(1, most)):
        runs.obey(line_of(maker, scripter, is_opaque))
    for _ in range(maker.randrange(18) if deep else 0):
        runs.obey(maker.choice(["rollback", "rollback", "commit"]))
    for line in asked(maker, known) if brief else []:
        runs.obey(line)
    return runs.case("long" if not brief else "script", text, limit)


def conversions(maker, known, is_opaque):
    """A script of conversions; most of them fit the module."""
    ops, odd = maker.randrange(2, 40), maker.choice([0, 0.1, 0.3])
    found = chance.module(maker, ops, odd, maker.choice(["any", "any", "constants"]))
    text = text_of(chance.opened(maker, found) if is_opaque else found).encode()
    runs = Runs(text, known, script.LIMIT, maker.random() < 1 / 3, is_opaque)
    for _ in range(maker.randrange(1, 6)):
        for line in script_lines.conversions(maker, runs.run.module):
            runs.obey(line)
    return runs.case("conversions", text, script.LIMIT)


def reasons(maker, known, is_opaque):
    """A script that asks why patterns and rules don't apply, and defines and applies patterns between."""
    text = made(maker, 24, is_opaque)
    runs = Runs(text, known, script.LIMIT, True, is_opaque)
    scripter = chance.Scripter(maker, runs.run)
    for _ in range(maker.randrange(6, 24)):
        pick, run = maker.random(), runs.run
        if pick < 0.2 or not run.book and pick < 0.8:
            runs.obey(pattern_lines.defined(maker, run.module))
        elif pick < 0.9:
            runs.obey(pattern_lines.why_line(maker, run))
        else:
            runs.obey(pattern_lines.applied(maker, run) if pick < 0.95 else scripter.edit())
    return runs.case("reasons", text, script.LIMIT)


def case_of(number, seed, known, files, only=(), share=0):
    """The case with a number, or none if the rules leave it open. A share of the cases, of a hundred, has opaque
    terms."""
    maker = random.Random(f"{seed} {number}")
    is_opaque = share > 0 and maker.randrange(100) < share
    kind = maker.choice([kind for kind in only or MIX for _ in range(1 if only else MIX[kind])])
    try:
        if kind == "conversions":
            return conversions(maker, known, is_opaque)
        if kind == "reasons":
            return reasons(maker, known, is_opaque)
        if kind == "file" and is_opaque:
            return a_text(maker, known, maker.choice(opaque_files()), "file", True)
        if kind == "file" and files:
            return a_text(maker, known, maker.choice(files), "file", False)
        if kind in ("file", "text"):
            is_spelled = is_opaque and maker.random() < 0.5
            text = texts.open_source(maker) if is_spelled else made(maker, 10, is_opaque)
            return a_text(maker, known, text, "text", is_opaque)
        if kind == "script":
            return a_script(maker, known, 6, 10, True, is_opaque)
        return a_script(maker, known, script_lines.MOST_COMMANDS, script_lines.MOST_OPS, False, is_opaque)
    except rules.Open:
        return None


# The program.

def alone(program, case, is_json=False):
    words = ["--brief"] * case.brief + (["--limit", str(case.limit)] if case.limit != script.LIMIT else [])
    words += ["--format", "json"] * is_json + ["--opaque"] * case.is_opaque
    ran = subprocess.run([program, *words], input=case.text, stdout=subprocess.PIPE, stderr=subprocess.DEVNULL)
    return ran.returncode, ran.stdout


def is_answer(case, status, out, is_json=False):
    if case.answer[1] is None:
        return status == 3 and re.fullmatch(OPEN[is_json], out)
    return (status, out) == case.answer


def in_json(case):
    """A case whose answer is JSON; Python parses each line of it."""
    status, out = case.answer
    if out is None:
        return case
    told = json_lines.json_of(case.explained)
    for line in told.splitlines():
        json.loads(line)
    return case._replace(answer=(status, told))


def show(number, case, found):
    wanted = case.answer[1].decode() if case.answer[1] is not None else "a refusal of the module"
    print(f"case {number} ({case.kind}{', --brief' * case.brief}{', --opaque' * case.is_opaque}, --limit "
          f"{case.limit}):\n{case.text.decode('latin-1')}\n"
          f"--- the program: {found}\n--- the rules: {case.answer[0]}\n{wanted}", flush=True)


def part(words, files, numbers):
    """Compares the cases of some numbers: how many of each kind, how many commands, how conversions were replied to,
    what differs, and the seconds of this process."""
    began, counts, wrong = time.process_time(), collections.Counter(), []
    known = script.ALL - set(words.without.split(","))
    cases = [(number, case_of(number, words.seed, known, files, words.only, words.opaque)) for number in numbers]
    cases = [(number, in_json(case) if words.json else case) for number, case in cases if case is not None]
    for number, case in cases:
        counts[case.kind] += 1
        counts["refused"] += case.answer[0] == 3
        counts["opaque"] += case.is_opaque
        counts["commands"] += case.commands
        counts.update(CONVERTED.findall((case.answer[1] or b"").decode()))
        found = alone(words.program, case, words.json)
        if not is_answer(case, *found, words.json):
            wrong.append((number, case, found))
    return counts, wrong, time.process_time() - began


def total(counts):
    return sum(counts[kind] for kind in ALL_KINDS)


def told_counts(counts):
    kinds = ", ".join(f"{counts[kind]:,} {kind}" for kind in ALL_KINDS if counts[kind])
    replies = ", ".join(f"{times:,} {reply}" for reply, times in sorted(counts.items())
                        if CONVERTED.match(f"1 {reply}"))
    return (f"{total(counts):,} cases ({kinds}; {counts['opaque']:,} with opaque terms) with {counts['commands']:,} "
            f"commands, {counts['refused']:,} modules refused; of conversions {replies or 'none'}")


def options():
    """What the command line asks."""
    as_it_stands = argparse.RawDescriptionHelpFormatter
    reader = argparse.ArgumentParser(description=__doc__, usage=argparse.SUPPRESS, formatter_class=as_it_stands)
    reader.add_argument("program")
    reader.add_argument("cases", nargs="?", type=int, default=20000)
    reader.add_argument("seed", nargs="?", type=int, default=1)
    reader.add_argument("--first", type=int, default=0)
    reader.add_argument("--processes", type=int, default=1)
    reader.add_argument("--only", default=(), type=lambda word: word.split(","))
    reader.add_argument("--opaque", type=int, default=25)
    reader.add_argument("--without", default="")
    reader.add_argument("--json", action="store_true")
    reader.add_argument("--files", nargs="*", default=[])
    return reader.parse_args()


def main():
    words = options()
    os.environ[claims.VARIABLE] = words.program
    files = [text for text in (pathlib.Path(name).read_bytes() for name in sorted(words.files)) if len(text) < 8192]
    end = words.first + words.cases
    print(f"seed {words.seed}, cases {words.first:,} to {end - 1:,}, {len(files)} files, process {os.getpid()}",
          flush=True)
    counts, wrong, spent, began = collections.Counter(), 0, 0, time.time()
    with concurrent.futures.ProcessPoolExecutor(words.processes) as pool:
        parts = [range(at, min(at + BATCH, end)) for at in range(words.first, end, BATCH)]
        compared = pool.map(part, [words] * len(parts), [files] * len(parts), parts)
        for place, (more, differ, seconds) in enumerate(compared, 1):
            counts, wrong, spent = counts + more, wrong + len(differ), spent + seconds
            for it in differ[:MOST_SHOWN]:
                show(*it)
            if place % 10 == 0:
                print(f"{total(counts):,} cases, {wrong} differences, {time.time() - began:.0f} s", flush=True)
    here, each = os.times(), 1e3 / max(total(counts), 1)
    print(f"{told_counts(counts)}: {wrong or 'no'} difference{'s' * (wrong > 1)}; {spent * each:.1f} ms a case by the "
          f"rules, "
          f"{(here.children_user + here.children_system - spent) * each:.1f} by the program and its start")
    return 1 if wrong else 0


if __name__ == "__main__":
    sys.exit(main())
