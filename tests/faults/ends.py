#!/usr/bin/env python3
"""Runs a built program with a standard input and a standard output that fail, by a library that LD_PRELOAD loads
(tests/faults/ends.c). Each case has a name, a sentence of intent, and what the program has to write by the rules
(oracle). The library runs all cases of the same words in one process, so that 4,000 runs take seconds. It
needs a C compiler.

usage: tests/faults/ends.py [PROGRAM] [NAME..]      PROGRAM is that of MLIR_WORK if it isn't given"""
import errno
import os
import pathlib
import shutil
import subprocess
import sys
import tempfile

import checkout  # noqa: F401

from oracle import json_lines, live, script  # noqa: E402

DIVIDER = b"// -----\n"
MODULE = b"""\"func.func\"() <{function_type = (i32) -> i32, sym_name = \"f\"}> ({
^bb0(%a: i32):
  %c = \"arith.constant\"() <{value = 2 : i32}> : () -> i32
  %s = \"arith.addi\"(%a, %c) <{overflowFlags = #arith.overflow<none>}> : (i32, i32) -> i32
  \"func.return\"(%s) : (i32) -> ()
}) : () -> ()
"""
EDITS = MODULE + DIVIDER + b"report uses\nset-operand #3 0 %v2.0\nreport uses\nprint\n"
SHORT = MODULE + DIVIDER + b"report uses\njump\n"
LIVE = MODULE + DIVIDER + b"report uses\n// none\njump\nset-operand #3 0 %v2.0\nreport uses\n"
REFUSED = b'"a"(\n' + DIVIDER + b"print\n"
WRONG = b'"test.a"() {a = 256 : i8} : () -> ()\n' + DIVIDER + b"print\n"
# A line of each form of reply but those of refused memory (tests/faults/fail_script.py has these), rows of each form of
# cell, and the line of a refusal that wasn't expected.
FORMS = (MODULE.replace(b'sym_name = "f"', b'sym_name = "f", sym_visibility = "private"') + DIVIDER
         + b"begin\nset-attr #3 k $\nset-operand #9 0 %v2.0\nset-operand #3 0 %v3.0\nexpect 22 erase #4\n"
           b"convert full illegal arith.addi\nreport symbols\nreport diagnostics\nset-operand #3 0 %v2.0\n"
           b"canon limit 1\nreport constants\ncanon\napply 4 #5\nconvert partial\nsweep\nprint ids\nrollback\n"
           b"why #3 4\nreport dead\ndetach dead\nreport dead\nreport effects\nreport unreached\nreport uses of %v2.0\n")
SLICES = (b"", b"a", b"abc", b"\xff\n", b"0123456789")
MOST_READS, MOST_INPUT, CHUNK = 40000000, 33554432, 8192
FAILED = (4, b"")
INTERRUPTED = f" error={errno.EINTR}"


class Case:
    """A name, the words of a line of the library's list, its input, and a test of the result."""

    def __init__(self, name, words, text, test):
        self.name, self.words, self.text, self.test = name, words, text, test


def due(answer, reads=None):
    """Whether a run ended so, after so many reads where a number of them is given."""
    return lambda found: (found[0], found[4]) == answer and reads in (None, found[1])


def faulty_reads(name, text, answer, more=""):
    """One byte a read. If a read fails, nothing is written and the status is 4. An interrupted read is repeated. The
    read after the last one would fail, and isn't made."""
    needed = len(text) + 1
    for at in range(1, needed + 2):
        is_made = at <= needed
        yield Case(f"{name}/read-{at}-fails", f"most=1 read={at}{more}", text,
                   due(FAILED, at) if is_made else due(answer, needed))
        yield Case(f"{name}/read-{at}-is-interrupted", f"most=1 read={at}{more}{INTERRUPTED}", text,
                   due(answer, needed + is_made))


def is_front(out, least):
    """Whether a run ended with status 4 and wrote a prefix of a text, so many bytes at least."""
    return lambda found: found[0] == 4 and len(found[4]) >= least and out.startswith(found[4])


def faulty_writes(name, text, answer, every=1):
    """One byte a write. If all writes from one on fail, the output before it is written and the status is 4. For the
    first and last writes, and each Nth between them: if all writes from it on take nothing, the result is the same; if
    it alone fails or takes nothing, a prefix is written, possibly all, since buffered output is written again at the
    end; an interrupted write is repeated. The write after the last one would fail, and isn't made."""
    out = answer[1]
    for at in range(1, len(out) + 2):
        is_made = at <= len(out)
        if 3 < at < len(out) - 1 and at % every:
            yield Case(f"{name}/writes-from-{at}-on-fails", f"most=1 write={at} on=1", text, due((4, out[:at - 1])))
            continue
        for fault, words in (("fails", ""), ("takes-nothing", " nothing=1")):
            yield Case(f"{name}/writes-from-{at}-on-{fault}", f"most=1 write={at} on=1{words}", text,
                       due((4, out[:at - 1]) if is_made else answer))
            yield Case(f"{name}/write-{at}-{fault}", f"most=1 write={at}{words}", text,
                       is_front(out, at - 1) if is_made else due(answer))
        yield Case(f"{name}/write-{at}-is-interrupted", f"most=1 write={at}{INTERRUPTED}", text, due(answer))


def edits():
    """A run that reports, edits and prints, with all seven analyses: each read and each write has each fault."""
    answer = script.run(EDITS, True)
    yield from faulty_reads("edits", EDITS, answer)
    yield from faulty_writes("edits", EDITS, answer, 8)


def short():
    """A run with a refused command, and a refused module: each read and each write has each fault."""
    for name, text in (("refused-command", SHORT), ("refused-module", WRONG)):
        answer = script.run(text, True)
        yield from faulty_reads(name, text, answer)
        yield from faulty_writes(name, text, answer)


def forms():
    """Each form of reply, and rows with each form of cell: each write has each fault."""
    answer = script.run(FORMS, True)
    yield from faulty_writes("forms", FORMS, answer, 8)


def objects():
    """Each form of reply and row as JSON, which is written line by line: each write has each fault. An input is read
    whole before the first object is written."""
    status, out = script.run(FORMS, True, explained=True)
    yield from faulty_writes("objects", FORMS, (status, json_lines.json_of(out)), 8)
    status, out = script.run(SHORT, True, explained=True)
    yield from faulty_reads("objects-refused", SHORT, (status, json_lines.json_of(out)))


def slices():
    """Inputs of a few bytes, with bytes that are no text: each read has each fault, and no read is made but those."""
    for number, text in enumerate(SLICES):
        yield from faulty_reads(f"slice-{number}", text, script.run(text, True))


def busy():
    """Reads that are always interrupted are given up after 40,000,000. With two interrupted reads before each byte so
    many reads find the end of 13,333,332 line feeds, and not that of one more."""
    yield Case("busy/each-read", f"every=1{INTERRUPTED}", b"", due(FAILED, MOST_READS))
    for count in (0, 1, 2, MOST_READS // 3 - 1, MOST_READS // 3):
        needed = 3 * count + 3
        yield Case(f"busy/{count}-bytes", f"feeds={count} most=1 between=2{INTERRUPTED}", None,
                   due((0, b"") if needed <= MOST_READS else FAILED, min(needed, MOST_READS)))


def sizes():
    """Inputs of sizes around those of a read and of the limit of an input: all is read up to the limit, and of what is
    longer, or has no end, at most one read more."""
    too_many = 3, b"module refused 11 TooMany at %d\n"

    def is_read(count, answer):
        least, most = min(count, MOST_INPUT), min(count, MOST_INPUT + CHUNK)
        return lambda found: due(answer)(found) and least <= found[2] <= most

    for count in (0, 1, CHUNK - 1, CHUNK, CHUNK + 1, 2 * CHUNK, MOST_INPUT - 1, MOST_INPUT, MOST_INPUT + 1,
                  MOST_INPUT + CHUNK, MOST_INPUT + CHUNK + 1):
        # (the limit of a module's text is half as many bytes)
        limit = MOST_INPUT if count > MOST_INPUT else MOST_INPUT // 2
        yield Case(f"sizes/{count}", f"feeds={count}", None,
                   is_read(count, (3, too_many[1] % limit) if count > limit else (0, b"")))
    yield Case("sizes/no-end", "zeros=1", None, is_read(2 ** 64, (3, too_many[1] % MOST_INPUT)))


def lives():
    """With `--interactive`, one byte a read: where a read fails the lines that were read by then are answered, and the
    status is 4; of a module that is refused nothing more is read."""
    for name, text in (("live", LIVE), ("live-refused", REFUSED)):
        answer = live.run(text)
        for at in range(1, len(text) + 3):
            seen = text[:at - 1]
            seen = seen[:seen.rfind(b"\n") + 1]
            status, told = live.run(seen) if DIVIDER in seen else (4, b"")
            is_over = status == 3 or at == len(text) + 2
            yield Case(f"{name}/read-{at}-fails", f"most=1 read={at}", text, due((status if is_over else 4, told)))
            yield Case(f"{name}/read-{at}-is-interrupted", f"most=1 read={at}{INTERRUPTED}", text, due(answer))


def live_objects():
    """The same as JSON: after a failed read the objects of the answers before it were written, and after a failed write
    a prefix of the objects was."""
    for at in range(1, len(LIVE) + 3):
        seen = LIVE[:at - 1]
        seen = seen[:seen.rfind(b"\n") + 1]
        status, told = live.run(seen, explained=True) if DIVIDER in seen else (4, b"")
        yield Case(f"live-objects/read-{at}-fails", f"most=1 read={at}", LIVE,
                   due((status if at == len(LIVE) + 2 else 4, json_lines.json_of(told))))
    status, out = live.run(LIVE, explained=True)
    yield from faulty_writes("live-objects", LIVE, (status, json_lines.json_of(out)), 4)


GROUPS = {("--brief",): (edits, short, forms, slices, busy, sizes), ("--brief", "--interactive"): (lives,),
          ("--brief", "--format", "json"): (objects,),
          ("--brief", "--interactive", "--format", "json"): (live_objects,)}


class Ends:
    def __init__(self, program, folder):
        self.program, self.folder, self.library, self.texts = program, folder, f"{folder}/ends.so", {}
        source = pathlib.Path(__file__).with_name("ends.c")
        subprocess.run([os.environ.get("CC", "cc"), "-shared", "-fPIC", "-O2", "-o", self.library, str(source)],
                       check=True)

    def line(self, case):
        """The line of a case."""
        if case.text is None:
            return case.words + "\n"
        if case.text not in self.texts:
            path = self.texts[case.text] = f"{self.folder}/{len(self.texts)}"
            pathlib.Path(path).write_bytes(case.text)
        return f"{case.words} input={self.texts[case.text]}\n"

    def run(self, words, cases):
        """The result of each case: the status, the number of reads, the bytes read, the number of writes, and the
        output."""
        listed = pathlib.Path(f"{self.folder}/list")
        listed.write_text("".join(map(self.line, cases)))
        env = {"LD_PRELOAD": self.library, "ENDS_LIST": str(listed)}
        told = subprocess.run([self.program, *words], stdout=subprocess.PIPE, env=env, timeout=600, check=True).stdout
        while told:
            head, _, told = told.partition(b"\n")
            status, reads, given, writes, length = map(int, head.split())
            yield status, reads, given, writes, told[:length]
            told = told[length:]


def main(argv):
    programs = [it for it in argv if os.path.isfile(it)] or [os.environ.get("MLIR_WORK")]
    names = [it for it in argv if it not in programs]
    if len(programs) != 1 or not programs[0]:
        sys.exit(__doc__)
    if not shutil.which(os.environ.get("CC", "cc")):
        print("left out: ends that fail, for want of a C compiler")
        return 0
    count, bad = 0, 0
    with tempfile.TemporaryDirectory() as folder:
        ends = Ends(os.path.abspath(programs[0]), folder)
        for words, groups in GROUPS.items():
            cases = [case for group in groups for case in group()
                     if not names or any(case.name.startswith(name) for name in names)]
            found = list(ends.run(words, cases)) if cases else []
            assert len(found) == len(cases), (len(found), len(cases))
            for case, answer in zip(cases, found):
                count += 1
                if not case.test(answer):
                    bad += 1
                    print(f"{case.name}: status {answer[0]}, {answer[1]} reads of {answer[2]} bytes, {answer[3]} "
                          f"writes, {len(answer[4])} bytes written: {answer[4][-200:]!r}")
    print(f"{count} runs, {bad} not as due")
    return 1 if bad else 0


if __name__ == "__main__":
    sys.exit(main(sys.argv[1:]))
