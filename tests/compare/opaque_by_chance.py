#!/usr/bin/env python3
"""Random texts with opaque terms, aliases and locations, most of them changed: compares the answers of the rules in
Python with `--opaque` with those that they have to agree with.

usage: tests/compare/opaque_by_chance.py [--program PROGRAM] [TEXTS [SEED]]

A module is printed as a text that reads as the same module. A text that is accepted without the flag gives the same
module with it. A text that is refused with the flag is refused without it. A text with aliases in place of terms, and
with locations, gives the same module as the text without. A program answers with `--opaque` as the rules do. TEXTS is
2000, SEED 1; each difference is printed, and the status is 1 if there is one."""
import argparse
import random
import re
import subprocess
import sys

import checkout  # noqa: F401

from oracle import aliases, module, opaque, printing, rules, script, texts

DIVIDER = b"\n// -----\nprint\n"
# The bytes before a type or an attribute, and after a term, in a printed text.
# The `x` follows a dimension, and doesn't end a word such as `f32x`.
DIMENSION = rb"(?<=[0-9?]x)(?<![a-z]\dx)(?<![a-z]\d\dx)(?<![a-z]\d\d\dx)"
FRONTS = {b"!": rb"(?:(?<=[(,:<= \[])|" + DIMENSION + rb")", b"#": rb"(?<=[= \[])"}
BEHIND = rb"(?=[),>}\]\n]| \{\n|$)"
SIGNATURE = re.compile(rb"( : \([^\n{:]*\) -> [^\n{:]*[^{\n:])\n")


def said(reader, text):
    """The text of a module that is read, or the number and place of its refusal; none if that is left open."""
    try:
        return module.text_of(module.read(text, reader)).encode()
    except rules.Refused as fault:
        return fault.number, fault.at
    except rules.Open:
        return None


def with_aliases(maker, text):
    """A printed text with some of its terms as aliases, and with locations."""
    found = b""
    for number in range(4):
        sign = maker.choice([b"!", b"#"])
        term = maker.choice([it for it in texts.OPEN_TYPES if it[:1] != b"("] if sign == b"!" else texts.OPEN_ATTRS)
        if sign == b"#":
            term = printing.attr_text(opaque.Reader(term).one_attr()).encode()
        if term[:1] in b"0123456789-" or re.fullmatch(rb"distinct\[\d+\]", term):
            continue  # as no alias stands for a distinct attribute without angle brackets
        name = sign + b"n%d" % number
        text = re.sub(FRONTS[sign] + re.escape(term) + BEHIND, lambda _: name, text)
        found += name + b" = " + term + maker.choice([b"\n", b" ", b" // c\n"])
    return found + (SIGNATURE.sub(rb'\1 loc("f":1:2)\n', text) if maker.random() < 0.5 else text)


def differences(maker, program):
    """The text with a number, and its differences."""
    text = texts.open_source(maker)
    if maker.random() < 0.7:
        text = texts.changed(maker, text, texts.OPEN_PIECES)
    plain, found, whole = said(rules.Reader, text), said(opaque.Reader, text), said(aliases.Reader, text)
    if isinstance(plain, bytes) and found != plain:
        yield text, "read otherwise without the flag", plain, found
    if isinstance(found, bytes) and whole != found:
        yield text, "read otherwise without aliases", found, whole
    if isinstance(whole, bytes):
        spelled = with_aliases(maker, whole)
        for reader in (opaque.Reader, aliases.Reader):
            if said(reader, whole) != whole:
                yield text, "printed, and read otherwise", whole, said(reader, whole)
        if said(aliases.Reader, spelled) != whole:
            yield spelled, "with aliases, and read otherwise", whole, said(aliases.Reader, spelled)
    if program is not None and found is not None:
        ran = subprocess.run([program, "--brief", "--opaque"], input=text + DIVIDER, capture_output=True, check=False)
        wanted = script.run_opaque(text + DIVIDER)
        if (ran.returncode, ran.stdout) != wanted:
            yield text, "answered otherwise by the program", wanted, (ran.returncode, ran.stdout)


def main():
    parser = argparse.ArgumentParser(description=__doc__, formatter_class=argparse.RawDescriptionHelpFormatter)
    parser.add_argument("--program")
    parser.add_argument("texts", nargs="?", type=int, default=2000)
    parser.add_argument("seed", nargs="?", type=int, default=1)
    asked, wrong = parser.parse_args(), 0
    for number in range(asked.texts):
        for text, what, wanted, found in differences(random.Random(f"{asked.seed} {number}"), asked.program):
            wrong += 1
            print(f"{number}: {what}: {text!r}\n  {wanted!r}\n  {found!r}")
    print(f"{asked.texts} texts, {wrong} differences")
    sys.exit(bool(wrong))


if __name__ == "__main__":
    main()
