#!/usr/bin/env python3
"""Checks each pattern of the files in patterns/ with oracle, at the greatest width up to 4 at which its variables have
at most 9 bits together, and that each printed pattern is read again unchanged. At least 110 patterns of the golden file
`patterns/whole_book` hold at all widths:

    tests/generate/pattern_book.py [FILE..]
    tests/generate/pattern_book.py --forms [FILE..]    counts those that hold at every width by their form, and those
                                                       for which a check at the tried widths is enough"""
import pathlib
import sys

from checkout import ROOT

from oracle import everywhere, own, passing, pattern_checks, patterns

MOST_WIDTH, MOST_BITS, LEAST_PROVED = 4, 9, 120


def faults_of(pattern):
    """What is wrong with a pattern."""
    verdict, rows = pattern_checks.check(pattern, pattern_checks.default_width(pattern, MOST_WIDTH, MOST_BITS))
    if not verdict.startswith("holds"):
        yield f"{pattern.name}: {verdict}: {', '.join(rows)}"
    text = patterns.text_of(pattern)
    if patterns.text_of(patterns.read(text.encode())) != text:
        yield f"{pattern.name}: not read again as it was printed: {text}"


def book_of(files):
    """The patterns of files, or of all files of patterns/."""
    for file in files or sorted((ROOT / "patterns").glob("*.patterns")):
        book = {}
        own.read_book(pathlib.Path(file).read_bytes(), book)
        yield from book.values()


def count_forms(found):
    enough = [it for it in found if passing.is_enough(it)]
    index = sum(passing.speaks_of_index(it) for it in enough)
    lasting = sum(map(everywhere.is_everywhere, found))
    print(f"{len(found)} patterns: {lasting} at every width; of {len(enough)} a check is enough, "
          f"{index} of which speak of index")


def main(words):
    files = [word for word in words if word != "--forms"]
    found = list(book_of(files))
    if "--forms" in words:
        count_forms(found)
        return False
    wrong, count = [fault for pattern in found for fault in faults_of(pattern)], len(found)
    proved = (ROOT / "tests/golden/patterns/whole_book.out").read_bytes().count(b" // holds\n")
    wrong += [f"{proved} patterns hold at all widths"] * (proved < LEAST_PROVED)
    print("".join(fault + "\n" for fault in wrong) + f"{count} patterns, {len(wrong)} wrong")
    return bool(wrong)


if __name__ == "__main__":
    sys.exit(main(sys.argv[1:]))
