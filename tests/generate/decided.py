"""The patterns that `oracle/decided.txt` keeps in addition to those of the golden files: those of the files in
patterns/, and those that the pages, the examples and the tests of tools/ write out."""
import os
import re
import sys

from checkout import ROOT

from oracle import claims, everywhere, own, patterns, rules

sys.path.insert(1, str(ROOT / "tools"))

import sources  # noqa: E402

WRITTEN = ("README.md", "docs/*.md", "examples/*", "tools/tests/*.py", "bindings/python/tests/*.py")
# A pattern in a script, on a command line, or in a file of patterns.
LINE = re.compile(rb"(?:^|[\"'` ])(?:pattern )?([A-Za-z_]\w* arith\.[a-z_]+[(<][^`'\"\\\n]* => [^`'\"\\\n]*)", re.M)


def of_books():
    """The patterns of patterns/."""
    for file in sorted((ROOT / "patterns").glob("*.patterns")):
        book = {}
        own.read_book(file.read_bytes(), book)
        yield from book.values()


def of_texts():
    """The patterns that files write out, each without a comment after it."""
    files = [file for glob in WRITTEN for file in sorted(ROOT.glob(glob)) if file.is_file()]
    for found in LINE.findall(b"\n".join(file.read_bytes() for file in files)):
        try:
            yield patterns.read(found.partition(b" //")[0].strip())
        except rules.Refused:
            continue


def name_program():
    """Names the program of these sources to the oracle, if there is one and no program is named."""
    program = sources.program()
    if program:
        os.environ.setdefault(claims.VARIABLE, str(program))


def write():
    """Writes the file: what golden files asked for in this process, and these patterns."""
    claims.keep(it for it in (*of_books(), *of_texts()) if not everywhere.is_everywhere(it))
