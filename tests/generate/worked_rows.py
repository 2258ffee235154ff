#!/usr/bin/env python3
"""The inputs of tests/generate/worked_rows.txt, each with what is to be written for it. mlir_work_cases.py makes cases
of them; run at the top of the repository this runs a built program on them:

    tests/generate/worked_rows.py PROGRAM"""
import collections
import pathlib
import re
import subprocess
import sys

Row = collections.namedtuple("Row", "name sentence options input status output is_whole")


def rows(page=pathlib.Path("tests/generate/worked_rows.txt")):
    """All rows. A text's last line ends with a newline, but for an empty text and for an input that is open."""
    parts = re.split(rb"\n?^=== case (\S+): (.*)\n=== input (.*)\n", page.read_bytes(), flags=re.M)[1:]
    for *title, words, text in zip(parts[::4], parts[1::4], parts[2::4], parts[3::4]):
        name, sentence, words = map(bytes.decode, (*title, words))
        given, status, output = re.split(rb"^=== output ([0-9]+)\n?", text, flags=re.M)
        if " open" in words:
            given = given[:-1]
        if output and not output.endswith(b"\n"):
            output += b"\n"
        yield Row(name, sentence, re.sub(" (open|in order).*", "", words), given, int(status), output,
                  " in order" not in words)


def is_output(row, out):
    """Whether a row has an output: it is that, or has its lines in this order."""
    if row.is_whole:
        return out == row.output
    lines, at = out.split(b"\n"), 0
    for line in row.output.splitlines():
        if line not in lines[at:]:
            return False
        at = lines.index(line, at) + 1
    return True


def main():
    [program] = sys.argv[1:]
    found, wrong = list(rows()), 0
    for row in found:
        words = [word for word in row.options.split() if word != "full"]
        ran = subprocess.run([program, *words], input=row.input, capture_output=True)
        if not is_output(row, ran.stdout) or ran.returncode != row.status:
            wrong += 1
            print(f"{row.input.decode(errors='replace')}--- status {ran.returncode}, and not {row.status}; written:\n"
                  f"{ran.stdout.decode(errors='replace')}--- and not:\n{row.output.decode(errors='replace')}")
    print(f"{len(found)} rows, {wrong} differ")
    sys.exit(bool(wrong))


if __name__ == "__main__":
    main()
