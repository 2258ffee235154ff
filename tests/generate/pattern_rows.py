#!/usr/bin/env python3
"""Runs oracle on the scripts of tests/generate/pattern_rows.txt, which define user patterns:

    tests/generate/pattern_rows.py"""
import pathlib
import sys

HERE = pathlib.Path(__file__).resolve().parent
import checkout  # noqa: F401

from oracle import own
from tests.generate.worked_rows import is_output, rows


def main():
    found, wrong = list(rows(HERE / "pattern_rows.txt")), 0
    for row in found:
        status, out = own.run(row.input)
        if not is_output(row, out) or status != row.status:
            wrong += 1
            told = f"--- status {status}, and not {row.status}; written:\n{out.decode()}--- and not:\n"
            print(row.input.decode() + told + row.output.decode())
    print(f"{len(found)} rows, {wrong} differ")
    return bool(wrong)


if __name__ == "__main__":
    sys.exit(main())
