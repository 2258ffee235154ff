#!/usr/bin/env python3
"""Counts the ways down from each crate of crates.txt to the crates below it, a crate as often as a way leads to it.
`rt` reads the sources of a library once for each of them before and after a check (docs/GATE.md). Run it at the top of
the repository."""
import pathlib

below = {}
for line in pathlib.Path("crates.txt").read_text().splitlines():
    name, _, libraries = line.partition("#")[0].partition(":")
    if name.strip():
        below[name.split()[0]] = libraries.split()
ways = {}


def count(crate):
    if crate not in ways:
        ways[crate] = 1 + sum(count(it) for it in below[crate] if it in below)
    return ways[crate]


for crate in sorted(below, key=count, reverse=True):
    print(f"{ways[crate]:8} {crate}")
print(f"{sum(ways.values()):8} in all")
