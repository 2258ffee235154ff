#!/usr/bin/env python3
"""Merges crates, and gives crates, modules and names other names by a table, at the top of a clean checkout.

usage: gate/rename.py TABLE [--groups GROUP,..] [--kinds KIND,..] [--skip-missing] [--try]
       gate/rename.py --check     prints each path and imported name of the sources that leads to nothing

A line of the table is KIND, CRATE, OLD, NEW and a reason, separated by tabs. KIND is crate, module, alias, type,
variant, function or definition. A comment `# group NAME: ..` begins a group. A line whose OLD isn't there is printed,
and nothing is written without --skip-missing. --try writes nothing. docs/WORKING.md has the next steps."""
import argparse
import pathlib
import subprocess
import sys

from renaming import table
from renaming.resolve import unresolved
from renaming.tree import Tree
from renaming.write import Writing


def words() -> argparse.Namespace:
    """Returns the words of the command line."""
    asked = argparse.ArgumentParser(usage=__doc__)
    asked.add_argument("table", type=pathlib.Path, nargs="?")
    asked.add_argument("--check", action="store_true")
    asked.add_argument("--kinds", default=",".join(table.KINDS))
    asked.add_argument("--groups", default="")
    asked.add_argument("--skip-missing", action="store_true")
    asked.add_argument("--try", dest="only_try", action="store_true")
    return asked.parse_args()


def chosen_of(rows: list[table.Row], asked: argparse.Namespace) -> list[table.Row]:
    """Returns the rows that the command line asks for."""
    kinds, groups = asked.kinds.split(","), asked.groups.split(",")
    return [it for it in rows if it.kind in kinds and (it.group in groups or not asked.groups)]


def main() -> int:
    asked, root = words(), pathlib.Path(".").resolve()
    if asked.check:
        found = unresolved(Tree(root))
        print(*found, f"{len(found)} names lead to nothing", sep="\n")
        return bool(found)
    dirty = subprocess.run(["git", "status", "--porcelain"], capture_output=True, text=True, check=True).stdout
    if dirty and not asked.only_try:
        sys.exit("the checkout isn't clean")
    rows = table.rows_of(asked.table)
    tree = Tree(root)
    loading = table.Loading(tree, rows, chosen_of(rows, asked))
    for row in loading.missing:
        print(f"missing: {asked.table}:{row.line}: {row.kind} {row.crate} {row.old}")
    if loading.missing and not asked.skip_missing:
        sys.exit(f"{len(loading.missing)} lines whose OLD isn't there: nothing is written")
    writing = Writing(tree, loading.names)
    made = writing.all()
    for line in writing.said:
        print(line)
    changed = len(writing.changed(made))
    if not asked.only_try:
        writing.store(made)
    verb = "differ" if asked.only_try else "written"
    print(f"{len(loading.done)} lines were carried out before; {changed} files {verb}")
    return 0


if __name__ == "__main__":
    sys.exit(main())
