#!/usr/bin/env python3
"""Prints what each function of a crate costs in a check.

usage: gate/profile.py CRATE [N]          checks the crate from nothing, by one job, and prints its N most expensive
                                          functions (20)
       gate/profile.py --of FOLDER [N]    reads the work that a check with `--jobs 1 --incremental FOLDER` kept, in a
                                          folder that was new

The libraries below the crate must be built (`rt check` in its folder once). A module's seconds are the time between its
file and the one before it, so with more than one job, or over work that was kept before, they mean nothing. `Lts` is
the size of the code (exits times the values alive across them), `Proof` the search for goals, `Answers` what is written
by hand. """
import collections
import glob
import os
import re
import shutil
import subprocess
import sys

PARTS = """Code Lts Statement Proof Answers Met Layout Symbol Key Goals Invariants Reads TheLink TheLinks Tie
Steps""".split()


def modules(folder):
    """Returns the modules in the order in which they were kept, each with its seconds."""
    kept = glob.glob(f"{folder}/antt-checked*/")[0]
    times = sorted((os.stat(kept + it).st_mtime, it.removesuffix(".oantt")) for it in os.listdir(kept)
                   if it.endswith(".oantt"))
    return [(after[0] - before[0], after[1]) for before, after in zip(times, times[1:])]


def place_of(module):
    """Returns the function or file of lemmas that a module is of, and its kind."""
    name = re.sub(r"^Rattle-\w+?[-.](?=specs|proofs|below)", "", module)
    parts = name.split(".")
    last = next((it for it in parts if it in PARTS), None)
    if parts[0] == "proofs" and last:
        return ".".join(parts[1 : parts.index(last)]), last
    if parts[0] == "proofs":
        return f"(lemmas) {name}", "lemmas"
    if parts[0] == "specs":
        kinds = {"contracts": "contracts", "declared": "declared types"}
        return None, next((text for word, text in kinds.items() if word in parts), "definitions")
    return None, "other"


def check(crate):
    """Checks the crate from nothing, and returns the folder of what the check kept."""
    folder = f"crates/{crate}/out/incremental"
    shutil.rmtree(folder, ignore_errors=True)
    subprocess.run(["rt", "check", "--jobs", "1"], cwd=f"crates/{crate}", check=True)
    return folder


def main():
    words = sys.argv[1:]
    if not words:
        sys.exit(__doc__)
    is_kept = words[0] == "--of"
    folder = words[1] if is_kept else check(words[0])
    count = int(words[1 + is_kept]) if len(words) > 1 + is_kept else 20
    functions, kinds, number = collections.Counter(), collections.Counter(), collections.Counter()
    for seconds, module in modules(folder):
        place, kind = place_of(module)
        kinds[kind] += seconds
        number[kind] += 1
        if place:
            functions[place] += seconds
    print(f"{sum(kinds.values()):8.1f} s, of them")
    for kind, seconds in kinds.most_common():
        print(f"{seconds:8.1f} s  {kind} ({number[kind]} modules)")
    print("the dearest functions and files of lemmas:")
    for place, seconds in functions.most_common(count):
        print(f"{seconds:8.2f} s  {place}")


if __name__ == "__main__":
    main()
