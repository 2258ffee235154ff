#!/usr/bin/env python3
"""Measures reading, canonicalization and printing of modules of a compiler, next to `mlir-opt`. The modules of a folder
that both programs read are put one after the other into one module, again and again, up to each size.

usage: benchmarks/real_functions.py [--beside MLIR_OPT] [--runs COUNT] PROGRAM FOLDER [SIZE..]

SIZE is how many operations a module has at least (10000 and 100000). A row has the processor time for an operation in
microseconds, minus the time of an empty module, as the least of COUNT runs (7), and the share of `mlir-opt`'s time.
`print` reads and prints, and `canon` also canonicalizes, without listeners and with all seven."""
import argparse
import os
import pathlib
import subprocess
import tempfile

EMPTY = '"builtin.module"() ({\n}) : () -> ()\n'
GENERIC = ["--mlir-disable-threading", "--allow-unregistered-dialect", "--mlir-print-op-generic"]
CANONICALIZE = "-canonicalize=region-simplify=disabled top-down=true max-iterations=-1"
CANON = ["-e", "canon limit 1000000", "-e", "print"]


def wrapped(texts):
    """A module around others."""
    return '"builtin.module"() ({\n' + "\n".join(texts) + "\n}) : () -> ()\n"


def read_by(command, file):
    """Whether a program reads a module and changes it without an error."""
    ran = subprocess.run([*command, file], capture_output=True, check=False)
    return not ran.returncode and b"error" not in ran.stdout


def modules(folder, programs):
    """The modules of a folder that all programs read inside another module."""
    found = []
    with tempfile.NamedTemporaryFile("w", suffix=".mlir") as file:
        for path in sorted(pathlib.Path(folder).glob("*.mlir")):
            text = path.read_text(encoding="utf-8")
            head, last = text.split("({")[0], text.rstrip().rsplit("\n", 1)[-1]
            if not text.startswith('"builtin.module"') or "sym_name" in head + last:
                continue
            file.seek(0)
            file.truncate()
            file.write(wrapped([text]))
            file.flush()
            if all(read_by(it, file.name) for it in programs):
                found.append(text)
    return found


def repeated(texts, size):
    """A module with at least so many operations, and their number."""
    taken, operations = [], 0
    while operations < size:
        taken.append(texts[len(taken) % len(texts)])
        operations += sum('"(' in line for line in taken[-1].splitlines())
    return wrapped(taken), operations


def cost(command, runs):
    """The least processor time of several runs, in seconds."""
    times = []
    for _ in range(runs):
        with subprocess.Popen(command, stdout=subprocess.DEVNULL, stderr=subprocess.DEVNULL) as running:
            _, _, used = os.wait4(running.pid, 0)
            running.returncode = 0
        times.append(used.ru_utime + used.ru_stime)
    return min(times)


def main():
    parser = argparse.ArgumentParser(usage=__doc__.split("\n\n")[1][7:])
    parser.add_argument("--beside", default="mlir-opt-22")
    parser.add_argument("--runs", type=int, default=7)
    parser.add_argument("program")
    parser.add_argument("folder")
    parser.add_argument("sizes", type=int, nargs="*", default=[10000, 100000])
    asked = parser.parse_args()
    here, there = [os.path.abspath(asked.program), "--brief"], [asked.beside, *GENERIC]
    texts = modules(asked.folder, ([*here, "-e", "print"], [*there, CANONICALIZE]))
    rows = {"print": (["-e", "print"], []), "canon": (CANON, [CANONICALIZE]),
            "canon, no listeners": (["--analyses", "none", *CANON], [CANONICALIZE])}
    columns = ("Operations", "Row", "Here", "There", "Share")
    print(f"{len(texts)} modules\n| {' | '.join(columns)} |\n{'|---' * len(columns)}|")
    with tempfile.TemporaryDirectory() as room:
        files = {0: f"{room}/0.mlir"}
        pathlib.Path(files[0]).write_text(EMPTY, encoding="utf-8")
        for size in asked.sizes:
            text, count = repeated(texts, size)
            files[count] = f"{room}/{count}.mlir"
            pathlib.Path(files[count]).write_text(text, encoding="utf-8")
        for count in list(files)[1:]:
            for name, words in rows.items():
                net = []
                for command, more in zip((here, there), words):
                    base, full = (cost([*command, *more, files[it]], asked.runs) for it in (0, count))
                    net.append((full - base) / count * 1e6)
                print(f"| {count:,} | {name} | {net[0]:.2f} | {net[1]:.2f} | {net[0] / net[1]:.2f} |", flush=True)


if __name__ == "__main__":
    main()
