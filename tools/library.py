#!/usr/bin/env python3
"""Writes the library for C, C++, Rust and Python, from a proved build: `libmlir_work.a`, which a program links without
further archives, and `libmlir_work.so`, which Python loads.

usage: tools/library.py FOLDER [ARCHIVE]     writes both into a folder

ARCHIVE is the output of the checker for `crates/mlir_work_c` (`rt lib` there writes `out/libmlir_work_c.a`); the
toolchain's own archive, which has the allocation calls, is joined to it. Without ARCHIVE the library of dist/ is used
if it is of these sources, or else the one built here. Joining an archive needs `ld`, `objcopy` and `ar`; the shared
object needs `gcc`. Both files export only the calls of `bindings/c/mlir_work.h`, and import only calls of the C
library."""
import os
import pathlib
import shutil
import subprocess
import sys
import tempfile

import checkout  # noqa: F401
from tools import sources

KIT = pathlib.Path("/opt/rattle/c/liblibc_c.a")
ARCHIVE, SHARED, WHOLE = "libmlir_work.a", "libmlir_work.so", "mlir_work.o"
HANDED_OUT = "mlir_work_*"
NAMED = "MLIR_WORK_ARCHIVE"


def ran(*words):
    subprocess.run([str(it) for it in words], check=True)


def joined(archive, folder):
    """Writes the joined archive, as one object."""
    made = pathlib.Path(folder) / ARCHIVE
    made.unlink(missing_ok=True)
    with tempfile.TemporaryDirectory() as room:
        whole = pathlib.Path(room) / WHOLE
        ran("ld", "-r", "-o", whole, "--whole-archive", archive, KIT)
        ran("objcopy", "--wildcard", f"--keep-global-symbol={HANDED_OUT}", "--strip-unneeded", whole)
        ran("ar", "rcsD", made, whole)
    return made


def shared(archive, folder):
    """Writes the shared object of a joined archive."""
    made = pathlib.Path(folder) / SHARED
    with tempfile.TemporaryDirectory() as room:
        names = pathlib.Path(room) / "names"
        names.write_text(f"{{ global: {HANDED_OUT}; local: *; }};\n")
        ran("gcc", "-shared", "-o", made, f"-Wl,--version-script={names}", "-Wl,--whole-archive", archive,
            "-Wl,--no-whole-archive", "-Wl,--build-id=none", "-Wl,-soname," + SHARED)
    return made


def found(folder):
    """Returns the archive of these sources, if there is one: the one that MLIR_WORK_ARCHIVE names, the one of dist/, or
    the one built here, which is first joined in a folder."""
    named = os.environ.get(NAMED)
    if named:
        return pathlib.Path(named)
    whole = sources.library()
    if whole:
        return whole
    built = sources.built_library()
    if built and KIT.is_file() and all(map(shutil.which, ("ld", "objcopy", "ar"))):
        return joined(built, folder)
    return None


def main():
    if len(sys.argv) not in (2, 3) or sys.argv[1].startswith("-"):
        sys.exit(__doc__)
    folder = pathlib.Path(sys.argv[1])
    folder.mkdir(parents=True, exist_ok=True)
    archive = joined(sys.argv[2], folder) if len(sys.argv) == 3 else found(folder)
    if not archive:
        sys.exit("found no library of these sources: `rt lib` in crates/mlir_work_c proves and builds it")
    if archive != folder / ARCHIVE:
        archive = shutil.copy(archive, folder / ARCHIVE)
    print(archive)
    if shutil.which("gcc"):
        print(shared(archive, folder))
    else:
        print(f"found no gcc, so {SHARED} isn't made: install gcc", file=sys.stderr)


if __name__ == "__main__":
    main()
