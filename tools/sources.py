#!/usr/bin/env python3
"""Finds the program and the library of the sources in this checkout: shipped in dist/, or built here.

A program belongs to the sources if a record has the digest of the sources and of the program. The record is
`dist/MANIFEST` for the shipped program, and `crates/mlir_work/out/mlir_work.sources` for one that `./run` or `.ci/run`
built. The digest covers all files of `src`, `specs` and `proofs` of the crates at or below `mlir_work`, and their lines
in crates.txt. The library belongs to `mlir_work_c`, and has a separate digest.

usage: tools/sources.py            prints the digest of the program's sources
       tools/sources.py --program  prints the path of the program of these sources, if there is one
       tools/sources.py --library  prints the path of the library: the one of dist/, or the one that the checker built
       tools/sources.py --version FILE     prints the version of a program, its toolchain and its digests
       tools/sources.py --record   records that the program and the library built here are of these sources"""
import hashlib
import os
import pathlib
import sys

sys.dont_write_bytecode = True
ROOT = pathlib.Path(__file__).resolve().parent.parent
TOP, LIBRARY_TOP = "mlir_work", "mlir_work_c"
PARTS = ("proofs", "specs", "src")
BUILT = ROOT / "crates/mlir_work/out/mlir_work"
RECORD = BUILT.with_suffix(".sources")
BUILT_LIBRARY = ROOT / "crates/mlir_work_c/out/libmlir_work_c.a"
DIST = ROOT / "dist"
MANIFEST, PACKED, UNPACKED = DIST / "MANIFEST", DIST / "mlir_work.xz", DIST / "out/mlir_work"
OTHER = ("run: dist/ has the program of other sources, and this is it: `MLIR_WORK_BUILD=1 ./run --help` proves and "
         "builds one of these")
PACKED_LIBRARY, LIBRARY = DIST / "libmlir_work.a.xz", DIST / "out/libmlir_work.a"


def digest_of(data):
    return hashlib.sha256(data).hexdigest()


def lines():
    """Returns the words of the line of each crate in crates.txt."""
    found = {}
    for line in (ROOT / "crates.txt").read_text().splitlines():
        name, colon, rest = line.partition("#")[0].partition(":")
        if colon:
            found[name.split()[0]] = rest.split()
    return found


def crates(top=TOP):
    """Returns the crates at or below the program or another crate, with the words of their lines."""
    known, found, left = lines(), {}, [top]
    while left:
        name = left.pop()
        if name in known and name not in found:
            found[name] = known[name]
            left += known[name]
    return found


def files(folder):
    """Returns the files below a folder, by their paths in the repository, in the order of their names."""
    try:
        inside = sorted(os.scandir(f"{ROOT}/{folder}"), key=lambda it: it.name)
    except FileNotFoundError:
        return
    for it in inside:
        if it.is_dir():
            yield from files(f"{folder}/{it.name}")
        else:
            yield f"{folder}/{it.name}"


def bytes_of(path):
    number = os.open(f"{ROOT}/{path}", os.O_RDONLY)
    text = os.read(number, 1 << 24)
    os.close(number)
    return text


def digest(top=TOP):
    """Returns the digest of the sources of the program, or of another crate."""
    whole = hashlib.sha256()
    for name, words in sorted(crates(top).items()):
        whole.update(f"{name}: {' '.join(words)}\n".encode())
        for part in PARTS:
            for path in files(f"crates/{name}/{part}"):
                text = bytes_of(path)
                whole.update(f"{path} {len(text)}\n".encode())
                whole.update(text)
    return whole.hexdigest()


def entries(file):
    """Returns the entries of a file with lines `WORD: TEXT`; none if the file is missing."""
    text = file.read_text() if file.is_file() else ""
    return {word: rest.strip() for word, colon, rest in (line.partition(":") for line in text.splitlines()) if colon}


def shipped(of_sources=None):
    """Returns the program of dist/, if it is of these sources, or of any if none are given; unpacks it once."""
    said, here = entries(MANIFEST), os.uname()
    is_other = of_sources is not None and said.get("sources") != of_sources
    if is_other or not PACKED.is_file() or (here.sysname, here.machine) != ("Linux", "x86_64"):
        return None
    if not UNPACKED.is_file() or digest_of(UNPACKED.read_bytes()) != said.get("program"):
        unpack()
    return UNPACKED


def unpacked(word="program"):
    """Returns the program or the library of dist/. Exits if its digest isn't the one in the MANIFEST."""
    import lzma  # imported here, since few starts need it
    packed = PACKED_LIBRARY if word == "library" else PACKED
    try:
        made = lzma.decompress(packed.read_bytes())
    except lzma.LZMAError as fault:
        sys.exit(f"found a damaged dist/{packed.name} ({fault}): check the file out again")
    if digest_of(made) != entries(MANIFEST).get(word):
        sys.exit(f"found SHA-256 {digest_of(made)} in dist/{packed.name}, expected the {word} of dist/MANIFEST: check "
                 "both files out again")
    return made


def put(made, to, mode):
    """Writes a file atomically."""
    to.parent.mkdir(exist_ok=True)
    new = to.with_name(f"{to.name}.{os.getpid()}")
    new.write_bytes(made)
    new.chmod(mode)
    new.replace(to)


def unpack():
    """Writes the program of dist/ to the path from which it is started."""
    put(unpacked(), UNPACKED, 0o755)


def library():
    """Returns the library of dist/, if it is of these sources; unpacks it once."""
    said = entries(MANIFEST)
    if said.get("library-sources") != digest(LIBRARY_TOP) or not PACKED_LIBRARY.is_file():
        return None
    if not LIBRARY.is_file() or digest_of(LIBRARY.read_bytes()) != said.get("library"):
        put(unpacked("library"), LIBRARY, 0o644)
    return LIBRARY


def is_recorded(made, record, of_sources):
    """Whether a record says that a file built here is of these sources."""
    said = entries(record)
    return (said.get("sources") == of_sources and made.is_file()
            and said.get("program") == digest_of(made.read_bytes()))


def built(of_sources):
    """Returns the program that was built here, if it is of these sources."""
    return BUILT if is_recorded(BUILT, RECORD, of_sources) else None


def built_library():
    """Returns the library that was built here, without the toolchain's archive, if it is of these sources."""
    return BUILT_LIBRARY if is_recorded(BUILT_LIBRARY, record_of(BUILT_LIBRARY), digest(LIBRARY_TOP)) else None


def record_of(made):
    """Returns the record of a built file."""
    return made.with_suffix(".sources")


def record(of_sources, made=None):
    """Writes the record of the program or the library that was built here. If `rt` left a stamp, the stamp must have
    the digest of the file."""
    made = made or BUILT
    of_program = digest_of(made.read_bytes())
    stamp = made.with_suffix(".stamp")
    if stamp.is_file() and not stamp.read_text().endswith(of_program):
        sys.exit(f"found a stamp of another file in {stamp.relative_to(ROOT)}: build the file again with `rt`")
    record_of(made).write_text(f"sources: {of_sources}\nprogram: {of_program}\n")


def record_all():
    """Writes the records of the program and the library, if they were built."""
    there = [(it, top) for it, top in ((BUILT, TOP), (BUILT_LIBRARY, LIBRARY_TOP)) if it.is_file()]
    if not there:
        sys.exit("found nothing that was built here: `MLIR_WORK_BUILD=1 ./run --help` builds the program")
    for made, top in there:
        record(digest(top), made)


def version(path):
    """Returns the version of a program, the toolchain that built it, and the digests of its sources and its bytes."""
    of_program = digest_of(pathlib.Path(path).read_bytes())
    said = entries(MANIFEST)
    if said.get("program") != of_program:
        said = {"kit": "built here, and not that of dist/", **entries(RECORD)}
        said = said if said.get("program") == of_program else {"kit": "not that of dist/"}
    told = [said["kit"], f"sources {said.get('sources', 'not known')[:12]}", f"program {of_program[:12]}"]
    return f"mlir_work {said.get('version', '')}".strip() + f" ({', '.join(told)})"


def program():
    """Returns the program of these sources, if there is one."""
    of_sources = digest()
    return shipped(of_sources) or built(of_sources)


def startable():
    """Returns the program of these sources, or else that of dist/, with a note on standard error."""
    found = program()
    if found:
        return found
    other = shipped()
    if other:
        print(OTHER, file=sys.stderr, flush=True)
    return other


def main():
    if sys.argv[1:] == ["--record"]:
        record_all()
    elif sys.argv[1:] == ["--program"]:
        found = program()
        if not found:
            sys.exit("found no program of these sources: `./run --help` builds one")
        print(found)
    elif sys.argv[1:] == ["--library"]:
        found = library() or built_library()
        if not found:
            sys.exit("found no library of these sources: `rt lib` in crates/mlir_work_c proves and builds it")
        print(found)
    elif sys.argv[1:2] == ["--version"] and len(sys.argv) == 3:
        print(version(sys.argv[2]))
    elif sys.argv[1:]:
        sys.exit(__doc__)
    else:
        print(digest())


if __name__ == "__main__":
    main()
