"""Writes the shipped program and library to dist/, or compares them with the ones built here (`tools/dist.sh`).

Only a proved program is shipped: the one in `crates/mlir_work/out`, which `./run` or `.ci/run` built from these
sources (`tools/sources.py`). Its symbols and section headers are removed, so builds of the same sources in different
folders are the same bytes. `dist/MANIFEST` has a line for each of

    version    of CHANGELOG.md
    sources    the digest of the sources of the program
    kit        the toolchain that proved and built it, as `rt version` prints it
    program    the SHA-256 of the program, unpacked
    bytes      the size of the program, unpacked
    library-sources, library    the digest of the library's sources, and its SHA-256, unpacked
    linker     the linker of the library, as `ld --version` prints it

The library is the one that `rt lib` in `crates/mlir_work_c` or `.ci/run` built, with the allocation calls of the
toolchain (`tools/library.py`). If none was built from these sources, the library isn't shipped, and the last three
words are missing."""
import lzma
import re
import struct
import subprocess
import sys
import tempfile

import checkout  # noqa: F401
from tools import library, sources

LOADED, ELF, WIDE = 1, b"\x7fELF", 2


def stripped(program):
    """Returns a 64-bit program without the bytes after its last segment: symbols and section headers."""
    if program[:4] != ELF or program[4] != WIDE:
        sys.exit("found another file, expected a 64-bit ELF program")
    at, = struct.unpack_from("<Q", program, 32)
    size, count = struct.unpack_from("<HH", program, 54)
    end = at + size * count
    for number in range(count):
        kind, _, offset, _, _, length = struct.unpack_from("<IIQQQQ", program, at + size * number)
        end = max(end, offset + length) if kind == LOADED else end
    kept = bytearray(program[:end])
    struct.pack_into("<Q", kept, 40, 0)     # offset of the section headers
    struct.pack_into("<HHH", kept, 58, 0, 0, 0)     # their size, their count, and the index of the one with their names
    return bytes(kept)


def version():
    """Returns the newest version in CHANGELOG.md."""
    return re.search(r"^## (\S+)", (sources.ROOT / "CHANGELOG.md").read_text(), re.M)[1]


def kit():
    return subprocess.run(["rt", "version"], stdout=subprocess.PIPE, check=True, text=True).stdout.strip()


def linker():
    """Returns the version of the linker that joins the library."""
    try:
        ran = subprocess.run(["ld", "--version"], stdout=subprocess.PIPE, check=True, text=True)
    except FileNotFoundError:
        return "none"
    return ran.stdout.splitlines()[0]


def built():
    """Returns the program that was built here from these sources, stripped, and the digest of the sources."""
    of_sources = sources.digest()
    found = sources.built(of_sources)
    if not found:
        sys.exit("found no program that was built here of these sources: `MLIR_WORK_BUILD=1 ./run --help` proves and "
                 "builds one")
    return stripped(found.read_bytes()), of_sources


def built_library():
    """Returns the library that was built here from these sources, or nothing if there is none."""
    made = sources.built_library()
    if not made:
        return None
    with tempfile.TemporaryDirectory() as room:
        return library.joined(made, room).read_bytes()


def agree_on_version():
    """Exits if the built program has another version than CHANGELOG.md."""
    ran = subprocess.run([sources.BUILT, "--version"], capture_output=True, text=True, check=False)
    if not ran.returncode and ran.stdout.split()[1:] != [version()]:
        sys.exit(f"found version {ran.stdout.strip()} of the program, expected {version()} as in CHANGELOG.md: correct "
                 "crates/mlir_work_cli/src/text.rt")


def packed(made):
    return lzma.compress(made, preset=9 | lzma.PRESET_EXTREME)


def make():
    """Writes dist/."""
    program, of_sources = built()
    agree_on_version()
    said = {"version": version(), "sources": of_sources, "kit": kit(), "program": sources.digest_of(program),
            "bytes": len(program)}
    sources.DIST.mkdir(exist_ok=True)
    sources.PACKED.write_bytes(packed(program))
    archive = built_library()
    sources.PACKED_LIBRARY.unlink(missing_ok=True)
    if archive:
        said |= {"library-sources": sources.digest(sources.LIBRARY_TOP), "library": sources.digest_of(archive),
                 "linker": linker()}
        sources.PACKED_LIBRARY.write_bytes(packed(archive))
    sources.MANIFEST.write_text("".join(f"{word}: {text}\n" for word, text in said.items()))
    print(f"dist/: {len(program)} bytes, packed {sources.PACKED.stat().st_size}; " + sources.MANIFEST.read_text())


def compare():
    """Compares dist/ with the program and the library built here, byte for byte if the same toolchain built both.
    Another toolchain may give other bytes for the same sources; then all tests are run on the program of dist/. Prints
    nothing if the bytes are the same."""
    said = sources.entries(sources.MANIFEST)
    if said.get("sources") != sources.digest():
        print("dist/ is of other sources, so it isn't compared: `./run` builds; `tools/dist.sh` makes dist/ anew")
        return
    shipped, (program, _) = sources.unpacked(), built()
    if said.get("kit") != kit():
        print(f"dist/ was built by {said.get('kit')}, and this is {kit()}: its answers are tested, not its bytes",
              flush=True)
        sources.unpack()
        sys.exit(subprocess.run([sources.ROOT / "test", sources.UNPACKED], check=False).returncode)
    stop_where_they_differ("program", program, shipped)
    archive = built_library()
    is_comparable = (said.get("library-sources"), said.get("linker")) == (sources.digest(sources.LIBRARY_TOP), linker())
    if archive and is_comparable:
        stop_where_they_differ("library", archive, sources.unpacked("library"))


def stop_where_they_differ(word, made, shipped):
    if made != shipped:
        pairs = enumerate(zip(made, shipped))
        place = next((at for at, (one, other) in pairs if one != other), min(len(made), len(shipped)))
        sys.exit(f"found a {word} of {len(made)} bytes built of these sources, expected the {len(shipped)} bytes of "
                 f"dist/: byte {place} is the first different one; run tools/dist.sh")


def main():
    if sys.argv[1:] == ["--compare"]:
        compare()
    elif sys.argv[1:]:
        sys.exit(__doc__)
    else:
        make()


if __name__ == "__main__":
    main()
